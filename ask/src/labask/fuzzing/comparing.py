"""Plays a text with `labsys` and with another program, and finds the first call at which they differ.

What no other program can be expected to have alike may be left out (`Terms`): its words for errors, checks and capabilities, the
trail, the places of denials, and the numbers of objects.
"""
import pathlib
import re
import subprocess
import tempfile
from dataclasses import dataclass, field
from typing import Dict, List, Mapping, NamedTuple, Optional, Sequence, Tuple

from labask.answers import WrongWords
from labask.playing import STATUS_ACCEPTED, Played, Player, PlayingFault, kill_session
from labask.worlds import read_world

SECONDS = 20.0  # within which a program plays a text
SKIPPED = "ENOSYS"  # the reply of a program that has not the call
WORD = re.compile(r"[A-Za-z_][A-Za-z0-9_]*")
DENIED = ("EACCES", "EPERM")
NUMBERED = ("stat", "fstat")  # calls whose answer has the number of an object
AT_NUMBER = 9  # its place among the words of the reply
OBJECTS = ("exec", "cap_set_file", "mac_set_file")  # records that name an object behind the process
NOTHING = "nothing"
NUMBER = re.compile(r"[0-9]{1,9}")


@dataclass(frozen=True)
class Terms:
    """On what terms two programs are compared: other words of the program, whether the trail is, and whether places and the numbers of
    objects are."""
    words: Mapping[str, str] = field(default_factory=dict)
    trail: bool = True
    places: bool = True

    def line(self, line: str) -> str:
        """A line of the output or the trail, without what is not compared."""
        if self.places:
            return line
        words = line.split(" ")
        if len(words) == 5 and words[2] in DENIED:
            words = words[:4]
        elif len(words) > AT_NUMBER and words[2] == "ok" and words[1] in NUMBERED:
            words[AT_NUMBER] = "-"
        elif len(words) == 10 and words[1] == "exercise":
            words = [*words[:6], "obj:-" if words[6].startswith("obj:") else words[6], *words[7:9]]
        elif len(words) == 7 and words[1] == "deny":
            words = words[:6]
        elif len(words) > 3 and words[0].isdigit() and words[1] in OBJECTS:
            words[3] = "-"
        return " ".join(words)

    def translated(self, line: str) -> str:
        """A line of the program in the words of `labsys`."""
        return WORD.sub(lambda found: self.words.get(found[0], found[0]), line) if self.words else line


def read_map(path: Optional[str]) -> Dict[str, str]:
    """The words of a file: on each line one of the program and the one of `labsys` that it stands for."""
    found: Dict[str, str] = {}
    for number, line in enumerate(pathlib.Path(path).read_text("utf-8", "surrogateescape").splitlines() if path else (), 1):
        words = line.split()
        if not words or words[0].startswith("#"):
            continue
        if len(words) != 2 or not WORD.fullmatch(words[0]):
            raise WrongWords(f"{path}:{number}: expected a word of the program and one of labsys")
        found[words[0]] = words[1]
    return found


@dataclass(frozen=True)
class Driver:
    """Another program, which is called as `labsys` is: `play FILE`, with the input as its standard input."""
    program: Sequence[str]

    def play(self, text: bytes) -> Played:
        """What it writes. A program that has not ended in time is ended, and the message says so."""
        with tempfile.TemporaryDirectory(prefix="labask-") as folder, tempfile.TemporaryFile() as given:
            given.write(text)
            given.seek(0)
            trail = pathlib.Path(folder) / "trail"
            try:
                run = subprocess.Popen([*self.program, "play", str(trail)], stdin=given, stdout=subprocess.PIPE,
                                       stderr=subprocess.DEVNULL, start_new_session=True)
            except OSError as fault:
                raise PlayingFault(f"{self.program[0]}: {fault.strerror}") from fault
            try:
                out, said = run.communicate(timeout=SECONDS)[0], ""
            except subprocess.TimeoutExpired:
                kill_session(run)
                out, said = run.communicate()[0], f"not ended within {SECONDS:.0f} seconds"
            return Played(run.returncode, out, trail.read_bytes() if trail.exists() else b"", said.encode("ascii"))


class Side(NamedTuple):
    """What a program wrote of a call: its reply, and its records without their number."""
    reply: str
    records: Tuple[str, ...] = ()

    @property
    def text(self) -> str:
        """Both as a line."""
        return "; ".join([self.reply or NOTHING, *self.records])

    @property
    def rough(self) -> str:
        """Its words alone: outcomes, errors, checks, capabilities and records, without tags, numbers and bytes."""
        return " ".join(WORD.findall(re.sub(r'"[^"]*"|\S+@\S+|\b[pq][0-9]+\b', "", self.text)))


class Difference(NamedTuple):
    """The first call at which two programs differ, with its number from 1, its line, and what each program wrote of it. The number is 0
    where they differ before the first call, and `line` says so, as it does where they differ behind the last one."""
    number: int
    line: str
    own: Side
    other: Side

    @property
    def kind(self) -> Tuple[str, str]:
        """What two differences that are alike have in common."""
        return self.own.rough, self.other.rough


@dataclass(frozen=True)
class Comparison:
    """What `labsys` wrote of a text, the first difference if there is one, how many calls were compared, and whether the other program
    had to be ended."""
    played: Played
    difference: Optional[Difference]
    compared: int
    ended: bool = False


@dataclass(frozen=True)
class Comparer:
    """Plays texts with both programs."""
    player: Player
    driver: Driver
    terms: Terms

    def compare(self, text: bytes) -> Optional[Comparison]:
        """How the programs answer a text; None where `labsys` does not accept it. Behind a reply ENOSYS nothing is compared."""
        played = self.player.play(text)
        if played.status != STATUS_ACCEPTED:
            return None
        count = len(played.replies)
        other_played = self.driver.play(text)
        ended = bool(other_played.messages)
        sides = zip(self.sides(played, count, False), self.sides(other_played, count, True))
        for number, (own, other) in enumerate(sides):
            if other.reply.endswith(f" {SKIPPED}"):
                return Comparison(played, None, number - 1)
            if own != other:
                return Comparison(played, Difference(number, line_of(text, number), own, other), min(number, count), ended)
        return Comparison(played, None, count)

    def sides(self, played: Played, count: int, other: bool) -> List[Side]:
        """What a program wrote before the first call, of each call, and behind the last one."""
        lines = [self.line(line, other) for line in played.out.decode("latin-1").split("\n")[:-1]]
        replies = [*lines[:count], *[""] * (count - len(lines))]
        last = [*lines[count:], *([f"exit status {played.status}"] if played.status else []), *filter(None, [played.messages.decode()])]
        records: Dict[int, List[str]] = {}
        for line in played.trail.decode("latin-1").split("\n")[:-1] if self.terms.trail else ():
            record = self.line(line, other)
            number, _, rest = record.partition(" ")
            at = int(number) if NUMBER.fullmatch(number) else 0
            records.setdefault(at, []).append(rest if at else record)
        return [Side(reply, tuple(records.get(at, ()))) for at, reply in enumerate(["", *replies, "; ".join(last)])]

    def line(self, line: str, other: bool) -> str:
        """A line of a program, as it is compared."""
        return self.terms.line(self.terms.translated(line) if other else line)


def line_of(text: bytes, number: int) -> str:
    """The line of a call."""
    lines = read_world(text).lines_by_call
    return lines[number].single(number) if number in lines else "before the first call" if number == 0 else "behind the last call"
