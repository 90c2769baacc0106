"""Plays worlds with `labsys`, and reads what it writes: replies, end lines, refusals, records."""
import enum
import functools
import json
import os
import pathlib
import re
import select
import shutil
import signal
import subprocess
import tempfile
import threading
import time
from dataclasses import dataclass, replace
from functools import cached_property
from typing import IO, Any, Dict, Iterable, Iterator, List, Optional, Sequence, Set, Tuple

from labask.effort import Effort
from labask.kernel_profile import MAX_DESCRIPTION_NUMBER, MAX_INPUT
from labask.worlds import UTILITIES, Word, quoted, split_words

STATUS_ACCEPTED = 0
STATUS_REFUSED = 2
STATUS_TOO_LONG = 7
ANSWERED = (STATUS_ACCEPTED, STATUS_REFUSED, STATUS_TOO_LONG)
VERSION = re.compile(rb"labsys [0-9]+\.[0-9]+\.[0-9]+[^ ]*( \([^()]*\))?$")
COUNTS = re.compile(rb"ok ([0-9]+) ([0-9]+) ([0-9]+)\n")
RECORD = re.compile(rb"^[0-9]+ ", re.M)  # begins the line of a record of a trail
LAST_LINE = re.compile(rb"^done [0-9]+\n\Z", re.M)
FIRST_SECONDS = 10.0  # within which a program says its version
FIRST_BYTES = 64  # of its answer that are read
SMALL_WORLD = b'world 2\nlevels low\ncategories\nbound all\ndir / 0755 0 0 low\nproc low 0 0 - "="\nscript\n1@low getpid\n'


class Outcome(enum.Enum):
    """How a call was answered: it was done, a check denied it, or it was refused otherwise."""
    DONE = "ok"
    DENIED = "denied"
    REFUSED = "refused"


@dataclass(frozen=True)
class Reply:
    """The reply to a call. Its number counts calls from 1; `path` is that of a utility; `words` are those of the answer."""
    number: int
    tag: str
    call: str
    outcome: Outcome
    error: Optional[str] = None
    check: Optional[str] = None
    place: Optional[str] = None
    words: Tuple[Word, ...] = ()
    path: Optional[bytes] = None

    @property
    def text(self) -> str:
        """The reply without its tag and call, as `labsys` writes it."""
        if self.outcome is Outcome.DONE:
            return " ".join(["ok", *(word.written.decode("latin-1") for word in self.words)])
        return " ".join(part for part in (self.error, self.check, self.place) if part)


@dataclass(frozen=True)
class End:
    """An end line: a process that lives at the end, its present label and its capability sets."""
    tag: str
    label: str
    caps: str


@dataclass(frozen=True)
class Refusal:
    """The refusal of a line: its number, the part (`world`, `script`, `view`, `trail`, `select`) and the word of the fault."""
    line: int
    part: str
    word: str

    def __str__(self) -> str:
        return f"refused {self.line} {self.part} {self.word}"


class PlayingFault(Exception):
    """`labsys` is missing, or it ended with a status that says nothing of its input."""


class Refused(Exception):
    """`labsys` refused a text: `refusal` says where, or is None where the text is too long."""

    def __init__(self, text: bytes, refusal: Optional[Refusal]):
        super().__init__(str(refusal) if refusal else "too long")
        self.text = text
        self.refusal = refusal

    def __reduce__(self) -> Tuple[Any, ...]:
        return Refused, (self.text, self.refusal)


def read_reply(number: int, words: Sequence[Word]) -> Reply:
    """The reply that the words of a line have."""
    tag, call, rest = words[0].text, words[1].text, list(words[2:])
    path = rest.pop(0).value if call in UTILITIES else None
    if rest[0].written == b"ok":
        return Reply(number, tag, call, Outcome.DONE, words=tuple(rest[1:]), path=path)
    names: List[Optional[str]] = [word.text for word in rest] + [None, None]
    outcome = Outcome.DENIED if names[1] else Outcome.REFUSED
    return Reply(number, tag, call, outcome, names[0], names[1], names[2], path=path)


@dataclass(frozen=True)
class Played:
    """What a run of `labsys` wrote: its exit status, output, trail, and messages on standard error."""
    status: int
    out: bytes
    trail: bytes
    messages: bytes

    @cached_property
    def _lines(self) -> List[Tuple[Word, ...]]:
        return [split_words(line)[0] for line in self.out.split(b"\n")[:-1]]

    @cached_property
    def replies(self) -> List[Reply]:
        """The replies in the order of the calls; of a view, those that it shows, numbered in their order."""
        shown = [words for words in self._lines if words and b"@" in words[0].value]
        return [read_reply(number, words) for number, words in enumerate(shown, 1)]

    @cached_property
    def ends(self) -> Dict[str, End]:
        """The end lines by the tags of their processes."""
        ends = [words for words in self._lines if words and words[0].written == b"end"]
        return {words[1].text: End(words[1].text, words[2].text, words[3].text) for words in ends}

    @cached_property
    def refusal(self) -> Optional[Refusal]:
        """The refusal of the last line, if there is one."""
        words = self._lines[-1] if self._lines else ()
        if not words or words[0].written != b"refused":
            return None
        return Refusal(int(words[1].value), words[2].text, words[3].text)

    @property
    def crossed(self) -> bool:
        """Whether a view ended at a crossing."""
        return any(words and words[0].written == b"crossed" for words in self._lines)


class Player:
    """Runs `labsys`: `program` has the words of its command. Its runs have sessions of their own, where no Ctrl-C reaches them."""

    def __init__(self, program: Sequence[str]):
        self.program = list(program)
        self.plays = 0
        self._running: "Set[subprocess.Popen[bytes]]" = set()
        self._lock = threading.Lock()

    def __reduce__(self) -> Tuple[Any, ...]:
        """What is sent to a worker of a cluster: the words of the command, and none of the runs."""
        return sent_player, (self.program,)

    def start(self, words: Sequence[str], given: Any, out: Any, messages: Any) -> "subprocess.Popen[bytes]":
        """Starts a command of `labsys` with these standard descriptors."""
        try:
            run = subprocess.Popen([*self.program, *words], stdin=given, stdout=out, stderr=messages, start_new_session=True)
        except OSError as fault:
            raise PlayingFault(f"{self.program[0]}: {fault.strerror}") from fault
        with self._lock:
            self.plays += 1
            self._running.add(run)
        return run

    def wait(self, run: "subprocess.Popen[bytes]") -> int:
        """The exit status of a run."""
        status = run.wait()
        with self._lock:
            self._running.discard(run)
        return status

    def end_all(self) -> None:
        """Ends all runs that are not waited for to their end, and what they have started."""
        with self._lock:
            running = [run for run in self._running if run.poll() is None]
            self._running.clear()
        for run in running:
            kill_session(run)
            run.wait()

    def run(self, words: Sequence[str], text: bytes) -> Tuple[int, bytes, bytes]:
        """The exit status of a command of `labsys`, its output, and its messages. A status other than 0, 2 and 7 is a fault."""
        with tempfile.TemporaryFile() as given, tempfile.TemporaryFile() as out, tempfile.TemporaryFile() as messages:
            given.write(text)
            given.seek(0)
            status = self.wait(self.start(words, given, out, messages))
            written, said = whole(out), whole(messages)
        if status not in ANSWERED:
            last = said.decode("latin-1").strip().split("\n")[-1]
            raise PlayingFault(f"{self.program[0]} ended with status {status}" + (f": {last}" if last else ""))
        return status, written, said

    def play(self, text: bytes) -> Played:
        """Plays a world with its script. A refused text is no fault: `refusal` of the answer has it."""
        with tempfile.TemporaryDirectory(prefix="labask-") as folder:
            trail = pathlib.Path(folder) / "trail"
            status, out, messages = self.run(["play", str(trail)], text)
            return Played(status, out, trail.read_bytes() if trail.exists() else b"", messages)

    def play_all(self, texts: Iterable[bytes], effort: Effort) -> Iterator[Played]:
        """Plays worlds with their scripts, as many side by side as the effort allows, and gives what came of them in their order."""
        return effort.results(self.play, texts)

    def play_accepted(self, text: bytes) -> Played:
        """Plays a world with its script, and raises `Refused` where a line is refused or the text is too long."""
        played = self.play(text)
        if played.status != STATUS_ACCEPTED:
            raise Refused(text, played.refusal)
        if not LAST_LINE.search(played.out):
            raise PlayingFault(f"{self.program[0]} does not answer as labsys does")
        return played

    def check(self, text: bytes) -> Tuple[int, int, int]:
        """The numbers of objects, processes and calls of a text that is accepted; raises `Refused` for any other."""
        status, out, messages = self.run(["check"], text)
        if status != STATUS_ACCEPTED:
            raise Refused(text, Played(status, out, b"", messages).refusal)
        counts = COUNTS.fullmatch(out)
        if counts is None:
            raise PlayingFault(f"{self.program[0]} does not answer as labsys does")
        objects, processes, calls = map(int, counts.groups())
        return objects, processes, calls

    def least(self, text: bytes) -> None:
        """Whether `labsys least` accepts a text; raises `Refused` where it does not."""
        status, out, messages = self.run(["least"], text)
        if status != STATUS_ACCEPTED:
            raise Refused(text, Played(status, out, b"", messages).refusal)

    def view(self, label: str, text: bytes) -> Played:
        """Plays a world with its script as a label sees it; there is no trail."""
        status, out, messages = self.run(["view", label], text)
        return Played(status, out, b"", messages)

    def select(self, spec: str, trail: bytes) -> List[Dict[str, Any]]:
        """The records of a trail that SPEC picks, each as the object that its line of JSON has; raises `Refused` for a fault."""
        return [record for piece in pieces_of(trail) for record in self.select_piece(spec, piece)]

    def select_piece(self, spec: str, trail: bytes) -> List[Dict[str, Any]]:
        """The same of a trail that is short enough to be read at once."""
        status, out, messages = self.run(["select", spec], trail)
        if status != STATUS_ACCEPTED:
            raise Refused(trail, Played(status, out, b"", messages).refusal)
        records: List[Dict[str, Any]] = json.loads("[" + ",".join(out.decode("ascii").split("\n")[:-2]) + "]")
        return records


def sent_player(program: Sequence[str]) -> Player:
    """The player of a worker of a cluster: of the program that LABSYS names there, or else of the same path."""
    return Player([os.environ.get("LABSYS") or program[0], *program[1:]])


def pieces_of(trail: bytes, most: int = MAX_INPUT) -> Iterator[bytes]:
    """A trail in pieces of at most so many bytes, each with the header and some of the records; a short one is one piece."""
    if len(trail) <= most:
        yield trail
        return
    begin = RECORD.search(trail)
    header = trail[:begin.start()] if begin else trail
    at = len(header)
    while at < len(trail):
        end = len(trail) if len(trail) - at <= most - len(header) else trail.rindex(b"\n", at, at + most - len(header)) + 1
        yield header + trail[at:end]
        at = end


def pipe_end(end: "Optional[IO[bytes]]") -> "IO[bytes]":
    """The end of a pipe of a program that was started with one."""
    assert end is not None
    return end


def whole(file: "IO[bytes]") -> bytes:
    """All bytes of a file that is open."""
    file.seek(0)
    return file.read()


class Session:
    """A run of `labsys` that is asked call by call: a line is sent, and its replies are read.

    Used as a context; the process ends with it. `replies` counts the calls that were made so far, `sent` the bytes of the input,
    and `opened` the numbers of descriptions that were drawn, of all labels.
    """
    BATCH_BYTES = 16_384  # less than a pipe holds, so that sending never waits for replies to be read
    MOST_READ = 4_096  # replies that are kept, since most are the same but for their tag
    DRAWN = {"open": 1, "pipe": 2}  # numbers of descriptions that a call draws

    def __init__(self, player: Player, head: bytes):
        self.player, self.head, self.replies, self.sent, self.opened = player, head, 0, 0, 0
        self._read: Dict[bytes, Reply] = {}
        self._folder = tempfile.TemporaryDirectory(prefix="labask-")
        self.trail_path = pathlib.Path(self._folder.name) / "trail"

    def __enter__(self) -> "Session":
        try:
            self._run = self.player.start(["play", str(self.trail_path)], subprocess.PIPE, subprocess.PIPE, subprocess.DEVNULL)
        except PlayingFault:
            self._folder.cleanup()
            raise
        self._given, self._out = pipe_end(self._run.stdin), pipe_end(self._run.stdout)
        self._send(self.head)
        return self

    def __exit__(self, *_: object) -> None:
        for end in (self._given, self._out):
            try:
                end.close()
            except BrokenPipeError:
                pass
        self.player.wait(self._run)
        self._folder.cleanup()

    def has_room(self, size: int, opens: int = 0) -> bool:
        """Whether lines with so many bytes and calls of `open` can be sent before a limit of the input or of descriptions comes."""
        return self.sent + size <= MAX_INPUT and (not opens or self.opened + opens <= MAX_DESCRIPTION_NUMBER)

    def _send(self, text: bytes) -> None:
        self.sent += len(text)
        try:
            self._given.write(text)
            self._given.flush()
        except BrokenPipeError as fault:
            raise PlayingFault(f"{self.player.program[0]} ended before its input") from fault

    def _reply(self) -> Reply:
        line = self._out.readline()
        while line.startswith(b"end "):  # of processes, before a refusal
            line = self._out.readline()
        tag, _, rest = line.partition(b" ")
        if b"@" not in tag or not rest:
            last = Played(STATUS_REFUSED, line, b"", b"")
            raise Refused(self.head, last.refusal) if last.refusal else PlayingFault("labsys ended before its input")
        self.replies += 1
        if rest not in self._read:
            self._read = self._read if len(self._read) < self.MOST_READ else {}
            self._read[rest] = read_reply(0, split_words(line.rstrip(b"\n"))[0])
        found = self._read[rest]
        if found.outcome is Outcome.DONE:
            self.opened += self.DRAWN.get(found.call, 0)
        return replace(found, number=self.replies, tag=tag.decode("latin-1"))

    def line(self, text: str, calls: int = 1) -> List[Reply]:
        """The replies to a line of the script that makes so many calls."""
        self._send(text.encode("latin-1") + b"\n")
        return [self._reply() for _ in range(calls)]

    def call(self, text: str) -> Reply:
        """The reply to a line that makes one call."""
        return self.line(text)[0]

    def calls(self, texts: Sequence[str]) -> List[Reply]:
        """The replies to lines that make one call each; they are sent many at a time."""
        found: List[Reply] = []
        batch: List[bytes] = []
        size = 0
        for text in texts:
            line = text.encode("latin-1") + b"\n"
            if size + len(line) > self.BATCH_BYTES:
                found += self._batch(batch)
                batch, size = [], 0
            batch.append(line)
            size += len(line)
        return found + self._batch(batch)

    def _batch(self, lines: Sequence[bytes]) -> List[Reply]:
        self._send(b"".join(lines))
        return [self._reply() for _ in lines]

    def records(self) -> List[Dict[str, Any]]:
        """All records that were written so far, as `select` gives them."""
        return self.player.select("all", self.trail_path.read_bytes())


def candidates(given: Optional[str]) -> Iterator[Optional[str]]:
    """Where `labsys` may be: as given, as LABSYS has it, beside the folder of this file, or on PATH."""
    if given:
        yield given
        return
    if os.environ.get("LABSYS"):
        yield os.environ["LABSYS"]
        return
    beside = str(pathlib.Path(__file__).resolve().parents[3] / "labsys")
    yield beside if os.access(beside, os.X_OK) else None
    yield shutil.which("labsys")


def find_program(given: Optional[str] = None) -> str:
    """The path of `labsys`; raises `PlayingFault` where there is none."""
    found = next((name for name in candidates(given) if name), None)
    whole = shutil.which(found) if found else None
    if whole is None:
        raise PlayingFault(f"there is no program {found}" if found else "there is no program labsys")
    path = os.path.abspath(whole)
    require_labsys(path)
    return path


@functools.lru_cache(maxsize=None)
def require_labsys(path: str) -> None:
    """Raises `PlayingFault` where a program does not say, when it is asked for its version, that it is `labsys`."""
    line, late = first_answer(path, "--version", b"")
    if not VERSION.match(line):
        said = no_answer() if late else f"answered {quoted(line)}"
        raise PlayingFault(f"{path} is not labsys: asked for its version, it {said}")


def require_answer(path: str) -> None:
    """Raises `PlayingFault` where a program that says it is `labsys` does not answer whether a small world is accepted."""
    if first_answer(path, "check", SMALL_WORLD)[1]:
        raise PlayingFault(f"{path} is not labsys: asked to check a small world, it {no_answer()}")


def no_answer() -> str:
    """That a program did not answer in time, in words."""
    return f"did not answer within {FIRST_SECONDS:.0f} seconds"


def first_answer(path: str, command: str, text: bytes) -> Tuple[bytes, bool]:
    """The beginning of the first line that a command of a program answers to a text, and whether the time for it was over."""
    with tempfile.TemporaryFile() as given:
        given.write(text)
        given.seek(0)
        try:
            run = subprocess.Popen([path, command], stdin=given, stdout=subprocess.PIPE, stderr=subprocess.DEVNULL, start_new_session=True)
        except OSError as fault:
            raise PlayingFault(f"{path}: {fault.strerror}") from fault
        try:
            return first_line(pipe_end(run.stdout).fileno())
        finally:
            with run:
                kill_session(run)


def first_line(descriptor: int) -> Tuple[bytes, bool]:
    """The beginning of the first line that a program writes to a pipe, and whether the time for it was over."""
    line, end = b"", time.monotonic() + FIRST_SECONDS
    while b"\n" not in line and len(line) < FIRST_BYTES:
        if not select.select([descriptor], [], [], max(0.0, end - time.monotonic()))[0]:
            return line, True
        piece = os.read(descriptor, FIRST_BYTES - len(line))
        if not piece:
            break
        line += piece
    return line.partition(b"\n")[0], False


def kill_session(run: "subprocess.Popen[bytes]") -> None:
    """Ends a program that has a session of its own, and what it has started there."""
    try:
        os.killpg(run.pid, signal.SIGKILL)
    except ProcessLookupError:
        pass
