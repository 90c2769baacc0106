"""The question `check`: whether `labsys` accepts a file, and what is wrong with a line that it has refused."""
import argparse
from dataclasses import dataclass
from typing import Any, Callable, Dict, Iterator, List, Optional, Sequence, Set, Tuple

from labask.advice import advice_on, notes_on
from labask.answers import write_json
from labask.explaining import explain_line
from labask.kernel_profile import MAX_INPUT
from labask.mending import stand_ins
from labask.playing import Played, Player, Refusal, Refused, Reply
from labask.worlds import World, read_file, read_world

ACCEPTED, REFUSED = 0, 2
WIDTH = 110
MOST_FAULTS = 100


@dataclass(frozen=True)
class Explanation:
    """A refused line: its number, the fault, its text, the columns of the mark, from 0, and lines to write in its place, if any."""
    line: int
    message: str
    text: bytes
    column: int
    length: int
    instead: Tuple[bytes, ...] = ()

    def lines(self, name: str) -> List[str]:
        """The explanation as text: the message, the line, a mark below the word, and what to write."""
        head = f"{name}:{self.line}: {self.message}"
        if not self.text:
            return [head]
        begin = max(0, self.column - WIDTH // 2) if len(self.text) > WIDTH else 0
        before = "... " if begin else ""
        piece = self.text[begin:begin + WIDTH]
        after = " ..." if begin + WIDTH < len(self.text) else ""
        shown = "".join(chr(byte) if 0x20 <= byte <= 0x7e else "?" for byte in piece)
        mark = "^" * max(1, min(self.length, begin + WIDTH - self.column))
        written = [f"  write: {line.decode('ascii')}" for line in self.instead]
        return [head, f"  {before}{shown}{after}", " " * (2 + len(before) + self.column - begin) + mark, *written]


def add_arguments(parser: argparse.ArgumentParser) -> None:
    """Adds the arguments of the question."""
    parser.add_argument("file", metavar="FILE", help="the world, with or without a script; - is standard input")
    parser.add_argument("--all", action="store_true", help="explain every line that is refused, and not the first alone")
    parser.add_argument("--least", action="store_true", help="ask whether labsys least accepts the file, which refuses more lines")


def first_lines(text: bytes, count: int) -> bytes:
    """The first so many lines of a text."""
    pieces = text.split(b"\n", count)
    return text if len(pieces) <= count else text[:len(text) - len(pieces[count])]


Judge = Callable[[bytes], object]


def accepts(player: Player, text: bytes, number: int, lines: Sequence[bytes]) -> bool:
    """Whether `labsys` accepts lines in place of that of a number, and what stands before it."""
    if any(not 0x20 <= byte <= 0x7e for line in lines for byte in line):
        return False
    try:
        player.check(first_lines(text, number - 1) + b"".join(line + b"\n" for line in lines))
    except Refused as refused:
        return refused.refusal is not None and refused.refusal.line >= number + len(lines)
    return True


def explanation(text: bytes, refusal: Refusal, player: Player) -> Explanation:
    """What is wrong with the line of a refusal: a usual slip, or else the fault that the refusal names."""
    world = read_world(first_lines(text, refusal.line))
    line = world.lines[refusal.line - 1] if refusal.line <= len(world.lines) else None
    explained, shown = refusal.part in ("world", "script") and refusal.word != "caps_asked", line.text if line else b""
    for advice in advice_on(world, line, refusal.part) if line and explained else ():
        instead = advice.instead if advice.instead and accepts(player, text, refusal.line, advice.instead) else ()
        if instead or not advice.doubtful:
            return Explanation(refusal.line, advice.message, shown, advice.column, advice.length, instead)
    finding = explain_line(world, refusal.line, refusal.part, refusal.word)
    return Explanation(refusal.line, finding.message, shown, finding.column, finding.length)


def explain(text: bytes, refusal: Optional[Refusal], name: str, player: Player) -> List[str]:
    """Lines that say what is wrong with a refused text; the last one is the refusal of `labsys`."""
    if refusal is None:
        return [f"{name}: the input has {len(text):,} bytes; at most {MAX_INPUT:,}", "labsys: too long"]
    if refusal.line == 0:
        return [f"labsys: {refusal}"]
    return [*explanation(text, refusal, player).lines(name), f"labsys: {refusal}"]


def refusal_as_json(text: bytes, refusal: Optional[Refusal], player: Player) -> Dict[str, object]:
    """The answer about a refused text; columns count from 1."""
    if refusal is None:
        return {"accepted": False, "message": f"the input has more than {MAX_INPUT} bytes"}
    return {"accepted": False, **fault_as_json(refusal, explanation(text, refusal, player))}


def fault_as_json(refusal: Refusal, found: Explanation) -> Dict[str, object]:
    """An explained refusal; columns count from 1."""
    return {"line": refusal.line, "part": refusal.part, "word": refusal.word, **place_as_json(found),
            "write": [line.decode("ascii") for line in found.instead]}


def place_as_json(found: Explanation) -> Dict[str, object]:
    """The message about a line, the line, and the columns of the mark, which count from 1."""
    return {"message": found.message, "text": found.text.decode("latin-1"), "column": found.column + 1, "length": found.length}


@dataclass
class Faults:
    """The refused lines of a text, each explained, and whether the lines behind the last of them are accepted."""
    found: List[Tuple[Refusal, Explanation]]
    whole: bool = False

    def lines(self, name: str) -> List[str]:
        """The faults as text; the last line is the first refusal of `labsys`."""
        shown = [line for _, found in self.found for line in found.lines(name)]
        last = self.found[-1][0].line
        if len(self.found) == MOST_FAULTS and not self.whole:
            shown.append(f"More than {MOST_FAULTS} lines are not shown.")
        elif not self.whole:
            shown.append(f"The lines behind line {last} were not judged, since they depend on it.")
        if len(self.found) > 1:
            shown.append(f"{len(self.found)} lines are refused. Each was mended or left out to judge those behind it, so later "
                         "faults may follow from earlier ones.")
        return [*shown, f"labsys: {self.found[0][0]}"]


def refusal_of(text: bytes, judge: Judge) -> Optional[Refusal]:
    """The refusal of a text, or None where it is accepted; raises `Refused` where it is too long."""
    try:
        judge(text)
    except Refused as refused:
        if refused.refusal is None:
            raise
        return refused.refusal
    return None


def go_on(text: bytes, refusal: Refusal, instead: Sequence[bytes], judge: Judge) -> Optional[Tuple[bytes, Optional[Refusal]]]:
    """A text with a line in place of the refused one, and its refusal, which is of a later line; None where no line will do."""
    before, through = first_lines(text, refusal.line - 1), first_lines(text, refusal.line)
    world = read_world(through)
    if refusal.line > len(world.lines):
        return text, None
    for line in stand_ins(world, world.lines[refusal.line - 1], refusal.part, instead):
        changed = before + line + b"\n" + text[len(through):]
        following = refusal_of(changed, judge)
        if following is None or following.line > refusal.line:
            return changed, following
    return None


def every_fault(text: bytes, first: Refusal, player: Player, judge: Judge) -> Faults:
    """The lines of a text that `judge` refuses, from the first on."""
    faults = Faults([])
    refusal: Optional[Refusal] = first
    while refusal and len(faults.found) < MOST_FAULTS:
        found = explanation(text, refusal, player)
        faults.found.append((refusal, found))
        following = go_on(text, refusal, found.instead, judge)
        if following is None:
            return faults
        text, refusal = following
    faults.whole = refusal is None
    return faults


Record = Dict[str, Any]


@dataclass(frozen=True)
class NoProcess:
    """A reply ESRCH: the call, the process that does not live, and those that live then with numbers of its label."""
    reply: Reply
    line: int
    missing: str
    living: List[str]

    def text(self, name: str) -> str:
        """The line of the answer."""
        label = self.missing.partition("@")[2]
        there = ", ".join(self.living) if self.living else "none"
        return f"{name}:{self.line}: ESRCH: {self.missing} is no living process; those of {label} are: {there}"


def process_changes(records: List[Record]) -> Dict[int, List[Record]]:
    """The records of starts, forks and ends by the numbers of their calls."""
    changes: Dict[int, List[Record]] = {}
    for record in records:
        if record["event"] in ("boot", "fork", "exit"):
            changes.setdefault(int(record["call"]), []).append(record)
    return changes


def apply_change(living: Set[str], record: Record) -> None:
    """Changes the numbers of living processes as a record says."""
    if record["event"] == "exit":
        living.discard(str(record["pid"]))
    else:
        living.add(str(record["child"] if record["event"] == "fork" else record["pid"]))


def without_process(world: World, played: Played, player: Player) -> Iterator[NoProcess]:
    """The replies ESRCH of a run, each with the processes that live when the call is made."""
    if not any(reply.error == "ESRCH" for reply in played.replies):
        return
    changes = process_changes(player.select("all", played.trail))
    living: Set[str] = set()
    for record in changes.get(0, []):
        apply_change(living, record)
    for reply in played.replies:
        if reply.error == "ESRCH":
            line = world.lines_by_call[reply.number]
            named = line.arguments[0].text if reply.call == "kill" and reply.tag in living else reply.tag
            missing = world.policy.canonical_tag(named)
            label = missing.partition("@")[2]
            there = [tag for tag in living if tag.partition("@")[2] == label]
            yield NoProcess(reply, line.line.number, missing, sorted(there, key=lambda tag: int(tag.partition("@")[0])))
        for record in changes.get(reply.number, []):
            apply_change(living, record)


def counted(count: int, word: str, ending: str = "s") -> str:
    """A number with a word for what is counted."""
    return f"{count} {word}{'' if count == 1 else ending}"


def say_refused(arguments: argparse.Namespace, text: bytes, refusal: Optional[Refusal], player: Player) -> None:
    """Writes the answer about a refused text."""
    judge = player.least if arguments.least else player.check
    faults = every_fault(text, refusal, player, judge) if arguments.all and refusal else None
    if arguments.json:
        whole = {"faults": [fault_as_json(*fault) for fault in faults.found], "whole": faults.whole} if faults else {}
        write_json({**refusal_as_json(text, refusal, player), **whole})
    else:
        print("\n".join(faults.lines(arguments.file) if faults else explain(text, refusal, arguments.file, player)))


def answer(arguments: argparse.Namespace, player: Player) -> int:
    """Answers the question."""
    text = read_file(arguments.file)
    try:
        if arguments.least:
            player.least(text)
        objects, processes, calls = player.check(text)
    except Refused as refused:
        say_refused(arguments, text, refused.refusal, player)
        return REFUSED
    played = player.play_accepted(text) if calls else None
    notes = [Explanation(line.number, note.message, line.text, note.column, note.length) for line, note in notes_on(text)]
    missing = list(without_process(read_world(text), played, player)) if played and b" ESRCH\n" in played.out else []
    if arguments.json:
        write_json({"accepted": True, "objects": objects, "processes": processes, "calls": calls,
                    "no_process": [{"line": each.line, "call": each.reply.number, "process": each.missing, "living": each.living}
                                   for each in missing],
                    "notes": [{"line": note.line, **place_as_json(note)} for note in notes]})
        return ACCEPTED
    numbers = [counted(objects, "object"), counted(processes, "process", "es"), counted(calls, "call")]
    program = "labsys least" if arguments.least else "labsys"
    print(f"{arguments.file}: {program} accepts it, with {numbers[0]}, {numbers[1]} and {numbers[2]}")
    for each in missing:
        print(each.text(arguments.file))
    for note in notes:
        print("\n".join(note.lines(arguments.file)))
    return ACCEPTED
