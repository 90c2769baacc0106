"""A run as a page shows it: calls with their lines, replies and records, and the histories of processes.

All of it is read from what `labsys` wrote: the replies, the end lines, and the trail. The capability sets of a process at a call
are those that the records before it give.
"""
from dataclasses import dataclass, field
from typing import Any, Dict, Iterator, List, Optional, Tuple

from labask.playing import Played, Player, Reply
from labask.worlds import UTILITIES, ScriptLine, World


@dataclass(frozen=True)
class Record:
    """A record of the trail: its line, and its members as `select` gives them."""
    line: str
    members: Dict[str, Any]

    @property
    def event(self) -> str:
        """The word of the record."""
        word: str = self.members["event"]
        return word


@dataclass(frozen=True)
class Call:
    """A call of the script: its number from 1, its line, its text without the tag, its reply and its records."""
    number: int
    line: ScriptLine
    text: str
    reply: Reply
    records: Tuple[Record, ...]

    @property
    def exercised(self) -> bool:
        """Whether a capability was exercised."""
        return any(record.event == "exercise" for record in self.records)


@dataclass(frozen=True)
class Note:
    """A comment of the script, without its mark."""
    line: int
    text: str


@dataclass(frozen=True)
class Moment:
    """The label and the capability sets that a process has from a call on; call 0 is the start. `cause` is a record's word."""
    call: int
    cause: str
    label: str
    caps: str


@dataclass
class Life:
    """A process: its tag, its parent's tag if it was forked, its moments, and at which call and how it ended."""
    tag: str
    parent: Optional[str]
    moments: List[Moment]
    ended: Optional[Tuple[int, str]] = None
    children: List[str] = field(default_factory=list)

    @property
    def last(self) -> Moment:
        """The last moment."""
        return self.moments[-1]


@dataclass(frozen=True)
class Run:
    """A world that was played: its comments and its calls in order, and its processes by their tags."""
    world: World
    played: Played
    notes: Tuple[Note, ...]
    records: Tuple[Record, ...]
    calls: Tuple[Call, ...]
    lives: Dict[str, Life]


class Histories:
    """The lives of processes, read from records in their order."""

    def __init__(self) -> None:
        self.lives: Dict[str, Life] = {}

    def add(self, members: Dict[str, Any]) -> None:
        """Adds what a record says."""
        read = getattr(self, "_" + members["event"], None)
        if read is not None:
            read(members["call"], members["pid"], members)

    def _moment(self, call: int, tag: str, cause: str, label: Optional[str] = None, caps: Optional[str] = None) -> None:
        last = self.lives[tag].last
        self.lives[tag].moments.append(Moment(call, cause, label or last.label, caps or last.caps))

    def _boot(self, call: int, tag: str, members: Dict[str, Any]) -> None:
        self.lives[tag] = Life(tag, None, [Moment(call, "boot", members["label"], members["caps"])])

    def _fork(self, call: int, tag: str, members: Dict[str, Any]) -> None:
        child, last = members["child"], self.lives[tag].last
        self.lives[tag].children.append(child)
        self.lives[child] = Life(child, tag, [Moment(call, "fork", last.label, last.caps)])

    def _exec(self, call: int, tag: str, members: Dict[str, Any]) -> None:
        self._moment(call, tag, "exec", caps=members["caps"])

    def _cap_set_proc(self, call: int, tag: str, members: Dict[str, Any]) -> None:
        self._moment(call, tag, "cap_set_proc", caps=members["caps"])

    def _mac_set_proc(self, call: int, tag: str, members: Dict[str, Any]) -> None:
        self._moment(call, tag, "mac_set_proc", label=members["new"])

    def _exit(self, call: int, tag: str, members: Dict[str, Any]) -> None:
        self.lives[tag].ended = (call, f"{members['kind']} {members['value']}")


def read_text(raw: bytes) -> str:
    """Bytes of a file as text; comments may have any bytes."""
    return raw.decode("utf-8", "replace")


def notes_of(world: World) -> Iterator[Note]:
    """The comments of a text that say something, in order."""
    for number, piece in enumerate(world.lines.pieces, 1):
        if b"#" in piece:
            said = piece.lstrip(b" ")
            if said.startswith(b"#") and said.strip(b"# "):
                yield Note(number, read_text(said.lstrip(b"# ")).strip())


def call_texts(line: ScriptLine) -> Iterator[str]:
    """The texts of the calls of a line, without the tag and with one space between words: of a utility one for each path."""
    words = [line.call, *(word.written.decode("latin-1") for word in line.arguments)]
    if line.call not in UTILITIES:
        yield " ".join(words)
        return
    before = 1 + UTILITIES[line.call][1]
    for path in words[before:]:
        yield " ".join([*words[:before], path])


def read_records(trail: bytes, members: List[Dict[str, Any]]) -> Iterator[Record]:
    """The records of a trail, each with its line; `members` has those of all records."""
    lines = trail.decode("ascii").split("\n")[:-1]
    yield from map(Record, lines[len(lines) - len(members):], members)


def read_calls(world: World, played: Played, records: Tuple[Record, ...]) -> Iterator[Call]:
    """The calls that were played."""
    by_call: Dict[int, List[Record]] = {}
    for record in records:
        by_call.setdefault(record.members["call"], []).append(record)
    asked = ((line, text) for line in world.script for text in call_texts(line))
    for (line, text), reply in zip(asked, played.replies):
        yield Call(reply.number, line, text, reply, tuple(by_call.get(reply.number, ())))


def play_run(player: Player, world: World) -> Run:
    """Plays a world; raises `Refused` where a line of it is refused."""
    played = player.play_accepted(world.text)
    records = tuple(read_records(played.trail, player.select("all", played.trail)))
    histories = Histories()
    for record in records:
        histories.add(record.members)
    return Run(world, played, tuple(notes_of(world)), records, tuple(read_calls(world, played, records)), histories.lives)
