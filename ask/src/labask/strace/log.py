"""Reads the lines of a log of strace: calls, put together where others came between, and the ends of processes."""
import re
from dataclasses import dataclass, field, replace
from functools import cached_property
from typing import Dict, Iterator, List, Optional, Set, Tuple, Union

from labask.shortening import SHOWN_BYTES
from labask.strace.values import DIGITS, Argument, cut_strings, split_arguments, unescaped

TIME = rb"(?:\d\d:\d\d:\d\d(?:\.\d+)? +|\d+\.\d+ +|\( *\+ +\d+\.\d+\) +)*"
PREFIX = re.compile(rb"(?:\[pid +(%b)\] +|(%b) +)?" % (DIGITS, DIGITS) + TIME + rb"(?:\[ *[0-9a-f?]+\] +)*")
STARTED = re.compile(rb"([a-z_][a-z0-9_]*)\((.*)$", re.S)
RESUMED = re.compile(rb"<\.\.\. ([a-z_][a-z0-9_]*) resumed> ?(.*)$", re.S)
UNFINISHED = re.compile(rb" ?<unfinished \.\.\.>(?:\) += \?)?$")
ENDED = re.compile(rb"\+\+\+ (?:exited with (%b)|killed by (SIG[A-Z0-9+]+|[A-Z0-9_]+)(?: \(core dumped\))?) \+\+\+$" % DIGITS)
ATTACHED = re.compile(rb"^strace: Process (%b) attached$" % DIGITS)
SIGNAL = re.compile(rb"--- .* ---$")
RESULT = re.compile(rb"\) *= (-?%b|0x[0-9a-f]{1,23}|\?)(?:<(.*?)>)?(?: ([A-Z][A-Z0-9_]*))?(?: \(.*\))?(?: <\d+\.\d+>)?$" % DIGITS,
                    re.S)
CLOSING = re.compile(rb"\) *= ")
OCTAL = re.compile(rb"0[0-7]+$")
# calls that wait for what another process does: they count from the line of their result on, all others from their beginning
WAITING = frozenset(("read", "readv", "pread64", "preadv", "wait4", "waitid", "waitpid", "copy_file_range", "sendfile", "splice"))


@dataclass(frozen=True)
class Result:
    """What a call returned: a number or None, the path behind it, the name of the error, and the number as it is written."""
    number: Optional[int]
    path: Optional[bytes] = None
    error: Optional[str] = None
    written: str = "?"

    @property
    def done(self) -> bool:
        """Whether the call was done."""
        return self.number is not None and self.error is None

    @property
    def answer(self) -> Optional[int]:
        """The number that a call answered which was done."""
        return self.number if self.error is None else None


@dataclass(frozen=True)
class Call:
    """A call of the log: the lines of its beginning and of its result, the process, the name, and the text of its arguments."""
    line: int
    ended: Optional[int]
    pid: int
    name: str
    text: bytes
    result: Result

    @cached_property
    def arguments(self) -> Tuple[Argument, ...]:
        """The arguments, and after them any that the result adds."""
        return split_arguments(self.text)

    @property
    def order(self) -> int:
        """The line from which on the call counts."""
        waits = self.name in WAITING or self.result.error == "EPIPE"
        return self.ended if waits and self.ended is not None else self.line

    @property
    def shown(self) -> str:
        """The call as the log has it, in one piece, with long strings cut."""
        return f"{self.name}({cut_strings(self.text, SHOWN_BYTES).decode('latin-1')}"


@dataclass(frozen=True)
class Ended:
    """The end of a process or thread: its exit status, or the signal that killed it."""
    line: int
    pid: int
    status: Optional[int]
    signal: Optional[str]

    @property
    def order(self) -> int:
        """The line from which on it counts."""
        return self.line


@dataclass(frozen=True)
class Other:
    """A line that is neither."""
    line: int
    text: bytes

    @property
    def order(self) -> int:
        """The line from which on it counts."""
        return self.line


Event = Union[Call, Ended, Other]


@dataclass(frozen=True)
class Log:
    """What a log has, in the order in which it counts."""
    events: Tuple[Event, ...]

    @cached_property
    def calls_by_line(self) -> Dict[int, Call]:
        """The calls by the lines of their beginnings."""
        return {event.line: event for event in self.events if isinstance(event, Call)}


def read_result(text: bytes) -> Tuple[bytes, Result]:
    """The text of arguments without the result, and the result, which stands last. A text without one has none."""
    wholes = [whole for whole in (RESULT.match(text, found.start()) for found in CLOSING.finditer(text)) if whole]
    if not wholes:
        return text, Result(None)
    digits, path, error = wholes[-1].groups()
    base = 16 if digits.startswith(b"0x") else 8 if OCTAL.match(digits) else 10
    value = None if digits == b"?" else int(digits, base)
    real, name = unescaped(path) if path else None, error.decode("ascii") if error else None
    return text[:wholes[-1].start()], Result(value, real, name, digits.decode("ascii"))


def made(line: int, ended: Optional[int], pid: int, name: bytes, text: bytes) -> Call:
    """A call of the text that stands behind the name and the bracket."""
    arguments, result = read_result(text)
    return Call(line, ended, pid, name.decode("ascii"), arguments, result)


@dataclass
class Reader:
    """Puts the lines of a log together. The first process is 0 where its lines have no number, until `first` is known."""
    begun: Dict[int, Tuple[int, bytes, bytes]] = field(default_factory=dict)
    living: Set[int] = field(default_factory=lambda: {0})
    unnamed: bool = False
    first: Optional[int] = None

    def process_of(self, prefix: "re.Match[bytes]") -> int:
        """The number of the process that a line is about. Where one process is left its lines have no number."""
        written = prefix[1] or prefix[2]
        if written is None:
            self.unnamed = True
            return next(iter(self.living)) if len(self.living) == 1 else 0
        pid = int(written)
        if self.unnamed and self.first is None and pid not in self.living:
            self.first = pid
        return 0 if pid == self.first else pid

    def read_line(self, number: int, text: bytes) -> Iterator[Event]:
        """The events that a line ends."""
        attached = ATTACHED.search(text)
        if attached:
            self.living.add(int(attached[1]))
            return
        prefix = PREFIX.match(text)
        assert prefix is not None  # it matches no bytes too
        pid, rest = self.process_of(prefix), text[prefix.end():]
        started, resumed, ended = STARTED.match(rest), RESUMED.match(rest), ENDED.match(rest)
        if started and UNFINISHED.search(rest):
            yield from self.unfinished(pid)
            self.begun[pid] = number, started[1], UNFINISHED.sub(b"", started[2])
        elif started:
            yield made(number, number, pid, started[1], started[2])
        elif resumed and pid in self.begun:
            line, name, text = self.begun.pop(pid)
            yield made(line, number, pid, name, text + resumed[2])
        elif ended:
            yield from self.unfinished(pid)
            self.living.discard(pid)
            yield Ended(number, pid, int(ended[1]) if ended[1] else None, ended[2].decode() if ended[2] else None)
        elif rest and not SIGNAL.match(rest):
            yield Other(number, text)

    def unfinished(self, pid: int) -> Iterator[Event]:
        """The call of a process that never got a result."""
        if pid in self.begun:
            line, name, text = self.begun.pop(pid)
            yield made(line, None, pid, name, text)

    def rest(self) -> Iterator[Event]:
        """The calls without a result at the end of the log."""
        for pid in list(self.begun):
            yield from self.unfinished(pid)


def read_log(text: bytes) -> Log:
    """Reads a log of `strace -f -y`."""
    reader = Reader()
    events: List[Event] = []
    for number, line in enumerate(text.split(b"\n"), 1):
        events.extend(reader.read_line(number, line))
    events.extend(reader.rest())
    if reader.first is not None:
        events = [replace(event, pid=reader.first) if getattr(event, "pid", None) == 0 else event for event in events]
    return Log(tuple(sorted(events, key=lambda event: event.order)))
