"""What is followed of a log: processes with their tags, descriptors and current directories, and where paths lead."""
import collections
import dataclasses
from dataclasses import dataclass, field
from typing import Deque, Dict, List, NoReturn, Optional, Set, Tuple

from labask.directories import unfit_path
from labask.playing import Outcome, Reply
from labask.strace.log import Call, Event
from labask.strace.script import Leave, Reason, Script
from labask.strace.values import WORKING, Argument, Handle
from labask.strace.waiting import Pipe, Queues, Waiting
from labask.worlds import parent_path, path_word


@dataclass(frozen=True)
class Place:
    """Where a path leads: the word for the script, the absolute path in the world, and the path of the system."""
    word: str
    path: bytes
    real: bytes


@dataclass
class Seek:
    """Where an open description is past the end of its file: the call of the log that led there, and the offset; else no call.

    No offset is past the end in the world, so the call is played when something is written there.
    """
    call: Optional[Call] = None
    offset: int = 0


@dataclass
class Descriptor:
    """A descriptor of a process of the log: its number in the world, if it has one there, and the path of the system.

    Descriptors of one description share `seek`. One that `appends` writes at the end of the file wherever its offset is.
    """
    played: Optional[int]
    real: Optional[bytes] = None
    pipe: Optional[Pipe] = None
    directory: bool = False
    closes: bool = False
    appends: bool = False
    seek: Seek = field(default_factory=Seek)


@dataclass
class Process:
    """A process of the log that is one of the world. `in_step`: its current directory in the world is that of the log."""
    tag: str
    descriptors: Dict[int, Descriptor] = field(default_factory=dict)
    directory: Optional[bytes] = None
    in_step: bool = False
    living: bool = True
    threads: int = 1
    ended_children: int = 0
    parent: Optional["Process"] = None
    waits: Optional[Waiting] = None
    queue: Deque[Event] = field(default_factory=collections.deque)

    def child(self, tag: str) -> "Process":
        """A child as it is after `fork`."""
        descriptors = {number: dataclasses.replace(each) for number, each in self.descriptors.items()}
        return Process(tag, descriptors, self.directory, self.in_step, parent=self)

    def end(self) -> None:
        """Notes that the process has ended."""
        self.living = False
        if self.parent is not None:
            self.parent.ended_children += 1


def names_of(path: bytes) -> List[bytes]:
    """The names of an absolute path of the system, with `..` resolved by the names alone."""
    names: List[bytes] = []
    for name in path.split(b"/"):
        if name == b"..":
            del names[-1:]
        elif name not in (b"", b"."):
            names.append(name)
    return names


@dataclass
class Following:
    """What is followed: the root of the world as a path of the system, the paths in the world of FIFOs and of what it does not
    have (`absent`), the signals that ended processes of the log, and the processes by their numbers."""
    script: Script
    root: bytes
    fifos: Set[bytes]
    absent: Set[bytes]
    ends: Dict[int, List[str]]
    processes: Dict[int, Process] = field(default_factory=dict)
    queues: Queues = field(default_factory=Queues)
    pipes: Dict[bytes, Pipe] = field(default_factory=dict)
    seeks: List[Seek] = field(default_factory=list)

    def fifo(self, path: bytes) -> Optional[Pipe]:
        """The FIFO at a path of the world, or None where something else is there."""
        return self.pipes.setdefault(path, Pipe()) if path in self.fifos else None

    def inside(self, real: bytes) -> Optional[bytes]:
        """The path in the world of an absolute path of the system, or None where that is outside."""
        root, names = names_of(self.root), names_of(real)
        return b"/" + b"/".join(names[len(root):]) if names[:len(root)] == root else None

    def place_of_real(self, real: bytes) -> Place:
        """The place of an absolute path of the system."""
        path = self.inside(real) if real.startswith(b"/") else None
        if path is None:
            raise Leave(Reason.OUTSIDE)
        why = unfit_path(path)
        if why:
            raise Leave(Reason.NO_OBJECT, why)
        if self.absent:
            self.leave_absent(path)
        return Place(path_word(path), path, b"/" + b"/".join(names_of(real)))

    def leave_absent(self, path: bytes) -> None:
        """Leaves a call out whose path leads to or through what the world does not have."""
        beginning = path
        while beginning != b"/":
            if beginning in self.absent:
                raise Leave(Reason.NO_OBJECT, f"{path_word(beginning)} is left out of the world", path)
            beginning = parent_path(beginning)

    def place(self, process: Process, base: Optional[Handle], path: bytes) -> Place:
        """The place of a path from a directory; relative paths stay so where the current directory is in step."""
        if path.startswith(b"/"):
            return self.place_of_real(path)
        directory = self.directory_of(process, base)
        found = self.place_of_real(directory + b"/" + path)
        working = base is None or base.number == WORKING
        names = [name for name in path.split(b"/") if name not in (b"", b".")]
        if not working or not process.in_step or b".." in names or not path:
            return found
        return dataclasses.replace(found, word=path_word(b"/".join(names) or b"."))

    def directory_of(self, process: Process, base: Optional[Handle]) -> bytes:
        """The path of the system of the directory from which a path starts."""
        if base is not None and base.path is not None:
            if base.number == WORKING:
                process.directory = base.path
            return base.path
        known = process.directory
        if base is not None and base.number != WORKING:
            held = process.descriptors.get(base.number)
            known = held.real if held else None
        if known is None:
            raise Leave(Reason.OUTSIDE, "from a directory that is not known")
        return known

    def descriptor(self, process: Process, argument: Argument) -> Descriptor:
        """The descriptor of an argument, which has a number in the world."""
        handle = argument.handle
        held = process.descriptors.get(handle.number) if handle else None
        if held is None or held.played is None:
            self.leave_unopened(handle, held)
        return held

    def leave_unopened(self, handle: Optional[Handle], held: Optional[Descriptor]) -> NoReturn:
        """Leaves a call out whose descriptor has no number in the world."""
        real = handle.path if handle else None
        if held is not None and held.directory:
            raise Leave(Reason.FOLLOWED, "a descriptor of a directory")
        if real is not None and (not real.startswith(b"/") or self.inside(real) is None) and held is None:
            raise Leave(Reason.OUTSIDE)
        raise Leave(Reason.NOT_OPEN)

    def place_of_descriptor(self, process: Process, argument: Argument) -> Place:
        """The place of what a descriptor refers to, by its path."""
        handle = argument.handle
        held = process.descriptors.get(handle.number) if handle else None
        real = handle.path if handle and handle.path is not None else held.real if held else None
        if real is None:
            raise Leave(Reason.NOT_OPEN)
        return self.place_of_real(real)

    def close(self, process: Process, number: int, line: int, text: str) -> None:
        """Closes a descriptor in the world that the log closes without a call of its own."""
        held = process.descriptors.pop(number, None)
        if held is not None and held.played is not None:
            self.script.besides(line, text)
            self.script.play(process.tag, "close", str(held.played))


def number_in(reply: Reply, index: int = 0) -> Optional[int]:
    """A number of an answer, or None where the call was not done."""
    return int(reply.words[index].value) if reply.outcome is Outcome.DONE else None


def needed(argument: Argument) -> bytes:
    """The bytes of a path, of which the log has to have all."""
    text = argument.string
    if text is None or not text.whole:
        raise Leave(Reason.NO_ARGUMENT, "a path that the log does not have")
    return text.value


def number(argument: Argument) -> int:
    """The number of an argument."""
    if argument.number is None:
        raise Leave(Reason.NO_ARGUMENT)
    return argument.number


def mode_of(argument: Argument) -> str:
    """The word of a mode, without the bit that no mode of the profile has."""
    bits = argument.bits
    if bits is None:
        raise Leave(Reason.NO_ARGUMENT)
    return f"{bits & 0o6777:04o}"


def base_and_path(call: Call, index: int) -> Tuple[Optional[Handle], bytes]:
    """The directory and the path of a call that ends with `at`, and the other arguments."""
    return call.arguments[index].handle, needed(call.arguments[index + 1])
