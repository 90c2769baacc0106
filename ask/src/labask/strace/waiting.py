"""Processes that wait in the script: a pipe holds less here than on Linux, so that its writers wait for its readers."""
from dataclasses import dataclass, field
from typing import TYPE_CHECKING, Callable, Deque, Dict, List

from labask.pieces import piece_length, LINE_BYTES
from labask.playing import Outcome, Reply
from labask.strace.log import Call, Event
from labask.worlds import quoted

if TYPE_CHECKING:
    from labask.strace.following import Descriptor, Following, Process

PIPE_BYTES = 4096


@dataclass
class Pipe:
    """A pipe or FIFO: how many bytes it holds, and how many processes wait to write to it."""
    held: int = 0
    waiting: int = 0


@dataclass
class Waiting:
    """What a process waits for: `step` goes on as far as it can, and says whether it is done; `give_up` ends it otherwise."""
    step: Callable[[], bool]
    give_up: Callable[[], None]
    pipes: List[Pipe] = field(default_factory=list)


@dataclass
class Queues:
    """The processes that wait, and the events of processes whose beginning has to wait."""
    waiting: "List[Process]" = field(default_factory=list)
    unborn: Dict[int, Deque[Event]] = field(default_factory=dict)

    def wait(self, process: "Process", waiting: Waiting) -> None:
        """Goes on with what a process does, and has it wait where that is not done."""
        if waiting.step():
            return
        process.waits = waiting
        self.waiting.append(process)
        for pipe in waiting.pipes:
            pipe.waiting += 1

    def end(self, process: "Process") -> None:
        """Ends the waiting of a process."""
        for pipe in process.waits.pipes if process.waits is not None else ():
            pipe.waiting -= 1
        process.waits = None
        self.waiting.remove(process)


@dataclass
class Line:
    """The lines that are a call on a pipe, some of which may be played later than others."""
    following: "Following"
    call: Call
    process: "Process"
    held: "Descriptor"
    pipe: Pipe
    begun: bool = False

    def play(self, *words: str) -> Reply:
        """Plays a line behind a comment with the call."""
        self.following.script.call(self.call, self.begun)
        self.begun = True
        return self.following.script.play(self.process.tag, words[0], str(self.held.played), *words[1:])


@dataclass
class PipeWrite:
    """A write to a pipe: what is left of its bytes."""
    line: Line
    left: bytes

    def write(self, length: int) -> Reply:
        """Writes so many of the bytes that are left."""
        reply = self.line.play("write", quoted(self.left[:length]))
        if reply.outcome is Outcome.DONE:
            self.left = self.left[length:]
            self.line.pipe.held += length
        return reply

    def step(self) -> bool:
        """Writes what the pipe has room for; done where nothing is left, or the reader is gone."""
        room = LINE_BYTES - len(f"{self.line.process.tag} write {self.line.held.played} ") - 2
        while self.left:
            free = PIPE_BYTES - self.line.pipe.held
            if free <= 0:
                return False
            reply = self.write(piece_length(self.left[:min(free, room)], room))
            if reply.error == "EAGAIN":
                self.line.pipe.held = PIPE_BYTES
                return False
            if reply.outcome is not Outcome.DONE:
                return True
        return True

    def give_up(self) -> None:
        """Writes once more, so that the reply says why the rest is not written."""
        self.write(min(len(self.left), 400))


@dataclass
class PipeRead:
    """A read of a pipe: how many bytes the log got that are still to be read."""
    line: Line
    wanted: int

    def step(self) -> bool:
        """Reads what is there; done where that is all, or where nobody waits to write more."""
        pipe = self.line.pipe
        if self.line.begun and not pipe.held and pipe.waiting:
            return False
        reply = self.line.play("read", str(self.wanted))
        if reply.outcome is not Outcome.DONE:
            return True
        count = len(reply.words[0].value)
        self.wanted, pipe.held = self.wanted - count, max(0, pipe.held - count)
        return not self.wanted or not pipe.waiting or not count


def nothing() -> None:
    """Ends a waiting without a call."""
