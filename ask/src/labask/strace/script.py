"""Writes the script of a log: lines that are played as they are written, and comments with the lines of the log."""
import collections
import enum
from dataclasses import dataclass, field
from typing import List, Optional

from labask.pieces import LINE_BYTES
from labask.playing import Reply, Session
from labask.strace.log import Call

SHOWN = 400


class Reason(enum.Enum):
    """Why a call of the log is no line of the script."""
    OUTSIDE = "outside of the directory"
    NO_CALL = "no call of the profile"
    NO_ARGUMENT = "with what the profile's call does not have"
    NO_OBJECT = "about what no world has"
    NOT_OPEN = "of a descriptor that is not open here"
    NO_PROCESS = "of a process that is not here"
    NO_RESULT = "without a result in the log"
    FOLLOWED = "followed without a call"
    NO_LINE = "no line of a call"


class Leave(Exception):
    """A call is left out: why, what more there is to say of it, and the path in the world of what no world has."""

    def __init__(self, reason: Reason, text: str = "", path: Optional[bytes] = None):
        super().__init__(reason.value)
        self.reason = reason
        self.text = text
        self.path = path


def shown(call: Call) -> str:
    """A call and its result, cut where that is long."""
    text = call.shown if len(call.shown) <= SHOWN else call.shown[:SHOWN] + "..."
    return f"{text}) = {call.result.written}" + (f" {call.result.error}" if call.result.error else "")


@dataclass
class Script:
    """The lines that are written, and what was played and left out."""
    session: Session
    lines: List[bytes] = field(default_factory=list)
    played: int = 0
    added: int = 0
    left_out: "collections.Counter[Reason]" = field(default_factory=collections.Counter)
    unknown: "collections.Counter[str]" = field(default_factory=collections.Counter)
    made_up: int = 0
    questions: List[int] = field(default_factory=list)

    def comment(self, text: str) -> None:
        """Writes a comment, of which a line holds as many bytes as it can."""
        self.lines.append(f"# {text}".encode("latin-1")[:LINE_BYTES])

    def play(self, tag: str, *words: str) -> Reply:
        """Writes a line, and gives its reply."""
        line = " ".join((tag, *words))
        if len(line) > LINE_BYTES:
            raise Leave(Reason.NO_ARGUMENT, "a line that is too long")
        self.lines.append(line.encode("ascii"))
        return self.session.call(line)

    def call(self, call: Call, again: bool = False) -> None:
        """Begins the lines that are a call of the log, or goes on with them behind those of others."""
        self.played += not again
        self.comment(f"{call.line}: {shown(call)}")

    def ask(self, call: Call, question: str) -> None:
        """Writes a call that asks for rights as a comment with the question, of which the answer is added later."""
        if len(question) > LINE_BYTES // 2:
            raise Leave(Reason.NO_ARGUMENT, "a line that is too long")
        self.comment(f"{call.line}, question: {shown(call)}")
        self.questions.append(len(self.lines))
        self.comment(f"question {question}")

    def answer(self, index: int, text: str) -> None:
        """Adds the answer to the question of a line."""
        self.lines[index] += f": {text}".encode("latin-1")

    def besides(self, line: int, text: str) -> None:
        """Begins lines that are no call of the log, but keep what is followed in step."""
        self.added += 1
        self.comment(f"{line}, besides: {text}")

    def leave(self, call: Call, reason: Reason, text: str = "") -> None:
        """Leaves a call out."""
        if reason is Reason.NO_CALL:
            self.unknown[call.name] += 1
        self.leave_at(call.line, reason, text, shown(call))

    def leave_at(self, line: int, reason: Reason, text: str, what: str) -> None:
        """Leaves out what a line of the log has, or what there is before its first line, 0."""
        self.left_out[reason] += 1
        self.comment(f"{line}, left out, {reason.value}{f' ({text})' if text else ''}: {what}")

    def leave_line(self, line: int, text: bytes) -> None:
        """Leaves a line out that is no call."""
        self.left_out[Reason.NO_LINE] += 1
        self.comment(f"{line}, left out, {Reason.NO_LINE.value}: {text.decode('latin-1')[:SHOWN]}")

    def summary(self) -> List[str]:
        """What was played and what was left out, in numbers."""
        lines = [f"{self.played} calls of the log are played, with {self.added} additions that keep what is followed in step"]
        if self.questions:
            one = len(self.questions) == 1
            asking = "call of the log asks for rights, and is a question" if one else "calls of the log ask for rights, and are questions"
            lines.append(f"{len(self.questions)} {asking}")
        lines += [f"{count} left out, {reason.value}" for reason, count in self.left_out.most_common()]
        if self.unknown:
            names = ", ".join(f"{name} {count}" for name, count in self.unknown.most_common())
            lines.append(f"{Reason.NO_CALL.value}: {names}")
        if self.made_up:
            lines.append(f"{self.made_up} bytes that the log does not have are written as ?")
        return lines
