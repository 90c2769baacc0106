"""What is said of a call: as text, and as JSON has it."""
from dataclasses import dataclass, field
from typing import Any, Dict, Iterator, List, Optional, Sequence

from labask.aftermath import Later
from labask.capability_texts import read_sets
from labask.exec_formula import ExecFormula
from labask.granting import Passing
from labask.observing import ObjectFacts, ProcessFacts
from labask.playing import Outcome, Reply
from labask.shortening import short
from labask.signatures import CAPABILITIES
from labask.worlds import ScriptLine, path_word

LISTED = 10  # calls that are listed below the one that they come from


@dataclass(frozen=True)
class Call:
    """A call of the script: its line and its reply."""
    line: ScriptLine
    reply: Reply

    @property
    def text(self) -> str:
        """The call with its number, line and reply; long bytes are cut."""
        path = f" of {path_word(self.reply.path)}" if self.reply.path is not None and self.line.calls > 1 else ""
        return (f"call {self.reply.number}, line {self.line.line.number}: {short(self.line.text.strip())}{path}: "
                f"{short(self.reply.text)}")


@dataclass(frozen=True)
class Follower:
    """A call that was not done since an earlier one was denied: `then` is its reply where the earlier one is done."""
    call: Call
    then: Later

    @property
    def text(self) -> str:
        """The call, and how it is answered where the earlier one is done."""
        held = f" by {' and '.join(self.then.held)} too" if self.then.held else ""
        return f"{self.call.text}; then {short(self.then.reply.text)}{held}"

    def as_json(self) -> Dict[str, Any]:
        """The call as JSON has it."""
        return {"call": self.call.reply.number, "line": self.call.line.line.number, "text": self.call.line.text.strip(),
                "reply": self.call.reply.text, "then": self.then.reply.text, "capabilities": list(self.then.held)}


@dataclass
class Explained:
    """A call with what is said of it."""
    call: Call
    words: str
    target: Optional[ObjectFacts] = None
    target_line: Optional[int] = None
    made_by: Optional[int] = None
    process: Optional[ProcessFacts] = None
    caller: Optional[ProcessFacts] = None
    formula: Optional[ExecFormula] = None
    tried: bool = False
    passing: Optional[Passing] = None
    cause: Optional[int] = None
    followers: Sequence[Follower] = ()
    notes: List[str] = field(default_factory=list)
    used: Sequence[str] = ()

    @property
    def line(self) -> ScriptLine:
        """The line of the call."""
        return self.call.line

    @property
    def reply(self) -> Reply:
        """The reply to the call."""
        return self.call.reply

    @property
    def where(self) -> str:
        """Where the object comes from."""
        if self.target_line is not None:
            return f", line {self.target_line}"
        return f", made by call {self.made_by}" if self.made_by is not None else ""

    def lines(self) -> Iterator[str]:
        """The explanation as text, with the calls that come from this one."""
        yield from self.own_lines()
        if self.followers:
            yield "  where this call is done, these are done too:"
        yield from (f"    {each.text}" for each in self.followers[:LISTED])
        if len(self.followers) > LISTED:
            yield f"    and {len(self.followers) - LISTED} more"

    def own_lines(self) -> Iterator[str]:
        """The explanation as text, of this call alone."""
        yield self.call.text
        yield f"  {self.reply.check or self.reply.error or 'done'}: {self.words}"
        if self.target:
            yield f"  object: {self.target.text}{self.where}"
        if self.process:
            yield f"  process: {self.process.text}"
        if self.caller:
            yield f"  caller: {self.caller.text}"
        if self.reply.outcome is Outcome.DENIED:
            yield f"  {self.passing_text()}"
        yield from (f"  {note}" for note in self.notes)
        if self.formula:
            yield from (f"  {line}" for line in self.formula.lines())
        if self.cause is not None:
            yield f"  cause: call {self.cause}; where that call is done, this one is done too"

    def passing_text(self) -> str:
        """With which capability the call would have passed."""
        if not self.tried:
            return "not tried with further capabilities: the time was over"
        if self.passing is None:
            return "no capability was found with which it passes this check"
        end = "" if self.passing.complete else "; no further capability was found with which it passes that"
        return f"with {self.passing.names}: {short(self.passing.reply.text)}{end}"

    def as_json(self) -> Dict[str, Any]:
        """The explanation as JSON has it."""
        return {
            "call": self.reply.number, "line": self.line.line.number, "text": self.line.text.strip(),
            "reply": self.reply.text, "outcome": self.reply.outcome.value, "error": self.reply.error, "check": self.reply.check,
            "place": self.reply.place, "words": self.words, "object": object_as_json(self),
            "process": process_as_json(self.process), "caller": process_as_json(self.caller),
            "exercised": list(self.used), "notes": self.notes, "tried": self.tried,
            "passes_with": None if self.passing is None else {
                "capabilities": list(self.passing.capabilities), "permitted": list(self.passing.permitted),
                "reply": self.passing.reply.text, "complete": self.passing.complete},
            "cause": self.cause, "followers": [each.as_json() for each in self.followers],
            "exec": self.formula.as_json() if self.formula else None,
        }


def object_as_json(each: Explained) -> Optional[Dict[str, Any]]:
    """The object of an explanation as JSON has it."""
    facts = each.target
    if facts is None:
        return None
    return {"path": None if facts.path is None else facts.path.decode("latin-1"), "number": facts.number, "kind": facts.kind,
            "mode": facts.mode, "owner": facts.owner, "group": facts.group, "label": facts.label, "line": each.target_line,
            "made_by": each.made_by}


def process_as_json(facts: Optional[ProcessFacts]) -> Optional[Dict[str, Any]]:
    """A process as JSON has it."""
    if facts is None:
        return None
    names = ("user", "effective_user", "saved_user", "group", "effective_group", "saved_group", "groups")
    effective = read_sets(facts.caps).effective
    return {"process": facts.tag, "label": facts.label, **dict(zip(names, facts.ids)), "caps": facts.caps,
            "effective": [name for name in CAPABILITIES if name in effective]}
