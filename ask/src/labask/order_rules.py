"""Rules about every order of the calls of a script.

A rule looks at each step of an order and keeps what it has to remember. What it remembers is a part of what makes two states the
same, so it is small. Where a step breaks the rule it answers BROKEN.

| Rule | Broken where |
|---|---|
| `call N REPLY` | call N is answered otherwise |
| `never call N REPLY` | call N is answered so |
| either with `if call M REPLY` behind it | the same, and call M is answered so in the same order |
| `may PROCESS RIGHT PATH` | the process lives and may not do it at some moment |
| `deny PROCESS RIGHT PATH [by CHECK]` | the process may do it at some moment, or another check denies it |
| `never flow FROM -> TO` | TO reads FROM, or what a process wrote that had read it; or, where TO is a path, such a process writes it |

A REPLY is the first words of a reply. RIGHT is read, write, execute, list or search.
"""
import abc
import re
from dataclasses import dataclass
from typing import Dict, FrozenSet, Hashable, List, NamedTuple, Optional, Sequence, Tuple

from labask.answers import WrongWords
from labask.kernel.calls import Call, Reply, play
from labask.kernel.state import Labels, Number, State
from labask.kernel.texts import read_path
from labask.kernel_profile import CHECKS
from labask.sets import objects_named, processes_named
from labask.worlds import World, split_words

BROKEN = "broken"
RIGHTS = {"read": ("open", "r"), "write": ("open", "w"), "execute": ("exec",), "list": ("readdir",), "search": ("chdir",)}
CALL = re.compile(r"(never )?call ([0-9]{1,8}) (.+?)(?: if call ([0-9]{1,8}) (.+))?")
RIGHT = re.compile(rf"(may|deny) (\S+) ({'|'.join(RIGHTS)}) (.+?)(?: by ([a-z_]+))?")
FLOW = re.compile(r"never flow (.+) -> (.+)")


class Step(NamedTuple):
    """A call of an order: its number in the script, who makes it, the call, its reply with the words of the text, and the states
    before and after it."""
    number: int
    who: Number
    call: Call
    reply: Reply
    words: Tuple[bytes, ...]
    before: State
    after: State


class Rule(abc.ABC):
    """A rule with its text."""
    text: str

    @abc.abstractmethod
    def first(self, state: State) -> Hashable:
        """What is remembered before the first call; BROKEN where the first state breaks the rule."""

    @abc.abstractmethod
    def after(self, memory: Hashable, step: Step) -> Hashable:
        """What is remembered after a call; BROKEN where the call breaks the rule."""

    def shown_by(self, state: State) -> Optional[Tuple[Number, Call]]:
        """A call of a process that shows in a state that the rule is broken there; None where the order itself shows it."""
        return None


def words_of(text: str) -> Tuple[bytes, ...]:
    """The values of the words of a reply."""
    words, fault = split_words(text.encode("utf-8", "surrogateescape"))
    if fault is not None or not words:
        raise WrongWords(f"{text!r} is no reply")
    return tuple(word.value for word in words)


@dataclass(frozen=True)
class Answered:
    """A reply to a call by its first words."""
    number: int
    words: Tuple[bytes, ...]

    def holds(self, step: Step) -> Optional[bool]:
        """Whether the call of a step is answered so; None where it is another call."""
        return step.words[:len(self.words)] == self.words if step.number == self.number else None


@dataclass(frozen=True)
class CallRule(Rule):
    """That a call is answered so, or never so, where another one is answered in some way."""
    text: str
    use: Answered
    never: bool
    condition: Optional[Answered] = None

    def first(self, state: State) -> Hashable:
        """Nothing is known of the two calls; a condition that is not asked for holds."""
        return None, True if self.condition is None else None

    def after(self, memory: Hashable, step: Step) -> Hashable:
        """Notes the replies to the two calls."""
        assert isinstance(memory, tuple)
        wrong, holds = memory
        used = self.use.holds(step)
        wrong = wrong if used is None else used is self.never
        met = self.condition.holds(step) if self.condition is not None else None
        holds = holds if met is None else met
        return BROKEN if wrong and holds else (wrong, holds)


@dataclass(frozen=True)
class RightRule(Rule):
    """That a process may, or may not, do something with an object at every moment of its life."""
    text: str
    who: Number
    call: Call
    may: bool
    check: Optional[str] = None

    def first(self, state: State) -> Hashable:
        """Asks the first state."""
        if self.who not in state.processes:
            return None
        reply = play(state, self.who, self.call)[1]
        holds = reply.done if self.may else not reply.done and self.check in (None, reply.check)
        return None if holds else BROKEN

    def after(self, memory: Hashable, step: Step) -> Hashable:
        """Asks the state after a call."""
        return memory if step.after is step.before else self.first(step.after)

    def shown_by(self, state: State) -> Optional[Tuple[Number, Call]]:
        """The call that asks."""
        return self.who, self.call


@dataclass(frozen=True)
class FlowRule(Rule):
    """That bytes of some objects get to nobody of some processes, and into none of some objects.

    It remembers which objects and which processes have the bytes. An object has them until it is empty.
    """
    text: str
    sources: FrozenSet[Number]
    targets: FrozenSet[Number]
    processes: FrozenSet[Number]

    def first(self, state: State) -> Hashable:
        """The sources that have a byte."""
        return frozenset(each for each in self.sources if state.things[each].content), frozenset()

    def after(self, memory: Hashable, step: Step) -> Hashable:
        """Follows a read, a write, a fork, and objects that are emptied."""
        assert isinstance(memory, tuple)
        things, knowing = memory
        if step.reply.done and step.call.name in ("read", "write"):
            moved = step.reply.answer[0]
            thing = step.before.descriptions[dict(step.before.processes[step.who].descriptors)[step.call.arguments[0]]].thing
            if step.call.name == "read" and moved and thing in things:
                knowing |= {step.who}
                if step.who in self.processes:
                    return BROKEN
            elif step.call.name == "write" and moved and step.who in knowing:
                things |= {thing}
                if thing in self.targets:
                    return BROKEN
        if step.reply.done and step.call.name == "fork" and step.who in knowing:
            knowing |= {step.reply.answer[0]}
        kept = frozenset(each for each in things if step.after.things[each].content)
        return (kept if len(kept) < len(things) else things), knowing


# ---- reading

@dataclass(frozen=True)
class RuleReader:
    """Reads the texts of rules about a world; `named` has the processes that the script forks, by their tags."""
    world: World
    labels: Labels
    named: Dict[str, Number]
    calls: int

    def rule(self, text: str) -> Rule:
        """The rule of a text; raises `WrongWords` where it is none, or names nothing in the world."""
        text = text.strip()
        for pattern, read in ((CALL, self.call_rule), (RIGHT, self.right_rule), (FLOW, self.flow_rule)):
            found = pattern.fullmatch(text)
            if found is not None:
                return read(text, found.groups())
        raise WrongWords(f"{text!r} is no rule; rules are call N REPLY, never call N REPLY, either with if call M REPLY, "
                         "may PROCESS RIGHT PATH, deny PROCESS RIGHT PATH [by CHECK] and never flow FROM -> TO")

    def answered(self, number: str, reply: str) -> Answered:
        """A reply to a call."""
        if not 1 <= int(number) <= self.calls:
            raise WrongWords(f"the script has {self.calls} calls; there is no call {number}")
        return Answered(int(number), words_of(reply))

    def call_rule(self, text: str, parts: Sequence[Optional[str]]) -> Rule:
        """A rule about a reply."""
        never, number, reply, other, condition = parts
        assert number is not None and reply is not None
        met = self.answered(other, condition) if other is not None and condition is not None else None
        return CallRule(text, self.answered(number, reply), never is not None, met)

    def process(self, text: str) -> Number:
        """A process of the world or of the script."""
        tag = self.world.policy.canonical_tag(text)
        return self.named[tag] if tag in self.named else self.labels.number(processes_named(self.world, text)[0].tag)

    def right_rule(self, text: str, parts: Sequence[Optional[str]]) -> Rule:
        """A rule about a right."""
        word, process, right, path, check = parts
        assert process is not None and right is not None and path is not None
        if check is not None and (word == "may" or check not in CHECKS):
            raise WrongWords(f"{text!r} is no rule: {check} is no check that denies" if word == "deny" else f"{text!r} is no rule")
        value = words_of(path)
        if len(value) != 1 or not value[0].startswith(b"/"):
            raise WrongWords(f"{path!r} is no absolute path")
        name, *flags = RIGHTS[right]
        return RightRule(text, self.process(process), Call(name, (read_path(value[0]), *flags)), word == "may", check)

    def things(self, text: str) -> FrozenSet[Number]:
        """The objects that a word names."""
        word = words_of(text)[0].decode("utf-8", "surrogateescape") if not text.startswith("label:") else text
        return frozenset(self.labels.number(each.number) for each in objects_named(self.world, word))

    def flow_rule(self, text: str, parts: Sequence[Optional[str]]) -> Rule:
        """A rule about a flow."""
        source, target = parts
        assert source is not None and target is not None
        if target.startswith("/") or target.startswith('"'):
            return FlowRule(text, self.things(source), self.things(target), frozenset())
        tag = self.world.policy.canonical_tag(target)
        found: List[Number] = [self.named[tag]] if tag in self.named else [
            self.labels.number(each.tag) for each in processes_named(self.world, target)]
        return FlowRule(text, self.things(source), frozenset(), frozenset(found))
