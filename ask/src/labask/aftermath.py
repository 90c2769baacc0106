"""What comes after a call that a check denied, where it is done: the rest of the script is played in the trial in which it passed.

All processes have the capability sets of the run itself again, but the caller is still permitted the capabilities with which the call
passed. They are made effective once more for a call that the run itself refused without a check, where a check denies it now: so a
file that was opened by a capability is read by it too.
"""
from dataclasses import dataclass, replace
from typing import Dict, FrozenSet, Iterator, List, Sequence, Tuple

from labask.capability_texts import Sets, read_sets
from labask.granting import Passing, Trial, caps_word
from labask.playing import Outcome, Reply
from labask.signatures import arguments_of
from labask.worlds import ScriptLine

OPENING = ("open", "dup", "pipe")
OWN_SETS = ("exec", "cap_set_proc")


@dataclass(frozen=True)
class Later:
    """A call that is done now: its reply, and the capabilities that were made effective for it once more."""
    reply: Reply
    held: Tuple[str, ...] = ()


class Aftermath:
    """The rest of the script in a trial, right after a call passed."""

    def __init__(self, trial: Trial, line: ScriptLine, denied: Reply, found: Passing):
        self.trial, self.run, self.session = trial, trial.run, trial.session
        self.found, self.denied = found, denied
        self.held = () if line.call in OWN_SETS else found.capabilities
        self.relatives = frozenset(self.run.history.relatives(line.tag))
        self.settle(line)

    def settle(self, line: ScriptLine) -> None:
        """Gives processes the sets of the run itself; a call that sets those of the caller leaves its own."""
        history, due = self.run.history, {}
        for each in history.relatives(*self.trial.tags):
            caps = history.caps_before(each, self.denied.number)
            if caps is not None and (each != line.tag or line.call not in OWN_SETS):
                due[each] = caps
        if self.held:
            due[line.tag] += f" {','.join(self.held)}+p"
        self.session.calls([f"{each} cap_set_proc {caps_word(caps)}" for each, caps in due.items()])

    def calls(self, last: int) -> Iterator[Later]:
        """The calls up to the last which were not done in the run itself and are done now."""
        if self.run.in_step:
            self.close_new(self.found.reply)
        waiting: List[int] = []
        for number in range(self.denied.number + 1, last + 1):
            if not self.alone(number):
                waiting.append(number)
                continue
            yield from self.together(waiting)
            waiting = []
            yield from self.done_now(self.again(number), number)
        yield from self.together(waiting)

    def alone(self, number: int) -> bool:
        """Whether something is to be done before or after a call, so that it is not sent together with others."""
        line, before = self.run.world.lines_by_call[number], self.run.replies[number - 1].outcome
        if before is Outcome.DONE:
            return False
        asks = "CAPS" in arguments_of(line.call, len(line.arguments))
        holds = bool(self.held) and line.tag in self.relatives
        return holds and (asks or before is Outcome.REFUSED) or self.run.in_step and line.call in OPENING

    def together(self, numbers: Sequence[int]) -> Iterator[Later]:
        """Plays calls one behind the other, and gives those that are done now."""
        given = self.session.calls([self.run.world.lines_by_call[number].single(number) for number in numbers])
        for number, reply in zip(numbers, given):
            yield from self.done_now(Later(reply), number)

    def done_now(self, later: Later, number: int) -> Iterator[Later]:
        """A call, where it is done now and was not in the run itself."""
        if later.reply.outcome is Outcome.DONE and self.run.replies[number - 1].outcome is not Outcome.DONE:
            yield Later(replace(later.reply, number=number), later.held)

    def again(self, number: int) -> Later:
        """Plays a call with what is to be done before and after it."""
        line, before = self.run.world.lines_by_call[number], self.run.replies[number - 1]
        if "CAPS" in arguments_of(line.call, len(line.arguments)):
            self.drop(line.tag)
        text = line.single(number)
        later = Later(self.session.call(text))
        if later.reply.outcome is Outcome.DENIED and before.outcome is Outcome.REFUSED and self.held:
            later = self.by_held(line, text, later)
        if self.run.in_step and later.reply.outcome is Outcome.DONE:
            self.close_new(later.reply)
        return later

    def sets(self, tag: str) -> Sets:
        """The sets of a process; empty ones where it does not live."""
        reply = self.session.call(f"{tag} cap_get_proc")
        return read_sets(reply.words[0].text) if reply.outcome is Outcome.DONE else Sets()

    def drop(self, tag: str) -> None:
        """Takes the capabilities away that are still permitted, so that no call which asks for capabilities passes by them."""
        if self.held:
            sets = self.sets(tag)
            fewer = frozenset(self.held) - self.permitted_before(tag)
            self.set_caps(tag, Sets(sets.effective - fewer, sets.inheritable, sets.permitted - fewer))

    def permitted_before(self, tag: str) -> FrozenSet[str]:
        """What a process was permitted in the run itself when the call was denied."""
        return read_sets(self.run.history.caps_before(tag, self.denied.number) or "=").permitted

    def set_caps(self, tag: str, sets: Sets) -> bool:
        """Sets the sets of a process, and says whether that was done."""
        return self.session.call(f"{tag} cap_set_proc {caps_word(sets.written)}").outcome is Outcome.DONE

    def by_held(self, line: ScriptLine, text: str, later: Later) -> Later:
        """The call with the capabilities made effective once more, one of them or all, where the caller is still permitted them."""
        sets = self.sets(line.tag)
        for names in dict.fromkeys([*((name,) for name in self.held), self.held]):
            more = Sets(sets.effective | frozenset(names), sets.inheritable, sets.permitted)
            if not frozenset(names) <= sets.permitted or not self.set_caps(line.tag, more):
                continue
            reply = self.session.call(text)
            if line.call not in OWN_SETS or reply.outcome is not Outcome.DONE:
                self.set_caps(line.tag, sets)
            if reply.outcome is Outcome.DONE:
                return Later(reply, names)
        return later

    def close_new(self, reply: Reply) -> None:
        """Closes the descriptors that a call gives which the run itself did not get."""
        if reply.call in OPENING:
            self.session.calls([f"{reply.tag} close {word.text}" for word in reply.words])


def afterwards(trial: Trial, line: ScriptLine, denied: Reply, found: Passing, last: int) -> Dict[int, Later]:
    """The calls up to the last that are done where a denied call is done, and were not in the run itself, by their numbers."""
    return {later.reply.number: later for later in Aftermath(trial, line, denied, found).calls(last)}
