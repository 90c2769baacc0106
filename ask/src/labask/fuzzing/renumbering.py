"""Some lines of a script alone, with the numbers of the processes and descriptors that they get then."""
from dataclasses import dataclass, field, replace
from typing import Any, Dict, List, Sequence, Tuple

from labask.fuzzing.draft import Draft
from labask.kernel.calls import Call, play
from labask.kernel.state import Labels, Number, State, first_state
from labask.kernel.texts import call_text, read_call
from labask.signatures import arguments_of
from labask.worlds import World, read_world

GIVING = ("open", "dup", "pipe")  # calls that give descriptors
Origin = Tuple[int, int]  # the call that gave a descriptor or a process, and which of its answers that was


@dataclass
class Run:
    """A run of a script in the model, which knows what gave each process and each descriptor."""
    state: State
    processes: Dict[Number, Origin] = field(default_factory=dict)
    descriptors: Dict[Tuple[Number, int], Origin] = field(default_factory=dict)

    @classmethod
    def of(cls, world: World, labels: Labels) -> "Run":
        """One at the begin of a world; its processes come of no call."""
        state = first_state(world, labels)
        return cls(state, {number: (-1, place) for place, number in enumerate(state.processes)})

    def play(self, at: int, who: Number, call: Call) -> None:
        """Plays a call, which has a number."""
        self.state, reply = play(self.state, who, call)
        if reply.done and call.name in GIVING:
            self.descriptors.update({(who, fd): (at, place) for place, fd in enumerate(reply.answer)})
        if reply.done and call.name == "fork":
            child = reply.answer[0]
            self.processes[child] = (at, 0)
            self.descriptors.update({(child, fd): origin for (holder, fd), origin in self.descriptors.items() if holder == who})

    def process(self, old: "Run", number: Number) -> Number:
        """The process here that an old run had with a number."""
        origin = old.processes.get(number)
        return next((here for here, its in self.processes.items() if its == origin), number)

    def argument(self, old: "Run", who: Tuple[Number, Number], name: str, value: Any) -> Any:
        """An argument here that an old run had; `who` has the caller there and the one here."""
        if name == "PID":
            return self.process(old, value)
        if name != "FD":
            return value
        origin = old.descriptors.get((who[0], value))
        return next((fd for (holder, fd), its in self.descriptors.items() if holder == who[1] and its == origin), value)


def only(draft: Draft, kept: Sequence[int]) -> Draft:
    """A draft with these lines of its script, which name the same processes and descriptors by the numbers that they have now."""
    world = read_world(draft.text)
    labels = Labels(world.policy)
    old, new, lines = Run.of(world, labels), Run.of(world, labels), []
    for at, line in enumerate(world.script):
        who, call = labels.number(line.tag), read_call(line.call, line.arguments, labels)
        if at in kept:
            lines.append(renumbered(old, new, at, who, call, labels))
        old.play(at, who, call)
    return replace(draft, script=tuple(lines))


def renumbered(old: Run, new: Run, at: int, who: Number, call: Call, labels: Labels) -> str:
    """A line of an old run as a new one has it, where it is played."""
    here = new.process(old, who)
    names: List[str] = arguments_of(call.name, len(call.arguments))
    call = call._replace(arguments=tuple(new.argument(old, (who, here), *each) for each in zip(names, call.arguments)))
    new.play(at, here, call)
    return f"{labels.number_text(here)} {call_text(call, labels)}"
