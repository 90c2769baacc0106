"""What labels see of a run. Each answer was played by `labsys view`: no label is compared here.

Which labels a label dominates is asked by a world with one process of each label and no script, of which `view` writes the end
lines of those processes that it sees. Which call crosses a label is found by views of beginnings of the script.
"""
from dataclasses import dataclass
from typing import Dict, FrozenSet, Iterator, List, Optional, Sequence, Tuple

from labask.answers import WrongWords
from labask.effort import Effort
from labask.playing import Player, PlayingFault
from labask.worlds import UTILITIES, ScriptLine, World

from .run import Call, Run


@dataclass(frozen=True)
class View:
    """What a label sees of a run: the labels that it dominates, the numbers of the calls whose replies it sees, and the call that
    crosses it, if there is one."""
    label: str
    dominated: FrozenSet[str]
    seen: Tuple[int, ...]
    crossed: Optional[int]


def label_of(tag: str) -> str:
    """The label of the number of a process or object."""
    return tag.partition("@")[2]


def named_labels(run: Run) -> List[str]:
    """The labels that the run names, each once: first those of processes, then those of the policy and of objects."""
    world = run.world
    named = [process.label for process in world.processes]
    named += [moment.label for life in run.lives.values() for moment in life.moments]
    named += list(world.policy.levels) + [each.label for each in world.objects]
    return list(dict.fromkeys(named))


def world_of_labels(world: World, labels: Sequence[str]) -> bytes:
    """The policy of a world with one process of each label, and an empty script."""
    lines = {each.line: None for each in world.objects[1:]}
    lines.update((each.line, None) for each in world.processes)
    return world.head(lines, (f'proc {label} 0 0 - "="'.encode("ascii") for label in labels))


class Ranks:
    """The order of labels, and which labels a label dominates, as `labsys` says."""

    def __init__(self, player: Player, run: Run, labels: Sequence[str]):
        tags = [line.tag for line in run.world.script] + list(run.lives)
        every = dict.fromkeys([*labels, *map(label_of, tags)])
        self.player, self.text = player, world_of_labels(run.world, list(every))
        ends = player.play_accepted(self.text).ends.values()
        self.order: Dict[str, int] = {end.label: rank for rank, end in enumerate(ends)}

    def dominated(self, label: str) -> FrozenSet[str]:
        """The labels that a label dominates."""
        view = self.player.view(label, self.text)
        if view.refusal is not None:
            raise WrongWords(f"the world has no label {label}")
        return frozenset(end.label for end in view.ends.values())


def beginning(world: World, line: ScriptLine, calls: int) -> bytes:
    """The text up to a line of the script, of which the first calls are kept."""
    words = [line.tag, line.call, *(word.written.decode("latin-1") for word in line.arguments)]
    if line.call in UTILITIES:
        words = words[: 2 + UTILITIES[line.call][1] + calls]
    return b"\n".join([*world.lines.pieces[: line.line.number - 1], " ".join(words).encode("ascii"), b""])


def view_lines(player: Player, label: str, text: bytes) -> Tuple[List[bytes], bool]:
    """The lines of replies that `view` writes, and whether a call crosses the label."""
    lines = player.view(label, text).out.split(b"\n")
    return [line for line in lines if b"@" in line.partition(b" ")[0]], b"crossed" in lines


def crosses(player: Player, run: Run, label: str, call: Call) -> bool:
    """Whether the label is crossed within the calls up to this one."""
    return view_lines(player, label, beginning(run.world, call.line, call.number - call.line.first_call + 1))[1]


def crossing_call(player: Player, run: Run, label: str, after: int) -> int:
    """The number of the call that crosses a label, after the call with a number. A call without a record crosses no label."""
    asked = [call for call in run.calls[after:] if call.records]

    first, last = 0, len(asked) - 1  # once a label is crossed, it stays so
    while first < last:
        middle = (first + last) // 2
        if crosses(player, run, label, asked[middle]):
            last = middle
        else:
            first = middle + 1
    return asked[first].number


def seen_calls(run: Run, dominated: FrozenSet[str], replies: Sequence[bytes]) -> Iterator[int]:
    """The numbers of the calls whose replies a view wrote. Its lines are compared with those of the whole run."""
    numbers = (call.number for call in run.calls if label_of(call.reply.tag) in dominated)
    lines = run.played.out.split(b"\n")
    for number, line in zip(numbers, replies):
        if lines[number - 1] != line:
            raise PlayingFault(f"the view differs from the run at call {number}")
        yield number


def view_of(player: Player, run: Run, ranks: Ranks, label: str) -> View:
    """Plays what a label sees."""
    dominated = ranks.dominated(label)
    replies, crossed = view_lines(player, label, run.world.text)
    seen = tuple(seen_calls(run, dominated, replies))
    after = seen[-1] if seen else 0
    return View(label, dominated, seen, crossing_call(player, run, label, after) if crossed else None)


def views_of(player: Player, run: Run, ranks: Ranks, labels: Sequence[str], effort: Effort) -> List[View]:
    """Plays what labels see, and gives it in the order of the labels; says how far it is where that is a terminal."""
    views: List[View] = []
    ordered = sorted(labels, key=lambda label: ranks.order.get(label, -1))
    for view in effort.results(lambda label: view_of(player, run, ranks, label), ordered):
        views.append(view)
        effort.progress(f"views: {len(views)} of {len(ordered)}")
    effort.clear()
    return views
