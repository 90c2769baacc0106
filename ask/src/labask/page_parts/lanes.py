"""The lanes of a page: which column each process has, and from which call to which call its line goes."""
import enum
from bisect import bisect_right
from dataclasses import dataclass
from functools import cached_property
from typing import Dict, FrozenSet, Iterator, List, Mapping, Optional, Set, Tuple

from .run import Call, Run
from .views import label_of

MOST_LANES = 32
MOST_PATTERNS = 300
NEVER = 1 << 62


class LaneKind(enum.Enum):
    """What a lane is: a process; a label, where too many processes call; there are none where too many labels have processes."""
    PROCESS = "process"
    LABEL = "label"
    NONE = "none"


@dataclass(frozen=True)
class Lanes:
    """The lanes from left to right: `names` has their tags or labels, and `spans` for each lane the call after which its line
    begins, and the call at which it ends. A lane of a number that no process has, has no line."""
    kind: LaneKind
    names: Tuple[str, ...]
    spans: Tuple[Tuple[int, int], ...]

    @cached_property
    def _index(self) -> Dict[str, int]:
        return {name: index for index, name in enumerate(self.names)}

    def of(self, tag: str) -> Optional[int]:
        """The lane of a process, from 0."""
        return self._index.get(tag if self.kind is LaneKind.PROCESS else label_of(tag))


def acting(run: Run) -> List[str]:
    """The tags of the processes that call, are forked or end."""
    tags = dict.fromkeys(line.tag for line in run.world.script)
    for life in run.lives.values():
        tags.update(dict.fromkeys([life.tag] if life.parent or life.ended else []))
        tags.update(dict.fromkeys(life.children))
    return list(tags)


def span_of(run: Run, tag: str) -> Tuple[int, int]:
    """After which call the line of a process begins, and at which call it ends."""
    life = run.lives.get(tag)
    if life is None:
        return NEVER, NEVER
    return life.moments[0].call, life.ended[0] if life.ended else NEVER


def make_lanes(run: Run, order: Mapping[str, int], most: int = MOST_LANES) -> Lanes:
    """The lanes of a run, so many at most; `order` has the places of labels."""
    tags = sorted(acting(run), key=lambda tag: (order.get(label_of(tag), -1), int(tag.partition("@")[0])))
    labels = list(dict.fromkeys(map(label_of, tags)))
    if len(tags) <= most:
        return Lanes(LaneKind.PROCESS, tuple(tags), tuple(span_of(run, tag) for tag in tags))
    if len(labels) <= most:
        return Lanes(LaneKind.LABEL, tuple(labels), tuple((0, NEVER) for _ in labels))
    return Lanes(LaneKind.NONE, (), ())


@dataclass(frozen=True)
class Patterns:
    """Which lanes have a line at a call: the sets of such lanes, each once, and from which call on which of them holds."""
    sets: Tuple[FrozenSet[int], ...]
    starts: Tuple[int, ...]
    which: Tuple[int, ...]

    def at(self, call: int) -> int:
        """The number of the set that holds at a call."""
        return self.which[bisect_right(self.starts, call) - 1]


def make_patterns(lanes: Lanes) -> Patterns:
    """The patterns of lanes. Where there are too many, each line goes through the whole run."""
    changes: Dict[int, List[Tuple[int, bool]]] = {0: []}
    for lane, (begin, end) in enumerate(lanes.spans):
        if begin < NEVER:
            changes.setdefault(begin + 1 if begin else 0, []).append((lane, True))
            changes.setdefault(end + 1, []).append((lane, False))
    sets: Dict[FrozenSet[int], int] = {}
    starts: List[int] = []
    which: List[int] = []
    present: Set[int] = set()
    for call in sorted(changes):
        for lane, alive in changes[call]:
            (present.add if alive else present.discard)(lane)
        starts.append(call)
        which.append(sets.setdefault(frozenset(present), len(sets)))
    if len(sets) > MOST_PATTERNS:
        return Patterns((frozenset(range(len(lanes.names))),), (0,), (0,))
    return Patterns(tuple(sets), tuple(starts), tuple(which))


def stretches(present: FrozenSet[int]) -> Iterator[Tuple[int, int]]:
    """The first lane and the length of each stretch of neighbouring lanes of a set."""
    starts = (lane for lane in sorted(present) if lane - 1 not in present)
    ends = (lane for lane in sorted(present) if lane + 1 not in present)
    return ((first, last - first + 1) for first, last in zip(starts, ends))


def pattern_rules(patterns: Patterns, letter: str, cell: str) -> Iterator[str]:
    """The rules of the style sheet that draw the lines of each pattern in the cells that a selector names."""
    for number, present in enumerate(patterns.sets):
        layers = list(stretches(present))
        if layers:
            images = ",".join("var(--line)" for _ in layers)
            places = ",".join(f"calc({first}*var(--w)) 0" for first, _ in layers)
            sizes = ",".join(f"calc({length}*var(--w)) 100%" for _, length in layers)
            yield f".{letter}{number} {cell}{{background-image:{images};background-position:{places};background-size:{sizes}}}"


def connector(lanes: Lanes, call: Call) -> Optional[Tuple[int, int]]:
    """The lanes that a call connects, from left to right: a parent and its child, or a process and the one that it ends."""
    if lanes.kind is not LaneKind.PROCESS:
        return None
    own = lanes.of(call.reply.tag)
    for record in call.records:
        other = {"fork": record.members.get("child"), "exit": record.members["pid"]}.get(record.event)
        lane = lanes.of(other) if other else None
        if own is not None and lane is not None and lane != own:
            return min(own, lane), max(own, lane)
    return None
