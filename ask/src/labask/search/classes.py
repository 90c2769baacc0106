"""Classes of processes and of objects that differ in names alone: of users, groups, categories, files and directories."""
from collections import defaultdict
from typing import Collection, DefaultDict, Dict, Hashable, List, Mapping, Set, Tuple, TypeVar

from labask.kernel.state import Label, Number, Process, State, Thing

Color = int
Key = TypeVar("Key")
Name = Tuple[str, int]  # a user, a group or a category


class Classes:
    """Colors of what is in a state, refined until things of one color have around them things of the same colors.

    What is asked for keeps a color of its own. Any classes are sound: one who acts for a class has all that any of it has.
    """

    def __init__(self, state: State, things: Set[Number], processes: Set[Number], sources: Collection[Number] = ()):
        self.state = state
        self.names: Dict[Name, Color] = defaultdict(int)
        self.things: Dict[Number, Color] = colored({
            number: (thing.kind, number if number in things else None, thing.mode, thing.caps, number in sources)
            for number, thing in state.things.items()})
        self.processes: Dict[Number, Color] = colored({number: (process.caps, process.ids.groups, number if number in processes else None)
                                                       for number, process in state.processes.items()})
        count = 0
        while count < self.count:
            count = self.count
            self.refine()

    @property
    def count(self) -> int:
        """How many colors there are."""
        return len(set(self.things.values())) + len(set(self.processes.values())) + len(set(self.names.values()))

    def refine(self) -> None:
        """Colors all once more, by the colors around."""
        there = {thing.label for thing in self.state.things.values()} | {each.label for each in self.state.processes.values()}
        labels = {label: self.label_color(label) for label in there}
        things = {number: (self.things[number], *self.around(number, thing), labels[thing.label])
                  for number, thing in self.state.things.items()}
        processes = {number: (self.processes[number], self.names["user", process.ids.ruid], self.names["group", process.ids.rgid],
                              labels[process.label]) for number, process in self.state.processes.items()}
        self.names = defaultdict(int, colored(self.holders()))
        self.things, self.processes = colored(things), colored(processes)

    def label_color(self, label: Label) -> Hashable:
        """What labels of one color are equal in."""
        return label.level, label.grade, tuple(sorted(self.names["category", each] for each in categories(label)))

    def around(self, number: Number, thing: Thing) -> Tuple[Hashable, ...]:
        """The colors of the owner, the group and the directories of an object."""
        holders = frozenset(self.things[directory] for directory, _ in self.state.spots.get(number, ()))
        return self.names["user", thing.owner], self.names["group", thing.group], holders

    def holders(self) -> Dict[Name, Hashable]:
        """For each user, group and category its color, and the colors of what has it."""
        found: DefaultDict[Name, Set[Hashable]] = defaultdict(set)
        for number, thing in self.state.things.items():
            for name in (("user", thing.owner), ("group", thing.group), *category_names(thing.label)):
                found[name].add(("thing", self.things[number]))
        for number, process in self.state.processes.items():
            for name in names_of(process):
                found[name].add(("process", self.processes[number]))
        return {name: (name[0], self.names[name], frozenset(colors)) for name, colors in found.items()}


def categories(label: Label) -> List[int]:
    """The places of the categories of a label."""
    return [place for place in range(label.categories.bit_length()) if label.categories >> place & 1]


def category_names(label: Label) -> List[Name]:
    """The categories of a label as names."""
    return [("category", place) for place in categories(label)]


def names_of(process: Process) -> List[Name]:
    """The names that a process has."""
    groups = [("group", group) for group in process.ids.groups]
    return [("user", process.ids.ruid), ("group", process.ids.rgid), *groups, *category_names(process.label)]


def colored(keys: Mapping[Key, Hashable]) -> Dict[Key, Color]:
    """A color for each, the same where the keys are equal."""
    colors: Dict[Hashable, Color] = {}
    return {each: colors.setdefault(key, len(colors)) for each, key in keys.items()}
