"""What is asked of a search: the first state, whose bytes are followed, and where they should get."""
import enum
import functools
from dataclasses import dataclass, field
from typing import Any, Dict, FrozenSet, List, NamedTuple, Optional, Set, Tuple

from labask.kernel.state import Kind, Label, Number, Process, State, Thing
from labask.search.classes import Classes
from labask.search.facts import Credentials, Values, credentials_of

MARK = b"\0the bytes that are followed\0"  # stands for them in the model, where no other object has it
MOST_ALIKE = 3  # objects that are alike in all but name and content of which a script uses as many


class Grain(enum.Enum):
    """How much counts as one who acts, and as one object: the coarser, the fewer there are, and the more each can."""
    CLASSES = "classes"  # all that differ in names of users, groups, categories, files and directories alone
    COARSE = "coarse"    # files and directories that are alike in all but name, in directories that are one
    FINE = "fine"        # files that are alike in all but name and content, in one directory


class Choices(NamedTuple):
    """Users, groups and labels that are asked for besides those of the first state."""
    users: FrozenSet[int] = frozenset()
    groups: FrozenSet[int] = frozenset()
    labels: FrozenSet[Label] = frozenset()


@dataclass(frozen=True)
class Problem:
    """A search: the first state, with the mark in the object FROM or with a process that knows it, and TO.

    TO is a process, or an object with the names of its path. Where `program` is given, the process is to execute it. The bytes of
    `others` count as those of FROM.
    """
    state: State
    source: Optional[Number] = None
    process: Optional[Number] = None
    thing: Optional[Number] = None
    names: Tuple[bytes, ...] = ()
    knows: Optional[Number] = None
    program: Optional[Number] = None
    choices: Choices = Choices()
    others: Tuple[Number, ...] = ()

    @functools.cached_property
    def classes(self) -> Classes:
        """The classes of the first state."""
        return Classes(self.state, self.kept, self.asked, self.others)

    @property
    def asked(self) -> Set[Number]:
        """The processes that are asked for."""
        return {number for number in (self.process, self.knows) if number is not None}

    @functools.cached_property
    def kept(self) -> Set[Number]:
        """The objects that are like no other one: those that are asked for, and the directories above them and on the path TO."""
        named = (self.source, self.thing, self.program)
        waiting = [self.state.root, *(each for each in named if each is not None)]
        here: Optional[Number] = self.state.root
        for name in self.names:
            here = self.state.names.get(here, {}).get(name) if here is not None else None
            waiting += [here] if here is not None else []
        found: Set[Number] = set()
        while waiting:
            number = waiting.pop()
            if number not in found:
                found.add(number)
                waiting += [directory for directory, _ in self.state.spots.get(number, ())]
        return found


class Made(NamedTuple):
    """What objects that a script makes are told apart by: their kind, first label, owner and group; of a pipe the family."""
    kind: Kind
    labels: FrozenSet[Label]
    owners: Values
    groups: Values
    family: int = -1


@dataclass
class Cast:
    """Who acts and on what. Processes that are alike are one family, and objects that are alike one item, as the grain says.

    What is asked for, the directories above it and those on the path TO are like no other object.
    """
    problem: Problem
    grain: Grain = Grain.FINE
    families: List[List[Number]] = field(default_factory=list)
    family_of: Dict[Number, int] = field(default_factory=dict)
    items: List[List[Number]] = field(default_factory=list)
    item_of: Dict[Number, int] = field(default_factory=dict)
    kinds: List[Kind] = field(default_factory=list)
    made: Dict[Made, int] = field(default_factory=dict)

    def __post_init__(self) -> None:
        families: Dict[Any, int] = {}
        for number, process in self.problem.state.processes.items():
            key = number if number in self.problem.asked else self.likeness_of_process(number, process)
            if key not in families:
                families[key] = len(self.families)
                self.families.append([])
            self.families[families[key]].append(number)
            self.family_of[number] = families[key]
        items: Dict[Any, int] = {}
        for number, thing in self.problem.state.things.items():
            key = number if number in self.problem.kept else self.likeness(number, thing)
            if key not in items:
                items[key] = self.new_item(thing.kind)
            self.items[items[key]].append(number)
            self.item_of[number] = items[key]

    @property
    def size(self) -> int:
        """How many families and items there are."""
        return len(self.families) + len(self.items)

    def likeness_of_process(self, number: Number, process: Process) -> Any:
        """What processes are equal in that are one family."""
        return self.problem.classes.processes[number] if self.grain is Grain.CLASSES else credentials_of(process)

    def likeness(self, number: Number, thing: Thing) -> Any:
        """What objects are equal in that are one item."""
        if self.grain is Grain.CLASSES:
            return self.problem.classes.things[number]
        if thing.kind is Kind.DIRECTORY and self.grain is Grain.FINE:
            return number
        return (self.item_of[self.problem.state.spots[number][0][0]], thing._replace(content=b""), number in self.problem.others)

    def new_item(self, kind: Kind) -> int:
        """One more item."""
        self.items.append([])
        self.kinds.append(kind)
        return len(self.items) - 1

    def made_item(self, made: Made) -> int:
        """The item of objects that a script makes."""
        if made not in self.made:
            self.made[made] = self.new_item(made.kind)
        return self.made[made]

    def first_credentials(self, family: int) -> Credentials:
        """The credentials that a family begins with."""
        first, *others = {credentials_of(self.problem.state.processes[number]): None for number in self.families[family]}
        return functools.reduce(Credentials.joined, others, first)
