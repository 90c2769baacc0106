"""States of the model: labels, objects, processes, open descriptions, and the first state of a world."""
import enum
from typing import Dict, List, NamedTuple, Optional, Sequence, Tuple

from labask.capability_texts import Sets, read_sets
from labask.signatures import CAPABILITIES
from labask.worlds import Policy, World, WorldObject, WorldProcess

HIGHEST_GRADE = 15
UMASK = 0o022


class Label(NamedTuple):
    """A label: its level, its categories as bits, and its grade, 15 for the highest."""
    level: int
    categories: int
    grade: int

    def dominates(self, other: "Label") -> bool:
        """Whether this label dominates another one."""
        return (self.level >= other.level and self.categories | other.categories == self.categories
                and self.grade <= other.grade)


class Number(NamedTuple):
    """The number of a process, an object or a description: n@label."""
    n: int
    label: Label


class Kind(enum.Enum):
    """The kinds of objects."""
    DIRECTORY = "dir"
    FILE = "file"
    FIFO = "fifo"
    PIPE = "pipe"

    @property
    def stream(self) -> bool:
        """Whether bytes come out in order, and go."""
        return self in (Kind.FIFO, Kind.PIPE)


class Cap:
    """The bits of capabilities in a set. They are plain numbers, since a set is asked millions of times."""
    CHOWN = 1 << 0
    DAC_EXECUTE = 1 << 1
    DAC_READ_SEARCH = 1 << 2
    DAC_WRITE = 1 << 3
    FOWNER = 1 << 4
    FSETID = 1 << 5
    KILL = 1 << 6
    LINK_DIR = 1 << 7
    SETFCAP = 1 << 8
    SETGID = 1 << 9
    SETUID = 1 << 10
    MAC_DOWNGRADE = 1 << 11
    MAC_READ = 1 << 12
    MAC_RELABEL_SUBJ = 1 << 13
    MAC_UPGRADE = 1 << 14
    MAC_WRITE = 1 << 15
    AUDIT_CONTROL = 1 << 16
    AUDIT_WRITE = 1 << 17


class Caps(NamedTuple):
    """The three sets of a process, or those by which the sets of a file are set and shown; each set is bits of `Cap`."""
    effective: int
    permitted: int
    inheritable: int


NO_CAPS = Caps(0, 0, 0)


class Thing(NamedTuple):
    """An object. The content of a directory is in `State.names`; `caps` has the shown sets of a file."""
    kind: Kind
    label: Label
    owner: int
    group: int
    mode: int
    caps: Caps = NO_CAPS
    content: bytes = b""


class Ids(NamedTuple):
    """Real, effective and saved user and group, and the supplementary groups."""
    ruid: int
    euid: int
    suid: int
    rgid: int
    egid: int
    sgid: int
    groups: Tuple[int, ...]

    def member(self, group: int) -> bool:
        """Whether a group is the effective or a supplementary one."""
        return group == self.egid or group in self.groups


class Process(NamedTuple):
    """A living process. `descriptors` has pairs of a descriptor and the number of its description, in order."""
    ids: Ids
    label: Label
    caps: Caps
    cwd: Number
    umask: int = UMASK
    audited: bool = True
    parent: Optional[Number] = None
    ended: Tuple[Tuple[Number, str], ...] = ()
    descriptors: Tuple[Tuple[int, Number], ...] = ()

    def has(self, cap: int) -> bool:
        """Whether a capability is effective."""
        return bool(self.caps.effective & cap)


class Description(NamedTuple):
    """An open description."""
    thing: Number
    reads: bool
    writes: bool
    appends: bool = False
    offset: int = 0


Spot = Tuple[Number, bytes]


class State:
    """A state of the kernel; its parts are not changed but replaced."""
    __slots__ = ("things", "names", "spots", "processes", "descriptions", "drawn", "bound", "top", "root")

    def __init__(self, bound: int, top: Label, root: Number):
        self.things: Dict[Number, Thing] = {}
        self.names: Dict[Number, Dict[bytes, Number]] = {}
        self.spots: Dict[Number, Tuple[Spot, ...]] = {}
        self.processes: Dict[Number, Process] = {}
        self.descriptions: Dict[Number, Description] = {}
        self.drawn: Dict[Tuple[str, Label], int] = {}
        self.bound, self.top, self.root = bound, top, root

    def draw(self, what: str, label: Label) -> Number:
        """The next number of a label."""
        self.drawn = {**self.drawn, (what, label): self.last(what, label) + 1}
        return Number(self.drawn[what, label], label)

    def last(self, what: str, label: Label) -> int:
        """The last number that was drawn of a label."""
        return self.drawn.get((what, label), 0)

    def copy(self) -> "State":
        """The same state, of which parts can be replaced."""
        other = State.__new__(State)
        for name in State.__slots__:
            setattr(other, name, getattr(self, name))
        return other

    def put(self, number: Number, thing: Thing) -> None:
        """Sets an object."""
        self.things = {**self.things, number: thing}

    def enter(self, spot: Spot, number: Number) -> None:
        """Sets an entry of a directory."""
        self.names = {**self.names, spot[0]: {**self.names.get(spot[0], {}), spot[1]: number}}
        self.spots = {**self.spots, number: (*self.spots.get(number, ()), spot)}

    def leave(self, spot: Spot) -> None:
        """Takes an entry of a directory away."""
        names = dict(self.names[spot[0]])
        number = names.pop(spot[1])
        self.names = {**self.names, spot[0]: names}
        self.spots = {**self.spots, number: tuple(each for each in self.spots[number] if each != spot)}

    def set_process(self, number: Number, process: Process) -> None:
        """Sets a process."""
        self.processes = {**self.processes, number: process}

    def set_description(self, number: Number, description: Description) -> None:
        """Sets an open description."""
        self.descriptions = {**self.descriptions, number: description}


# ---- texts

def bits_of(names: Sequence[str]) -> int:
    """The bits of capabilities with these names."""
    return sum(1 << CAPABILITIES.index(name) for name in names)


def names_of(bits: int) -> List[str]:
    """The names of the capabilities of a set."""
    return [name for place, name in enumerate(CAPABILITIES) if bits >> place & 1]


def read_caps(text: str) -> Caps:
    """The sets of a capability text."""
    sets = read_sets(text)
    return Caps(*(bits_of(sorted(each)) for each in (sets.effective, sets.permitted, sets.inheritable)))


def caps_text(caps: Caps) -> str:
    """The canonical text of three sets."""
    effective, permitted, inheritable = (frozenset(names_of(bits)) for bits in caps)
    return Sets(effective, inheritable, permitted).written


def read_bound(text: str) -> int:
    """The set of a set text."""
    names = text.lower().split(",")
    if "all" in names:
        return (1 << len(CAPABILITIES)) - 1
    return 0 if text.lower() == "none" else bits_of(sorted(set(names)))


class Labels:
    """Reads and writes the labels of a policy."""

    def __init__(self, policy: Policy):
        self.policy = policy
        self.known: Dict[str, Label] = {}
        self.texts: Dict[Label, str] = {}

    @property
    def bottom(self) -> Label:
        """The lowest label."""
        return Label(0, 0, HIGHEST_GRADE)

    @property
    def top(self) -> Label:
        """The label that dominates all others."""
        grades = len(self.policy.grades)
        return Label(len(self.policy.levels) - 1, (1 << len(self.policy.categories)) - 1, HIGHEST_GRADE - max(0, grades - 1))

    def read(self, text: str) -> Label:
        """The label of a text."""
        if text not in self.known:
            rest, slash, grade = text.partition("/")
            level, _, names = rest.partition(":")
            held = set(names.split(",")) if names else set()
            bits = sum(1 << self.policy.categories.index(name) for name in held)
            above = len(self.policy.grades) - 1 - self.policy.grades.index(grade) if slash else 0
            self.known[text] = Label(self.policy.levels.index(level), bits, HIGHEST_GRADE - above)
        return self.known[text]

    def text(self, label: Label) -> str:
        """The canonical text of a label."""
        if label not in self.texts:
            names = [name for place, name in enumerate(self.policy.categories) if label.categories >> place & 1]
            grade = "" if label.grade == HIGHEST_GRADE else "/" + self.policy.grades[label.grade - HIGHEST_GRADE - 1]
            self.texts[label] = self.policy.levels[label.level] + (":" + ",".join(names) if names else "") + grade
        return self.texts[label]

    def number(self, text: str) -> Number:
        """The number of a text n@label."""
        n, _, label = text.partition("@")
        return Number(int(n), self.read(label))

    def number_text(self, number: Number) -> str:
        """The text n@label of a number."""
        return f"{number.n}@{self.text(number.label)}"


# ---- the first state

def thing_of(line: WorldObject, labels: Labels) -> Thing:
    """The object of a line of a world."""
    caps = read_caps(line.caps) if line.caps is not None else NO_CAPS
    return Thing(Kind(line.kind.value), labels.read(line.label), line.owner, line.group, line.mode, caps, line.content)


def process_of(line: WorldProcess, labels: Labels, root: Number) -> Process:
    """The process of a line of a world."""
    ids = Ids(line.user, line.user, line.user, line.group, line.group, line.group, line.groups)
    return Process(ids, labels.read(line.label), read_caps(line.caps), root)


def first_state(world: World, labels: Labels) -> State:
    """The first state of a world that `labsys` accepts."""
    root = labels.number(world.objects[0].number)
    state = State(read_bound(world.bound), labels.top, root)
    by_path: Dict[bytes, Number] = {}
    for line in world.objects:
        number = by_path[line.path] = labels.number(line.number)
        state.things[number] = thing_of(line, labels)
        state.drawn["object", number.label] = number.n
        directory, _, name = line.path.rpartition(b"/")
        if number != root:
            spot = (by_path[directory or b"/"], name)
            state.names.setdefault(spot[0], {})[name] = number
            state.spots[number] = (spot,)
    for one in world.processes:
        number = labels.number(one.tag)
        state.processes[number] = process_of(one, labels, root)
        state.drawn["process", number.label] = number.n
    return state
