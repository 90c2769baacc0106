"""What the search counts with: who acts, as whom, on what; facts about them, and the steps that make facts of others."""
from dataclasses import dataclass
from typing import Any, FrozenSet, NamedTuple, Tuple

from labask.kernel.rules import class_bits
from labask.kernel.state import Cap, Caps, Ids, Label, Process

Fact = Tuple[Any, ...]

# Facts of processes; a family is the processes of the world that are alike, with all their children.
ACTS = "acts"        # family, credentials: one of the family has them
AS = "as"            # family, view: one of the family is judged so
HOLDS = "holds"      # family, credentials: one with them has read the bytes
RAN = "ran"          # family: it has executed the program that is asked for
CWD = "cwd"          # family, directory: it is a current directory
OPENED = "opened"    # family, object, "r" or "w": a descriptor is open so
MANY = "many"        # family: it has two processes or more
UMASK = "umask"      # family: the umask is 0
# Facts of objects.
LABEL, OWNER, GROUP, MODE, CAPS = "label", "owner", "group", "mode", "caps"  # object, value
ENTRY = "entry"      # directory, object: some name of the directory leads to the object
AT = "at"            # directory, name, object: a name of the path TO leads there
FREE = "free"        # directory, name: nothing has this name of the path TO
TAINT = "taint"      # object: it has the bytes
HEARD = "heard"      # object: it is open for reading
# Facts that follow from others without a call.
IN = "in"            # family, view, directory: it may be searched
GOT = "got"          # family, view, object: a path leads there
CAN = "can"          # view, object, right
SOME = "some"        # kind of attribute, object, values: it has one of these values
FITS = "fits"        # object, directory: the label of the object dominates that of the directory
DONE = "done"        # a step was made that gives credentials
ON_PATH = "on path"  # count, directory: the first names of the path TO lead there
GOAL: Fact = ("goal",)
TRUE: Fact = ("true",)


Values = FrozenSet[int]


class Credentials(NamedTuple):
    """What a call of a process is judged by, with what it may become. Users and groups are the real, effective and saved ones.

    Each has one value; where a whole family counts as one who has all that any of it has, it has several.
    """
    labels: FrozenSet[Label]
    users: Tuple[Values, Values, Values]
    groups: Tuple[Values, Values, Values]
    others: Tuple[int, ...]
    caps: Caps

    @property
    def view(self) -> "View":
        """What a call on an object is judged by."""
        return View(self.labels, self.users[1], self.groups[1], self.others, self.caps.effective)

    def joined(self, other: "Credentials") -> "Credentials":
        """All that either has."""
        users, groups = (tuple(one | two for one, two in zip(*each)) for each in ((self.users, other.users), (self.groups, other.groups)))
        caps = Caps(*(one | two for one, two in zip(self.caps, other.caps)))
        return Credentials(self.labels | other.labels, users, groups, self.others, caps)  # type: ignore[arg-type]


class View(NamedTuple):
    """What a call of a process on an object is judged by."""
    labels: FrozenSet[Label]
    users: Values
    groups: Values
    others: Tuple[int, ...]
    effective: int

    def allows(self, mode: int, owner: int, group: int, bit: int) -> bool:
        """Whether the bits of a mode that count have this one."""
        ids = (Ids(0, user, 0, 0, effective, 0, self.others) for user in self.users for effective in self.groups)
        return any(class_bits(mode, owner, group, each) & bit for each in ids)

    def dominates(self, label: Label) -> bool:
        """Whether the label dominates another one."""
        return any(own.dominates(label) for own in self.labels)

    def fits(self, label: Label, sees: bool) -> bool:
        """Whether an object with this label may be seen, or changed."""
        return label in self.labels or (sees and self.dominates(label))


class Right(NamedTuple):
    """A right to an object: its letter, the bit of a mode, and the capability that overrides it."""
    name: str
    bit: int
    cap: int


READ = Right("read", 4, Cap.DAC_READ_SEARCH)
SEARCH = Right("search", 1, Cap.DAC_READ_SEARCH)
WRITE = Right("write", 2, Cap.DAC_WRITE)
EXECUTE = Right("execute", 1, Cap.DAC_EXECUTE)
SEE = Right("see", 0, Cap.MAC_READ)      # the label dominates
MARK = Right("mark", 0, Cap.MAC_WRITE)   # the labels are equal
OWN = Right("own", 0, Cap.FOWNER)


@dataclass(frozen=True)
class Step:
    """A call of one who acts, or what follows without one: what it needs, and what it makes. `words` name the call."""
    cost: int
    needs: Tuple[Fact, ...]
    makes: Tuple[Fact, ...]
    family: int = -1
    actor: Tuple[bool, int] = (False, -1)  # whether its number is that of a view, and else of credentials
    words: Tuple[Any, ...] = ()


def one(value: int) -> Values:
    """One value."""
    return frozenset((value,))


def credentials_of(process: Process) -> Credentials:
    """The credentials of a process."""
    ids = process.ids
    return Credentials(frozenset((process.label,)), (one(ids.ruid), one(ids.euid), one(ids.suid)),
                       (one(ids.rgid), one(ids.egid), one(ids.sgid)), ids.groups, process.caps)
