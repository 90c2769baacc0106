"""What a script of done calls makes of names: which path leads to which object, and the descriptors and directories of processes.

No rule of the kernel is here: whether a call is done, `labsys` says. Only what a done call does to names is followed.
"""
import weakref
from dataclasses import dataclass, replace
from functools import cached_property
from typing import Dict, FrozenSet, Iterator, List, Mapping, MutableMapping, NamedTuple, Optional, Sequence, Tuple

from exhaustive.random_worlds import RandomWorld

ROOT = 0
Entries = Mapping[int, Mapping[str, int]]


def names_of(path: str) -> List[str]:
    """The names of a path."""
    return [name for name in path.split("/") if name]


class Walk(NamedTuple):
    """What a path leads through: the objects at its places as far as they are there, and its names.

    `found` is the object that the path leads to, and `holder` the directory in which the last name is, or would be.
    """
    places: Tuple[int, ...]
    names: Tuple[str, ...]
    found: Optional[int]
    holder: Optional[int]


class Tree:
    """The entries of all directories, by the numbers of objects; `kinds` has the kind of each object.

    `family` has the trees of a search that are in use; the other maps keep what was found out, until `forget` is called.
    """

    def __init__(self, kinds: Tuple[str, ...], entries: Entries, family: Optional[MutableMapping[object, "Tree"]] = None):
        self.kinds, self.entries = kinds, entries
        self.family: MutableMapping[object, "Tree"] = weakref.WeakValueDictionary() if family is None else family
        self.walks: Dict[Tuple[int, str], Walk] = {}
        self.next: Dict[object, "Tree"] = {}
        self.cells: Dict[object, FrozenSet[Tuple[object, ...]]] = {}

    def forget(self) -> None:
        """Forgets what is only kept so that it is not found out twice."""
        for kept in (self.walks, self.next, self.cells):
            kept.clear()

    def walk(self, start: int, path: str) -> Walk:
        """The walk of a path: from the root where it is absolute, else from a directory."""
        key = (ROOT if path.startswith("/") else start, path)
        if key not in self.walks:
            self.walks[key] = self.walk_anew(*key)
        return self.walks[key]

    def walk_anew(self, start: int, path: str) -> Walk:
        """As `walk`, for a path that was not walked before."""
        places, names = [start], names_of(path)
        for name in names:
            inside = self.entries.get(places[-1], {})
            if name not in inside:
                break
            places.append(inside[name])
        count = len(names)
        found = places[-1] if len(places) > count else None
        return Walk(tuple(places), tuple(names), found, places[count - 1] if names and len(places) >= count else None)

    def below(self, directory: int, prefix: str) -> Iterator[Tuple[str, int]]:
        """The paths of all objects below a directory."""
        for name, number in self.entries.get(directory, {}).items():
            yield prefix + name, number
            yield from self.below(number, f"{prefix}{name}/")

    @cached_property
    def paths(self) -> List[Tuple[str, int]]:
        """The absolute paths of all objects but the root."""
        return list(self.below(ROOT, "/"))

    @cached_property
    def holders(self) -> Dict[int, List[int]]:
        """The directories that hold each object."""
        found: Dict[int, List[int]] = {}
        for directory, inside in self.entries.items():
            for number in inside.values():
                found.setdefault(number, []).append(directory)
        return found

    @cached_property
    def key(self) -> Tuple[Tuple[int, str, int], ...]:
        """A value that is the same for trees with the same entries."""
        return tuple(sorted((directory, name, number) for directory, inside in self.entries.items() for name, number in inside.items()))

    def changed(self, changes: Sequence[Tuple[int, str, Optional[int]]], made: Tuple[str, ...] = ()) -> "Tree":
        """The tree with other entries; one that leads to None is removed."""
        wanted = (tuple(changes), made)
        if wanted not in self.next:
            tree = self.changed_anew(changes, made)
            self.next[wanted] = self.family.setdefault((tree.key, tree.kinds), tree)
        return self.next[wanted]

    def changed_anew(self, changes: Sequence[Tuple[int, str, Optional[int]]], made: Tuple[str, ...]) -> "Tree":
        """As `changed`, for changes that were not asked for before."""
        entries = {directory: dict(inside) for directory, inside in self.entries.items()}
        for directory, name, number in changes:
            inside = entries.setdefault(directory, {})
            inside.pop(name, None)
            if number is not None:
                inside[name] = number
        return Tree(self.kinds + made, entries, self.family)


@dataclass(frozen=True)
class State:
    """What is followed after a script: the tree, and of each process its current directory, descriptors, sets and label."""
    tree: Tree
    directories: Tuple[int, ...]
    descriptors: Tuple[Tuple[int, ...], ...]
    caps: Tuple[str, ...]
    labels: Tuple[str, ...]
    parents: Tuple[int, ...]
    overwritten: FrozenSet[int] = frozenset()

    def with_actor(self, actor: int, **values: object) -> "State":
        """The state in which a process has other values."""
        changed = {name: (*getattr(self, name)[:actor], value, *getattr(self, name)[actor + 1:]) for name, value in values.items()}
        return replace(self, **changed)


def first_state(world: RandomWorld) -> State:
    """The state before the first call."""
    numbers = {"": ROOT}
    entries: Dict[int, Dict[str, int]] = {}
    for number, each in enumerate(world.objects):
        if number:
            parent, _, name = each.path.rpartition("/")
            entries.setdefault(numbers[parent], {})[name] = number
            numbers[each.path] = number
    count = len(world.processes)
    tree = Tree(tuple(each.kind for each in world.objects), entries)
    tree.family[tree.key, tree.kinds] = tree
    return State(tree, (ROOT,) * count, ((),) * count, tuple(each.caps for each in world.processes),
                 tuple(each.label for each in world.processes), tuple(range(count)))
