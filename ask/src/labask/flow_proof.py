"""What `labsys never` says of pairs of `flow`: that no script at all brings the bytes there, or what stands in the way of that answer.

A label that nothing crosses sees the same whatever stands above or beside it. So no bytes get from an object that it does not dominate
to a process that it dominates, nor to an object, unless another object comes to be at the path of this one.
"""
from dataclasses import dataclass
from typing import FrozenSet, Iterator, List, Optional, Sequence, Tuple, Union

from labask.capability_texts import named, read_sets
from labask.exec_formula import in_order
from labask.kernel.state import Labels
from labask.proved import Proved
from labask.worlds import World, WorldObject, WorldProcess, parent_path, path_word

UPWARD = frozenset(["cap_mac_read", "cap_mac_upgrade"])  # which tell a label nothing where they are had strictly above it alone


@dataclass(frozen=True)
class Proof:
    """What is said of a pair: the label by which it is proved, or None, and what stands in the way, where labels alone forbid a flow."""
    label: Optional[str] = None
    obstacles: Tuple[str, ...] = ()


def gives(program: WorldObject, process: WorldProcess, bound: FrozenSet[str]) -> FrozenSet[str]:
    """What a program gives to a process of the world by the formula of `exec`."""
    file = read_sets(program.caps or "=")
    return file.permitted & bound | file.inheritable & read_sets(process.caps).inheritable


class Proofs:
    """What is proved of a world, asked for pairs of an object and a process or another object."""

    def __init__(self, world: World, found: Proved):
        self.world, self.found, self.labels = world, found, Labels(world.policy)

    def of(self, source: bytes, goal: Union[str, bytes]) -> Proof:
        """What is said of the bytes of the object at a path, and a process by its tag or another object by its path."""
        above = self.world.objects_by_path[source].label
        label = self.world.processes_by_tag[goal].label if isinstance(goal, str) else self.world.objects_by_path[goal].label
        if self.dominates(label, above):
            return Proof()
        between = [each for each in self.uncrossed(label) if not self.dominates(each, above)]
        proving = next((each for each in between if isinstance(goal, str) or self.stays(goal, each)), None)
        if proving is not None:
            return Proof(proving)
        return Proof(None, ("another object may come to be at the path of TO",) if between else tuple(self.obstacles(label)))

    def dominates(self, label: str, other: str) -> bool:
        """Whether a label dominates another one."""
        return self.labels.read(label).dominates(self.labels.read(other))

    def uncrossed(self, label: str) -> List[str]:
        """The labels that nothing crosses, of those that dominate this one, itself first."""
        if self.found.confined:
            return [label]
        return sorted((each for each in self.found.uncrossed if self.dominates(each, label)), key=lambda each: each != label)

    def stays(self, path: bytes, label: str) -> bool:
        """Whether only objects that a label dominates ever are at a path, where nothing crosses this label.

        An object that it does not dominate keeps its name in a directory that it dominates, since moving an object writes both, and
        labels are not equal there. It comes to another path only with such a directory, which is moved itself.
        """
        names = path.strip(b"/").split(b"/")[1:]
        above = (each.path for each in self.world.objects if not self.dominates(label, each.label))
        return not any(path.rpartition(b"/")[2] in names and self.dominates(label, self.world.objects_by_path[parent_path(path)].label)
                       for path in above)

    def obstacles(self, label: str) -> Iterator[str]:
        """Who holds and which program gives what may cross a label."""
        own_caps = ((tag, names, self.above(self.world.processes_by_tag[tag].label, label)) for tag, names in self.found.holds)
        held = [(tag, names - (UPWARD if above else frozenset())) for tag, names, above in own_caps]
        yield from (f"{tag} holds {','.join(in_order(names))}" for tag, names in held if names)
        given = [(path.encode("latin-1"), names) for path, names in self.found.gives]
        for path, names in ((path, names - UPWARD | names & self.given_beside(path, label)) for path, names in given):
            if names:
                yield f"{path_word(path)} gives {','.join(in_order(names))}"
        if label not in (*self.found.uncrossed, *self.found.open):
            yield f"no process has the label {label}"

    def above(self, label: str, other: str) -> bool:
        """Whether a label is strictly above another one."""
        return self.dominates(label, other) and not self.dominates(other, label)

    def given_beside(self, path: bytes, label: str) -> FrozenSet[str]:
        """What a program gives to those processes that may read it and whose labels are not strictly above a label."""
        program, bound = self.world.objects_by_path[path], named(self.world.bound)
        takers = (each for each in self.world.processes
                  if self.dominates(each.label, program.label) and not self.above(each.label, label))
        return frozenset().union(*(gives(program, each, bound) for each in takers))


def in_the_way(proofs: Sequence[Proof]) -> List[str]:
    """What stands in the way of a proof, as a line; no line where nothing does."""
    found = dict.fromkeys(text for proof in proofs for text in proof.obstacles)
    return ["`labsys never` does not rule it out: " + "; ".join(found) + "."] if found else []
