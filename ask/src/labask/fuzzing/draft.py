"""A world with its script as lines, of which parts are taken away or replaced, and the numbers of processes where some are."""
from dataclasses import dataclass, replace
from typing import Dict, Optional, Sequence, Tuple

from labask.worlds import Policy, World, WorldObject, WorldProcess


@dataclass(frozen=True)
class Draft:
    """A world with its script, of which parts are taken away."""
    policy: Policy
    bound: str
    objects: Tuple[WorldObject, ...]
    processes: Tuple[WorldProcess, ...]
    script: Tuple[str, ...]

    @classmethod
    def of(cls, world: World) -> "Draft":
        """That of a world, with a line for each call of a utility."""
        script = tuple(line.single(number) for number, line in world.lines_by_call.items())
        return cls(world.policy, world.bound, world.objects, world.processes, script)

    @property
    def text(self) -> bytes:
        """The text of the world with its script."""
        lines = ["world 2", " ".join(("levels", *self.policy.levels)), " ".join(("categories", *self.policy.categories))]
        lines += [" ".join(("grades", *self.policy.grades))] if self.policy.grades else []
        things = [each.written.decode("ascii") for each in self.objects] + [each.written.decode("ascii") for each in self.processes]
        return ("\n".join([*lines, f"bound {self.bound}", *things, "script", *self.script]) + "\n").encode("latin-1")

    @property
    def bottom(self) -> str:
        """The lowest label."""
        return self.policy.levels[0]

    def without_level(self, directory: bytes) -> "Draft":
        """Without a directory: what is in it stands in the directory above, also in the script."""
        prefix, above = directory + b"/", directory.rpartition(b"/")[0] + b"/"
        moved = (replace(each, path=above + each.path[len(prefix):]) if each.path.startswith(prefix) else each
                 for each in self.objects if each.path != directory)
        old, new = prefix.decode("latin-1"), above.decode("latin-1")
        script = (" ".join(new + word[len(old):] if word.startswith(old) else word for word in line.split(" ")) for line in self.script)
        return replace(self, objects=tuple(moved), script=tuple(script))

    def with_processes(self, new: Sequence[Optional[WorldProcess]]) -> "Draft":
        """With other processes at the places of those that there are, or none; the script has the numbers that they get."""
        names = Renaming(self.processes, new)
        return replace(self, processes=tuple(each for each in new if each is not None), script=tuple(map(names.line, self.script)))


class Renaming:
    """The numbers of processes where others stand at their places. A child keeps its place behind those of the world."""

    def __init__(self, old: Sequence[WorldProcess], new: Sequence[Optional[WorldProcess]]):
        self.tags: Dict[str, str] = {}
        self.before: Dict[str, int] = {}
        self.after: Dict[str, int] = {}
        for one, other in zip(old, new):
            self.before[one.label] = self.before.get(one.label, 0) + 1
            if other is not None:
                self.after[other.label] = self.after.get(other.label, 0) + 1
                self.tags[f"{self.before[one.label]}@{one.label}"] = f"{self.after[other.label]}@{other.label}"

    def tag(self, tag: str) -> str:
        """The number of a process."""
        number, at, label = tag.partition("@")
        if tag in self.tags or not at or not number.isdigit() or int(number) <= self.before.get(label, 0):
            return self.tags.get(tag, tag)
        return f"{max(1, int(number) - self.before.get(label, 0) + self.after.get(label, 0))}@{label}"

    def line(self, line: str) -> str:
        """A line of the script."""
        words = line.split(" ")
        words[0] = self.tag(words[0])
        if words[1] == "kill":
            words[2] = self.tag(words[2])
        return " ".join(words)
