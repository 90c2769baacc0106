"""Random worlds: up to 12 objects, 4 processes and 3 labels, with capabilities, set-id bits and closed directories."""
import random
from dataclasses import dataclass
from typing import Dict, List, Tuple

from labask.signatures import CAPABILITIES

USERS = (10, 20, 30)
GROUPS = (10, 20, 30)
# the lines of levels and categories, and three labels of which the first is the lowest
POLICIES = (
    ("lo hi", "a b", ("lo", "lo:a", "lo:b")),
    ("lo hi", "a", ("lo", "hi", "lo:a")),
    ("lo mid hi", "", ("lo", "mid", "hi")),
    ("lo hi", "a b", ("lo", "lo:a", "hi:b")),
    ("lo hi", "a", ("lo", "hi", "hi:a")),
    ("lo hi", "", ("lo", "hi", "hi")),
)
DIRECTORY_MODES = (0o777, 0o777, 0o775, 0o755, 0o755, 0o750, 0o700, 0o711, 0o070)
FILE_MODES = (0o666, 0o644, 0o640, 0o600, 0o755, 0o750, 0o700, 0o000, 0o060)
SET_ID = (0o4000, 0o2000, 0o6000)


@dataclass(frozen=True)
class Thing:
    """An object of a world; `content` and `caps` are those of a file."""
    kind: str
    path: str
    mode: int
    owner: int
    group: int
    label: str
    content: str = ""
    caps: str = ""


@dataclass(frozen=True)
class Actor:
    """A process of a world."""
    label: str
    user: int
    group: int
    groups: Tuple[int, ...]
    caps: str


@dataclass(frozen=True)
class RandomWorld:
    """A world: the lines before its objects, its objects with the root first, its processes, and all of its labels."""
    policy: Tuple[str, ...]
    objects: Tuple[Thing, ...]
    processes: Tuple[Actor, ...]
    labels: Tuple[str, ...]

    @property
    def head(self) -> str:
        """The text of the world up to the line `script`."""
        return "\n".join([*self.policy, *(object_line(each, "") for each in self.objects), *map(process_line, self.processes),
                          "script", ""])

    @property
    def tags(self) -> List[str]:
        """The tags of the processes."""
        drawn: Dict[str, int] = {}
        found = []
        for each in self.processes:
            drawn[each.label] = drawn.get(each.label, 0) + 1
            found.append(f"{drawn[each.label]}@{each.label}")
        return found


def object_line(thing: Thing, below: str) -> str:
    """The line of an object whose path stands below a directory."""
    path = below + thing.path if below + thing.path == "/" else (below + thing.path).rstrip("/")
    words = f"{thing.kind} {path} {thing.mode:04o} {thing.owner} {thing.group} {thing.label}"
    caps = f' "{thing.caps}"' if thing.caps else ""
    return f'{words} "{thing.content}"{caps}' if thing.kind == "file" else words


def process_line(process: Actor) -> str:
    """The line of a process."""
    groups = ",".join(map(str, process.groups)) or "-"
    return f'proc {process.label} {process.user} {process.group} {groups} "{process.caps}"'


def dominates(one: str, other: str, levels: List[str]) -> bool:
    """Whether a label without grade dominates another."""
    (level, _, names), (other_level, _, other_names) = one.partition(":"), other.partition(":")
    return levels.index(level) >= levels.index(other_level) and set(other_names.split(",")) - {""} <= set(names.split(","))


def capability_text(draw: random.Random, forms: Tuple[str, ...]) -> str:
    """The text of one to three capabilities, all with the same flags."""
    names = draw.sample(CAPABILITIES, draw.choice((1, 1, 2, 3)))
    return f"{','.join(names)}={draw.choice(forms)}"


def random_objects(draw: random.Random, levels: List[str], labels: Tuple[str, ...], count: int) -> List[Thing]:
    """The root and the objects below it, each with a label that dominates that of its directory."""
    mode, owner, group = draw.choice((0o755, 0o755, 0o777, 0o711, 0o775)), draw.choice((0, *USERS)), draw.choice(GROUPS)
    objects = [Thing("dir", "/", mode, owner, group, labels[0])]
    places = [("", labels[0])]
    for number in range(1, count):
        parent, above = draw.choice(places)
        kind = draw.choice(("dir", "dir", "file", "file", "file", "file", "fifo")) if number > 2 else "dir" if number == 1 else "file"
        label = draw.choice([each for each in labels if dominates(each, above, levels)])
        path, owner, group = f"{parent}/{kind[0] if kind != 'fifo' else 'p'}{number}", draw.choice(USERS), draw.choice(GROUPS)
        if kind == "dir":
            places.append((path, label))
            objects.append(Thing(kind, path, draw.choice(DIRECTORY_MODES), owner, group, label))
        else:
            objects.append(random_file(draw, Thing(kind, path, draw.choice(FILE_MODES), owner, group, label), number))
    return objects


def random_file(draw: random.Random, plain: Thing, number: int) -> Thing:
    """A file with content of its own, and maybe with set-id bits and capabilities; or a FIFO."""
    if plain.kind == "fifo":
        return plain
    mode = plain.mode | (draw.choice(SET_ID) if draw.random() < 0.2 else 0)
    caps = capability_text(draw, ("ep", "ep", "p", "i", "eip")) if draw.random() < 0.35 else ""
    if caps and draw.random() < 0.6:
        mode |= 0o111
    return Thing("file", plain.path, mode, plain.owner, plain.group, plain.label, f"bytes-{number}-", caps)


def random_processes(draw: random.Random, labels: Tuple[str, ...], count: int) -> List[Actor]:
    """The processes of a world."""
    found = []
    for _ in range(count):
        caps = capability_text(draw, ("ep", "ep", "p", "eip", "i")) if draw.random() < 0.5 else "="
        groups = tuple(draw.sample(GROUPS, draw.choice((0, 0, 1))))
        found.append(Actor(draw.choice(labels), draw.choice(USERS), draw.choice(GROUPS), groups, caps))
    return found


def random_world(seed: int) -> RandomWorld:
    """The random world of a seed."""
    draw = random.Random(seed)
    levels, categories, labels = draw.choice(POLICIES)
    bound = draw.choice(("all", "all", "none", ",".join(draw.sample(CAPABILITIES, 9))))
    policy = ("world 2", f"levels {levels}", f"categories {categories}".rstrip(), f"bound {bound}")
    objects = random_objects(draw, levels.split(), labels, draw.randint(5, 12))
    processes = random_processes(draw, labels, draw.randint(2, 4))
    return RandomWorld(policy, tuple(objects), tuple(processes), tuple(dict.fromkeys(labels)))
