"""Reads a map of labels: the lines of a policy, and the label of each beginning of a path."""
from dataclasses import dataclass, field
from typing import Dict, List, Tuple

from labask.worlds import Line, canonical_path, parent_path, path_word, read_file, read_world

LOWEST_ALONE = ("world 2", "levels base", "categories", "bound all")
NAMES = ("levels", "categories", "grades", "bound")


class LabelFault(Exception):
    """What is wrong with a line of a map."""


@dataclass(frozen=True)
class LabelMap:
    """The lines of a policy, with `world 2` first, the lines of the file that they come from, and the words for the labels
    of paths."""
    policy: Tuple[str, ...] = LOWEST_ALONE
    sources: Tuple[str, ...] = ()
    labels: Dict[bytes, str] = field(default_factory=dict)
    named_at: Dict[bytes, str] = field(default_factory=dict)

    @property
    def lowest(self) -> str:
        """The text of the lowest label: the first level alone."""
        return self.policy[1].split()[1]

    def beginning_of(self, path: bytes) -> bytes:
        """The longest path of the map that this path begins with, by whole names; the root where there is none."""
        while path != b"/" and path not in self.labels:
            path = parent_path(path)
        return path

    def label_of(self, path: bytes) -> str:
        """The label of a path."""
        return self.labels.get(self.beginning_of(path), self.lowest)

    def source_of(self, path: bytes) -> str:
        """Where the map names the label of a path, or an empty text."""
        return self.named_at.get(self.beginning_of(path), "")


def names_line(line: Line) -> str:
    """A line of the policy, with one space between its words."""
    return " ".join(word.written.decode("ascii") for word in line.words)


def read_labels(name: str) -> LabelMap:
    """Reads a file with lines `levels`, `categories`, `grades` and `bound` as a world has them, and lines `label PATH LABEL`."""
    policy: Dict[str, Tuple[str, str]] = {}
    labels: Dict[bytes, str] = {}
    named_at: Dict[bytes, str] = {}
    for line in read_world(read_file(name)).lines:
        at = f"{name}:{line.number}"
        words: List[str] = [word.text for word in line.words]
        if line.malformed is not None:
            raise LabelFault(f"{at}: column {line.malformed.column + 1}: {line.malformed.fault.value}")
        if words and words[0] in NAMES and words[0] not in policy:
            policy[words[0]] = names_line(line), at
        elif len(words) == 3 and words[0] == "label" and words[1].startswith("/"):
            path = canonical_path(line.words[1].value)
            if path in labels:
                raise LabelFault(f"{at}: the path has a label already, at {named_at[path]}")
            labels[path], named_at[path] = path_word(line.words[2].value), at
        elif words and words != ["world", "2"]:
            raise LabelFault(f"{at}: expected levels, categories, grades or bound once each, or label PATH LABEL")
    if len(policy.get("levels", ("",))[0].split()) < 2:
        raise LabelFault(f"{name}: expected a line levels with one name or more")
    policy = {"categories": ("categories", name), "bound": ("bound all", name), **policy}
    lines = [policy[each] for each in NAMES if each in policy]
    return LabelMap(("world 2", *(text for text, at in lines)), ("", *(at for text, at in lines)), labels, named_at)
