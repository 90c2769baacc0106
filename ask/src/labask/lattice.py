"""The lattice of labels: bounds of two labels, what one lacks to dominate another, and a drawing of labels as SVG."""
from dataclasses import dataclass
from itertools import product
from typing import Dict, Iterator, List, Mapping, Sequence, Tuple

from labask.kernel.state import HIGHEST_GRADE, Label, Labels
from labask.worlds import Policy, World

MOST_DRAWN = 64
LETTER, ROW, GAP, HEIGHT = 8, 70, 24, 26  # sizes in a drawing, in pixels
STYLE = ("text{font:13px monospace;text-anchor:middle}.mark{font-size:11px;fill:#555}line{stroke:#888}"
         "rect{fill:#fff;stroke:#333}.marked rect{fill:#fff3bf}")


def join(one: Label, other: Label) -> Label:
    """The least upper bound of two labels."""
    return Label(max(one.level, other.level), one.categories | other.categories, min(one.grade, other.grade))


def meet(one: Label, other: Label) -> Label:
    """The greatest lower bound of two labels."""
    return Label(min(one.level, other.level), one.categories & other.categories, max(one.grade, other.grade))


def lacking(one: Label, other: Label, policy: Policy) -> List[str]:
    """Why a label does not dominate another one, in words; nothing where it does."""
    found = []
    if one.level < other.level:
        found.append(f"its level {policy.levels[one.level]} is below {policy.levels[other.level]}")
    names = [name for place, name in enumerate(policy.categories) if (other.categories & ~one.categories) >> place & 1]
    if names:
        found.append(f"it lacks {','.join(names)}")
    if one.grade > other.grade:
        found.append(f"its grade {grade_name(one, policy)} is above {grade_name(other, policy)}")
    return found


def grade_name(label: Label, policy: Policy) -> str:
    """The name of a label's grade, in a policy that names grades."""
    return policy.grades[label.grade - HIGHEST_GRADE - 1]


def every_label(policy: Policy) -> Iterator[Label]:
    """All labels of a policy."""
    grades = range(HIGHEST_GRADE, HIGHEST_GRADE - max(1, len(policy.grades)), -1)
    return (Label(*parts) for parts in product(range(len(policy.levels)), range(1 << len(policy.categories)), grades))


def count_labels(policy: Policy) -> int:
    """How many labels a policy has."""
    return (len(policy.levels) << len(policy.categories)) * max(1, len(policy.grades))


def used_labels(world: World) -> List[Label]:
    """The labels that objects and processes of a world have, each once."""
    labels = Labels(world.policy)
    lines = [each.label for each in world.objects] + [each.label for each in world.processes]
    return [labels.read(text) for text in dict.fromkeys(lines)]


@dataclass(frozen=True)
class Lattice:
    """Labels with the pairs of which the first covers the second: it dominates it, and no other label here lies between."""
    labels: Tuple[Label, ...]
    covers: Tuple[Tuple[Label, Label], ...]

    def rows(self) -> List[List[Label]]:
        """The labels by the length of the longest chain below them, lowest row first."""
        heights: Dict[Label, int] = {}
        for label in self.labels:
            heights[label] = max((heights[low] + 1 for high, low in self.covers if high == label), default=0)
        return [[label for label in self.labels if heights[label] == row] for row in range(max(heights.values()) + 1)]


def rank(label: Label) -> Tuple[int, Label]:
    """A key by which a label comes behind those that it dominates."""
    return label.level + bin(label.categories).count("1") - label.grade, label


def lattice_of(labels: Sequence[Label]) -> Lattice:
    """The lattice of some labels."""
    ordered = tuple(sorted(set(labels), key=rank))
    below = {label: [each for each in ordered if each != label and label.dominates(each)] for label in ordered}
    covers = ((label, low) for label in ordered for low in below[label] if not any(low in below[each] for each in below[label]))
    return Lattice(ordered, tuple(covers))


def width_of(text: str) -> int:
    """How wide the box of a text is."""
    return LETTER * len(text) + 16


def places(lattice: Lattice, texts: Mapping[Label, str], width: int) -> Dict[Label, Tuple[int, int]]:
    """The middles of the boxes of labels, in rows from the highest."""
    found: Dict[Label, Tuple[int, int]] = {}
    for row, labels in enumerate(reversed(lattice.rows())):
        x = (width - row_width([texts[label] for label in labels])) // 2 + GAP
        for label in labels:
            found[label] = x + width_of(texts[label]) // 2, ROW * row + ROW // 2
            x += width_of(texts[label]) + GAP
    return found


def row_width(texts: Sequence[str]) -> int:
    """How wide the row of some boxes is."""
    return sum(map(width_of, texts)) + GAP * (len(texts) + 1)


def drawing(lattice: Lattice, policy: Policy, marks: Mapping[Label, str], title: str) -> Iterator[str]:
    """The lines of an SVG of a lattice, lowest label below; `marks` has words that stand below labels."""
    texts = {label: Labels(policy).text(label) for label in lattice.labels}
    rows = lattice.rows()
    width = max(row_width([texts[label] for label in row]) for row in rows)
    where = places(lattice, texts, width)
    yield f'<svg xmlns="http://www.w3.org/2000/svg" role="img" viewBox="0 0 {width} {ROW * len(rows)}" width="{width}">'
    yield f"<title>{title}</title>"
    yield f"<style>{STYLE}</style>"
    for high, low in lattice.covers:
        (x1, y1), (x2, y2) = where[high], where[low]
        yield f'<line x1="{x1}" y1="{y1}" x2="{x2}" y2="{y2}"/>'
    for label, (x, y) in where.items():
        box = width_of(texts[label])
        yield f'<g class="{"marked" if label in marks else "plain"}">'
        yield f'<rect x="{x - box // 2}" y="{y - HEIGHT // 2}" width="{box}" height="{HEIGHT}" rx="4"/>'
        yield f'<text x="{x}" y="{y + 4}">{texts[label]}</text>'
        if label in marks:
            yield f'<text class="mark" x="{x}" y="{y + HEIGHT}">{marks[label]}</text>'
        yield "</g>"
    yield "</svg>"
