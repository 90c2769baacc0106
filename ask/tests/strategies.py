"""Random worlds and faulty texts, as strategies of Hypothesis."""
import re
from dataclasses import dataclass
from typing import List, Sequence, Tuple

from hypothesis import strategies as st

LEVELS = ("low", "mid", "high")
CATEGORIES = ("a", "b")
MODES = (0o777, 0o755, 0o750, 0o666, 0o644, 0o600)
USERS = (0, 10, 20)
GROUPS = (0, 10)


@dataclass(frozen=True, order=True)
class Label:
    """A label without a grade: the place of its level, and its categories."""
    level: int
    categories: Tuple[str, ...]

    def dominates(self, other: "Label") -> bool:
        """Whether the level is as high as that of the other, and all its categories are here."""
        return self.level >= other.level and set(other.categories) <= set(self.categories)

    def __str__(self) -> str:
        return ":".join(filter(None, (LEVELS[self.level], ",".join(self.categories))))


def read_label(text: str) -> Label:
    """The label that a text names."""
    level, _, categories = text.partition(":")
    return Label(LEVELS.index(level), tuple(filter(None, categories.split(","))))


def labels(above: Label, levels: int, categories: Sequence[str]) -> st.SearchStrategy[Label]:
    """Labels that dominate one."""
    more = st.lists(st.sampled_from(categories), unique=True) if categories else st.just([])
    return st.builds(lambda level, names: Label(level, tuple(sorted({*above.categories, *names}))),
                     st.integers(above.level, levels - 1), more)


def modes() -> st.SearchStrategy[int]:
    """Modes without set-id bits."""
    return st.one_of(st.sampled_from(MODES), st.integers(0, 0o777))


@st.composite
def object_lines(draw: st.DrawFn, number: int, directories: List[Tuple[str, Label]], levels: int, categories: Sequence[str],
                 caps: Sequence[str]) -> str:
    """The line of an object below one of the directories, to which a new directory is added."""
    parent, above = draw(st.sampled_from(directories))
    label, path = draw(labels(above, levels, categories)), f"{parent}/n{number}"
    kind = draw(st.sampled_from(("file", "file", "file", "dir", "fifo")))
    line = f"{kind} {path} {draw(modes()):04o} {draw(st.sampled_from(USERS))} {draw(st.sampled_from(GROUPS))} {label}"
    if kind == "dir":
        directories.append((path, label))
    if kind == "file":
        line += f' "bytes of {number}"' + (f' "{draw(st.sampled_from(caps))}=ep"' if caps and draw(st.booleans()) else "")
    return line


@st.composite
def worlds(draw: st.DrawFn, caps: Sequence[str] = ()) -> bytes:
    """Small worlds without set-id bits, whose script is empty; capabilities come from `caps`, none by default."""
    levels, categories = draw(st.integers(2, len(LEVELS))), CATEGORIES[:draw(st.integers(0, len(CATEGORIES)))]
    bottom = Label(0, ())
    lines = ["world 2", " ".join(["levels", *LEVELS[:levels]]), " ".join(["categories", *categories]), "bound all",
             f"dir / {draw(st.sampled_from(('0777', '0755', '0711')))} 0 0 {bottom}"]
    directories = [("", bottom)]
    for number in range(draw(st.integers(3, 7))):
        lines.append(draw(object_lines(number, directories, levels, categories, caps)))
    for _ in range(draw(st.integers(2, 4))):
        held = f"{draw(st.sampled_from(caps))}=ep" if caps and draw(st.booleans()) else "="
        ids = f"{draw(st.sampled_from(USERS))} {draw(st.sampled_from(GROUPS))}"
        lines.append(f'proc {draw(labels(bottom, levels, categories))} {ids} - "{held}"')
    return ("\n".join([*lines, "script"]) + "\n").encode()


@st.composite
def with_other_bytes(draw: st.DrawFn, text: bytes) -> bytes:
    """A text that ends early, or of which a byte is lost, is another, or is one too many."""
    at = draw(st.integers(0, len(text) - 1))
    added = draw(st.one_of(st.just(b""), st.sampled_from((b" ", b'"', b"\r", b"\t", b"\\", b"@", b",", b"/", b"\xff")),
                           st.binary(min_size=1, max_size=1)))
    behind = draw(st.sampled_from((text[at + 1:], text[at:], b"")))
    return text[:at] + added + behind


@st.composite
def with_other_lines(draw: st.DrawFn, text: bytes) -> bytes:
    """A text of which a line is lost or is there twice, or a word of it is another word."""
    lines = text.split(b"\n")
    at, other = draw(st.integers(0, len(lines) - 2)), draw(st.sampled_from(lines))
    words = lines[at].split(b" ")
    words[draw(st.integers(0, len(words) - 1))] = draw(st.sampled_from(other.split(b" ")))
    changed = draw(st.sampled_from(([], [other, lines[at]], [b" ".join(words)])))
    return b"\n".join([*lines[:at], *changed, *lines[at + 1:]])


def faulty_texts(texts: Sequence[bytes]) -> st.SearchStrategy[bytes]:
    """Texts with one change; most changes are faults."""
    text = st.sampled_from(texts)
    return st.one_of(text.flatmap(with_other_bytes), text.flatmap(with_other_lines))




NUMBERS = (b"0", b"1", b"3", b"-1", b"100", b"101", b"07777", b"65537", b"4294967296", b"99999999999999999999", b"0x10")


@st.composite
def damaged_lines(draw: st.DrawFn, line: bytes, lines: Sequence[bytes]) -> bytes:
    """A line of a log that lost bytes or got some, or that has other numbers, or another line in its place."""
    at, other = draw(st.integers(0, len(line))), draw(st.sampled_from(lines))
    byte = bytes([draw(st.integers(11, 255))])
    number = draw(st.sampled_from(NUMBERS))
    return draw(st.sampled_from((line[:at], line[:at] + line[at + 5:], line[:at] + other[:20] + line[at:],
                                 line[:at] + byte + line[at + 1:], re.sub(rb"\d+", number, line, count=2), other)))


@st.composite
def damaged_logs(draw: st.DrawFn, lines: Sequence[bytes]) -> bytes:
    """A log of these lines, some of which are damaged."""
    found = list(lines)
    for at in draw(st.lists(st.integers(0, len(lines) - 1), min_size=1, max_size=40)):
        found[at] = draw(damaged_lines(found[at], lines))
    return b"".join(line + b"\n" for line in found)
