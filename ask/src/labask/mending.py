"""What can stand in place of a refused line, so that those behind it are judged too.

A line takes the place of a line, so that all others keep their numbers. Whether it may stand there, `labsys` says.
"""
import difflib
import re
from typing import Iterator, Optional, Sequence

from labask.explaining import due_keywords, given_before, path_fault
from labask.kernel_profile import LISTS, MAX_LABEL_NAME
from labask.label_texts import NAME, label_faults
from labask.signatures import LINES
from labask.worlds import Line, World, canonical_path, parent_path, path_word

LEFT_OUT = b"#"
OBJECTS = ("dir", "file", "fifo")


def head_stand_ins(line: Line, due: Sequence[str]) -> Iterator[bytes]:
    """Lines for one of which a keyword of the policy is due; none where it is that of another line which is missing then."""
    first = line.words[0].text if line.words else due[-1]
    if first in ("world", *LISTS, "bound") and first not in due:
        yield LEFT_OUT
    if first in LINES or first == "script":
        return
    keyword = difflib.get_close_matches(first, due, 1, 0.0)[0]
    if keyword in LISTS:
        given = dict.fromkeys(NAME.findall(line.text.partition(b" ")[2].decode("latin-1")))
        names = [name for name in given if len(name) <= MAX_LABEL_NAME]
        yield " ".join([keyword, *names[:LISTS[keyword].most]]).encode("ascii")
        yield f"{keyword} base".encode("ascii")
    else:
        yield b"world 2" if keyword == "world" else b"bound all"


def known_label(world: World, line: Line) -> Optional[str]:
    """A label of the policy that stands in a line."""
    return next((word.text for word in line.words[1:] if not label_faults(word.text, world.policy)), None)


def object_stand_ins(world: World, line: Line) -> Iterator[bytes]:
    """Lines of an object with the path of a line, with its own label or with that of its directory."""
    word, before = line.words[1], given_before(world, line)
    if not word.value.startswith(b"/") or path_fault(word.value):
        return
    path = canonical_path(word.value)
    parent = before.get(parent_path(path))
    lowest = world.policy.levels[0]
    kind = "dir" if path == b"/" else difflib.get_close_matches(line.words[0].text, OBJECTS, 1, 0.0)[0]
    for label in filter(None, (known_label(world, line), parent[2] if parent else lowest)):
        yield f"{kind} {path_word(path)} 0755 0 0 {label}{' ' + chr(34) * 2 if kind == 'file' else ''}".encode("ascii")


def thing_stand_ins(world: World, line: Line) -> Iterator[bytes]:
    """Lines of an object or a process, or that of `script`, in place of a line that is due to be one."""
    first = line.words[0].text if line.words else ""
    near_script = re.fullmatch(r"\w+", first) and difflib.get_close_matches(first, ["script"], 1, 0.7)
    if near_script and (len(line.words) == 1 or first == "script"):
        yield b"script"
        if first == "script":
            return
    if first == "proc":
        yield f'proc {known_label(world, line) or world.policy.levels[0]} 0 0 - "="'.encode("ascii")
    elif len(line.words) > 1:
        yield from object_stand_ins(world, line)
    yield LEFT_OUT


def stand_ins(world: World, line: Line, part: str, instead: Sequence[bytes]) -> Iterator[bytes]:
    """Lines to try in place of a refused one, the likeliest first; `instead` are the lines that are to be written there."""
    written = [each for each in instead if not each.startswith(b"#")]
    if len(written) == 1:
        yield written[0]
    if not line.ended:
        yield line.text
    due = due_keywords(world, line) if part == "world" else ()
    if part == "script":
        yield LEFT_OUT
    elif due:
        yield from head_stand_ins(line, due)
    else:
        yield from thing_stand_ins(world, line)
