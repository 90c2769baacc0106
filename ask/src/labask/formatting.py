"""The question `fmt`: a world with its script in its canonical form, with all its comments.

The lines of the world are those that `labsys upgrade` writes of it, in the order in which they stand. What is written is played as the
text itself, and compared.
"""
import argparse
import difflib
import re
import sys
from typing import Dict, Iterator, List

from labask.answers import Status, write_json
from labask.playing import STATUS_ACCEPTED, Played, Player, PlayingFault, Refused
from labask.worlds import Line, World, read_file, read_world

OBJECTS = ("dir", "file", "fifo")
FIRST_LINE = re.compile(rb"[^\n]*")


def add_arguments(parser: argparse.ArgumentParser) -> None:
    """Adds the arguments of the question."""
    parser.add_argument("file", metavar="FILE", help="the world, with or without a script; - is standard input")
    parser.add_argument("--check", action="store_true", help="write what would change, as a unified difference, in place of the file")


def queue_of(line: Line) -> str:
    """Which lines keep their order among each other when `labsys` writes a world: those of objects, and those of each other keyword."""
    keyword = line.words[0].text
    return "object" if keyword in OBJECTS else keyword


def canonical_lines(world: World, player: Player) -> Dict[int, bytes]:
    """The canonical texts of the lines of a world that are not blank, by their numbers.

    Today's worlds with today's capability sets are worlds of the old format but for their first line, so `upgrade` writes them.
    """
    last = world.script_line or len(world.lines)
    filled = [line for line in world.lines[:last] if not line.blank]
    old = b"".join(b"world 1\n" if line is filled[0] else line.text + b"\n" for line in filled)
    status, out, messages = player.run(["upgrade"], old)
    if status != STATUS_ACCEPTED:
        raise Refused(old, Played(status, out, b"", messages).refusal)
    queues: Dict[str, List[bytes]] = {}
    for line in read_world(out).lines:
        queues.setdefault(queue_of(line), []).append(line.text)
    return {line.number: queues[queue_of(line)].pop(0) for line in filled}


def script_text(line: Line, world: World) -> bytes:
    """A line of the script with one space between its words, and its tag in the canonical form."""
    tag, *rest = [word.written.decode("ascii") for word in line.words]
    return " ".join([world.policy.canonical_tag(tag), *rest]).encode("ascii")


def formatted_lines(world: World, player: Player) -> Iterator[bytes]:
    """The lines in their canonical form; comments stand as they are, without spaces at their ends."""
    canonical = canonical_lines(world, player)
    for line in world.lines:
        if line.blank:
            yield line.text.strip(b" ")
        else:
            yield canonical[line.number] if line.number in canonical else script_text(line, world)


def formatted(text: bytes, player: Player) -> bytes:
    """A text in its canonical form; raises `Refused` where `labsys` refuses it, or the longer lines that it would have."""
    before = player.play_accepted(text)
    written = b"".join(line + b"\n" for line in formatted_lines(read_world(text), player))
    after = player.play_accepted(written)
    if (before.out, before.trail) != (after.out, after.trail):
        raise PlayingFault("the canonical form is not played as the text itself")
    return written


def difference(name: str, text: bytes, written: bytes) -> List[str]:
    """What changes, as a unified difference."""
    one, other = (each.decode("latin-1").splitlines() for each in (text, written))
    return list(difflib.unified_diff(one, other, name, f"{name}, formatted", n=0, lineterm=""))


def answer(arguments: argparse.Namespace, player: Player) -> int:
    """Writes a text in its canonical form, or says what would change."""
    text = read_file(arguments.file)
    written = formatted(text, player)
    changes = difference(arguments.file, text, written)
    if arguments.json:
        write_json({"played": True, "formatted": not changes, "text": written.decode("latin-1"), "changes": changes})
    elif not arguments.check:
        sys.stdout.write(written.decode("latin-1"))
    elif changes:
        print("\n".join(changes))
    else:
        print(f"{arguments.file}: it has its canonical form")
    return Status.YES if changes and arguments.check else Status.NO
