"""How answers are written: exit statuses, JSON, tables of text, and progress on standard error."""
import enum
import json
import sys
from typing import Any, Callable, Iterable, List, Sequence

from labask.terminal import show_rich_table

PLAYED = "Every answer was played by labsys."
NOT_ABSENT = "What was not found is not shown to be absent."


class Status(enum.IntEnum):
    """The exit statuses. NO is also that of a question which writes what was asked for, and finds nothing: DONE names it there."""
    NO = 0
    DONE = 0
    WRONG_WORDS = 1
    REFUSED = 2
    YES = 3
    STOPPED = 4
    NO_PROGRAM = 70


class WrongWords(Exception):
    """A word of the command line names nothing in the file, or has not its form; the message says which."""


def write_json(value: Any) -> None:
    """Writes a value as JSON to standard output, with the keys in their order; bytes of paths are characters of these numbers."""
    json.dump(value, sys.stdout, indent=2)
    sys.stdout.write("\n")


def table(rows: Iterable[Sequence[str]], indent: str = "") -> List[str]:
    """The lines of a table with columns as wide as their widest cell, two spaces between them and none at the end."""
    rows = list(rows)
    form = indent + "  ".join(f"{{:<{max(map(len, column))}}}" for column in zip(*rows))
    return [form.format(*row).rstrip() for row in rows]


def plain(_: str) -> str:
    """The style of every cell of a table that has no others."""
    return ""


def show_table(rows: Iterable[Sequence[str]], style: Callable[[str], str] = plain) -> None:
    """Writes a table, whose first row is its head, to standard output; on a terminal its cells have styles."""
    rows = list(rows)
    if not show_rich_table(rows, style):
        print("\n".join(table(rows)))
