"""How tables and the progress of a question look on a terminal: by the library `rich` where that is there, and else as plain text.

What is no terminal gets plain text, the same with and without that library.
"""
import atexit
import importlib.util
import sys
from typing import Callable, Sequence

MOST_ROWS = 2_000  # of a table that is made by rich, which takes its time for each


def has_rich() -> bool:
    """Whether the library is there."""
    return importlib.util.find_spec("rich") is not None


def show_rich_table(rows: Sequence[Sequence[str]], style: Callable[[str], str]) -> bool:
    """Writes a table to a terminal, each cell in a style; says whether that was done."""
    if not sys.stdout.isatty() or len(rows) > MOST_ROWS or not has_rich():
        return False
    from rich import box
    from rich.console import Console
    from rich.table import Table
    from rich.text import Text

    table = Table(box=box.SIMPLE_HEAD, show_edge=False, pad_edge=False)
    for name in rows[0]:
        table.add_column(Text(name), overflow="fold")
    for row in rows[1:]:
        table.add_row(*(Text(cell, style=style(cell)) for cell in row))
    Console(file=sys.stdout, highlight=False).print(table)
    return True


class ProgressLine:
    """A line of standard error that is written anew in its place; `clear` takes it away, and so does the end of the program."""

    def __init__(self) -> None:
        self.shown = False

    def show(self, text: str) -> None:
        """Shows a text in place of the one before."""
        if not self.shown:
            atexit.register(self.clear)
        self.shown = True
        print(f"\r\x1b[Klabask: {text}", end="", file=sys.stderr, flush=True)

    def clear(self) -> None:
        """Takes the line away."""
        if self.shown:
            print("\r\x1b[K", end="", file=sys.stderr, flush=True)
            self.shown = False
            atexit.unregister(self.clear)


class RichLine(ProgressLine):
    """The same by rich, with a sign that turns."""

    def __init__(self) -> None:
        super().__init__()
        from rich.console import Console

        self.status = Console(file=sys.stderr, highlight=False).status("labask")

    def show(self, text: str) -> None:
        """Shows a text in place of the one before."""
        from rich.text import Text

        self.status.update(Text(f"labask: {text}"))
        if not self.shown:
            self.shown = True
            atexit.register(self.clear)
            self.status.start()

    def clear(self) -> None:
        """Takes the line away."""
        if self.shown:
            self.status.stop()
            self.shown = False
            atexit.unregister(self.clear)


def progress_line() -> ProgressLine:
    """The line that shows how far a question is."""
    return RichLine() if has_rich() else ProgressLine()
