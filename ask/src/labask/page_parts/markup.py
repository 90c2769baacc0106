"""HTML as text. All that comes from a world or a trail goes through `text` or `embedded`."""
import html
import json
import re
from typing import Any, Sequence

CONTROL = re.compile("[\x00-\x08\x0b-\x1f\x7f-\x9f\u202a-\u202e\u2066-\u2069\ud800-\udfff]")
SHOWN = 2000


def text(value: Any) -> str:
    """Text for the content of an element or for a quoted attribute. Control characters, those that turn the direction of writing
    too, become the replacement character."""
    return html.escape(CONTROL.sub("\ufffd", str(value)))


def cut(value: str) -> str:
    """As `text`, but of a long value its beginning, and how many characters more it has."""
    more = len(value) - SHOWN
    return text(value) if more <= 0 else f'{text(value[:SHOWN])}<span class="more">… {more:,} more</span>'


def code(value: str) -> str:
    """A piece of code."""
    return f"<code>{cut(value)}</code>"


def embedded(value: Any) -> str:
    """A value as JSON that may stand in an element `script`."""
    written = json.dumps(value, separators=(",", ":"), ensure_ascii=True)
    return written.replace("<", "\\u003c").replace(">", "\\u003e").replace("&", "\\u0026")


def head_row(heads: Sequence[str]) -> str:
    """The head of a table, from the texts that head its columns."""
    return "<thead><tr>" + "".join(f'<th scope="col">{text(head)}' for head in heads) + "</thead>"


def headed(heads: Sequence[str], cells: Sequence[str]) -> str:
    """Cells with what heads their columns: on a narrow screen it stands beside each cell, and the head of the table is not shown."""
    return "".join(f'<td data-head="{text(head)}">{cell}' for head, cell in zip(heads, cells))


def counted(number: int, one: str, many: str = "") -> str:
    """A number with its noun."""
    return f"{number:,} {one if number == 1 else many or one + 's'}"
