"""What all pages have: the head of the document, the style sheet, sections with headings, data and script."""
import pathlib
from typing import Any, Iterator, Mapping, Tuple

from .lanes import MOST_LANES
from .markup import embedded, text
from .run import Run

HERE = pathlib.Path(__file__).resolve().parent.parent
TAG_WIDTHS = (6.0, 14.0)  # the least and the most width of the column of tags, in rem
LANE_WIDTHS = ((8, 2.0), (16, 1.2), (MOST_LANES, 0.7))  # in rem, by how many lanes there are at most
Sections = Mapping[str, Tuple[str, Iterator[str]]]  # by their ids, each with its heading and its parts


def part(name: str) -> str:
    """The text of the style sheet or of the script."""
    return (HERE / name).read_text(encoding="utf-8")


def tag_width(*runs: Run) -> float:
    """The width of the column of tags, in rem."""
    longest = max((len(call.reply.tag) for run in runs for call in run.calls), default=0)
    return min(max(TAG_WIDTHS[0], 0.53 * longest + 1.2), TAG_WIDTHS[1])


def lane_width(lanes: int) -> float:
    """The width of each of so many lanes, in rem."""
    return next((width for most, width in LANE_WIDTHS if lanes <= most), LANE_WIDTHS[-1][1])


def section(where: str, title: str, parts: Iterator[str]) -> Iterator[str]:
    """A section with its heading."""
    yield f'<section id="{where}" aria-labelledby="{where}-title"><h2 id="{where}-title">{title}</h2>\n'
    yield from parts
    yield "</section>\n"


def navigation(sections: Sections) -> str:
    """Links to the sections."""
    items = "".join(f'<li><a href="#{where}">{title}</a>' for where, (title, _) in sections.items())
    return f'<nav aria-label="Sections"><ul>{items}</ul></nav>'


def document(title: str, style: str, head: Iterator[str], sections: Sections, data: Any) -> Iterator[str]:
    """A page in pieces: `style` has the rules that its runs decide, and `data` what the script reads."""
    yield ('<!DOCTYPE html>\n<html lang="en"><head><meta charset="utf-8">\n'
           '<meta name="viewport" content="width=device-width,initial-scale=1"><meta name="color-scheme" content="light dark">\n'
           f"<title>{text(title)}</title>\n<style>{part('page.css')}{style}</style></head>\n<body>\n<header>")
    yield from head
    yield f"{navigation(sections)}</header>\n<main>\n"
    for where, (heading, parts) in sections.items():
        yield from section(where, heading, parts)
    yield f'</main>\n<script type="application/json" id="run">{embedded(data)}</script>\n'
    yield f"<script>{part('page.js')}</script>\n</body></html>\n"
