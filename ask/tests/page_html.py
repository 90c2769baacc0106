"""Reads pages: the rows of calls, and whether a page has other elements, attributes or addresses than it should."""
import html.parser
import re
from dataclasses import dataclass, field
from typing import Dict, List, Optional, Tuple

from labask.worlds import UTILITIES, quoted, split_words

ALLOWED = set("""html head meta title style body header h1 p code blockquote br nav ul li a main section h2 h3 span i b form label select
option input button output noscript div table caption colgroup col thead tbody tr th td small script""".split())
ATTRIBUTES = set("""lang charset name content id class style href aria-label aria-labelledby aria-hidden aria-live for hidden value type
min max inputmode autocomplete scope title colspan rowspan data-head data-label data-side data-tag""".split())


@dataclass
class Row:
    """A row of a call: its number, its cells by their classes, the lines of its records, and the style of its mark."""
    number: int
    cells: Dict[str, str] = field(default_factory=dict)
    records: List[str] = field(default_factory=list)
    style: str = ""

    @property
    def line(self) -> str:
        """The reply line that the row says."""
        words = split_words(self.cells["c"].encode("latin-1"))[0]
        path = f" {quoted(words[-1].value)}" if words[0].text in UTILITIES else ""
        return f"{self.cells['w']} {words[0].text}{path} {self.cells['r'].strip()}"


class PageReader(html.parser.HTMLParser):
    """Reads the rows of calls of a page, and fails where it has other elements, attributes or addresses than it should."""

    def __init__(self) -> None:
        super().__init__(convert_charrefs=True)
        self.rows: List[Row] = []
        self.row: Optional[Row] = None
        self.cell: Optional[str] = None
        self.scripts: List[str] = []
        self.inside: Optional[str] = None

    def handle_starttag(self, tag: str, attrs: List[Tuple[str, Optional[str]]]) -> None:
        named = {name: value or "" for name, value in attrs}
        assert tag in ALLOWED, f"element {tag}"
        assert set(named) <= ATTRIBUTES, f"attributes {sorted(set(named) - ATTRIBUTES)} of {tag}"
        assert named.get("href", "#").startswith("#"), f"address {named.get('href')}"
        self.inside = tag
        if tag == "script":
            self.scripts.append("")
        elif tag == "tr":
            self.begin_row(named)
        elif self.row is not None:
            self.add_to_row(self.row, tag, named)

    def begin_row(self, named: Dict[str, str]) -> None:
        """Begins a row, which is kept where it is that of a call."""
        self.row = self.cell = None
        if named.get("id", "").startswith("call-"):
            self.row = Row(int(named["id"][5:]))
            self.rows.append(self.row)

    def add_to_row(self, row: Row, tag: str, named: Dict[str, str]) -> None:
        """Adds to a row what the start of an element says."""
        if tag in ("td", "th"):
            self.cell = named.get("class", tag)
            row.cells[self.cell] = ""
        elif tag == "li" and "title" in named:
            row.records.append(named["title"])
        elif tag == "i":
            row.style = named["style"]

    def handle_endtag(self, tag: str) -> None:
        self.inside = None
        if tag in ("table", "tbody"):
            self.row = None

    def handle_data(self, data: str) -> None:
        if self.inside == "script":
            self.scripts[-1] += data
        if self.row is not None and self.cell is not None:
            self.row.cells[self.cell] += data


def read_page(text: str) -> PageReader:
    """A page that was read."""
    reader = PageReader()
    reader.feed(text)
    reader.close()
    assert len(reader.scripts) == 2, f"{len(reader.scripts)} scripts"
    for address in ("http:", "https:", "//", "@import", "url("):
        assert address not in re.sub(r"(?m)^\s*// .*$", "", reader.scripts[1]), f"the script has {address}"
    return reader
