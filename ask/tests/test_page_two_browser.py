"""Tests the page of two runs in a browser: what a chosen label sees of both, a picked row, keys, contrast, and narrow screens."""
import pathlib
from typing import List
from urllib.parse import quote

import pytest
from browser import Page, driver, page  # noqa: F401  fixtures
from page_inputs import EXAMPLES, labask, labsys, reply_lines
from page_reading import CONTRAST, FOCUSED, HASH, OVERLAPS, SCROLLED, SET, UNHEADED, as_lines

pytestmark = pytest.mark.usefixtures("program")

PAIRS = (("backup_for_all", "backup_for_operators", "internal:eng"), ("lesson", "backup_for_all", "public"))
WIDTHS = (1200, 1600, 700, 400)

# the replies of a run that are not greyed, each with its process and what it asks for
SEEN = """[...document.querySelectorAll("tr[id^=row-] td.e.%s:not(.unseen, .absent)")].map(cell =>
  ["w", "c"].map(name => cell.parentElement.querySelector("." + name).textContent).concat(cell.querySelector(".r").textContent))"""
CROSSING = """[...document.querySelectorAll("tr.crossing")].map(row => row.textContent)"""
PICKED = "document.querySelector('tr.detail')?.previousElementSibling.id ?? ''"
DETAILS = """[...document.querySelectorAll("tr.detail .sides > div")].map(side => {
  const terms = {};
  side.querySelectorAll("dt").forEach(term => terms[term.textContent] = term.nextElementSibling);
  return [side.querySelector("h3").textContent, terms.Reply?.textContent ?? null, terms.Why?.textContent ?? null];
})"""


def make_page(folder: pathlib.Path, one: str, two: str) -> pathlib.Path:
    """The page of two examples."""
    made = folder / "page.html"
    status, _, messages = labask("page", *(str(EXAMPLES / f"{name}.txt") for name in (one, two)), "--output", str(made))
    assert status == 0, messages
    return made


def lines_of(page: Page, side: str) -> List[str]:
    """The reply lines of one of the runs that are not grey."""
    return list(as_lines(page.evaluate(SEEN % side)))


@pytest.mark.parametrize("one, two, label", PAIRS)
def test_label_that_is_chosen_is_that_of_both_runs(page: Page, one: str, two: str, label: str, tmp_path: pathlib.Path) -> None:
    path = make_page(tmp_path, one, two)
    page.open(path)
    texts = [(EXAMPLES / f"{name}.txt").read_bytes() for name in (one, two)]
    for side, text in zip(("one", "two"), texts):
        assert lines_of(page, side) == reply_lines(labsys("play", "/dev/null", given=text)[1])
    page.open(path, f"#label={quote(label, safe='')}")
    views = [labsys("view", label, given=text)[1] for text in texts]
    for side, view in zip(("one", "two"), views):
        assert lines_of(page, side) == reply_lines(view), side
    crossed = [name for name, view in zip("AB", views) if b"\ncrossed\n" in b"\n" + view]
    assert [said[0] for said in page.evaluate(CROSSING)] == crossed
    assert page.faults() == []
    assert page.evaluate("performance.getEntriesByType('resource').length") == 0, "the page asks the network"


def test_label_that_one_world_has_greys_that_run_alone(page: Page, tmp_path: pathlib.Path) -> None:
    page.open(make_page(tmp_path, "lesson", "matrix"), "#label=public")
    text = (EXAMPLES / "matrix.txt").read_bytes()
    assert lines_of(page, "two") == reply_lines(labsys("play", "/dev/null", given=text)[1])
    assert lines_of(page, "one") == reply_lines(labsys("view", "public", given=(EXAMPLES / "lesson.txt").read_bytes())[1])
    assert "B: public was not asked there." in page.evaluate("document.getElementById('said').textContent")


def test_row_that_is_picked_has_the_details_of_both_calls(page: Page, tmp_path: pathlib.Path) -> None:
    page.open(make_page(tmp_path, "backup_for_all", "backup_for_operators"))
    page.evaluate("document.querySelector('.first a').click()")
    assert page.evaluate(PICKED) == "row-4", "the first difference"
    (name, reply, _), (other, denied, why) = page.evaluate(DETAILS)
    assert (name, reply, other, denied) == ("A: call 4", "ok", "B: call 4", "EACCES dac_execute p2")
    assert "with cap_dac_execute: ok" in why
    page.evaluate("document.getElementById('marked').click()")
    assert page.evaluate(PICKED) == "row-5", "the next difference"
    page.evaluate(HASH % "'two-9'")
    assert page.evaluate(PICKED) == "row-9", "a link to a call of B"
    page.evaluate("document.querySelector('tr.picked th a').focus()")
    page.press("ArrowUp")
    assert page.evaluate(PICKED) == page.evaluate(FOCUSED) == "row-8"
    page.evaluate(SET % ("only", "pf", "change"))
    shown = page.evaluate("[...document.querySelectorAll('tr[id^=row-]')].filter(row => row.checkVisibility()).map(row => row.id)")
    assert shown == ["row-4", "row-5", "row-6", "row-7", "row-8"]
    assert page.evaluate("location.hash") == "#row=8&only=pf"


@pytest.mark.parametrize("one, two, label", PAIRS)
def test_looks_of_two_runs(page: Page, one: str, two: str, label: str, tmp_path: pathlib.Path) -> None:
    path = make_page(tmp_path, one, two)
    for scheme in ("light", "dark"):
        page.media(prefers_color_scheme=scheme)
        page.resize(1200, 900)
        page.open(path, f"#label={quote(label, safe='')}&row=4")
        assert page.evaluate("document.querySelectorAll('.unseen').length") > 0
        assert page.evaluate(CONTRAST) == [], scheme
        page.resize(400, 900)
        assert page.evaluate(CONTRAST) == [], f"{scheme}, narrow"
    for width in WIDTHS:
        page.resize(width, 900)
        assert page.evaluate(OVERLAPS) == [], f"{width} pixels"
    assert page.evaluate(SCROLLED) == [], "something scrolls sideways at the least width"
    assert page.evaluate(UNHEADED) == [], "a cell of a card has no heading"
    one_above = page.evaluate("""[...document.querySelectorAll("tr[id^=row-]")].every(row =>
      row.querySelector("td.e.one").getBoundingClientRect().bottom <= row.querySelector("td.e.two").getBoundingClientRect().top)""")
    assert one_above, "A does not stand above B on a narrow screen"


def test_two_runs_without_scripts(page: Page, tmp_path: pathlib.Path) -> None:
    page.scripts(False)
    page.open(make_page(tmp_path, "backup_for_all", "backup_for_operators"))
    for side, name in (("one", "backup_for_all"), ("two", "backup_for_operators")):
        due = reply_lines(labsys("play", "/dev/null", given=(EXAMPLES / f"{name}.txt").read_bytes())[1])
        assert lines_of(page, side) == due
    page.scripts(True)
