"""Tests the question `page` in a browser.

Labels and calls are picked, by the address and by keys, and what the page then shows is compared with `labsys view`, with the
trail, and with the end lines of the script played up to the call. The page is read without scripts, printed, and measured in light
and dark: contrast of text, and that no text lies over another or outside of its cell.
"""
import pathlib
import re
from typing import Dict, List, Sequence
from urllib.parse import quote

import pytest
from browser import Page, driver, page  # noqa: F401  fixtures
from page_inputs import EXAMPLES, HOSTILE, labask, labsys, make_page, reply_lines, trail_of, world_of_many
from page_reading import (CONTRAST, CROSSING, FOCUSED, GREY, HASH, OVERLAPS, PRINTED, SCROLLED, SET, SHOWN, UNHEADED, WHOLE, detail_of,
                          rows_of)

from labask.page_parts.words import caps_of
from labask.worlds import World, read_world, split_words

pytestmark = pytest.mark.usefixtures("program")

# worlds whose labels are all chosen, and whose calls are all picked
CHOSEN = ("backup_for_all", "lesson", "login", "relabelling", "utilities", "fetched_program", "names_of_a_vault", "drops_capability")
GENERATED = 10_000
LABELS = {"hostile": "unc", "many": "l1:c0", "fetched_program": "public", "names_of_a_vault": "unc", "drops_capability": "unc"}
WIDTHS = (1200, 1600, 700, 400)


def replies_of(text: bytes) -> List[str]:
    """The reply lines of a world that is played."""
    return reply_lines(labsys("play", "/dev/null", given=text)[1])


def view_of(label: str, text: bytes) -> List[str]:
    """The reply lines of a world that a label sees."""
    return reply_lines(labsys("view", label, given=text)[1])


def ends_in(written: bytes) -> Dict[str, Sequence[str]]:
    """The words of the end lines of an output, by their processes."""
    ends = [[word.text for word in split_words(line)[0]] for line in written.split(b"\n") if line.startswith(b"end ")]
    return {words[1]: words for words in ends}


def up_to(world: World, call: int) -> bytes:
    """The text of a world with its script up to a call, of a utility up to the path of the call."""
    before = [world.lines_by_call[number].single(number) for number in range(1, call + 1)]
    return world.head() + b"".join(line.encode("latin-1") + b"\n" for line in before)


def crosses(label: str, text: bytes) -> bool:
    """Whether a label is crossed in a run."""
    return b"\ncrossed\n" in b"\n" + labsys("view", label, given=text)[1]


def compare_label(page: Page, world: World, label: str) -> None:
    """Compares what the page shows of a chosen label with `view`, and the crossing with views of beginnings of the script."""
    view = labsys("view", label, given=world.text)[1]
    assert rows_of(page) == reply_lines(view), f"label {label}: rows differ from the view"
    crossing = page.evaluate(CROSSING)
    if crosses(label, world.text):
        assert len(crossing) == 1 and label in crossing[0], f"label {label}: {crossing}"
        call = int(crossing[0].partition("|")[0][len("call-"):])
        assert [crosses(label, up_to(world, each)) for each in (call - 1, call)] == [False, True], f"label {label}: call {call}"
    else:
        assert crossing == [], f"label {label}: a crossing is marked"
        living = set(ends_in(labsys("play", "/dev/null", given=world.text)[1]))
        shown = {tag for tag, grey in page.evaluate(GREY) if not grey}
        assert shown & living == set(ends_in(view)), f"label {label}: processes {shown & living}"


def compare_call(page: Page, world: World, call: int, lines: Sequence[str], records: Sequence[str]) -> None:
    """Compares what the page shows of a picked call with its reply, its records, and the caller's sets after the calls before it."""
    detail = detail_of(page)
    assert detail is not None and detail["row"] == f"call-{call}", f"call {call} is not picked"
    assert lines[call - 1].endswith(" " + detail["reply"]), f"call {call}: reply {detail['reply']}"
    assert detail["trail"] == [record for record in records if record.startswith(f"{call} ")], f"call {call}: {detail['trail']}"
    tag = lines[call - 1].partition(" ")[0]
    assert detail["script"].startswith(tag + " "), f"call {call}: script {detail['script']}"
    end = ends_in(labsys("play", "/dev/null", given=up_to(world, call - 1))[1]).get(tag)
    sets = "; ".join(f"{name} {names or 'none'}" for name, names in caps_of(end[3]).items()) if end else ""
    assert detail["caller"] == (f"label {end[2]}; {sets}" if end else "no such process lives"), f"call {call}: {detail['caller']}"


def compare_seers(page: Page, call: int, views: Dict[str, List[str]], lines: Sequence[str]) -> None:
    """Compares the labels that the page says to see a reply with the views that have it."""
    tag = lines[call - 1].partition(" ")[0]
    before = sum(line.startswith(tag + " ") for line in lines[: call - 1])
    due = [label for label, view in views.items() if sum(line.startswith(tag + " ") for line in view) > before]
    seers = detail_of(page)["seers"]
    assert seers == (" · ".join(due) or "none of the labels above"), f"call {call}: seen by {seers}, views say {due}"


def options_of(page: Page, path: pathlib.Path, world: World) -> List[str]:
    """The labels that a page offers, which are at least those of processes and levels."""
    page.open(path)
    named: List[str] = page.evaluate("[...document.getElementById('label').options].map(option => option.value).filter(Boolean)")
    assert set(world.policy.levels) | {each.label for each in world.processes} <= set(named)
    return named


@pytest.mark.parametrize("name", CHOSEN)
def test_labels_and_calls_chosen_by_the_address(page: Page, name: str, tmp_path: pathlib.Path) -> None:
    text = (EXAMPLES / f"{name}.txt").read_bytes()
    world, path = read_world(text), make_page(EXAMPLES / f"{name}.txt", tmp_path)
    lines, records = replies_of(text), trail_of(text, tmp_path)
    named = options_of(page, path, world)
    assert rows_of(page) == lines, "rows without a label"
    views = {label: view_of(label, text) for label in named}
    for number, label in enumerate(named):
        page.open(path, f"#label={quote(label, safe='')}&call={number % len(lines) + 1}")
        compare_label(page, world, label)
        compare_call(page, world, number % len(lines) + 1, lines, records)
    for call in range(1, len(lines) + 1):
        page.evaluate(HASH % f"'call={call}'")
        compare_call(page, world, call, lines, records)
        compare_seers(page, call, views, lines)
    assert page.faults() == []
    assert page.evaluate("performance.getEntriesByType('resource').length") == 0, "the page asks the network"


def said_by_why(path: pathlib.Path, call: int) -> List[str]:
    """The lines that `why` says of a call, below the one that names it, but for those that name calls which come from it."""
    status, out, messages = labask("why", str(path), str(call))
    assert status in (0, 3), messages
    lines = out.decode("utf-8").partition("\n  where this call is done")[0].split("\n")
    return [line.strip() for line in lines if line.startswith("  ")]


@pytest.mark.parametrize("name", CHOSEN)
def test_denied_and_refused_calls_have_what_why_says(page: Page, name: str, tmp_path: pathlib.Path) -> None:
    example = EXAMPLES / f"{name}.txt"
    page.open(make_page(example, tmp_path))
    for call, line in enumerate(replies_of(example.read_bytes()), 1):
        page.evaluate(HASH % f"'call={call}'")
        detail = detail_of(page)
        explained = not detail["reply"].startswith("ok") or line.split(" ")[1] == "exec"
        assert detail["why"] == (said_by_why(example, call) if explained else None), f"call {call}"


def test_why_of_later_calls_is_left_out(page: Page, tmp_path: pathlib.Path) -> None:
    world = long_world(tmp_path, 1000)
    replies = [line.split(" ") for line in replies_of(world.read_bytes())]
    asked = [call for call, words in enumerate(replies, 1) if words[2] != "ok" or words[1] == "exec"]
    assert len(asked) > 200
    page.open(make_page(world, tmp_path), f"#call={asked[199]}")
    assert detail_of(page)["why"] == said_by_why(world, asked[199])
    page.evaluate(HASH % f"'call={asked[200]}'")
    assert len(detail_of(page)["why"]) == 1 and "labask why FILE N" in detail_of(page)["why"][0]


def test_why_where_there_is_no_observer(page: Page, tmp_path: pathlib.Path) -> None:
    """In a world with as many names as there may be."""
    names = [f"n{number}" for number in range(64)]
    world = tmp_path / "full.txt"
    world.write_text("\n".join(["world 2", "levels " + " ".join(names[:16]), "categories " + " ".join(f"c{each}" for each in names),
                                "grades " + " ".join(f"g{each}" for each in names[:16]), "bound all", "dir / 0700 0 0 n0",
                                'proc n0 1 1 - "="', "script", "1@n0 readdir /", ""]), encoding="ascii")
    page.open(make_page(world, tmp_path), "#call=1")
    assert "EACCES" in detail_of(page)["reply"]
    assert len(detail_of(page)["why"]) == 1 and "none is left for an observer" in detail_of(page)["why"][0]


def tab_to(page: Page, identifier: str) -> None:
    """Goes to an element by the key Tab, and requires that the focus is seen there."""
    for _ in range(60):
        page.press("Tab")
        if page.evaluate("document.activeElement.id") == identifier:
            outline = page.evaluate("getComputedStyle(document.activeElement).outlineStyle")
            assert outline not in ("none", "hidden"), f"the focus on {identifier} is not seen"
            return
    pytest.fail(f"no key leads to {identifier}")


def test_labels_and_calls_chosen_by_keys(page: Page, tmp_path: pathlib.Path) -> None:
    world = read_world((EXAMPLES / "backup_for_all.txt").read_bytes())
    page.open(make_page(EXAMPLES / "backup_for_all.txt", tmp_path))
    tab_to(page, "label")
    page.press("ArrowDown")
    label = page.evaluate("document.getElementById('label').value")
    assert label, "no label is chosen"
    compare_label(page, world, label)
    tab_to(page, "call")
    for _ in range(3):
        page.press("ArrowUp")
    assert detail_of(page)["row"] == "call-3"
    tab_to(page, "marked")
    page.press("Enter")
    assert detail_of(page)["row"] == "call-6", "the next marked call is not picked"
    said = page.evaluate("document.getElementById('said').textContent")
    assert label in said and "Call 6" in said
    tab_to(page, "only")
    page.press("ArrowDown")
    assert page.evaluate(SHOWN) == ["call-3", "call-6"], "denied or picked"
    unnamed = page.evaluate("[...document.querySelectorAll('select, input')].filter(each => !each.labels.length).length")
    assert unnamed == 0, "a control without a label"
    assert page.evaluate("location.hash") == f"#label={quote(label, safe='')}&call=6&only=d"


def test_tab_goes_through_the_calls_in_their_order(page: Page, tmp_path: pathlib.Path) -> None:
    page.open(make_page(EXAMPLES / "backup_for_all.txt", tmp_path))
    tab_to(page, "only")
    page.press("Tab")
    assert page.evaluate("document.activeElement.hash") == "#labels", "no link leads past the calls"
    focused = []
    for _ in range(11):
        page.press("Tab")
        focused.append(page.evaluate(FOCUSED))
    assert focused == [*(f"call-{call}" for call in range(1, 11)), ""]


def test_keys_that_pick_calls_move_the_focus(page: Page, tmp_path: pathlib.Path) -> None:
    page.open(make_page(EXAMPLES / "backup_for_all.txt", tmp_path))
    tab_to(page, "only")
    for _ in range(2):
        page.press("Tab")
    for key, call in (("ArrowDown", 2), ("ArrowDown", 3), ("ArrowUp", 2), ("End", 10), ("ArrowDown", 10), ("ArrowUp", 9), ("Home", 1)):
        page.press(key)
        assert page.evaluate(FOCUSED) == f"call-{call}", key
        assert detail_of(page)["row"] == f"call-{call}" or key == "ArrowDown", key
    page.press("Enter")
    assert detail_of(page) is None, "the key Enter does not put the details away"
    page.evaluate(SET % ("only", "x", "change"))
    page.evaluate("document.querySelector('#call-7 th a').focus()")
    page.press("ArrowDown")
    assert page.evaluate(FOCUSED) == detail_of(page)["row"] == "call-9", "the next call that is shown"
    page.press("Home")
    assert page.evaluate(FOCUSED) == "call-6", "the first call that is shown"


def test_keys_lead_to_rows_that_are_not_made_yet(page: Page, tmp_path: pathlib.Path) -> None:
    page.open(make_page(long_world(tmp_path, GENERATED), tmp_path))
    page.evaluate("document.querySelector('.calls th a').focus()")
    page.press("End")
    assert page.evaluate(FOCUSED) == detail_of(page)["row"] == f"call-{GENERATED}"
    page.press("ArrowUp")
    assert page.evaluate(FOCUSED) == f"call-{GENERATED - 1}"


def test_page_without_scripts(page: Page, tmp_path: pathlib.Path) -> None:
    page.scripts(False)
    page.open(make_page(EXAMPLES / "lesson.txt", tmp_path))
    assert rows_of(page) == replies_of((EXAMPLES / "lesson.txt").read_bytes())
    assert page.evaluate("document.querySelector('.controls + noscript p').checkVisibility()"), "nothing says that scripts are off"
    assert not page.evaluate("document.querySelector('.controls').checkVisibility()"), "controls that do nothing are shown"


def long_world(folder: pathlib.Path, calls: int) -> pathlib.Path:
    """A world with so many generated calls."""
    world = folder / "long.txt"
    world.write_bytes(labsys("gen", str(calls))[1])
    return world


def test_long_page_without_scripts(page: Page, tmp_path: pathlib.Path) -> None:
    world = long_world(tmp_path, 1000)
    page.scripts(False)
    page.open(make_page(world, tmp_path))
    assert rows_of(page) == replies_of(world.read_bytes())


def test_printed_page(page: Page, tmp_path: pathlib.Path) -> None:
    """No controls are printed, but all rows, and the choice that was made."""
    world = long_world(tmp_path, 1000)
    page.open(make_page(world, tmp_path), "#label=l1")
    page.evaluate("dispatchEvent(new Event('beforeprint'))")
    page.media("print")
    assert not page.evaluate("document.getElementById('label').checkVisibility()"), "controls are printed"
    assert "l1 sees" in page.evaluate("document.getElementById('said').innerText"), "the label that was chosen is not printed"
    assert page.evaluate(PRINTED) == 1000
    assert rows_of(page) == view_of("l1", world.read_bytes()), "what is grey in print"
    assert len(re.findall(rb"/Type\s*/Page\b", page.printed())) > 10


def world_named(name: str, folder: pathlib.Path) -> pathlib.Path:
    """An example, a hostile world, or one with many processes."""
    made = {"hostile": HOSTILE, "many": world_of_many(32, 4)[0]}
    if name not in made:
        return EXAMPLES / f"{name}.txt"
    world = folder / f"{name}.txt"
    world.write_bytes(made[name])
    return world


@pytest.mark.parametrize("name", [*CHOSEN, "hostile", "many"])
def test_contrast_and_overlaps(page: Page, name: str, tmp_path: pathlib.Path) -> None:
    """In light and dark, wide and narrow, with a label and a call chosen. What is grey has the contrast too."""
    path = make_page(world_named(name, tmp_path), tmp_path)
    for scheme in ("light", "dark"):
        page.media(prefers_color_scheme=scheme)
        page.open(path, f"#label={LABELS.get(name, 'public')}&call=2")
        assert page.evaluate("document.querySelectorAll('.unseen, .picked').length") > 0, "nothing is chosen"
        assert page.evaluate(CONTRAST) == [], scheme
        paper = page.evaluate("getComputedStyle(document.body).backgroundColor")
        assert (paper == "rgb(255, 255, 255)") == (scheme == "light"), f"{scheme}: {paper}"
    for width in WIDTHS:
        page.resize(width, 900)
        assert page.evaluate(OVERLAPS) == [], f"{width} pixels"
    assert page.evaluate(SCROLLED) == [], "something scrolls sideways at the least width"
    assert page.evaluate(UNHEADED) == [], "a cell of a card has no heading"
    assert page.evaluate(CONTRAST) == [], "dark cards"
    assert page.evaluate("window.hacked") is None, "text of the world was run"
    assert page.evaluate("document.querySelectorAll('img, svg, main script').length") == 0, "text of the world became elements"


TRUSTING = b"""world 2
levels low high
categories
bound all
dir / 0755 0 0 low
file "/p <b>" 0755 0 0 low "x" "cap_mac_read=ep"
file /q 0755 0 0 high "x" "cap_mac_write=p"
proc low 0 0 - "="
proc high 1 1 - "cap_mac_upgrade=ep"
script
1@low getpid
"""
TRUSTED = """[...document.querySelectorAll("#never tr[data-label]")].map(row =>
  [row.querySelector("th").textContent, row.classList.contains("unseen")])"""


def test_what_no_script_can_do(page: Page, tmp_path: pathlib.Path) -> None:
    """What is trusted is grey where the chosen label does not see it, and at 400 pixels its rows are cards, in the pages of one run
    and of two."""
    one, both = tmp_path / "trusting.txt", tmp_path / "both.html"
    one.write_bytes(TRUSTING)
    assert labask("page", str(one), str(EXAMPLES / "backup_for_all.txt"), "--output", str(both))[0] == 0
    for path, more in ((make_page(one, tmp_path), []), (both, [["/bin/backup", False]])):
        page.open(path, "#label=low")
        assert page.evaluate(TRUSTED) == [["1@high", True], ['"/p <b>"', False], ["/q", True], *more]
        page.evaluate(HASH % "'label=high'")
        assert [grey for _, grey in page.evaluate(TRUSTED)] == [False] * (3 + len(more))
        for width in WIDTHS:
            page.resize(width, 900)
            assert page.evaluate(OVERLAPS) == [], f"{width} pixels"
        assert page.evaluate("getComputedStyle(document.querySelector('#never tr')).display") == "block"
        assert page.evaluate(UNHEADED) == [] and page.evaluate(CONTRAST) == []


def test_page_of_many_calls(page: Page, tmp_path: pathlib.Path) -> None:
    """A label and a call are chosen by the controls as soon as the page is open, before all tables are made."""
    world = long_world(tmp_path, GENERATED)
    text = read_world(world.read_bytes())
    page.open(make_page(world, tmp_path))
    page.evaluate(SET % ("label", "l1", "change"))
    seen, view = rows_of(page), view_of("l1", text.text)
    assert seen and seen == view[: len(seen)], "the first rows differ from the view"
    page.evaluate(SET % ("call", "7777", "input"))
    compare_call(page, text, 7777, replies_of(text.text), trail_of(text.text, tmp_path))
    assert page.evaluate("(() => { const box = document.getElementById('call-7777').getBoundingClientRect(); "
                         "return box.top >= 0 && box.bottom <= innerHeight; })()"), "the picked call is not in sight"
    page.evaluate(WHOLE)
    compare_label(page, text, "l1")
