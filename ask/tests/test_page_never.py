"""Tests the section of `page` on what no script can do: that it has what `labsys never` says, of one run and of two, and that a page
is made too where `labsys never` gives no answer."""
import json
import os
import pathlib
import re
from typing import Dict, List

import pytest
from page_html import read_page
from page_inputs import EXAMPLES, examples, labask, labsys

from labask import never as never_question
from labask.kernel_profile import CAPABILITIES
from labask.page_parts import never

pytestmark = pytest.mark.usefixtures("program")

TRUSTING = """world 2
levels low high
categories
bound all
dir / 0755 0 0 low
file "/p <b>" 0755 0 0 low "x" "cap_mac_read=ep"
file /q 0700 1 0 low "x" "cap_mac_write=p"
proc low 0 0 - "="
proc high 1 1 - "cap_mac_upgrade=ep"
script
"""


def page_of(*words: str) -> str:
    """A page, which has no elements that text of a world made."""
    status, out, messages = labask("page", *words)
    assert status == 0, messages
    read_page(out.decode("utf-8"))
    return out.decode("utf-8")


def section_of(page: str) -> str:
    """The section on what no script can do."""
    found = re.search(r'<section id="never".*?</section>', page, re.DOTALL)
    assert found and page.count('href="#never"') == 1
    return found[0]


def plain(cell: str) -> str:
    """The text of a cell."""
    return re.sub("<[^>]*>", "", cell).strip()


def rows_of(section: str) -> Dict[str, List[str]]:
    """The rows of the tables of a section by what heads them, each with its cells."""
    found = (re.split("<td[^>]*>", row) for row in re.findall(r"<tr[^>]*>(<th scope=\"row\">.*)", section))
    return {plain(head): list(map(plain, cells)) for head, *cells in found}


def said(path: pathlib.Path) -> Dict[str, List[str]]:
    """The words behind the first ones of the lines of `labsys never`."""
    lines = labsys("never", given=path.read_bytes())[1].decode("ascii").split("\n")
    return {word: [line.split(" ", 1)[1] for line in lines if line.startswith(word + " ")] for word in ("never", "uncrossed", "open")}


@pytest.fixture(name="trusting")
def trusting_world(tmp_path: pathlib.Path) -> pathlib.Path:
    """A world with a trusted process and two trusted programs."""
    path = tmp_path / "trusting.txt"
    path.write_text(TRUSTING, encoding="ascii")
    return path


@pytest.mark.parametrize("path", examples(), ids=lambda path: path.stem)
def test_section_has_what_labsys_says(path: pathlib.Path) -> None:
    rows, due = rows_of(section_of(page_of(str(path)))), said(path)
    named = list(CAPABILITIES) if due["never"] == ["all"] else [name for name in due["never"][0].split(",") if name != "none"]
    assert rows["Capabilities that no script exercises"][0].split(", ") == (named or ["none"])
    had = [name for name in CAPABILITIES if name not in named]
    assert rows["Capabilities that a script may exercise"][0].split(", ") == (had or ["none"])
    assert rows["Labels that a script may cross"] == [", ".join(due["open"]) or "none"]
    uncrossed = rows["Labels that nothing crosses"][0]
    assert uncrossed == (", ".join(due["uncrossed"]) or "none") or (uncrossed.startswith("all of them:") and not due["open"])


@pytest.mark.parametrize("path", examples(), ids=lambda path: path.stem)
def test_trusted_are_those_of_never(path: pathlib.Path) -> None:
    answer = json.loads(labask("never", "--json", str(path))[1])
    rows = rows_of(section_of(page_of(str(path))))
    for each in answer["programs"]:
        assert rows[each["program"]][:2] == [each["label"], "gives " + ", ".join(each["capabilities"])]
    for each in answer["processes"]:
        assert rows[each["process"]] == [each["label"], "holds " + ", ".join(each["capabilities"]), "-"]
    assert len(rows) == 4 + len(answer["programs"]) + len(answer["processes"])


def test_trusted_processes_and_programs(trusting: pathlib.Path) -> None:
    """The second program may be executed by a process that owns it, or by nobody: worked out by hand."""
    section = section_of(page_of(str(trusting)))
    rows = rows_of(section)
    assert rows["&quot;/p &lt;b&gt;&quot;"] == ["low", "gives cap_mac_read", "1@low, 1@high"]
    assert rows["/q"] == ["low", "gives cap_mac_write", "1@high"]
    assert rows["1@high"] == ["high", "holds cap_mac_upgrade", "-"]
    assert "for every script of this world and not only for this one" in section


def test_world_without_trusted_ones() -> None:
    section = section_of(page_of(str(EXAMPLES / "lesson.txt")))
    assert "No process holds and no program gives one" in section and "all of them: no process ever has" in section


def test_many_are_cut(trusting: pathlib.Path, monkeypatch: pytest.MonkeyPatch) -> None:
    monkeypatch.setattr(never, "MOST_LISTED", 1)
    section = section_of(page_of(str(trusting)))
    assert '<span class="more">… 1 more</span>' in section and "There are 2 more; <code>labask never</code>" in section
    monkeypatch.setattr(never, "MOST_RIGHTS", 1)
    monkeypatch.setattr(never, "MOST_LISTED", 9)
    monkeypatch.setattr(never_question, "ask", None)
    rows = rows_of(section_of(page_of(str(trusting))))
    assert rows["/q"][2] == "not asked" and rows["1@high"][2] == "-"


def test_two_worlds_side_by_side(trusting: pathlib.Path) -> None:
    section = section_of(page_of(str(EXAMPLES / "lesson.txt"), str(trusting)))
    rows = rows_of(section)
    assert rows["Labels that a script may cross"] == ["none", "low, high"]
    assert rows["Labels that nothing crosses"][0].startswith("all of them:") and rows["Labels that nothing crosses"][1] == "none"
    assert re.findall(r'<div data-side="(\d)"><h3>(.*?)</h3>', section) == [("0", "A: lesson.txt"), ("1", "B: trusting.txt")]
    assert rows["/q"] == ["low", "gives cap_mac_write", "1@high"]


@pytest.mark.parametrize("ending", ["exit 1", "exit 2", "echo nothing", "exit 70"])
def test_page_where_labsys_never_gives_no_answer(ending: str, program: str, open_folder: pathlib.Path) -> None:
    """As where the program is older than this question."""
    other = open_folder / "labsys"
    other.write_text(f'#!/bin/sh\nif [ "$1" = never ]; then cat >/dev/null; {ending}; exit; fi\nexec {os.path.abspath(program)} "$@"\n',
                     encoding="utf-8")
    other.chmod(0o755)
    lesson = str(EXAMPLES / "lesson.txt")
    section = section_of(page_of(lesson, "--labsys", str(other)))
    assert "<table" not in section and "<code>labsys never</code> gave no answer." in section
    section = section_of(page_of(lesson, str(EXAMPLES / "login.txt"), "--labsys", str(other)))
    assert section.count("gave no answer about") == 2 and "not known" in section
