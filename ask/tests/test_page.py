"""Tests the question `page` without a browser.

The pages of all examples and of all inputs of the cases: a refused input gives status 2 and no page; each other page has a row for
each call with the reply of `play`, and the records of the trail; it names no address and has no element or attribute that text of a
world made. Then words of the command line, the JSON of a run, lanes, and the size of a page of 10,000 calls.
"""
import collections
import itertools
import json
import os
import pathlib
import re
import subprocess
import sys
from typing import Any, DefaultDict, List, Tuple, Union

import pytest
from page_html import read_page
from page_inputs import (ASK, EXAMPLES, HOSTILE, examples, input_of, inputs, labask, labsys, make_page, reply_lines, trail_of,
                         world_of_many)

from labask.page_parts.lanes import LaneKind, Lanes, make_patterns, stretches
from labask.page_parts.markup import embedded
from labask.page_parts.words import caps_of
from labask.worlds import split_words

pytestmark = pytest.mark.usefixtures("program")

LARGEST = 10 * 1024 * 1024
PAGED = 1_000_000  # bytes of an input; a page of a longer one takes up to a minute


def json_of(path: pathlib.Path) -> Any:
    """The JSON of a run."""
    status, out, messages = labask("page", "--json", str(path))
    assert status == 0, f"{path.name}: {messages}"
    return json.loads(out)


def compare_page(page: str, text: bytes, folder: pathlib.Path) -> int:
    """Compares the rows of a page with the replies and the trail of the world, and gives their number."""
    rows = read_page(page).rows
    trail = folder / "trail"
    lines = reply_lines(labsys("play", str(trail), given=text)[1])
    assert [row.number for row in rows] == list(range(1, len(lines) + 1)), f"{len(rows)} rows, {len(lines)} calls"
    records: DefaultDict[int, List[str]] = collections.defaultdict(list)
    for record in trail.read_text(encoding="ascii").split("\n")[:-1]:
        if record[0].isdigit():
            records[int(record.split(" ")[0])].append(record)
    for row, line in zip(rows, lines):
        assert " more" in row.cells["r"] + row.cells["c"] or row.line == line, f"row {row.line!r}, reply {line!r}"
        assert row.records == records[row.number], f"records {row.records}, trail {records[row.number]}"
    return len(rows)


@pytest.mark.parametrize("path", [path for path in inputs() if len(input_of(path)) <= PAGED], ids=lambda path: path.name)
def test_each_input_has_its_page(path: pathlib.Path, tmp_path: pathlib.Path) -> None:
    """Of a refused input there is no page. The page of another one has its rows."""
    text, page = input_of(path), tmp_path / "page.html"
    world = tmp_path / "world.txt"
    world.write_bytes(text)
    accepted, _ = labsys("check", given=text)
    status, _, messages = labask("page", str(world), "--output", str(page))
    assert status == (0 if accepted == 0 else 2), messages
    if status == 2:
        assert messages and not page.exists(), "a page of a refused input"
    else:
        compare_page(page.read_text(encoding="utf-8"), text, tmp_path)


def test_text_that_looks_like_html_stays_text(tmp_path: pathlib.Path) -> None:
    world = tmp_path / "a'\"<b>&amp;.txt"
    world.write_bytes(HOSTILE)
    page = make_page(world, tmp_path).read_text(encoding="utf-8")
    assert compare_page(page, HOSTILE, tmp_path) == 5
    assert "<img" not in page and "<svg" not in page and "<b onmouseover" not in page
    assert "\x01" not in page and "\u202e" not in page and "café" in page, "control characters"
    assert "<" not in embedded({"</script>": "<!--"})


def test_page_goes_to_standard_output_without_a_file(tmp_path: pathlib.Path) -> None:
    assert labask("page", str(EXAMPLES / "lesson.txt"))[1] == make_page(EXAMPLES / "lesson.txt", tmp_path).read_bytes()


@pytest.mark.parametrize("words", [("lesson.txt",), ("backup_for_all.txt", "backup_for_operators.txt"), ("lesson.txt", "--json")], ids=str)
def test_page_does_not_depend_on_the_jobs(words: Tuple[str, ...]) -> None:
    asked = [str(EXAMPLES / word) if word.endswith(".txt") else word for word in words]
    pages = {labask("page", *asked, "--jobs", count) for count in "125"}
    assert len(pages) == 1 and pages.pop()[0] == 0


def test_label_that_is_named_alone(tmp_path: pathlib.Path) -> None:
    one = make_page(EXAMPLES / "lesson.txt", tmp_path, "--label", "secret").read_text(encoding="utf-8")
    assert re.findall(r'<option value="(\w+)">\1<', one) == ["secret"] and "1 more label;" in one
    status, _, messages = labask("page", str(EXAMPLES / "lesson.txt"), "--label", "top")
    assert status == 1 and "top" in messages, "a label that the world does not have"


@pytest.mark.parametrize("label", ["", "-", "--help", "secret:", "secret top", "9", b"\xff", "sécret", "x" * 40, "secret\n"])
def test_word_that_is_no_label(label: Union[str, bytes]) -> None:
    word = b"--label=" + label if isinstance(label, bytes) else f"--label={label}"
    status, out, messages = labask("page", str(EXAMPLES / "lesson.txt"), word)
    assert status == 1 and not out and messages.startswith("labask: the world has no label "), messages


def test_wrong_words_help_and_a_missing_program() -> None:
    example = str(EXAMPLES / "lesson.txt")
    assert labask("page")[0] == 1 and labask("page", example + ".none")[0] == 1
    status, out, _ = labask("page", "--help")
    assert status == 0 and b"PAGE.html" in out
    status, _, messages = labask("--labsys", "/nonexistent/labsys", "page", example)
    assert status == 70 and messages


def test_world_without_calls(tmp_path: pathlib.Path) -> None:
    bare = tmp_path / "bare.txt"
    bare.write_bytes((EXAMPLES / "lesson.txt").read_bytes().split(b"\nscript\n")[0] + b"\nscript\n")
    assert read_page(make_page(bare, tmp_path).read_text(encoding="utf-8")).rows == []


def test_file_that_is_read_is_not_overwritten(tmp_path: pathlib.Path) -> None:
    """By whichever name it goes. Another file is."""
    text = (EXAMPLES / "lesson.txt").read_bytes()
    world, link, second, page = (tmp_path / name for name in ("same.txt", "link", "second", "page.html"))
    world.write_bytes(text)
    link.symlink_to(world)
    os.link(world, second)
    for file, output in itertools.product((world, link, second, "-"), (world, link, second)):
        with open(world, "rb") as given:
            done = subprocess.run([sys.executable, ASK / "labask", "page", file, "--output", output], stdin=given,
                                  stdout=subprocess.PIPE, stderr=subprocess.PIPE, check=False)
        assert done.returncode == 1 and b"is the file that is read" in done.stderr, f"{file} --output {output}: {done.stderr!r}"
    assert world.read_bytes() == text
    page.write_bytes(text)
    assert labask("page", str(world), "--output", str(page))[0] == 0 and page.read_bytes() != text


@pytest.mark.parametrize("path", examples(), ids=lambda path: path.name)
def test_json_agrees_with_view_and_the_trail(path: pathlib.Path, tmp_path: pathlib.Path) -> None:
    run, text = json_of(path), path.read_bytes()
    records = [line for line in trail_of(text, tmp_path) if re.match(r"[1-9]\d* ", line)]
    assert sum(len(call["records"]) for call in run["calls"]) == len(records)
    lines = reply_lines(labsys("play", str(tmp_path / "trail"), given=text)[1])
    for view in run["labels"]:
        seen = labsys("view", view["label"], given=text)[1]
        assert [lines[call - 1] for call in view["sees"]] == reply_lines(seen), view["label"]
        assert (view["crossed"] is not None) == (b"\ncrossed\n" in b"\n" + seen), view["label"]


@pytest.mark.parametrize("path", examples(), ids=lambda path: path.name)
def test_last_sets_of_processes_are_those_of_the_end_lines(path: pathlib.Path, tmp_path: pathlib.Path) -> None:
    """All but the end lines comes from the trail."""
    out = labsys("play", str(tmp_path / "trail"), given=path.read_bytes())[1].decode("ascii")
    ends = [split_words(line.encode("ascii"))[0] for line in out.split("\n") if line.startswith("end ")]
    living = {life["pid"]: life["moments"][-1] for life in json_of(path)["processes"] if not life["ended"]}
    due = {words[1].text: (words[2].text, words[3].text) for words in ends}
    assert {tag: (moment["label"], moment["caps"]) for tag, moment in living.items()} == due


def test_sets_of_a_capability_text() -> None:
    both = "cap_chown, cap_kill"
    assert caps_of("cap_chown,cap_kill=ep cap_setuid=i") == {"permitted": both, "effective": both, "inheritable": "cap_setuid"}


def lane_names(page: str) -> List[str]:
    """The names above the lanes of a page."""
    head = re.search(r'<span class="names" aria-hidden="true">(.*?)</span><th', page)
    return re.findall(r'<span title="([^"]*)">', head[1]) if head else []


@pytest.mark.parametrize("processes, labels, kind, count",
                         [(32, 4, LaneKind.PROCESS, 32), (60, 20, LaneKind.LABEL, 20), (100, 60, LaneKind.NONE, 0)])
def test_lanes_of_many_processes(processes: int, labels: int, kind: LaneKind, count: int, tmp_path: pathlib.Path) -> None:
    """Lanes are labels where there are many processes, and there are none where there are many labels."""
    text, tags = world_of_many(processes, labels)
    world = tmp_path / "many.txt"
    world.write_bytes(text)
    page = make_page(world, tmp_path).read_text(encoding="utf-8")
    names = lane_names(page)
    assert len(names) == count
    for row, tag in zip(read_page(page).rows, tags):
        lane = re.fullmatch(r"--l:(\d+)", row.style)
        name = tag if kind is LaneKind.PROCESS else tag.partition("@")[2]
        assert names[int(lane[1])] == name if lane else kind is LaneKind.NONE, f"lane of {tag}"


def test_labels_beyond_the_first_are_left_out(tmp_path: pathlib.Path) -> None:
    world = tmp_path / "many.txt"
    world.write_bytes(world_of_many(100, 60)[0])
    page = make_page(world, tmp_path).read_text(encoding="utf-8")
    chooser = re.search(r'<select id="label">(.*?)</select>', page)
    assert chooser and chooser[1].count("<option") - 1 == 64 and "12 more labels" in page


def test_patterns_of_lanes() -> None:
    spans = Lanes(LaneKind.PROCESS, ("a", "b", "c"), ((0, 1 << 62), (2, 4), (0, 1)))
    patterns = make_patterns(spans)
    assert [sorted(patterns.sets[patterns.at(call)]) for call in range(1, 7)] == [[0, 2], [0], [0, 1], [0, 1], [0], [0]]
    assert list(stretches(frozenset({0, 1, 3, 5, 6, 7}))) == [(0, 2), (3, 1), (5, 3)]


def test_page_of_many_calls_is_small(tmp_path: pathlib.Path) -> None:
    world = tmp_path / "generated.txt"
    world.write_bytes(labsys("gen", "10000")[1])
    page = make_page(world, tmp_path)
    assert page.stat().st_size < LARGEST
    assert compare_page(page.read_text(encoding="utf-8"), world.read_bytes(), tmp_path) == 10_000
