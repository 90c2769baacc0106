"""Tests the page of two runs, without a browser: which calls stand in one row, what differs, its JSON, and its words."""
import json
import pathlib
import random
import re
import time
from typing import Any, List, Tuple

import pytest
from page_html import read_page
from page_inputs import EXAMPLES, HOSTILE, labask, labsys, reply_lines

from labask.page_parts.alignment import aligned, changed

pytestmark = pytest.mark.usefixtures("program")

WORLD = """world 2
levels unc
categories
bound all
dir / 0777 0 0 unc
file /f {mode} 1 1 unc "x"
proc unc 2 2 - "="
script
"""


def world(folder: pathlib.Path, name: str, calls: List[str], mode: str = "0644") -> pathlib.Path:
    """A world with these calls of its process, and a file of some mode."""
    path = folder / name
    path.write_text(WORLD.format(mode=mode) + "".join(f"1@unc {call}\n" for call in calls), encoding="ascii")
    return path


def json_of(*words: str) -> Any:
    """The JSON of the page of two runs."""
    status, out, messages = labask("page", "--json", *words)
    assert status == 0, messages
    return json.loads(out)


def page_of(*words: str) -> str:
    """The page of two runs."""
    status, out, messages = labask("page", *words)
    assert status == 0, messages
    return out.decode("utf-8")


def test_same_text_stands_beside_each_other() -> None:
    assert list(aligned("abcd", "abcd")) == [(0, 0), (1, 1), (2, 2), (3, 3)]
    assert list(aligned("abcd", "axcd")) == [(0, 0), (1, None), (None, 1), (2, 2), (3, 3)]
    assert list(aligned("abc", "bcd")) == [(0, None), (1, 0), (2, 1), (None, 2)]
    assert list(aligned("", "ab")) == [(None, 0), (None, 1)] and list(aligned("", "")) == []
    assert list(changed("abcd", "axyd")) == [(1, 1), (2, 2)] and list(changed("ab", "ab")) == []
    assert list(changed("aad", "ad")) == [(1, None)]


@pytest.mark.parametrize("seed", range(200))
def test_alignment_has_each_line_once_in_order(seed: int) -> None:
    draw = random.Random(seed)
    first, second = ([draw.choice("abcde") for _ in range(draw.randrange(12))] for _ in range(2))
    places = list(aligned(first, second))
    assert [here for here, _ in places if here is not None] == list(range(len(first)))
    assert [there for _, there in places if there is not None] == list(range(len(second)))
    assert all(first[here] == second[there] for here, there in places if here is not None and there is not None)


def test_long_scripts_are_aligned_in_little_time() -> None:
    """Also where nothing is the same at the beginning and at the end, and many lines come often."""
    draw = random.Random(1)
    first, second = ([draw.choice([f"common {draw.randrange(5)}", f"rare {draw.randrange(9000)}"]) for _ in range(10_000)]
                     for _ in range(2))
    begin = time.process_time()
    assert len(list(aligned(first, second))) >= 10_000
    assert time.process_time() - begin < 30


def test_rows_of_two_scripts(tmp_path: pathlib.Path) -> None:
    one = world(tmp_path, "one.txt", ["getpid", "open /f w", "stat /f", "close 0"])
    two = world(tmp_path, "two.txt", ["open /f w", "stat /f", "umask 0", "close 0"], mode="0666")
    run = json_of(str(one), str(two))
    assert [(row["calls"], row["difference"]) for row in run["rows"]] == [
        ([1, None], "alone"), ([2, 1], "reply"), ([3, 2], "reply"), ([None, 3], "alone"), ([4, 4], "reply")]
    assert run["first_difference"] == 1
    assert run["world"] == [{"lines": [6, 6], "texts": ['file /f 0644 1 1 unc "x"', 'file /f 0666 1 1 unc "x"']}]


def test_page_names_the_differences(tmp_path: pathlib.Path) -> None:
    one = world(tmp_path, "one.txt", ["getpid", "open /f w"])
    page = page_of(str(one), str(world(tmp_path, "two.txt", ["getpid", "open /f w"], mode="0666")))
    assert re.findall(r'<a href="#row-(\d+)">The first difference is row (\d+)</a>', page) == [("2", "2")]
    assert re.findall(r'<tr id="row-(\d+)" class="(\w+)', page) == [("1", "a0"), ("2", "pf")]
    assert "0666 1 1 unc" in page and page.count("≠ reply") == 1
    assert "Write" not in page and ">write<" in page, "the rights that differ"


def test_same_runs_do_not_differ(tmp_path: pathlib.Path) -> None:
    one, two = (world(tmp_path, name, ["getpid", "open /f w"]) for name in ("one.txt", "two.txt"))
    page = page_of(str(one), str(two))
    assert "No reply differs." in page and "the same lines" in page and "may do the same to each object" in page
    assert json_of(str(one), str(two))["first_difference"] is None


def test_records_that_differ_are_marked(tmp_path: pathlib.Path) -> None:
    one = tmp_path / "one.txt"
    one.write_text(WORLD.format(mode="0644").replace('"="', '"cap_dac_write=ep"') + "1@unc open /f w\n", encoding="ascii")
    two = tmp_path / "two.txt"
    two.write_bytes(one.read_bytes().replace(b"0644", b"0666"))
    run = json_of(str(one), str(two))
    assert [row["difference"] for row in run["rows"]] == ["records"] and run["first_difference"] is None
    assert "≠ records" in page_of(str(one), str(two))


def examples_in_turn() -> List[Tuple[pathlib.Path, pathlib.Path]]:
    """Each example with the next one."""
    paths = sorted(EXAMPLES.glob("*.txt"))
    return list(zip(paths, [*paths[1:], paths[0]]))


@pytest.mark.parametrize("one, two", examples_in_turn(), ids=lambda path: path.stem)
def test_rows_have_the_replies_as_played(one: pathlib.Path, two: pathlib.Path) -> None:
    run = json_of(str(one), str(two))
    for side, path in enumerate((one, two)):
        lines = reply_lines(labsys("play", "/dev/null", given=path.read_bytes())[1])
        calls = [row["calls"][side] for row in run["rows"] if row["calls"][side]]
        assert calls == list(range(1, len(lines) + 1))
        assert all(line.endswith(f" {call['reply']}") for line, call in zip(lines, run["runs"][side]["calls"]))


def test_text_that_looks_like_html_stays_text(tmp_path: pathlib.Path) -> None:
    one, two = tmp_path / "a'\"<b>&amp;.txt", tmp_path / "two.txt"
    one.write_bytes(HOSTILE)
    two.write_bytes(HOSTILE.replace(b"window.hacked=1</script> <!--", b"<h1>other").replace(b" 0644 0 0 unc", b" 0600 1 0 unc"))
    page = page_of(str(one), str(two))
    read_page(page)
    assert "<img" not in page and "<svg" not in page and "<b onmouseover" not in page and "&lt;img src=x" in page
    assert "\x01" not in page and "\u202e" not in page, "control characters"


def test_labels_of_both_worlds(tmp_path: pathlib.Path) -> None:
    """A label that only one of the worlds has is asked there alone."""
    one = world(tmp_path, "one.txt", ["getpid"])
    two = tmp_path / "two.txt"
    two.write_bytes(one.read_bytes().replace(b"levels unc", b"levels unc sec"))
    run = json_of(str(one), str(two))
    assert [[view["label"] for view in side["labels"]] for side in run["runs"]] == [["unc"], ["unc", "sec"]]
    assert "not asked" in page_of(str(one), str(two))
    assert labask("page", str(one), str(two), "--label", "sec")[0] == 1


def test_names_of_files_that_are_called_the_same(tmp_path: pathlib.Path) -> None:
    (tmp_path / "below").mkdir()
    one, two = world(tmp_path, "one.txt", ["getpid"]), world(tmp_path / "below", "one.txt", ["getpid"])
    assert f"<title>{one} and {two}: two runs" in page_of(str(one), str(two))
    assert "<title>one.txt and lesson.txt: two runs" in page_of(str(one), str(EXAMPLES / "lesson.txt"))


def test_wrong_words_for_two_runs(tmp_path: pathlib.Path) -> None:
    one, two = (world(tmp_path, name, ["getpid"]) for name in ("one.txt", "two.txt"))
    status, _, messages = labask("page", "-", "-")
    assert status == 1 and "standard input is read once" in messages
    for output in (one, two):
        status, _, messages = labask("page", str(one), str(two), "--output", str(output))
        assert status == 1 and "is the file that is read" in messages
    assert labask("page", str(one), str(tmp_path / "none"))[0] == 1
    two.write_text("no world\n", encoding="ascii")
    status, out, messages = labask("page", str(one), str(two))
    assert status == 2 and not out and "two.txt" in messages
