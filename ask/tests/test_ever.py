"""The question who --ever says who can come to read, write or execute an object, and through whom."""
import json
import pathlib
from typing import Any, Dict, Tuple

import pytest

from support import labask

pytestmark = pytest.mark.usefixtures("program")
HEAD = "world 2\nlevels low high\ncategories\nbound all\ndir / 0755 0 0 low\n"
# /d/a is private to user 10; the tool gives a capability; user 11 is a stranger
LINES = ('dir /d 0755 0 0 low\nfile /d/a 0600 10 10 low "secret"\nfile /d/x 0750 0 12 low "" "cap_dac_read_search=ep"\n'
         'file /d/b 0666 0 0 low "board"\nproc low 10 10 - "="\nproc low 11 11 - "="\nproc low 13 12 - "="\nproc high 10 10 - "="\n')


def answers(folder: pathlib.Path, lines: str, *words: str) -> "Tuple[int, Dict[Tuple[str, str, str], Any]]":
    """The status, and the answers by object, process and right."""
    path = folder / "world.txt"
    path.write_text(f"{HEAD}{lines}script\n")
    status, out, messages = labask("who", "--ever", path, *words, "--json")
    assert out, messages
    return status, {(each["object"], each["process"], each["right"]): each for each in json.loads(out)["answers"]}


def test_how_each_process_comes_to_read(tmp_path: pathlib.Path) -> None:
    status, found = answers(tmp_path, LINES, "/d/a")
    texts = {process: found["/d/a", process, "read"]["answer"] for process in ("1@low", "2@low", "3@low", "1@high")}
    assert status == 3
    assert texts == {"1@low": "directly", "2@low": "after 1 call", "3@low": "after 1 call", "1@high": "directly"}
    assert found["/d/a", "1@high", "write"]["answer"] == "not found"
    assert found["/d/a", "1@high", "write"]["ending"] == "never"


def test_a_program_that_is_executed_is_named(tmp_path: pathlib.Path) -> None:
    lines = LINES.replace('proc low 10 10 - "="\n', "")
    _, found = answers(tmp_path, lines, "/d/a", "--process", "2@low")
    assert found["/d/a", "2@low", "read"]["answer"] == "after 1 call, by /d/x"


def test_bytes_that_are_handed_on_are_said_to_come_through_a_process(tmp_path: pathlib.Path) -> None:
    lines = ('dir /d 0750 0 10 low\nfile /d/a 0644 0 0 high "secret"\nfile /b 0666 0 0 low ""\nproc low 11 11 - "="\n'
             'proc high 9 10 - "cap_mac_relabel_subj=ep"\n')
    status, found = answers(tmp_path, lines, "/d/a", "--process", "1@low")
    assert (status, found["/d/a", "1@low", "read"]["through"]) == (3, ["1@high"])
    assert found["/d/a", "1@low", "read"]["answer"] == "through 1@high, 7 calls"


def test_the_calls_are_written_where_they_are_asked_for(tmp_path: pathlib.Path) -> None:
    path = tmp_path / "world.txt"
    path.write_text(f"{HEAD}{LINES}script\n")
    words = ("who", "--ever", path, "/d/a", "--process", "2@low")
    assert "chmod /d/a" not in labask(*words)[1]
    assert "1@low chmod /d/a 0644" in labask(*words, "--calls")[1]


@pytest.mark.parametrize("words, text", [(("--depth", "1"), "not found, stopped at the depth"),
                                         (("--states", "1"), "not found, stopped at the states")])
def test_a_search_that_stops_early_says_so(words: "tuple[str, str]", text: str, tmp_path: pathlib.Path) -> None:
    lines = LINES.replace("0666 0 0", "0600 0 0")
    status, found = answers(tmp_path, lines, "/d/a", "--process", "2@low", *words)
    assert found["/d/a", "2@low", "read"]["answer"] == text
    assert status == 4
