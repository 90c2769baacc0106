"""The question diff says what two worlds allow differently, which flows are new or gone, and which replies differ."""
import json
import pathlib
from typing import Any, Dict, Tuple

import pytest
from support import TOP, labask

pytestmark = pytest.mark.usefixtures("program")
HEAD = "world 2\nlevels low high\ncategories\nbound all\ndir / 0755 0 0 low\n"
ONE = (HEAD + 'file /a 0640 10 10 low "secret"\nfile /old 0600 0 0 low ""\n# name owner\nproc low 10 10 - "="\n# name guest\nproc low 11 11 - "="\n'
       'script\n2@low open /a r\n1@low fork\n3@low open /a r\n')
# the guest comes first, and may read; it has another number
OTHER = (HEAD + 'file /a 0644 10 10 low "secret"\n# name guest\nproc low 11 11 - "="\n# name owner\nproc low 10 10 - "="\n'
         'proc high 9 9 - "cap_dac_read_search=ep"\nscript\n')


def compared(folder: pathlib.Path, one: str, other: str, *words: object) -> Tuple[int, Dict[str, Any]]:
    """The status and the answer."""
    (folder / "a.txt").write_text(one)
    (folder / "b.txt").write_text(other)
    status, out, messages = labask("diff", folder / "a.txt", folder / "b.txt", *words, "--json")
    assert out, messages
    return status, json.loads(out)


def test_processes_are_matched_by_name_and_objects_by_path(tmp_path: pathlib.Path) -> None:
    status, found = compared(tmp_path, ONE, OTHER)
    assert status == 3
    assert {(each["sign"], each["text"]) for each in found["things"]} == {("-", "file /old"), ("+", "process 1@high")}
    rights = {(each["sign"], each["text"]) for each in found["rights"]}
    assert ("+", "guest may read /a") in rights and ("+", "1@high may read /a") in rights
    assert not any("owner" in text for _, text in rights)


def test_replies_are_compared_without_numbers(tmp_path: pathlib.Path) -> None:
    found = compared(tmp_path, ONE, OTHER)[1]
    assert [(each["call"], each["a"], each["b"]) for each in found["replies"]] == [(1, "EACCES dac_read p1", "ok 0")]
    assert any("dac_read: the mode" in line for line in found["why"])


def test_flows_that_are_new(tmp_path: pathlib.Path) -> None:
    other = ONE.replace("0640 10 10", "0644 10 10").replace("2@low open /a r\n", "")
    status, found = compared(tmp_path, ONE.replace("proc low 10 10", "proc high 10 10"), other.replace("proc low 10 10", "proc high 10 10"),
                             "--flows")
    assert status == 3
    assert [(each["sign"], each["text"]) for each in found["flows"]] == [("+", "bytes of /a get to guest by 2 calls")]


def test_equal_worlds_do_not_differ(tmp_path: pathlib.Path) -> None:
    status, found = compared(tmp_path, ONE, ONE.replace("# name", "# a comment\n# name"))
    assert status == 0 and not (found["things"] or found["rights"] or found["replies"])


def test_a_refused_world_is_named(tmp_path: pathlib.Path) -> None:
    (tmp_path / "b.txt").write_text("world 3\n")
    status, out, messages = labask("diff", TOP / "examples" / "lesson.txt", tmp_path / "b.txt")
    assert status == 2 and not out and f"{tmp_path}/b.txt:1: " in messages
    assert compared(tmp_path, ONE, OTHER, "--time", 0)[0] in (3, 4)
