"""The question lint notes what a world says and seems not to mean, and nothing of a world that has none of it."""
import json
import pathlib
from typing import List, Tuple

import pytest
from support import labask

pytestmark = pytest.mark.usefixtures("program")
HEAD = "world 2\nlevels low high\ncategories\nbound cap_kill\n"
CLEAN = ['dir / 0755 0 0 low', 'file /x 0755 0 0 low "" "cap_kill=ep"', 'file /s 4750 0 12 low ""', 'proc low 10 10 - "="',
         'proc low 11 12 - "cap_kill=p"']


def noted(folder: pathlib.Path, lines: List[str], *words: object) -> Tuple[int, List[Tuple[int, str]]]:
    """The status, and the lines and kinds of the notes."""
    path = folder / "world.txt"
    path.write_text(HEAD + "\n".join([*lines, "script\n"]))
    status, out, messages = labask("lint", path, "--json", *words)
    assert out, messages
    return status, [(each["line"], each["kind"]) for each in json.loads(out)["notes"]]


def test_nothing_is_noted_of_a_plain_world(tmp_path: pathlib.Path) -> None:
    assert noted(tmp_path, CLEAN) == (0, [])


@pytest.mark.parametrize("line, kinds", [
    ('file /y 0755 0 0 low "" "cap_chown=ep"', {"bound", "capability"}), ('file /y 0000 0 0 low ""', {"unreached"}),
    ('file /y 4755 0 0 low ""', {"set-user-id"}), ('file /y 4750 0 0 low ""', {"unreached"}), ('proc low 20 10 - "="', {"group"}),
    ('proc low 20 21 10 "="', {"group"}), ('proc low 20 20 - "cap_setuid=i"', {"capability"}),
    ('# name one\nproc low 20 20 - "="\n# name one\nproc low 21 21 - "="', {"name"}),
], ids=str)
def test_slips(line: str, kinds: "set[str]", tmp_path: pathlib.Path) -> None:
    status, found = noted(tmp_path, [*CLEAN, line])
    assert status == 3 and {kind for _, kind in found} == kinds
    assert {number for number, _ in found} == {10 + line.count("\n")}


def test_a_text_for_people(tmp_path: pathlib.Path) -> None:
    noted(tmp_path, [*CLEAN, 'file /y 4755 9 0 low ""'])
    status, out, _ = labask("lint", tmp_path / "world.txt")
    assert status == 3 and ":10: set-user-id: every process may execute /y, and becomes user 9 by it\n1 note. " in out
    assert noted(tmp_path, CLEAN, "--time", 0)[0] == 4
