"""The question cuts --flow names the fewest changes after which no flow is found, and keeps the replies of a script."""
import json
import pathlib
from typing import Any, Dict, List, Tuple

import pytest

from support import TOP, labask

from labask.effort import Effort
from labask.flow_cuts import FlowCutter, Tried
from labask.playing import Player
from labask.search.finding import Ending
from labask.search.limits import Limits
from labask.worlds import read_world

pytestmark = pytest.mark.usefixtures("program")
EXAMPLE = TOP / "examples" / "backup_for_all.txt"
PAIR = ("/pay/list of may", "1@internal:eng")
HEAD = "world 2\nlevels low high\ncategories\nbound all\ndir / 0755 0 0 low\n"
TWO_WAYS = (HEAD + 'dir /d 0755 0 0 low\nfile /d/a 0600 9 9 low "secret"\nfile /d/x 0755 0 0 low "" "cap_dac_read_search=ep"\n'
            'file /d/y 0755 0 0 low "" "cap_dac_read_search=ep"\nproc low 11 11 - "="\nscript\n1@low stat /d\n1@low stat /d/a\n')


def cuts(path: pathlib.Path, *words: object) -> Tuple[int, Dict[str, Any]]:
    """The status and the answer."""
    status, out, messages = labask("cuts", path, *words, "--json")
    assert out, messages
    return status, json.loads(out)


def changes(answer: Dict[str, Any]) -> List[List[str]]:
    """The changes of each row in words."""
    return [[each["change"] for each in row["changes"]] for row in answer["cuts"]]


def test_single_changes_of_the_example(tmp_path: pathlib.Path) -> None:
    keep = tmp_path / "keep.txt"
    keep.write_text('1@secret:pay open "/pay/list of may" r\n')
    status, answer = cuts(EXAMPLE, "--flow", *PAIR, "--keep", keep)
    found = [row for [row] in changes(answer)]
    assert status == 3
    assert found[:2] == ["file /bin/backup: without cap_dac_read_search", "file /bin/backup: without cap_mac_read"]
    assert all(not each.startswith("dir /:") for each in found), "the replies of the script are kept"


def test_what_leaves_nothing_usable_comes_last(tmp_path: pathlib.Path) -> None:
    _, answer = cuts(EXAMPLE, "--flow", *PAIR, "--keep", "/dev/null")
    assert changes(answer)[-1] == ["dir /: mode 0755 becomes 0754"]
    lost = [row["lost"] for row in answer["cuts"]]
    assert lost == sorted(lost)


def test_no_flow_is_found_after_a_cut(tmp_path: pathlib.Path) -> None:
    status, text, _ = labask("cuts", EXAMPLE, "--flow", *PAIR, "--keep", "/dev/null", "--apply", 1)
    path = tmp_path / "cut.txt"
    path.write_text(text)
    assert status == 0
    assert json.loads(labask("flow", path, *PAIR, "--json")[1])["ending"] == "never"


def test_two_changes_where_one_is_not_enough(tmp_path: pathlib.Path) -> None:
    path = tmp_path / "two.txt"
    path.write_text(TWO_WAYS)
    status, answer = cuts(path, "--flow", "/d/a", "1@low")
    assert status == 3
    assert {frozenset(row) for row in changes(answer)} >= {frozenset((
        "file /d/x: without cap_dac_read_search", "file /d/y: without cap_dac_read_search"))}
    assert all(len(row) == 2 for row in changes(answer))


def test_a_world_without_the_flow_has_nothing_to_cut() -> None:
    status, out, _ = labask("cuts", EXAMPLE, "--flow", PAIR[0], "1@internal:eng", "--depth", "1")
    assert status == 4 and "No calls were found" in out


def test_a_script_that_one_search_found_spares_others(player: Player, monkeypatch: pytest.MonkeyPatch) -> None:
    cutter = FlowCutter(read_world(TWO_WAYS.encode("ascii")), player, b"/d/a", "1@low", b"", Limits(), Effort())
    searched, look = {}, cutter.search

    def search(changes: Any) -> Any:
        searched[changes] = look(changes)
        return searched[changes]

    monkeypatch.setattr(cutter, "search", search)
    assert cutter.cuts()
    changes = next(each for each, tried in searched.items() if tried.script in cutter.learned)
    monkeypatch.setattr(cutter, "look_in", lambda world: pytest.fail("a script that is known was searched for"))
    assert look(changes) == Tried(Ending.FOUND)


@pytest.mark.parametrize("words", [(), ("--flow", "/pay/**", "label:public"), ("--flow", PAIR[0], PAIR[0])])
def test_wrong_words(words: Tuple[str, ...]) -> None:
    assert labask("cuts", EXAMPLE, *words)[0] == 1
