"""The question flow looks for every call that can matter, of every process on the way, and says where it stopped.

Each world has one shortest way, found by hand; the calls of the answer are compared with it.
"""
import json
import pathlib
from typing import List, NamedTuple

import pytest

from support import labask

from labask.playing import Outcome, Player

pytestmark = pytest.mark.usefixtures("program")


class Way(NamedTuple):
    """A world with one shortest way: its lines, FROM, TO, and the calls without their tags."""
    name: str
    lines: str
    source: str
    goal: str
    calls: List[str]


READ = ["open /d/a r", "read 0 6"]
CLOSED = 'dir / 0755 0 0 low\ndir /d 0755 0 0 low\nfile /d/a 0600 10 10 low "secret"\nproc low 11 11 - "="\n'
WAYS = [
    Way("cap_setuid", 'dir / 0755 0 0 low\ndir /d 0755 0 0 low\nfile /d/a 0600 10 10 low "secret"\nproc low 11 11 - "cap_setuid=ep"\n',
        "/d/a", "1@low", ["setuid 10", *READ]),
    Way("cap_setgid", 'dir / 0755 0 0 low\ndir /d 0755 0 0 low\nfile /d/a 0640 10 10 low "secret"\nproc low 11 11 - "cap_setgid=ep"\n',
        "/d/a", "1@low", ["setgid 10", *READ]),
    Way("the owner opens a file", CLOSED + 'proc low 10 10 - "="\n', "/d/a", "1@low", ["chmod /d/a 0644", *READ]),
    Way("the owner opens a directory", 'dir / 0755 0 0 low\ndir /d 0700 10 10 low\nfile /d/a 0644 10 10 low "secret"\n'
        'proc low 11 11 - "="\nproc low 10 10 - "="\n', "/d/a", "1@low", ["chmod /d 0755", *READ]),
    Way("a program with cap_fowner", 'dir / 0755 0 0 low\ndir /d 0755 0 0 low\nfile /d/a 0600 10 10 low "secret"\n'
        'file /d/x 0755 0 0 low "" "cap_fowner=ep"\nproc low 11 11 - "="\n', "/d/a", "1@low",
        ["exec /d/x", "chmod /d/a 0644", *READ]),
    Way("a name is linked out of a directory", 'dir / 0755 0 0 low\ndir /d 0700 10 10 low\nfile /d/a 0644 0 0 low "secret"\n'
        'dir /e 0755 10 10 low\nproc low 11 11 - "="\nproc low 10 10 - "cap_link_dir=p"\n', "/d/a", "1@low",
        ["chmod /d 0755", *READ]),
    Way("a name is linked out of a directory of a stranger",
        'dir / 0755 0 0 low\ndir /d 0750 0 10 low\nfile /d/a 0644 0 0 low "secret"\ndir /e 0755 10 10 low\n'
        'proc low 11 11 - "="\nproc low 10 10 - "="\n', "/d/a", "1@low", ["link /d/a /e/copy1", "open /e/copy1 r", "read 0 6"]),
    Way("a directory is moved out of a directory of a stranger",
        'dir / 0755 0 0 low\ndir /d 0770 0 10 low\ndir /d/s 0755 0 0 low\nfile /d/s/a 0640 0 12 low "secret"\ndir /e 0755 10 10 low\n'
        'proc low 11 11 12 "="\nproc low 10 10 - "="\n', "/d/s/a", "1@low",
        ["rename /d/s /e/copy1", "open /e/copy1/a r", "read 0 6"]),
    Way("cap_chown", 'dir / 0755 0 0 low\ndir /d 0755 0 0 low\nfile /d/a 0600 10 10 low "secret"\nproc low 11 11 - "="\n'
        'proc low 12 12 - "cap_chown=ep"\n', "/d/a", "1@low", ["chown /d/a 11 10", *READ]),
    Way("cap_setfcap on a tool", 'dir / 0755 0 0 low\ndir /d 0755 0 0 low\nfile /d/a 0600 0 0 low "secret"\nfile /d/x 0755 12 12 low ""\n'
        'proc low 11 11 - "="\nproc low 12 12 - "cap_setfcap=ep cap_dac_read_search=p"\n', "/d/a", "1@low",
        ['cap_set_file /d/x "cap_dac_read_search,cap_setfcap=eip"', "exec /d/x", *READ]),
    Way("what a gateway sends is replaced", 'dir / 0755 0 0 low\ndir /d 0755 10 10 low\nfile /d/a 0600 0 0 low "secret"\n'
        'file /d/out 0644 0 0 low "letter"\nproc low 10 10 - "="\n', "/d/a", "/d/out", ["rename /d/a /d/out"]),
    Way("a current directory", 'dir / 0755 0 0 low\ndir /d 0750 0 10 low\ndir /d/s 0777 0 0 low\nfile /d/s/a 0600 20 20 low "secret"\n'
        'file /x 2755 0 21 low "" "cap_dac_read_search=p"\nproc low 11 10 - "cap_setuid=ep"\n', "/d/s/a", "1@low",
        ["setuid 20", "open /d/s/a r", "read 0 6"]),
    Way("an object is open while its label changes", 'dir / 0755 0 0 low\nfile /a 0644 10 10 high "secret"\nproc low 11 11 - "="\n'
        'proc high 10 10 - "cap_mac_downgrade=ep"\n', "/a", "1@low", ["mac_set_file /a low", "open /a r", "read 0 6"]),
    Way("a label is raised so that the object may be moved", 'dir / 0755 0 0 low\ndir /a 0700 10 10 low\nfile /a/f 0400 10 10 low "secret"\n'
        'dir /d 0700 10 10 high\nfile /d/g 0400 20 20 high "letter"\nproc low 10 10 - "cap_mac_write,cap_mac_read,cap_mac_upgrade=ep"\n',
        "/a/f", "/d/g", ["mac_set_file /a/f high", "rename /a/f /d/g"]),
    Way("what is replaced gets another owner and label first", 'dir / 0777 20 20 low\nfile /a 0666 20 10 low "secret"\n'
        'file /b 0640 20 10 high "letter"\nproc high 10 10 - "cap_mac_downgrade,cap_chown=ep"\nproc low 20 10 - "="\n', "/a", "/b",
        ["chown /b 10 10", "mac_set_file /b low", "rename /a /b"]),
    Way("a process gets the label of what it moves and replaces", 'dir / 0777 20 20 low\nfile /a 0000 20 20 low "secret"\n'
        'file /b 0000 30 10 high "letter"\nproc high 10 10 - "cap_mac_downgrade,cap_fowner,cap_mac_relabel_subj=ep"\n', "/a", "/b",
        ["mac_set_file /b low", "mac_set_proc low", "rename /a /b"]),
    Way("a label is lowered once no high directory has the object", 'dir / 0777 20 20 low\ndir /d 0711 10 10 high\n'
        'file /d/a 0444 10 10 high "secret"\nproc low 10 10 - "cap_mac_write,cap_mac_downgrade=ep"\nproc high 10 10 - "cap_mac_write=ep"\n',
        "/d/a", "1@low", ["rename /d/a /copy1", "mac_set_file /copy1 low", "open /copy1 r", "read 0 6"]),
    Way("a file with the set-group-ID bit gets another group", 'dir / 0755 0 0 low\nfile /a 2060 20 30 low "secret"\n'
        'proc low 10 20 - "="\nproc low 11 30 - "cap_chown=ep"\n', "/a", "1@low", ["chown /a 0 20", "open /a r", "read 0 6"]),
    Way("the directories of the path TO are made anew", 'dir / 0755 10 10 low\ndir /d 0755 30 30 low\ndir /d/e 0700 30 30 high\n'
        'file /d/e/b 0600 30 30 high "letter"\nfile /a 0700 10 10 low "secret"\nproc low 10 10 - "="\n', "/a", "/d/e/b",
        ["rename /d /copy1", "mkdir /d 0777", "mkdir /d/e 0777", "link /a /d/e/b"]),
]


def asked(folder: pathlib.Path, lines: str, *words: str) -> "tuple[int, dict]":
    """The status and the answer of flow in a world of two levels."""
    path = folder / "world.txt"
    path.write_text(f"world 2\nlevels low high\ncategories\nbound all\n{lines}script\n")
    status, out, messages = labask("flow", path, *words, "--json")
    assert out, messages
    return status, json.loads(out)


@pytest.mark.parametrize("way", WAYS, ids=[way.name for way in WAYS])
def test_the_shortest_way_is_found(way: Way, tmp_path: pathlib.Path, player: Player) -> None:
    status, answer = asked(tmp_path, way.lines, way.source, way.goal)
    calls = [call["text"].split(" ", 1)[1] for call in answer["calls"]]
    assert (status, calls) == (3, way.calls)
    played = player.play_accepted(answer["world"].encode("latin-1"))
    assert all(reply.outcome is Outcome.DONE for reply in played.replies)


def wards(count: int) -> str:
    """The lines of wards that differ in names alone: each has a directory, a record and a doctor; a visitor may execute a program."""
    lines = 'dir / 0755 0 0 low\nfile /x 4755 1 1 low "" "cap_dac_read_search=ep"\nfile /board 0644 7 7 low "news"\nproc low 7 7 - "="\n'
    for ward in range(count):
        lines += f'dir /w{ward} 0750 {10 + ward} {10 + ward} low\nfile /w{ward}/a 0640 {10 + ward} {10 + ward} low "secret"\n'
    return lines + "".join(f'proc high {10 + ward} {10 + ward} - "="\n' for ward in range(count))


def test_many_who_differ_in_names_alone_are_asked_about_as_one(tmp_path: pathlib.Path) -> None:
    lines = "\n".join(sorted(wards(12).strip().split("\n"), key=lambda line: line.startswith("proc"))) + "\n"
    _, answer = asked(tmp_path, lines, "/w3/a", "/board")
    due = ["exec /x", "open /w3/a r", "read 0 6", "open /board w", "write 1 secret"]
    calls = [call["text"].split(" ", 1)[1] for call in answer["calls"]]
    assert len(calls) == 5 and answer["excluded_calls"] == 4 and {call.split()[0] for call in calls} == {each.split()[0] for each in due}
    status, answer = asked(tmp_path, lines, "/w3/a", "/w5/a", "--without", "cap_dac_read_search")
    assert (status, answer["ending"]) == (0, "never")


def test_a_door_that_another_process_opens_is_of_that_process(tmp_path: pathlib.Path) -> None:
    _, answer = asked(tmp_path, CLOSED + 'proc low 10 10 - "="\n', "/d/a", "1@low")
    assert [call["text"].split(" ")[0] for call in answer["calls"]] == ["2@low", "1@low", "1@low"]


def test_no_script_of_any_length_is_said_so(tmp_path: pathlib.Path) -> None:
    status, answer = asked(tmp_path, CLOSED, "/d/a", "1@low")
    assert (status, answer["found"], answer["ending"], answer["not_shown_to_be_absent"]) == (0, False, "never", False)


@pytest.mark.parametrize("words, ending", [(("--depth", "2"), "depth"), (("--states", "1"), "states"), (("--time", "0"), "time")])
def test_a_search_that_stops_early_says_so(words: "tuple[str, str]", ending: str, tmp_path: pathlib.Path) -> None:
    status, answer = asked(tmp_path, CLOSED + 'proc low 10 10 - "="\n', "/d/a", "1@low", *words)
    assert (status, answer["found"], answer["ending"], answer["not_shown_to_be_absent"]) == (4, False, ending, True)


def test_one_pass_answers_all_pairs(tmp_path: pathlib.Path) -> None:
    lines = CLOSED + 'file /d/b 0644 10 10 low "open"\nproc low 10 10 - "="\n'
    status, answer = asked(tmp_path, lines, "/d/*", "label:low", "--jobs", "2")
    found = {(pair["from"], pair["to"]): len(pair["calls"]) for pair in answer["pairs"]}
    assert status == 3
    assert found["/d/a", "1@low"] == 3 and found["/d/a", "2@low"] == 2 and found["/d/b", "1@low"] == 2
    assert found["/d/a", "/d/b"] == 4 and len(found) == answer["asked"] == 6
