"""`who`: each cell is what a call answers that is played alone, in a run of its own.

Of the search of a directory and of an execution the calls of the test are others than those of the question: `chdir` by a child,
and `exec` by the process itself.
"""
import collections
import json
import os
from typing import Counter, Optional, Tuple

import pytest
from hypothesis import given, settings
from strategies import worlds
from support import EXAMPLES, labask

from labask import who
from labask.kernel_profile import CHECKS
from labask.never_passed import never_lines, never_passed
from labask.playing import Outcome, Player
from labask.proved import proved
from labask.signatures import CAPABILITIES
from labask.worlds import Kind, World, WorldObject, path_word, read_world

CAPS = [name for name in CAPABILITIES if name.startswith(("cap_dac", "cap_mac"))]
Cell = Tuple[object, ...]


def alone(tag: str, target: WorldObject, right: who.Right) -> str:
    """The line of a script of one call that asks for a right."""
    path = path_word(target.path)
    if right is who.Right.WRITE and target.kind is Kind.DIRECTORY:
        return f"{tag} mkfifo {path_word(target.path.rstrip(b'/') + b'/not-there')} 0600"
    return f"{tag} " + {
        who.Right.READ: f"open {path} r", who.Right.WRITE: f"open {path} w", who.Right.EXECUTE: f"exec {path}",
        who.Right.LIST: f"readdir {path}", who.Right.SEARCH: f"chdir {path}",
    }[right]


def answered(world: World, tag: str, target: WorldObject, right: who.Right, player: Player) -> Cell:
    """What a fresh run answers: whether the call is done, the check that denies it, and the capabilities that it exercised."""
    played = player.play_accepted(world.with_script([alone(tag, target, right)]))
    reply = played.replies[0]
    used = dict.fromkeys(record["cap"] for record in player.select("event=exercise", played.trail))
    if reply.outcome is Outcome.DONE:
        return ("done", tuple(used))
    return (reply.check or reply.error, int(reply.place[1:]) if reply.place else None)


def depth(path: Optional[bytes]) -> Optional[int]:
    """How many names lead to a path."""
    return None if path is None else path.rstrip(b"/").count(b"/")


def claimed(found: who.Answer) -> Cell:
    """What an answer of `who` claims, in the form of `answered`."""
    if found.access in (who.Access.RULES, who.Access.CAPABILITY):
        return ("done", found.capabilities)
    return (found.check, depth(found.at))


def compare_cells(text: bytes, player: Player) -> Counter[who.Access]:
    """Compares each cell of a world with a fresh run, and counts the cells by what they say."""
    world, counts = read_world(text), collections.Counter()
    for found in who.ask(world, world.processes, world.objects, player):
        due = answered(world, found.process, world.objects_by_path[found.path], found.right, player)
        assert claimed(found) == due, f"{found.process} {found.right.value} {path_word(found.path)}, and alone {due}"
        counts[found.access] += 1
    return counts


@pytest.mark.parametrize("path", EXAMPLES[::4], ids=lambda path: path.stem)
def test_examples(path, player):
    compare_cells(path.read_bytes(), player)


def test_random_worlds(player):
    counts = collections.Counter()

    @settings(max_examples=16)
    @given(worlds(CAPS))
    def compare(text):
        counts.update(compare_cells(text, player))

    compare()
    for access in (who.Access.RULES, who.Access.CAPABILITY, who.Access.DENIED):
        assert counts[access] >= 10, f"cells that are {access.value}"


def test_more_executions_than_numbers_of_processes(player):
    """A world of 4,400 executions: a label has fewer numbers of processes, so they take more than one play."""
    files = "".join(f'file /f{number} 0{number % 8}{number % 8}{number % 8} 0 0 a ""\n' for number in range(1100))
    text = f"world 2\nlevels a b\ncategories\nbound all\ndir / 0755 0 0 a\n{files}" + 'proc a 1 1 - "="\n' * 4 + "script\n"
    world, before = read_world(text.encode()), player.plays
    answers = list(who.ask(world, world.processes, world.objects, player))
    bits = {"read": 4, "write": 2, "execute": 1}
    due = ["rules" if number % 8 & bit else "denied" for number in range(1100) for _ in range(4) for bit in bits.values()]
    assert [found.access.value for found in answers[12:]] == due
    assert player.plays - before <= 6, "runs of labsys"


def test_no_capability_that_was_exercised_is_never_exercised(player):
    """What `labsys never` says of random worlds, compared with what was played."""
    counts = collections.Counter()

    @settings(max_examples=16)
    @given(worlds(CAPS))
    def compare(text):
        world = read_world(text)
        answers = list(who.ask(world, world.processes, world.objects, player))
        exercised = {name for each in answers for name in each.capabilities}
        found = proved(player, text)
        assert not exercised & found.never
        checks = {each.check for each in answers if each.check is not None}
        due = {check: CHECKS[check].capability for check in CHECKS if check in checks and CHECKS[check].capability in found.never}
        assert never_passed(player, text, checks) == due
        counts.update(marked=bool(due), unmarked=not due, exercised=bool(exercised))

    compare()
    assert min(counts[name] for name in ("marked", "exercised")) >= 4


MARKED = """world 2
levels low high
categories
bound all
dir / 0755 0 0 low
file /f 0600 0 0 low "x"
file /g 0644 0 0 high "x"
proc low 1 1 - "{caps}"
script
"""


@pytest.mark.parametrize("caps, due", [
    ("=", {"mac_read": "cap_mac_read", "mac_write": "cap_mac_write", "dac_read": "cap_dac_read_search", "dac_write": "cap_dac_write",
           "dac_execute": "cap_dac_execute"}),
    ("cap_mac_read,cap_dac_read_search=p", {"mac_write": "cap_mac_write", "dac_write": "cap_dac_write", "dac_execute": "cap_dac_execute"}),
    ("all=p", {}), ("all=ep", {}),
], ids=str)
def test_checks_that_no_capability_overrides(caps, due, tmp_path, program):
    """A capability that is permitted may be made effective by a script, so it is not said of it."""
    path = tmp_path / "world.txt"
    path.write_text(MARKED.format(caps=caps), encoding="ascii")
    out = labask("who", path)[1].split("\n")
    assert json.loads(labask("who", path, "--json")[1])["never"] == due
    said = [line for line in out if line.startswith("Never overridden by a capability")]
    assert said == never_lines(due) and len(said) == bool(due)
    assert all(line.endswith(": " + ", ".join(due) + ".") for line in said)


def test_only_checks_of_the_table(tmp_path, program):
    path = tmp_path / "world.txt"
    path.write_text(MARKED.format(caps="="), encoding="ascii")
    assert list(json.loads(labask("who", path, "/g", "--json")[1])["never"]) == ["mac_read", "mac_write"]
    assert json.loads(labask("who", path, "--process", "1@low", "label:high", "--json")[1])["never"] is not None


def test_where_nothing_is_denied_labsys_never_is_not_run():
    assert never_passed(Player(["false"]), b"", ["label_order", "ENOENT"]) == {}


@pytest.mark.parametrize("ending", ["exit 1", "exit 2", "echo nothing"])
def test_labsys_never_without_an_answer(ending, program, open_folder):
    """The table is answered as before, and there is no line below it."""
    other = open_folder / "labsys"
    other.write_text(f'#!/bin/sh\nif [ "$1" = never ]; then cat >/dev/null; {ending}; exit; fi\nexec {os.path.abspath(program)} "$@"\n',
                     encoding="utf-8")
    other.chmod(0o755)
    path = open_folder / "world.txt"
    path.write_text(MARKED.format(caps="="), encoding="ascii")
    whole, without = (labask("who", path, *words)[1].split("\n") for words in ((), ("--labsys", str(other))))
    assert without == [line for line in whole if not line.startswith("Never")] and len(without) == len(whole) - 1
    assert json.loads(labask("who", path, "--json", "--labsys", str(other))[1])["never"] is None
