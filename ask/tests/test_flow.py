"""`flow`: isolation holds in random worlds, and ways of each kind are found and give the bytes.

By isolation, no bytes get to what does not dominate their object where there are no capabilities: this is asked of 400 random
worlds without capabilities and set-id bits.
"""
import collections
import json

import pytest
from hypothesis import assume, given, settings
from hypothesis import strategies as st
from strategies import read_label, worlds
from support import TOP, labask

from labask import flow
from labask.answers import Status
from labask.worlds import Kind, read_world

WORLDS = 400
EXAMPLE = TOP / "examples" / "backup_for_all.txt"
LIST = "/pay/list of may"
ENGINEER = "1@internal:eng"
pytestmark = pytest.mark.usefixtures("program")


@st.composite
def questions(draw, caps=()):
    """A random world with these capabilities, a file of it, a process or another file, and whether the label of this dominates that of the file."""
    world = read_world(draw(worlds(caps)))
    files = [each for each in world.objects if each.kind is Kind.FILE]
    assume(files)
    source = draw(st.sampled_from(files))
    goals = [(process.tag, process.label) for process in world.processes]
    goals += [(each.path, each.label) for each in files if each is not source]
    goal, label = draw(st.sampled_from(goals))
    return world, source, goal, read_label(label).dominates(read_label(source.label))


def test_isolation(player):
    counts = collections.Counter()

    @settings(max_examples=WORLDS)
    @given(questions())
    def ask(question):
        world, source, goal, above = question
        found = flow.Flow(world, player, source.path, goal).find(6, 200)
        counts.update(found=found is not None, below=not above)
        assert found is None or above, f"{source.path} of {source.label} gets to {goal}: {found.calls}"

    ask()
    assert min(counts["found"], counts["below"]) >= 100, f"too few questions of a kind: {counts}"


def test_leak_of_the_example(tmp_path, player):
    """It is found, its script gives the bytes, and it is gone after the first cut."""
    status, out, _ = labask("flow", EXAMPLE, LIST, ENGINEER)
    assert status == Status.YES and f"{ENGINEER} exec /bin/backup" in out
    leak, cut = tmp_path / "leak.txt", tmp_path / "cut.txt"
    leak.write_text(out)
    replies = player.play_accepted(out.encode("latin-1")).replies
    assert (replies[-1].tag, replies[-1].call, replies[-1].words[0].value) == (ENGINEER, "read", b"ann 4000\nbob 3900")
    status, text, _ = labask("cuts", leak, len(replies), "--apply", 1)
    cut.write_text(text)
    assert status == 0
    assert not json.loads(labask("flow", cut, LIST, ENGINEER, "--json")[1])["found"], "after the first cut"


@pytest.mark.parametrize("name, found", [("cap_mac_read", False), ("cap_kill", True)])
def test_without(name, found):
    answer = json.loads(labask("flow", EXAMPLE, LIST, ENGINEER, "--without", name, "--json")[1])
    assert answer["found"] == found
    assert name not in {each for call in answer["calls"] for each in call["used"]}


def test_depth():
    assert not json.loads(labask("flow", EXAMPLE, LIST, ENGINEER, "--depth", 2, "--json")[1])["found"]


CLOSED, OPEN = "0755", "0777"
# worlds with one way each: the mode of /, the objects and processes, FROM, TO, and a call of the script that only this way has
WAYS = {
    "another process writes what the next one reads":
        (CLOSED, 'file /a 0640 5 10 low "secret"\nfile /b 0666 0 0 low ""\nproc low 10 10 - "="\nproc low 11 11 - "="\n', "/a",
         "2@low", "write 1"),
    "a new file":
        (OPEN, 'file /a 0640 5 10 low "secret"\nproc low 10 10 - "="\nproc low 11 11 - "="\n', "/a", "2@low", "wcx 0666"),
    "a FIFO":
        (CLOSED, 'dir /d 0755 0 0 low\nfile /d/a 0640 5 10 low "secret"\nfifo /d/p 0666 0 0 low\nproc low 10 10 - "="\n'
         'proc low 11 11 - "="\n', "/d/a", "2@low", "open /d/p r"),
    "an object gets another label":
        (OPEN, 'file /a 0644 10 10 high "secret"\nproc low 11 11 - "="\nproc high 10 10 - "cap_mac_downgrade=ep"\n', "/a", "1@low",
         "mac_set_file"),
    "a process gets another label":
        (CLOSED, 'file /a 0644 0 0 high "secret"\nfile /b 0666 0 0 low ""\nproc low 11 11 - "="\n'
         'proc high 10 10 - "cap_mac_relabel_subj=ep"\n', "/a", "/b", "mac_set_proc low"),
    "a set-user-ID program, and a file that was opened before":
        (CLOSED, 'file /a 0600 5 5 low "secret"\nfile /b 0600 10 10 low ""\nfile /x 4755 5 5 low "x"\nproc low 10 10 - "="\n', "/a",
         "/b", "exec /x"),
    "a permitted capability":
        (OPEN, 'file /a 0600 5 5 low "secret"\nproc low 10 10 - "cap_dac_read_search=p"\n', "/a", "1@low", "cap_set_proc"),
}


@pytest.mark.parametrize("name", WAYS)
def test_ways(name, tmp_path):
    """Each way is found."""
    mode, lines, source, goal, call = WAYS[name]
    path = tmp_path / "way.txt"
    path.write_text(f"world 2\nlevels low high\ncategories\nbound all\ndir / {mode} 0 0 low\n{lines}script\n")
    answer = json.loads(labask("flow", path, source, goal, "--json")[1])
    assert answer["found"] and any(call in each["text"] for each in answer["calls"]), answer
