"""`flow` with `labsys never`: a pair that is proved has no script, in random worlds, and what stands in the way is named.

Also a file whose directory is moved to the path of TO, which the proof does not speak of. Few worlds are asked each time; the variable
LABASK_PROVED says how many.
"""
import collections
import json
import os

import pytest
from hypothesis import given, settings
from strategies import read_label
from support import TOP, labask
from test_flow import questions

from labask import flow
from labask.answers import Status
from labask.flow_proof import Proof, Proofs
from labask.proved import proved
from labask.worlds import read_world

WORLDS = int(os.environ.get("LABASK_PROVED", 40))
CAPS = ("cap_kill", "cap_chown", "cap_setuid", "cap_dac_read_search", "cap_dac_write", "cap_mac_read")
HEAD = "world 2\nlevels low high\ncategories a b\nbound all\ndir / 0777 0 0 low\n"
FILES = 'file /secret 0600 9 9 high "secret"\nfile /public 0644 10 10 low "public"\n'
LOW, HIGH, READER = 'proc low 10 10 - "="\n', 'proc high 9 9 - "="\n', 'proc high 9 9 - "cap_mac_read=ep"\n'
MOVED = ('dir /c 0777 0 0 low\ndir /a 0777 0 0 low\nfile /c/b 0600 9 9 high "secret"\nfile /a/b 0644 10 10 low "public"\n'
         'file /a/c 0644 10 10 low "public"\n')
GIVER = 'file /bin 0755 0 0 low "" "cap_mac_read=ep"\n'
# worlds with FROM, TO, and the proof, worked out by hand
BY_HAND = {
    "process": (FILES + LOW, "/secret", "1@low", Proof("low")),
    "file": (FILES + LOW, "/secret", "/public", Proof("low")),
    "above": (FILES + LOW + HIGH, "/public", "1@high", Proof()),
    "no process": (FILES + HIGH, "/secret", "/public", Proof("low")),
    "reader above": (FILES + LOW + READER, "/secret", "1@low", Proof("low")),
    "reader above, no process": (FILES + READER, "/secret", "/public", Proof(None, ("no process has the label low",))),
    "by a label between": ('file /secret 0600 9 9 high:a "x"\nfile /public 0644 9 9 low "x"\nproc low:b 1 1 - "="\n'
                           'proc high:a,b 1 1 - "cap_mac_read=p"\n', "/secret", "/public", Proof("low:b")),
    "reader beside": (FILES + LOW + 'proc low:a 1 1 - "cap_mac_read=p"\n', "/secret", "1@low:a", Proof(None, ("1@low:a holds cap_mac_read",))),
    "writer above": (FILES + LOW + 'proc high 1 1 - "cap_mac_write,cap_mac_read=p"\n', "/secret", "1@low",
                     Proof(None, ("1@high holds cap_mac_write",))),
    "program": (FILES + GIVER + LOW, "/secret", "1@low", Proof(None, ("/bin gives cap_mac_read",))),
    "program above": (FILES + GIVER.replace("low", "high") + LOW + HIGH, "/secret", "1@low", Proof("low")),
    "moved": (MOVED + LOW, "/c/b", "/a/b", Proof(None, ("another object may come to be at the path of TO",))),
    "not moved": (MOVED + LOW, "/c/b", "/a/c", Proof("low")),
}


@pytest.mark.parametrize("name", BY_HAND)
def test_by_hand(name, player):
    lines, source, goal, due = BY_HAND[name]
    text = (HEAD + lines + "script\n").encode()
    proofs = Proofs(read_world(text), proved(player, text))
    assert proofs.of(source.encode(), goal if "@" in goal else goal.encode()) == due


def test_no_script_where_it_is_proved(player):
    counts = collections.Counter()

    @settings(max_examples=WORLDS)
    @given(questions(CAPS))
    def ask(question):
        world, source, goal, _ = question
        proof = Proofs(world, proved(player, world.head())).of(source.path, goal)
        if proof.label is None:
            counts.update(in_the_way=bool(proof.obstacles))
            return
        counts.update(proved=1)
        assert not read_label(proof.label).dominates(read_label(source.label))
        assert flow.Flow(world, player, source.path, goal).find(3, 40) is None, f"{source.path} gets to {goal}"

    ask()
    assert counts["proved"] >= WORLDS // 8, f"too few are proved: {counts}"


@pytest.mark.usefixtures("program")
def test_answers(tmp_path):
    path = tmp_path / "world.txt"
    path.write_text(HEAD + FILES + LOW + "script\n")
    status, out, _ = labask("flow", path, "/secret", "1@low")
    assert status == Status.NO
    assert out.startswith("No script at all: ") and "proved by `labsys never`" in out
    found = json.loads(labask("flow", path, "/secret", "1@low", "--json")[1])
    assert found["proved"] and not found["found"] and not found["played"] and not found["not_shown_to_be_absent"]


@pytest.mark.usefixtures("program")
def test_pairs(tmp_path):
    """Only pairs that are not proved are searched, also where there is no time."""
    path = tmp_path / "world.txt"
    path.write_text(HEAD + MOVED + LOW + "script\n")
    status, out, _ = labask("flow", path, "/c/b", "label:low", "--time", 0)
    rows = [tuple(line.split(None, 2)[1:]) for line in out.splitlines()[1:4]]
    assert status == Status.STOPPED
    assert rows == [("1@low", "never, proved"), ("/a/b", "stopped at the time"), ("/a/c", "never, proved")]
    assert "3 pairs were asked, 1 were looked at, and 0 have a script." in out
    assert labask("flow", path, "/c/b", "label:low")[0] == Status.YES


def test_example():
    """The proof is no answer where a program may be executed that gives a capability over labels."""
    found = json.loads(labask("flow", TOP / "examples" / "backup_for_all.txt", "/pay/list of may", "1@internal:eng", "--json")[1])
    assert found["in_the_way"] == ["/bin/backup gives cap_mac_read"] and not found["proved"] and found["found"]
