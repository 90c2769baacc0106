"""`why` about the denied calls of the examples and the cases.

What it says of a denied call is compared with the documents, which say which capability overrides a check; the path of the object
with the place of the denial; its line with that of the world. A script that changes an object first shows the moment of the call.
"""
import re

import pytest
from support import EXAMPLES, TOP, case_inputs

from labask import why
from labask.playing import Outcome, Refused
from labask.reasons import CHECKS, ERRORS
from labask.worlds import read_world

MOST_CALLS = 60  # of a case; those with more are the largest inputs
INPUTS = {**{path.name: path.read_bytes() for path in EXAMPLES}, **case_inputs()}
# checks that a capability passes in some cases alone
SOMETIMES = ("cap_within", "cap_grow", "setuid", "setgid", "label_order")


def overriding():
    """The capability that overrides each check, as docs/PROFILE.md has it; None where there is none."""
    found = {}
    for row in re.findall(r"^\| ((?:`\w+`(?:, )?)+) \| [^|]* \| ([^|]*) \|", (TOP / "docs" / "PROFILE.md").read_text(), re.M):
        checks, caps = re.findall(r"`(\w+)`", row[0]), re.findall(r"`(cap_\w+)`", row[1])
        found.update((check, caps[at] if len(caps) > 1 else (caps or [None])[0]) for at, check in enumerate(checks))
    return found


OVERRIDING = overriding()


def test_words_for_every_check():
    assert set(CHECKS) == set(OVERRIDING) - {"setuid_all", "setgid_all", "fsetid"}


def test_words_for_every_error():
    documented = set(re.findall(r"\bE[A-Z]{3,}\b", (TOP / "docs" / "CALLS.md").read_text()))
    assert set(ERRORS) == documented - {"EACCES", "EPERM"}


def judge_capability(each, name):
    """The first capability that passes is the one of the documents. Of some calls on capabilities and programs none is tried."""
    due, found = OVERRIDING[each.reply.check], each.passing
    if due is None:
        assert found is None or each.reply.check in SOMETIMES, f"{found.capabilities} pass {each.reply.check}"
    elif found is None:
        assert "exec" in name or "cap" in name, f"nothing passes {each.reply.check}, which {due} overrides"
    else:
        assert found.capabilities[0] == due, f"{found.capabilities} for {each.reply.check}"


def judge_place(each, world):
    """The object is named by the path and its place, where the path is absolute, and its line is that of the world."""
    if not each.reply.place or each.reply.place[0] not in "pq" or each.target is None or each.target.path is None:
        return
    given = each.reply.path if each.reply.path is not None else each.line.arguments[each.reply.place[0] == "q"].value
    if given.startswith(b"/"):
        names = [part for part in given.split(b"/") if part not in (b"", b".")][:int(each.reply.place[1:])]
        assert each.target.path == b"/" + b"/".join(names), f"{each.reply.place} of {given!r}"
    if each.target_line is not None:
        entry = world.objects_by_number[each.target.number]
        assert (entry.line, entry.kind.value) == (each.target_line, each.target.kind)


@pytest.mark.parametrize("name", INPUTS)
def test_every_input(name, player):
    """Each call that is not done is explained."""
    text = INPUTS[name]
    try:
        played = player.play_accepted(text)
    except Refused:
        return
    if len(played.replies) > MOST_CALLS:
        return
    world = read_world(text)
    found = list(why.explain_all(world, played, player, None))
    assert [each.reply.number for each in found] == [each.number for each in played.replies if each.outcome is not Outcome.DONE]
    for each in found:
        assert list(each.lines()) and each.as_json()
        if each.reply.outcome is Outcome.DENIED:
            judge_capability(each, name)
            judge_place(each, world)


MOMENT = b"""\
world 2
levels low high
categories
bound all
dir / 0777 0 0 low
dir /d 0777 0 0 low
file /d/f 0644 10 10 low "x"
proc low 10 10 - "="
proc low 11 11 - "="
script
1@low chmod /d/f 0600
1@low rename /d/f /d/g
2@low chdir /d
1@low rename /d /e
2@low open g r
1@low unlink /e/none
"""
MOMENT_DUE = """\
call 5, line 15: 2@low open g r: EACCES dac_read p1
  dac_read: the mode does not let the caller read the object
  object: /e/g: file 0600, owner 10, group 10, label low, line 7
  caller: 2@low: label low, user 11, group 11, groups -, effective capabilities none
  with cap_dac_read_search: ok 0
call 6, line 16: 1@low unlink /e/none: ENOENT
  ENOENT: a name of the path is absent
  object: /e: dir 0777, owner 0, group 0, label low, line 6
  caller: 1@low: label low, user 10, group 10, groups -, effective capabilities none
  the first name that leads nowhere is that of /e/none
"""


def test_moment_of_the_call(player):
    """The object is described as it is at the moment of the call, not as the world has it."""
    found = why.explain_all(read_world(MOMENT), player.play_accepted(MOMENT), player, None)
    assert "".join(line + "\n" for each in found for line in each.lines()) == MOMENT_DUE
