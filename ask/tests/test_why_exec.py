"""`why FILE N` of an `exec`: the formula with its values, which gives what labsys answers."""
import json
import random

import pytest
from support import labask

from labask import asking
from labask.capability_texts import read_sets
from labask.playing import Outcome, PlayingFault
from labask.signatures import CAPABILITIES
from labask.worlds import read_world

HEAD = "world 2\nlevels low high\ncategories\nbound {bound}\ndir / 0755 0 0 low\n"


def asked_file(tmp_path, text):
    """A file with this text."""
    path = tmp_path / "world.txt"
    path.write_text(text)
    return path


def test_formula_of_a_done_call(tmp_path):
    path = asked_file(tmp_path, HEAD.format(bound="cap_kill,cap_setuid") + (
        'file /prog 6755 5 50 low "x" "cap_kill,cap_chown=ep cap_fowner=ei"\n'
        'proc low 10 20 - "cap_fowner=ip cap_setgid=ep"\nscript\n1@low exec /prog\n'))
    status, out, _ = labask("why", path, 1)
    assert status == 0
    assert out == """\
call 1, line 9: 1@low exec /prog: ok
  done: by the rules alone
  object: /prog: file 6755, owner 5, group 50, label low, line 6
  caller: 1@low: label low, user 10, group 20, groups -, effective capabilities cap_setgid of "cap_fowner=ip cap_setgid=ep"
  P, permitted to the process    cap_fowner,cap_setgid
  E, effective in the process    cap_setgid
  I, inheritable of the process  cap_fowner
  FP, permitted by the file      cap_chown,cap_kill
  FI, inheritable of the file    cap_fowner
  flag of the file               on
  X, the bound                   cap_kill,cap_setuid
  FP and X                       cap_kill
  FI and I                       cap_fowner
  P' = (FP and X) or (FI and I)  cap_fowner,cap_kill
  E' = P', since the flag is on  cap_fowner,cap_kill
  I' = I                         cap_fowner
  set-id bits                    the effective and the saved user become 5 and the effective and the saved group become 50
  After the call labsys answers "cap_fowner=eip cap_kill=ep", as the formula gives.
Every answer was played by labsys.
"""


def test_formula_of_a_denied_call(tmp_path):
    path = asked_file(tmp_path, HEAD.format(bound="none") + (
        'file /prog 4600 5 50 low "x" "cap_kill=p"\nproc low 10 20 - "="\nscript\n1@low exec /prog\n'))
    status, out, _ = labask("why", path, 1)
    assert status == 3
    assert "  dac_execute: the mode does not let the caller execute the file\n" in out
    assert "  with cap_dac_execute: ok\n" in out
    assert "  E' is empty, since the flag is off  none\n" in out
    assert '  The call was not done. With cap_dac_execute labsys answers "=", as the formula gives.\n' in out
    found = json.loads(labask("why", path, 1, "--json")[1])["calls"][0]["exec"]
    assert found["after"] == {"permitted": [], "effective": [], "inheritable": []}
    assert (found["user"], found["group"], found["played"], found["done_with"]) == ("5", None, True, "cap_dac_execute")


def test_formula_is_only_shown_where_the_call_is_named(tmp_path):
    path = asked_file(tmp_path, HEAD.format(bound="all") + (
        'file /prog 0600 5 50 low "x"\nproc low 10 20 - "="\nscript\n1@low exec /prog\n'))
    assert "FP" in labask("why", path, 1)[1] and "FP" not in labask("why", path)[1]


@pytest.mark.parametrize("path, check", (("/", "exec_kind"), ("/none", "ENOENT"), ("/pipe", "exec_kind")))
def test_no_formula_without_a_file(tmp_path, path, check):
    file = asked_file(tmp_path, HEAD.format(bound="all") + f'fifo /pipe 0777 0 0 low\nproc low 10 20 - "="\nscript\n1@low exec {path}\n')
    status, out, _ = labask("why", file, 1)
    assert status == 3 and f"  {check}: " in out and "FP" not in out


def test_call_that_no_capability_lets_pass_is_said_not_to_be_played(tmp_path, player):
    text = HEAD.format(bound="all") + ('file /prog 0600 5 50 high "x" "cap_kill=ep"\nproc low 10 20 - "="\nscript\n'
                                       "1@low exec /prog/x\n1@low exec /prog\n")
    path = asked_file(tmp_path, text)
    out = labask("why", path, 2)[1]
    assert "With cap_mac_read and cap_dac_execute labsys answers" in out
    world = read_world(text.encode())
    asker = asking.Asker(world, player.play_accepted(text.encode()), player)
    found = asker.observe(asking.Asked(frozenset((2,)), None, True))
    assert "The call was not done, so these values are not played." in "\n".join(found[0].lines())


def random_caps(draw, process):
    """A capability text for a process, or for a file."""
    names = draw.sample(CAPABILITIES, draw.randint(0, 5))
    if process:
        return " ".join(f"{name}={draw.choice(('p', 'ep', 'i', 'ip', 'eip'))}" for name in names) or "="
    flag = draw.choice(("", "e"))
    return " ".join(f"{name}={flag}{draw.choice(('p', 'i', 'ip'))}" for name in names) or "="


@pytest.mark.parametrize("seed", range(12))
def test_formula_is_what_labsys_answers(seed, player):
    draw = random.Random(seed)
    bound = ",".join(draw.sample(CAPABILITIES, draw.randint(0, 9))) or "none"
    files = "".join(f'file /p{index} {draw.choice("0246")}755 {draw.randint(5, 9)} {draw.randint(5, 9)} low "" '
                    f'"{random_caps(draw, False)}"\n' for index in range(6))
    calls = "".join(f"1@low exec /p{draw.randrange(6)}\n" for _ in range(10))
    text = (HEAD.format(bound=bound) + files + f'proc low 10 20 - "{random_caps(draw, True)}"\nscript\n' + calls).encode()
    found = asking.explain_all(read_world(text), player.play_accepted(text), player, asking.Asked(frozenset(range(1, 11)), None, True))
    assert len(found) == 10 and all(each.reply.outcome is Outcome.DONE for each in found)
    for each in found:
        formula = each.formula
        assert formula is not None and formula.after is not None
        assert (read_sets(formula.after.caps), formula.after.ids) == (formula.given, formula.given_ids)


def test_formula_that_labsys_does_not_follow_is_a_fault(player):
    text = (HEAD.format(bound="all") + 'file /prog 0755 5 50 low "x"\nproc low 10 20 - "="\nscript\n1@low exec /prog\n').encode()
    formula = asking.explain_all(read_world(text), player.play_accepted(text), player, asking.Asked(frozenset((1,)), None, True))[0].formula
    other = formula.after.__class__("1@low", "low", formula.after.ids, "cap_kill=ep")
    with pytest.raises(PlayingFault, match="its formula"):
        formula.after_call(other)
