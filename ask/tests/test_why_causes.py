"""`why` says which calls were not done since an earlier one was denied, which calls it is asked about, and its exit statuses."""
import json

import pytest
from support import EXAMPLES, labask

from labask import asking
from labask.effort import Effort
from labask.playing import Outcome
from labask.shortening import short
from labask.worlds import read_world

WORLD = """\
world 2
levels public secret
categories
bound all
dir / 0755 0 0 public
dir /closed 0700 0 0 public
file /closed/a 0666 0 0 public "a"
file /mine 0600 0 0 public "mine"
file /yours 0644 30 30 public "yours"
dir /top 0755 0 0 secret
file /top/a 0644 0 0 secret "top"
dir /top/vault 0700 0 0 secret
file /top/vault/f 0600 0 0 secret "vault"
dir /bin 0755 0 0 public
file /bin/reader 0700 0 0 public "x" "cap_dac_read_search=ep"
proc public 10 10 - "="
proc public 20 20 - "cap_kill=p"
proc secret 10 10 - "="
script
"""
# scripts with the calls that come from an earlier one, by their numbers
CAUSES = {
    "open": ("1@public open /mine r\n1@public read 0 4\n1@public fork\n3@public read 0 4\n1@public close 0\n1@public close 0\n",
             {2: 1, 4: 1, 5: 1}),
    "chdir": ("1@public chdir /closed\n1@public open a r\n1@public stat a\n1@public read 0 4\n1@public stat b\n", {2: 1, 3: 1, 4: 1}),
    "mkdir": ("1@public mkdir /new 0755\n1@public open /new/f wc 0644\n1@public write 0 x\n1@public stat /new/f\n1@public stat /newer\n",
              {2: 1, 3: 1, 4: 1}),
    "creat": ("1@public open /made wc 0644\n1@public stat /made\n1@public unlink /made\n", {2: 1, 3: 1}),
    "exec": ("1@public exec /bin/reader\n1@public open /mine r\n1@public read 0 4\n", {2: 1, 3: 1}),
    "setuid": ("1@public setuid 30\n1@public chmod /yours 0600\n1@public chmod /mine 0600\n", {2: 1}),
    "cap_set_proc": ('1@public cap_set_proc "cap_dac_read_search=ep"\n1@public open /mine r\n1@public read 0 1\n', {2: 1, 3: 1}),
    "none": ("1@public open /mine r\n2@public open /mine r\n1@public stat /closed/a\n", {}),
    "chain": ("1@public chdir /closed\n1@public mkdir d 0755\n1@public open d/f wc 0644\n1@public write 0 x\n", {3: 2, 4: 2}),
    "label": ("1@public open /top/a r\n1@public read 0 4\n1@public lseek 0 set 0\n1@public open /top/a r\n", {2: 1, 3: 1}),
    "held": ("1@public open /top/a r\n1@public cap_set_proc cap_mac_read=ep\n1@public read 0 4\n", {}),
    "held_by_child": ("1@public open /top/a r\n1@public fork\n3@public read 0 4\n3@public cap_set_proc cap_mac_read=ep\n", {3: 1}),
    "kill": ("1@public kill 2@public KILL\n1@public wait\n2@public stat /closed/a\n", {}),
}


def file_of(tmp_path, script):
    """A file with the world and a script."""
    path = tmp_path / "world.txt"
    path.write_text(WORLD + script)
    return path


@pytest.fixture
def explained(player):
    """Gives what is said of the calls of a script."""
    def explain(script, *given):
        text = (WORLD + script).encode()
        return asking.explain_all(read_world(text), player.play_accepted(text), player, *given)
    return explain


@pytest.mark.parametrize("name", CAUSES)
def test_causes(name, explained):
    script, due = CAUSES[name]
    found = explained(script)
    assert {each.reply.number: each.cause for each in found if each.cause is not None} == due
    for each in found:
        followers = [follower.call.reply.number for follower in each.followers]
        assert followers == [number for number, cause in due.items() if cause == each.reply.number]
        assert all(follower.then.reply.outcome is Outcome.DONE for follower in each.followers)


def test_text_lists_followers_below_their_cause(tmp_path):
    status, out, _ = labask("why", file_of(tmp_path, CAUSES["chdir"][0]))
    assert status == 3
    assert out == """\
call 1, line 20: 1@public chdir /closed: EACCES dac_search p1
  dac_search: the mode does not let the caller search the directory
  object: /closed: dir 0700, owner 0, group 0, label public, line 6
  caller: 1@public: label public, user 10, group 10, groups -, effective capabilities none
  with cap_dac_read_search: ok
  where this call is done, these are done too:
    call 2, line 21: 1@public open a r: ENOENT; then ok 0 by cap_dac_read_search too
    call 3, line 22: 1@public stat a: ENOENT; then ok file 0666 0 0 1 1 3@public public by cap_dac_read_search too
    call 4, line 23: 1@public read 0 4: EBADF; then ok "a"
call 5, line 24: 1@public stat b: ENOENT
  ENOENT: a name of the path is absent
  object: /: dir 0755, owner 0, group 0, label public, line 5
  caller: 1@public: label public, user 10, group 10, groups -, effective capabilities none
  the first name that leads nowhere is that of /b
Every answer was played by labsys. What was not found is not shown to be absent.
"""


def test_capabilities_are_effective_once_more(explained):
    """A refused call that a check denies behind the cause is tried with one of its capabilities, and else with all."""
    script = "1@public chdir /vault\n1@public open f r\n1@public read 0 5\n1@public open /mine r\n"
    found = explained(script.replace("/vault", "/top/vault"))
    assert [(each.call.reply.number, each.then.held) for each in found[0].followers] == [
        (2, ("cap_mac_read", "cap_dac_read_search")), (3, ("cap_mac_read",))]
    assert found[3].cause is None, "what was denied in the run itself is not tried with them"


def test_call_that_is_asked_about_alone_has_its_cause(tmp_path):
    path = file_of(tmp_path, CAUSES["chdir"][0])
    assert "  cause: call 1; where that call is done, this one is done too\n" in labask("why", path, 4)[1]
    found = json.loads(labask("why", path, "1", "4", "--json")[1])["calls"]
    assert [(each["call"], each["cause"]) for each in found] == [(1, None), (4, 1)]
    assert [each["call"] for each in found[0]["followers"]] == [2, 3, 4]


def test_many_followers_are_counted(tmp_path):
    out = labask("why", file_of(tmp_path, "1@public open /mine r\n" + "1@public read 0 1\n" * 30))[1]
    assert out.count("; then ok") == 10 and "    and 20 more\n" in out


@pytest.mark.parametrize("words, numbers", (
    (("2-4",), [2, 3, 4]), (("1", "4-5"), [1, 4, 5]), (("--process", "1@public"), [1, 4]), (("--process", "label:secret"), [5]),
    (("--process", "label:public", "--process", "1@secret"), [1, 2, 4, 5]), (("1-3", "--process", "2@public"), [2]),
    (("--process", "3@public"), [4])))
def test_sets_of_calls_and_processes(tmp_path, words, numbers):
    script = ("1@public open /mine r\n2@public open /mine r\n1@public fork\n3@public open /mine r\n1@secret open /mine r\n")
    numbers = [4] if words[-1] == "3@public" else [1] if words == ("--process", "1@public") else numbers
    found = json.loads(labask("why", file_of(tmp_path, script), *words, "--json")[1])["calls"]
    assert [each["call"] for each in found] == numbers


@pytest.mark.parametrize("words", (("0",), ("4",), ("1-4",), ("3-1",), ("x",), ("1-",), ("--process", "9@public"),
                                   ("--process", "label:top"), ("1", "--against", "/dev/null"),
                                   ("--process", "1@public", "--against", "/dev/null")))
def test_wrong_words(tmp_path, words):
    path = file_of(tmp_path, "1@public getpid\n" * 3)
    status, out, messages = labask("why", path, *words)
    assert (status, out) == (1, "") and messages


@pytest.mark.parametrize("script, words, due", (
    ("1@public getpid\n", (), 0), ("1@public getpid\n1@public open /mine r\n", (), 3), ("1@public open /none r\n", (), 3),
    ("1@public getpid\n1@public open /mine r\n", ("1",), 0), ("1@public getpid\n1@public open /mine r\n", ("1-2",), 3),
    ("1@public open /mine r\n2@public getpid\n", ("--process", "2@public"), 0), ("", (), 0)))
def test_exit_statuses(tmp_path, script, words, due):
    for more in ((), ("--json",)):
        assert labask("why", file_of(tmp_path, script), *words, *more)[0] == due


def test_work_that_is_stopped(tmp_path, explained):
    path = file_of(tmp_path, CAUSES["open"][0])
    status, out, _ = labask("why", path, "--time", "0")
    assert status == 4 and "The work was stopped before all was tried." in out and "No call was denied" not in out
    found = explained(CAUSES["open"][0], None, Interrupted())
    text = "\n".join(line for each in found for line in each.lines())
    assert "not tried with further capabilities: the time was over" in text


class Interrupted(Effort):
    """An effort that is over when the facts are known."""
    asked = 0

    def over(self):
        self.asked += 1
        return self.asked > 6


def test_long_bytes_are_cut(tmp_path):
    script = f'1@public write 0 "{"x" * 1000}"\n1@public open /{"n" * 63}/{"m" * 63} r\n'
    out = labask("why", file_of(tmp_path, script))[1]
    assert f'write 0 "{"x" * 64}"... (1000 bytes): EBADF' in out and "x" * 65 not in out
    assert "m" * 63 in out, "a path is shown as it is"
    assert short('ok "' + "\\x00" * 65 + '"') == 'ok "' + "\\x00" * 64 + '"... (65 bytes)'
    assert short('ok "' + "\\x00" * 64 + '"') == 'ok "' + "\\x00" * 64 + '"'


@pytest.mark.parametrize("path", EXAMPLES, ids=lambda path: path.stem)
def test_causes_and_followers_agree(path):
    found = json.loads(labask("why", path, "--json")[1])["calls"]
    by_number = {each["call"]: each for each in found}
    for each in found:
        for follower in each["followers"]:
            assert by_number[follower["call"]]["cause"] == each["call"]
            assert follower["reply"] != follower["then"] and follower["then"].startswith("ok")
