"""Calls of a log that ask for rights are questions in the script, with answers that are compared with the log."""
import pytest
from logs_by_hand import follow, log_of, report

WORLD = """\
# root "/srv/site"
world 2
levels low high
categories
bound all
dir / 0755 0 0 low
dir /d 0750 0 20 low
file /d/f 0640 10 20 low "x"
file /prog 0755 0 0 low "x"
file /none 0600 0 0 low "x"
file /setid 6755 30 30 low "x"
file /flag 0755 0 0 low "x" "cap_dac_read_search=ep"
file /high 0666 0 0 high "x"
dir /mine 0700 10 20 low
fifo /mine/p 0600 10 20 low
# left out: symbolic link /link
proc low 10 20 - "="
script
"""
DENIED = "-1 EACCES (Permission denied)"
# calls with the question and its answer, and the verdict
CALLS = [
    ('access("/srv/site/d/f", R_OK) = 0', "access /d/f r: ok", "same"),
    ('access("/srv/site/d/f", R_OK|W_OK) = 0', "access /d/f rw: ok", "same"),
    ('access("/srv/site/d/f", F_OK) = 0', "access /d/f f: ok", "same"),
    (f'access("/srv/site/d/f", X_OK) = {DENIED}', "access /d/f x: EACCES dac_execute p2", "same"),
    ('access("/srv/site/none", R_OK) = 0', "access /none r: EACCES dac_read p1", "denied here"),
    (f'access("/srv/site/none", F_OK) = {DENIED}', "access /none f: ok", "other difference"),
    ('access("prog", R_OK|X_OK) = 0', "access /prog rx: ok", "same"),
    ('access("/srv/site/absent", F_OK) = -1 ENOENT (No such file or directory)', "access /absent f: ENOENT", "same"),
    ('access("/srv/site/prog/x", R_OK) = -1 ENOTDIR (Not a directory)', "access /prog/x r: ENOTDIR", "same"),
    (f'access("/srv/site/d", W_OK) = {DENIED}', "access /d w: EACCES dac_write p1", "same"),
    ('access("/srv/site/d", R_OK|X_OK) = 0', "access /d rx: ok", "same"),
    (f'access("/srv/site", W_OK) = {DENIED}', "access / w: EACCES dac_write p0", "same"),
    ('access("/srv/site/mine", R_OK|W_OK|X_OK) = 0', "access /mine rwx: ok", "same"),
    ('access("/srv/site/mine/p", R_OK|W_OK) = 0', "access /mine/p rw: ok", "same"),
    (f'access("/srv/site/mine/p", X_OK) = {DENIED}', "access /mine/p x: EACCES exec_kind p2", "same"),
    ('access("/srv/site/high", W_OK) = 0', "access /high w: EACCES mac_write p1", "denied here"),
    ('faccessat(AT_FDCWD</srv/site>, "prog", X_OK) = 0', "access prog x: ok", "same"),
    ('faccessat2(AT_FDCWD</srv/site>, "mine", R_OK, AT_EACCESS) = 0', "eaccess mine r: ok", "same"),
]
LEFT_OUT = [
    ('access("/srv/site/link", R_OK) = 0', "about what no world has"),
    ('access("/etc/passwd", R_OK) = 0', "outside of the directory"),
    ('access("/srv/site/d", R_OK|0x8) = -1 EINVAL (Invalid argument)', "with what the profile's call does not have"),
    ('faccessat2(AT_FDCWD</srv/site>, "d", R_OK, AT_SYMLINK_NOFOLLOW) = 0', "with what the profile's call does not have"),
    ('access(0x7f0000000000, R_OK) = -1 EFAULT (Bad address)', "with what the profile's call does not have"),
]


@pytest.fixture(scope="module")
def whole(player):
    """All calls of the table, followed."""
    return follow(player, WORLD, log_of([line for line, *_ in CALLS]))


@pytest.mark.parametrize("number", range(1, len(CALLS) + 1))
def test_questions(whole, number):
    line, question, verdict = CALLS[number - 1]
    due = question.replace("/prog ", "prog ") if line.startswith('access("prog"') else question
    assert f"# {number}, question: {line.partition(' (')[0]}\n# question 1@low {due}\n" in whole.text
    assert whole.verdicts[number] == verdict


def test_questions_change_nothing(whole, player):
    """The script has no line for them, and what is played is what would be played without them."""
    assert whole.script == []
    assert f"# {len(CALLS)} calls of the log ask for rights, and are questions\n" in whole.text
    said = "\n".join(report(player, whole).lines())
    assert f"0 calls of the log were played, and {len(CALLS)} questions asked\n" in said
    assert ('denied here, line 5 of the log: access("/srv/site/none", R_OK) = 0\n'
            "  question 1@low access /none r: EACCES dac_read p1\n") in said


@pytest.mark.parametrize("line, why", LEFT_OUT)
def test_left_out(player, line, why):
    found = follow(player, WORLD, log_of([line]))
    assert f"# 1, left out, {why}" in found.text and "# question" not in found.text


def test_real_and_effective_ids(player):
    lines = ["fork() = 8", '8 execve("/srv/site/setid", ["x"], 0x7 /* 1 var */) = 0',
             '8 access("/srv/site/mine", W_OK) = 0', f'8 faccessat2(AT_FDCWD</srv/site>, "mine", W_OK, AT_EACCESS) = {DENIED}',
             '8 access("/srv/site/d", R_OK) = 0', f'8 faccessat2(AT_FDCWD</srv/site>, "d", R_OK, AT_EACCESS) = {DENIED}']
    found = follow(player, WORLD, log_of(lines))
    assert "# question 2@low access /mine w: ok\n" in found.text
    assert "# question 2@low eaccess mine w: EACCES dac_search p1\n" in found.text
    assert "# question 2@low access /d r: ok\n" in found.text, "the real group counts"
    assert "# question 2@low eaccess d r: EACCES dac_read p1\n" in found.text
    assert set(found.verdicts.values()) == {"same"}


def test_capabilities_count(player):
    found = follow(player, WORLD, log_of(['execve("/srv/site/flag", ["x"], 0x7 /* 1 var */) = 0', 'access("/srv/site/none", R_OK) = 0']))
    assert "# question 1@low access /none r: ok\n" in found.text


def test_children_behind_questions(player):
    """Questions take children of their own, so the processes of their run have other numbers than those of the script."""
    ask, lines = 'access("/srv/site/mine", R_OK|W_OK|X_OK) = 0', []
    lines += [ask, "fork() = 8", ask, f"8 {ask}", "8 fork() = 9", f"9 {ask}", "9 getppid() = 8", "9 kill(8, 0) = 0", "8 exit_group(0) = ?"]
    lines += ["wait4(-1, [{WIFEXITED(s) && WEXITSTATUS(s) == 0}], 0, NULL) = 8", ask, f"9 {ask}"]
    found = follow(player, WORLD, log_of(lines))
    assert found.text.count(" access /mine rwx: ok\n") == 6
    assert [line for line in found.script] == ["fork", "fork", "getppid", "kill 2@low 0", "exit 0", "wait"]
    assert set(found.verdicts.values()) == {"same"}, found.verdicts


def test_rights_of_the_moment(player):
    lines = ['chmod("/srv/site/d/f", 0) = 0', f'access("/srv/site/d/f", R_OK) = {DENIED}', 'chmod("/srv/site/d/f", 0400) = 0',
             'access("/srv/site/d/f", R_OK) = 0', f'access("/srv/site/d/f", W_OK) = {DENIED}']
    assert set(follow(player, WORLD, log_of(lines)).verdicts.values()) == {"same"}


def test_paths_with_other_bytes(player):
    lines = ['mkdir("/srv/site/mine/a: b \\303", 0700) = 0', 'access("/srv/site/mine/a: b \\303", R_OK) = 0']
    found = follow(player, WORLD, log_of(lines))
    assert '# question 1@low access "/mine/a: b \\xc3" r: ok\n' in found.text and found.verdicts == {1: "same", 2: "same"}


def test_what_can_not_be_asked(player):
    deep = "/".join(["n"] * 30)
    made = [f'mkdir("/srv/site/mine/{"/".join(["n"] * count)}", 0700) = 0' for count in range(1, 32)]
    found = follow(player, WORLD, log_of([*made, f'access("/srv/site/mine/{deep}/n", W_OK) = 0']))
    assert f"# question 1@low access /mine/{deep}/n w: not asked\n" in found.text and 32 not in found.verdicts
