"""Logs with faults are followed all the same, and no line of them is taken for what it is not."""
import pytest
from logs_by_hand import follow, log_of, report
from support import labask

from labask.strace.log import Call, read_log
from labask.strace.script import shown
from labask.strace.values import Argument, cut_strings

WORLD = """\
# root "/srv/site"
world 2
levels base top
categories
bound all
dir / 0777 0 0 base
dir /d 0777 0 0 base
dir /top 0777 0 0 top
file /a 0644 7 7 base "hello"
proc base 7 7 - "="
script
"""
MAKE = '7 mkdir("x", 0777) = 0'


@pytest.mark.parametrize("start, why", (
    ("/srv/site/" + "n" * 64, "the name has 64 bytes, and may have 63"), ("/srv/site/" + "/".join("n" * 33), "33 names"),
    ("/srv/site/" + "/".join(["m" * 60] * 20), "bytes")), ids=("name", "names", "path"))
def test_beginning_in_a_directory_that_no_world_has(player, start, why):
    found = follow(player, WORLD, log_of([f'openat(AT_FDCWD<{start}>, "f", O_RDONLY) = 3', 'unlink("/srv/site/a") = 0']))
    assert found.script == ["unlink /a"] and why in found.text
    assert "# 2 left out, about what no world has\n" in found.text


def test_beginning_in_a_directory_that_is_not_there(player):
    found = follow(player, WORLD, log_of(['openat(AT_FDCWD</srv/site/none>, "f", O_RDONLY) = 3</srv/site/none/f>']))
    assert found.script == ["chdir /none", "open /none/f r"] and found.verdicts[1] == "other difference"


@pytest.mark.parametrize("written, value", (
    ('\\8', b"8"), ('\\9\\8', b"98"), ('\\18', b"\x018"), ('\\1234', b"S4"), ('\\777', b"\xff"), ('\\x4', b"x4"), ('\\xg', b"xg"),
    ('\\', None), ('\\e', b"e")))
def test_escapes_of_strings(written, value):
    string = Argument(f'"{written}"'.encode()).string
    assert (string.value if string else None) == value


def test_digits_that_are_not_octal_are_played(player):
    found = follow(player, WORLD, log_of(['mkdir("\\8", 0777) = 0', 'rmdir("8") = 0']))
    assert found.script == ["mkdir 8 0777", "rmdir 8"]


@pytest.mark.parametrize("line", (
    "7 umask({}) = 0", "7 umask(0) = {}", "{} umask(0) = 0", "[pid {}] umask(0) = 0", "7 +++ exited with {} +++",
    'openat({}</srv/site>, "a", O_RDONLY) = {}</srv/site/a>', "strace: Process {} attached", "lseek(3, {}, SEEK_SET) = {}",
    'access("a", {}) = {}', "7 access({}, R_OK) = 0", "kill({}, SIGTERM) = 0",
    "wait4({}, [{{WIFEXITED(s) && WEXITSTATUS(s) == {}}}], 0, NULL) = {}"))
def test_numbers_of_5000_digits(player, line):
    for digits in ("9" * 5000, "-" + "9" * 5000, "0x" + "f" * 5000, "0" * 5000):
        found = follow(player, WORLD, log_of([line.replace("{}", digits).replace("{{", "{").replace("}}", "}"), MAKE]))
        report(player, found)
        assert "mkdir x 0777" in found.script or "exited" in line


WHOLE = ['openat(AT_FDCWD</srv/site>, "a", O_RDWR) = 3</srv/site/a>', 'read(3</srv/site/a>, "hello", 99) = 5',
         'write(3</srv/site/a>, "he\\303\\"llo", 7) = 7', "exit_group(0) = ?", "+++ exited with 0 +++"]


def test_truncated_last_line(player):
    """A log may end within any line: what stands before is followed as in the whole log."""
    text = log_of(WHOLE)
    script = follow(player, WORLD, text).script
    for at in range(0, len(text), 3):
        if not [each for each in read_log(text[:at]).events if isinstance(each, Call)]:
            continue
        found = follow(player, WORLD, text[:at])
        ended = text[:at].count(b"\n")
        assert found.script[:max(0, ended)] == script[:min(ended, len(script))], text[:at]


def test_bytes_that_are_no_utf_8(player):
    log = b'7 mkdir("x", 0777) = 0\n7 mkdir("\xff\xfe", 0700) = 0\n\xff\x00\x80 what\n7 umask(022) = 022\n7 \xc3(1) = 0\n'
    found = follow(player, WORLD, log)
    assert found.script == ["mkdir x 0777", 'mkdir "\\xff\\xfe" 0700', "umask 0022"]
    assert set(found.verdicts.values()) == {"same"}
    assert "# 3, left out, no line of a call: \xff\x00\x80 what\n" in found.text
    "\n".join(report(player, found).lines()).encode("utf-8")


def test_long_strings_are_cut():
    text = b'7 write(3</srv/site/a>, "' + b"\\303a" * 500 + b'", 1000) = 1000\n7 write(1, "' + b"x" * 64 + b'", 64) = 64\n'
    one, other = [each for each in read_log(text).events if isinstance(each, Call)]
    assert shown(one) == 'write(3</srv/site/a>, "' + "\\303a" * 32 + '"... (1000 bytes), 1000) = 1000'
    assert shown(other) == 'write(1, "' + "x" * 64 + '", 64) = 64'
    assert cut_strings(b'"' + b"y" * 70 + b'"...', 64) == b'"' + b"y" * 64 + b'"... (70 bytes and more)'


# ---- denials of one cause, in the report of `why --against`

CHAIN = ['mkdir("top/x", 0700) = 0', 'stat("top/x", {st_mode=S_IFDIR|0700, st_size=4096, ...}) = 0', 'mkdir("/srv/site/d/y", 0700) = 0',
         'openat(AT_FDCWD</srv/site>, "d/y/f", O_WRONLY|O_CREAT, 0600) = 3</srv/site/d/y/f>', 'write(3</srv/site/d/y/f>, "a", 1) = 1']
CLOSED = WORLD.replace("dir /d 0777 0 0 base", "dir /d 0755 0 0 base")


def test_what_comes_from_a_denial_is_folded(player):
    found = follow(player, CLOSED, log_of([*CHAIN[2:], 'unlink("d/y/f") = 0', 'openat(AT_FDCWD</srv/site>, "a", O_RDONLY) = 4</srv/site/a>',
                                           'read(4</srv/site/a>, "hello", 9) = 5', 'rmdir("d/y") = 0']))
    said = "\n".join(report(player, found).lines())
    assert said == """\
denied here, line 1 of the log: mkdir("/srv/site/d/y", 0700) = 0
  call 1, line 13: 1@base mkdir /d/y 0700: EACCES dac_write p1
    dac_write: the mode does not let the caller write the object
    object: /d: dir 0755, owner 0, group 0, label base, line 7
    caller: 1@base: label base, user 7, group 7, groups -, effective capabilities none
    with cap_dac_write: ok
    where this call is done, these are done too:
      line 2 of the log: openat(AT_FDCWD</srv/site>, "d/y/f", O_WRONLY|O_CREAT, 0600) = 3; here ENOENT
      line 4 of the log: unlink("d/y/f") = 0; here ENOENT
      line 7 of the log: rmdir("d/y") = 0; here ENOENT
6 calls of the log were played
  3 other difference
  2 same
  1 denied here
3 calls of these differ only since an earlier call is denied here.
Behind a denial the script goes on as the log does; the program itself may do something else."""


def test_causes_as_json(player):
    found = follow(player, CLOSED, log_of([*CHAIN[2:], 'unlink("d/y/f") = 0']))
    calls = report(player, found).as_json()["calls"]
    assert [(each["log_line"], each["verdict"], each["cause"]) for each in calls] == [
        (1, "denied here", None), (2, "other difference", 1), (4, "other difference", 1)]


def test_descriptors_stay_in_step(player):
    """Where a file is opened that was not, later descriptors have the numbers of the script, so that it is followed as it is."""
    lines = ['openat(AT_FDCWD</srv/site>, "top", O_RDONLY|O_DIRECTORY) = 3</srv/site/top>',
             'openat(AT_FDCWD</srv/site>, "none", O_RDONLY) = 4</srv/site/none>',
             'openat(AT_FDCWD</srv/site>, "a", O_RDONLY) = 5</srv/site/a>',
             'write(5</srv/site/a>, "x", 1) = -1 EBADF (Bad file descriptor)']
    found = follow(player, WORLD, log_of(lines))
    assert all(each["cause"] is None for each in report(player, found).as_json()["calls"])


@pytest.mark.parametrize("lines, status", (
    (['stat("a", {st_mode=S_IFREG|0644, st_size=5, ...}) = 0'], 0), (['stat("a", {st_mode=S_IFREG|0644, st_size=9, ...}) = 0'], 0),
    (['stat("a", {st_mode=S_IFREG|0600, st_size=5, ...}) = 0'], 3), (['mkdir("top/x", 0700) = 0'], 3), (['access("top", R_OK) = 0'], 3),
    (['access("a", R_OK) = 0'], 0)), ids=("same", "known", "other", "denied", "question denied", "question"))
def test_exit_statuses(player, tmp_path, lines, status):
    (tmp_path / "log").write_bytes(log_of(lines))
    (tmp_path / "run").write_bytes(follow(player, WORLD, log_of(lines)).world.text)
    for more in ((), ("--json",)):
        assert labask("why", tmp_path / "run", "--against", tmp_path / "log", *more)[0] == status


def test_work_that_is_stopped(player, tmp_path):
    (tmp_path / "log").write_bytes(log_of(['mkdir("top/x", 0700) = 0']))
    (tmp_path / "run").write_bytes(follow(player, WORLD, (tmp_path / "log").read_bytes()).world.text)
    status, out, _ = labask("why", tmp_path / "run", "--against", tmp_path / "log", "--time", "0")
    assert status == 3 and "The work was stopped before all was tried.\n" in out and "with cap" not in out
