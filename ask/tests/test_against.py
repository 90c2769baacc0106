"""`why --against`: replies compared with a log written by hand, of which each line says how it differs."""
import json
import re

import pytest
from system import labask

from labask.strace.comparing import Verdict

WORLD = b"""\
# root "/srv/site"
world 2
levels base top
categories
bound all
dir / 0777 0 0 base
dir /d 0777 0 0 base
file /d/a 0644 7 9 base "x"
fifo /d/p 0666 7 9 base
dir /top 0777 0 0 top
file /a 0644 7 9 base "hello"
proc base 7 9 9,10 "="
script
"""
SAME, DENIED, KNOWN_ONE, OTHER = Verdict
pytestmark = pytest.mark.usefixtures("program")
STAT = "newfstatat(AT_FDCWD</srv/site>, \"a\", {st_mode=%s, st_nlink=%d, st_uid=%d, st_gid=%d, st_size=%d}, 0) = 0"
# each line of the log, and the verdict that is due with a part of its text; None where the line is no call that is played
LOG = [
    ('openat(AT_FDCWD</srv/site>, "a", O_RDWR) = 3</srv/site/a>', SAME, ""),
    (STAT % ("S_IFREG|0644", 1, 7, 9, 5), SAME, ""),
    (STAT % ("S_IFREG|0644", 1, 7, 9, 6), KNOWN_ONE, "content that the world does not have"),
    (STAT % ("S_IFREG|0644", 1, 7, 9, 4), OTHER, "size 5, and 4 in the log"),
    (STAT % ("S_IFREG|0644", 2, 7, 9, 5), OTHER, "nlink 1, and 2 in the log"),
    (STAT % ("S_IFREG|0644", 1, 8, 9, 5), OTHER, "uid 7, and 8 in the log"),
    (STAT % ("S_IFREG|0644", 1, 7, 8, 5), OTHER, "gid 9, and 8 in the log"),
    (STAT % ("S_IFREG|S_ISUID|0644", 1, 7, 9, 5), OTHER, "mode 0644, and 4644 in the log"),
    (STAT % ("S_IFDIR|0644", 1, 7, 9, 5), OTHER, "a file, and S_IFDIR|0644 in the log"),
    ('stat("d", {st_mode=S_IFDIR|S_ISVTX|0777, st_size=2, ...}) = 0', SAME, ""),
    ('stat("d", {st_mode=S_IFDIR|0777, st_size=4096, ...}) = 0', KNOWN_ONE, "size and link count of a directory"),
    ('stat("d/p", {st_mode=S_IFIFO|0666, st_size=4, ...}) = 0', KNOWN_ONE, "size and link count of a pipe or FIFO"),
    ('statx(AT_FDCWD, "a", 0, STATX_MODE, {stx_mode=S_IFREG|0644, stx_size=4}) = 0', OTHER, "size 5, and 4 in the log"),
    ('read(3</srv/site/a>, "hel", 3) = 3', SAME, ""),
    ('read(3</srv/site/a>, "l"..., 8) = 2', SAME, ""),
    ('lseek(3</srv/site/a>, -5, SEEK_END) = 0', SAME, ""),
    ('read(3</srv/site/a>, "hEllo", 5) = 5', OTHER, "other bytes than in the log"),
    ('lseek(3</srv/site/a>, 1, SEEK_SET) = 2', OTHER, "answer 1, and 2 in the log"),
    ('read(3</srv/site/a>, "el", 5) = 2', OTHER, "bytes 4, and 2 in the log"),
    ('lseek(3</srv/site/a>, 0, SEEK_SET) = 0', SAME, ""),
    ('read(3</srv/site/a>, "hello you", 9) = 9', KNOWN_ONE, "content that the world does not have"),
    ('lseek(3</srv/site/a>, 9, SEEK_SET) = 9', SAME, ""),
    ('write(3</srv/site/a>, "abc", 3) = 3', SAME, ""),
    ('write(3</srv/site/a>, "abc", 3) = -1 EIO (Input/output error)', OTHER, "ok, and EIO in the log"),
    ('mkdir("top/x", 0700) = 0', DENIED, "EACCES mac_read p1, and ok in the log"),
    ('mkdir("top/x", 0700) = -1 EACCES (Permission denied)', SAME, ""),
    ('mkdir("top/x", 0700) = -1 ENOENT (No such file or directory)', DENIED, "EACCES mac_read p1, and ENOENT in the log"),
    ('mkdir("d", 0700) = -1 EEXIST (File exists)', SAME, ""),
    ('mkdir("d", 0700) = -1 EROFS (Read-only file system)', OTHER, "EEXIST, and EROFS in the log"),
    ('chdir("none") = 0', OTHER, "ENOENT, and ok in the log"),
    ('chdir("/srv/site") = 0', SAME, ""),
    ('unlink("d") = -1 EISDIR (Is a directory)', KNOWN_ONE, "`unlink` of a directory"),
    ('openat(AT_FDCWD</srv/site>, "d", O_RDONLY) = 4</srv/site/d>', KNOWN_ONE, "a directory that is opened"),
    ('getdents64(4</srv/site/d>, [{d_ino=1, d_name="."}, {d_ino=2, d_name="a"}], 32768) = 72', SAME, ""),
    ('getdents64(4</srv/site/d>, [{d_ino=1, d_name="a"}, {d_ino=2, d_name="link"}], 32768) = 72', KNOWN_ONE,
     "names of what no world has"),
    ('openat(AT_FDCWD</srv/site>, "top", O_RDONLY) = 5</srv/site/top>', DENIED, "EACCES mac_read p1, and ok in the log"),
    ('umask(027) = 022', SAME, ""),
    ('umask(022) = 077', OTHER, "umask 0027, and 0077 in the log"),
    ('geteuid() = 7', SAME, ""),
    ('getegid() = 7', OTHER, "id 9, and 7 in the log"),
    ('getresgid([9], [9], [9]) = 0', SAME, ""),
    ('getresuid([7], [7], [0]) = 0', OTHER, "ids 7 7 7, and 7 7 0 in the log"),
    ('getgroups(2, [9, 10]) = 2', SAME, ""),
    ('getgroups(0, NULL) = 1', OTHER, "groups 2, and 1 in the log"),
    ('getppid() = 99', KNOWN_ONE, "a process that the world begins with has no parent"),
    ('getpid() = 100', SAME, ""),
    ('wait4(-1, NULL, WNOHANG, NULL) = -1 ECHILD (No child processes)', SAME, ""),
    ('fork() = 101', SAME, ""),
    ('wait4(-1, NULL, WNOHANG, NULL) = 0', SAME, ""),
    ('fork() = 102', SAME, ""),
    ('101 getpid() = 102', OTHER, "2@base, and the log means 3@base"),
    ('101 getppid() = 100', SAME, ""),
    ('102 exit_group(3) = ?', SAME, ""),
    ('wait4(-1, [{WIFEXITED(s) && WEXITSTATUS(s) == 4}], 0, NULL) = 102', OTHER, "exit 3, and exit 4 in the log"),
    ('101 exit_group(0) = ?', SAME, ""),
    ('waitid(P_ALL, 0, {si_signo=SIGCHLD, si_code=CLD_EXITED, si_pid=101, si_uid=7, si_status=0}, WEXITED, NULL) = 0', SAME, ""),
    ('fork() = 103', SAME, ""),
    ('103 +++ killed by SIGKILL +++', None, ""),
    ('wait4(-1, [{WIFSIGNALED(s) && WTERMSIG(s) == SIGKILL}], 0, NULL) = 103', SAME, ""),
    ('fork() = 104', SAME, ""),
    ('fork() = 105', SAME, ""),
    ('105 exit_group(0) = ?', SAME, ""),
    ('104 exit_group(0) = ?', SAME, ""),
    ('wait4(-1, [{WIFEXITED(s) && WEXITSTATUS(s) == 0}], 0, NULL) = 104', KNOWN_ONE, "the order of ended children"),
    ('pipe2([6<pipe:[5]>, 7<pipe:[5]>], 0) = 0', SAME, ""),
    ('read(6<pipe:[5]>, "x", 9) = 1', KNOWN_ONE, "calls that would wait"),
    ('exit_group(0) = ?', SAME, ""),
]


def numbered(line):
    """A line of the log with the number of its process."""
    return line if re.match(r"\d+ ", line) else "100 " + line


def compared(folder, world, lines):
    """What `labask` says of a log: each call by the line of the log, the answer as text, and the script."""
    (folder / "world").write_bytes(world)
    (folder / "log").write_text("".join(numbered(line) + "\n" for line in lines))
    run = labask("trace", folder / "world", folder / "log")[0]
    (folder / "run").write_bytes(run)
    found = json.loads(labask("why", folder / "run", "--against", folder / "log", "--json", status=None)[0])
    text = labask("why", folder / "run", "--against", folder / "log", status=None)[0]
    return {each["log_line"]: each for each in found["calls"]}, text, run


@pytest.fixture(scope="module")
def whole(tmp_path_factory, program):
    """What `labask` says of the whole log."""
    return compared(tmp_path_factory.mktemp("log"), WORLD, [line for line, verdict, _ in LOG])


@pytest.mark.parametrize("number", range(1, len(LOG) + 1))
def test_verdicts(number, whole):
    """Each line gets its verdict, and those that are denied are explained."""
    line, verdict, part = LOG[number - 1]
    found = whole[0].get(number, {"verdict": None, "text": ""})
    assert (found["verdict"], found["text"]) == (verdict.value if verdict else None, part), line
    assert verdict is not DENIED or found["why"]["caller"]["label"] == "base"


@pytest.mark.parametrize("verdict", (DENIED, OTHER))
def test_verdicts_are_counted(verdict, whole):
    count, text = sum(verdict is each for _, each, _ in LOG), whole[1].decode()
    assert f"\n{text}".count(f"\n{verdict.value}, line ") == count
    assert f"  {count} {verdict.value}\n" in text


def test_order(tmp_path):
    """A call that waits counts where it returns, and any other where it begins."""
    lines = ['pipe2([6<pipe:[5]>, 7<pipe:[5]>], 0) = 0', 'fork( <unfinished ...>', '101 close(7<pipe:[5]>) = 0',
             '101 read(6<pipe:[5]>,  <unfinished ...>', '<... fork resumed>) = 101',
             'write(7<pipe:[5]>, "xy", 2 <unfinished ...>',
             '101 <... read resumed>"xy", 9) = 2', '<... write resumed>) = 2', 'close(6<pipe:[5]>) = 0',
             'wait4(-1,  <unfinished ...>', '101 exit_group(0) = ?', '101 +++ exited with 0 +++',
             '<... wait4 resumed>[{WIFEXITED(s) && WEXITSTATUS(s) == 0}], 0, NULL) = 101', 'exit_group(0) = ?']
    found, _, run = compared(tmp_path, WORLD, lines)
    assert {each["verdict"] for each in found.values()} == {SAME.value}
    calls = [line.split(b" ", 1)[1] for line in run.split(b"\n") if re.match(rb"\d@base ", line)]
    assert calls == [b"pipe", b"fork", b"close 1", b'write 1 "xy"', b"read 0 2", b"close 0", b"exit 0", b"wait", b"exit 0"]


def test_many(tmp_path):
    """Of many calls that are denied the first are explained."""
    found, text, _ = compared(tmp_path, WORLD, [f'mkdir("top/{number}", 0700) = 0' for number in range(12)])
    assert [number for number, each in found.items() if each["why"]] == list(range(1, 11))
    assert b"The first 10 of the 12 calls that are denied here are explained.\n" in text


def test_script_of_no_log(tmp_path):
    """A script that no comment ties to the log."""
    compared(tmp_path, WORLD, ['getpid() = 100'])
    (tmp_path / "plain").write_bytes(WORLD + b"1@base getpid\n")
    text = labask("why", tmp_path / "plain", "--against", tmp_path / "log")[0]
    assert text == b"0 calls of the log were played\nEvery answer was played by labsys.\n"


def test_script_of_another_log(tmp_path):
    compared(tmp_path, WORLD, ['getpid() = 100'])
    (tmp_path / "other").write_bytes(WORLD + b"# 2: getpid() = 100\n1@base getpid\n")
    labask("why", tmp_path / "other", "--against", tmp_path / "log", status=1)
