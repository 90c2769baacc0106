"""Logs written by hand: which lines of the script each call of a log becomes, and what is left out, in each form of a log."""
import argparse
import re

import pytest
from hypothesis import given, settings
from strategies import damaged_logs
from system import labask

from labask import against
from labask import tracing as trace
from labask.strace.log import Call, read_log
from labask.strace.values import Argument, split_arguments
from labask.worlds import read_world

WORLD = b"""\
# root "/srv/site"
world 2
levels base
categories
bound all
dir / 0777 0 0 base
dir /d 0777 0 0 base
# left out: symbolic link /s
# left out: symbolic link "/a link"
file /a 0755 7 7 base "hello"
proc base 7 7 - "="
proc base 8 8 - "="
script
2@base getpid
"""
# each line of a log with the lines of the script that it becomes, and for those that are left out why
LOG = [
    ('100 execve("/usr/bin/x", ["x"], 0x7ffd /* 3 vars */) = 0', "outside of the directory"),
    ('100 openat(AT_FDCWD</srv/site>, "a", O_RDONLY|O_CLOEXEC) = 3</srv/site/a>', ["1@base open a r"]),
    ('100 pread64(3</srv/site/a>, "ell", 3, 1) = 3',
     ["1@base lseek 0 cur 0", "1@base lseek 0 set 1", "1@base read 0 3", "1@base lseek 0 set 0"]),
    ('100 readv(3</srv/site/a>, [{iov_base="he", iov_len=2}, {iov_base="llo", iov_len=10}], 2) = 5', ["1@base read 0 12"]),
    ('100 open("link/../a", O_RDWR) = 4</srv/site/a>', ["1@base open /a rw"]),
    ('100 write(4</srv/site/a>, "a) = \\"\\303"..., 8) = 8', ['1@base write 1 "a) = \\"\\xc3?"']),
    ('100 dup2(4</srv/site/a>, 3</srv/site/a>) = 3</srv/site/a>', ["1@base close 0", "1@base dup 1"]),
    ('100 fcntl(3</srv/site/a>, F_SETFD, FD_CLOEXEC) = 0', "followed without a call"),
    ('100 fcntl(3</srv/site/a>, F_GETFD) = 0x1 (flags FD_CLOEXEC)', "no call of the profile"),
    ('100 clone(child_stack=NULL, flags=SIGCHLD <unfinished ...>', ["1@base fork"]),
    ('101 getppid( <unfinished ...>', ["3@base getppid"]),
    ('100 <... clone resumed>, child_tidptr=0x7f) = 101', []),
    ('101 <... getppid resumed>) = 100', []),
    ('101 execve("a", ["a"], 0x7f /* 0 vars */) = 0', ["3@base exec a", "3@base close 0"]),
    ('101 chdir("d") = 0', ["3@base chdir d"]),
    ('101 mkdir("e", 0700) = 0', ["3@base mkdir e 0700"]),
    ('101 chdir("/usr") = 0', "outside of the directory"),
    ('101 mkdirat(AT_FDCWD</usr>, "../srv/site/d/g", 01755) = 0', ["3@base mkdir /d/g 0755"]),
    ('101 unlinkat(AT_FDCWD</usr>, "/srv/site/d/g", AT_REMOVEDIR) = 0', ["3@base rmdir /d/g"]),
    ('101 mkdir("g", 0700) = -1 EACCES (Permission denied)', "outside of the directory"),
    ('101 kill(100, SIGUSR1) = 0', ["3@base kill 1@base 0"]),
    ('101 exit_group(258) = ?', ["3@base exit 2"]),
    ('101 +++ exited with 2 +++', []),
    ('100 --- SIGCHLD {si_signo=SIGCHLD, si_code=CLD_EXITED, si_pid=101, si_uid=7, si_status=2, si_utime=0, si_stime=0} ---', []),
    ('100 wait4(-1, [{WIFEXITED(s) && WEXITSTATUS(s) == 2}], 0, NULL) = 101', ["1@base wait"]),
    ('100 vfork( <unfinished ...>', ["1@base fork"]),
    ('102 tgkill(102, 102, SIGABRT) = 0', "no call of the profile"),
    ('102 +++ killed by SIGABRT (core dumped) +++', ["4@base kill 4@base KILL"]),
    ('100 <... vfork resumed>) = 102', []),
    ('100 clone3({flags=CLONE_VM|CLONE_THREAD, exit_signal=0, stack=0x7f} => {parent_tid=[103]}, 88) = 103',
     "followed without a call"),
    ('103 umask(077) = 022', ["1@base umask 0077"]),
    ('103 exit(0) = ?', "followed without a call"),
    ('103 +++ exited with 0 +++', []),
    ('100 ftruncate(4</srv/site/a>, 3) = 0', "no call of the profile"),
    ('100 ftruncate(4</srv/site/a>, 0) = 0', ["1@base open /a wt", "1@base close 2"]),
    ('100 lseek(4</srv/site/a>, 0, SEEK_DATA) = 0', ["1@base lseek 1 set 0"]),
    ('100 sendfile(1</dev/pts/0>, 4</srv/site/a>, NULL, 4096) = 8', ["1@base read 1 4096"]),
    ('100 setresuid(-1, 7, -1) = 0', "with what the profile's call does not have"),
    ('100 setresuid(7, 7, 7) = 0', ["1@base setuid 7"]),
    ('100 renameat2(AT_FDCWD</srv/site>, "a", AT_FDCWD</srv/site>, "b", RENAME_EXCHANGE) = -1 ENOENT (No such file or directory)',
     "with what the profile's call does not have"),
    ('100 mknodat(AT_FDCWD</srv/site>, "q \\"\\n", S_IFIFO|0640) = 0', ['1@base mkfifo "q \\"\\x0a" 0640']),
    ('100 chown("a", -1, 7) = 0', ["1@base stat a", "1@base chown a 7 7"]),
    ('100 fsetxattr(4</srv/site/a>, "system.posix_acl_access", "\\2\\0\\0\\0\\1\\0\\6\\0\\377\\377\\377\\377\\4\\0\\4\\0'
     '\\377\\377\\377\\377 \\0\\0\\0\\377\\377\\377\\377", 28, 0) = 0', ["1@base stat /a", "1@base chmod /a 0640"]),
    ('100 close_range(3, 4294967295, 0) = 0', ["1@base close 0", "1@base close 1"]),
    ('100 close(4</srv/site/a>) = -1 EBADF (Bad file descriptor)', "of a descriptor that is not open here"),
    ('100 lstat("l", {st_mode=S_IFLNK|0777, st_size=1, ...}) = 0', "about what no world has"),
    ('strace: Process 104 attached', []),
    ('something that a program wrote', "no line of a call"),
    ('200 getpid() = 200', "of a process that is not here"),
    ('100 openat(AT_FDCWD</srv/site>, "s", O_RDONLY) = 3</srv/site/d>', ["1@base open /d r", "1@base readdir /d"]),
    ('100 stat("s/e", {st_mode=S_IFDIR|0700, st_size=4096, ...}) = 0', "about what no world has"),
    ('100 readlink("a link", "d", 4096) = 1', "no call of the profile"),
    ('100 unlink("a link") = 0', "about what no world has"),
    ('100 mkdir("a link", 0700) = 0', ['1@base mkdir "a link" 0700']),
    ('100 symlink("d", "t") = 0', "about what no world has"),
    ('100 chmod("t/e", 0755) = 0', "about what no world has"),
    ('100 newfstatat(3</srv/site/d>, "e", {st_mode=S_IFDIR|0700, st_size=4096, ...}, 0) = 0', ["1@base stat /d/e"]),
    ('100 newfstatat(3</srv/site/d>, "", {st_mode=S_IFDIR|0777, st_size=4096, ...}, AT_EMPTY_PATH) = 0', ["1@base stat /d"]),
    ('100 getdents64(3</srv/site/d>, 0x7f /* 3 entries */, 32768) = 72', ["1@base readdir /d"]),
    ('100 getdents64(3</srv/site/d>, 0x7f /* 0 entries */, 32768) = 0', "followed without a call"),
    ('100 fchdir(3</srv/site/d>) = 0', ["1@base chdir /d"]),
    ('100 rmdir("./e/") = 0', ["1@base rmdir e"]),
    ('100 pipe2([4<pipe:[5]>, 5<pipe:[5]>], O_CLOEXEC) = 0', ["1@base pipe"]),
    ('100 write(5<pipe:[5]>, "xy", 2) = 2', ['1@base write 1 "xy"']),
    ('100 read(4<pipe:[5]>, "xy", 4096) = 2', ["1@base read 0 2"]),
    ('100 read(4<pipe:[5]>, 0x7f, 4096) = ? ERESTARTSYS (To be restarted if SA_RESTART is set)', "without a result in the log"),
    ('100 exit_group(0) = ?', ["1@base exit 0"]),
    ('100 +++ exited with 0 +++', []),
]
BROKEN = 150
pytestmark = pytest.mark.usefixtures("program")


def traced(folder, lines, *options):
    """The lines of the script of a log, by the line of the log that their comment names, and why others are left out."""
    (folder / "world").write_bytes(WORLD)
    (folder / "log").write_text("".join(line + "\n" for line in lines), encoding="latin-1")
    (folder / "run").write_bytes(labask("trace", folder / "world", folder / "log", *options)[0])
    run = read_world((folder / "run").read_bytes())
    played, left_out, current = {}, {}, None
    for line in run.lines[run.script_line + 1:]:
        found = re.match(rb"# (\d+)(?:: |, besides: |, left out, ([^(:]*?)(?: \(.*?\))?: )", line.text)
        if found and found[2]:
            left_out[int(found[1])] = found[2].decode()
        elif found:
            current = int(found[1])
        elif line.words:
            played.setdefault(current, []).append(line.text.decode())
    return played, left_out, run.text


def plain(line):
    """A line of the log as it is."""
    return line


def timed(line):
    """A line with times before the call and behind it."""
    line = re.sub(r"^(\d+) ", r"\1 22:16:42.123456 ", line)
    return line + " <0.000012>" if re.search(r"\) += [^(]*(\(.*\))?$", line) else line


def bracketed(line):
    """A line with the number of its process in brackets."""
    return re.sub(r"^(\d+) ", r"[pid   \1] ", line)


@pytest.mark.parametrize("form", (plain, timed, bracketed), ids=lambda form: form.__name__)
def test_forms(form, tmp_path):
    """Each line of the log becomes the lines of the script that are due, in each form of a log."""
    played, left_out, _ = traced(tmp_path, [form(line) for line, _ in LOG])
    for number, (line, due) in enumerate(LOG, 1):
        found = played.get(number, []), left_out.get(number, "")
        assert found == ((due, "") if isinstance(due, list) else ([], due)), line


def test_one_process(tmp_path):
    """A log of one process has no numbers."""
    played, _, _ = traced(tmp_path, ['mkdir("x", 0777)                  = 0', "+++ exited with 3 +++"])
    assert played == {1: ["1@base mkdir x 0777"], 2: ["1@base exit 3"]}


def test_terminal(tmp_path):
    """A log as it goes to a terminal: the first process has a number only beside others."""
    lines = ['getpid() = 100', 'fork( <unfinished ...>', 'strace: Process 101 attached', '[pid   101] getppid( <unfinished ...>',
             '[pid   100] <... fork resumed>) = 101', '[pid   101] <... getppid resumed>) = 100', '[pid   101] kill(100, 0) = 0',
             '[pid   100] exit_group(4) = ?', '[pid   100] +++ exited with 4 +++', 'mkdir("x", 0700) = 0', 'exit_group(0) = ?']
    assert traced(tmp_path, lines)[0] == {
        1: ["1@base getpid"], 2: ["1@base fork"], 4: ["3@base getppid"], 7: ["3@base kill 1@base 0"], 8: ["1@base exit 4"],
        10: ["3@base mkdir x 0700"], 11: ["3@base exit 0"]}


def test_summary(tmp_path):
    """What is left out is counted at the end."""
    _, left_out, text = traced(tmp_path, [line for line, due in LOG])
    for reason in set(left_out.values()):
        count = sum(reason == each for each in left_out.values())
        assert f"# {count} left out, {reason}\n".encode() in text
    assert b"# no call of the profile: fcntl 1, tgkill 1, ftruncate 1, readlink 1\n" in text
    assert b"# 1 bytes that the log does not have are written as ?\n" in text


MKDIR = '7 mkdir("x", 0777) = 0'


def test_process_directory_and_umask(tmp_path):
    """The process, its directory and its umask at the beginning."""
    played, _, _ = traced(tmp_path, [MKDIR], "--as", "2@base", "--umask", "077", "--start", "/srv/site/d")
    assert played == {0: ["2@base umask 0077", "2@base chdir /d"], 1: ["2@base mkdir x 0777"]}


def test_beginning_elsewhere(tmp_path):
    played, left_out, _ = traced(tmp_path, [MKDIR], "--start", "/srv/other")
    assert (played, left_out) == ({}, {1: "outside of the directory"})


def test_another_root(tmp_path):
    played, _, _ = traced(tmp_path, ['7 mkdir("/srv/other/x", 0777) = 0'], "--directory", "/srv/other")
    assert played == {1: ["1@base mkdir /x 0777"]}


def test_directory_that_the_log_tells(tmp_path):
    opened = '7 openat(AT_FDCWD</srv/site/d>, "f", O_WRONLY|O_CREAT|O_APPEND, 0666) = 3</srv/site/d/f>'
    due = {0: ["1@base chdir /d"], 1: ["1@base mkdir x 0777"], 2: ["1@base open f wca 0666"]}
    assert traced(tmp_path, [MKDIR, opened])[0] == due


@pytest.mark.parametrize("start, why", [
    (f"/srv/site/{'n' * 64}", "the name has 64 bytes, and may have 63"), ("/srv/site/s/e", "/s is left out of the world"),
], ids=["long", "left out"])
def test_directory_that_no_world_has(start, why, tmp_path):
    """Calls with paths from the root are played, as everywhere."""
    lines = [f'7 openat(AT_FDCWD<{start}>, "f", O_RDONLY) = 3', '7 unlink("/srv/site/a") = 0']
    played, left_out, text = traced(tmp_path, lines)
    assert (played, left_out) == ({2: ["1@base unlink /a"]}, dict.fromkeys((0, 1), "about what no world has"))
    assert f"# 0, left out, about what no world has ({why}): the current directory at the beginning\n".encode() in text
    assert b"# 2 left out, about what no world has\n" in text, "what is left out is counted"


@pytest.mark.parametrize("digits", ("9" * 5000, "0x" + "f" * 5000, "9" * 24), ids=lambda digits: digits[:4])
def test_long_numbers(digits, tmp_path):
    """Numbers that no log has, in each place: no call is made of such a line, and the other lines are followed."""
    lines = [f'7 umask({digits}) = 0', f'7 umask(0) = {digits}', f'{digits} umask(0) = 0', f'[pid {digits}] umask(0) = 0',
             f'7 openat({digits}</srv/site>, "a", O_RDONLY) = {digits}</srv/site/a>', f'7 lseek(3, {digits}*2, SEEK_SET) = 0',
             f'strace: Process {digits} attached', f'7 kill({digits}, SIGTERM) = 0', f'7 close({digits}) = 0',
             f'7 waitid(P_ALL, 0, {{si_signo=SIGCHLD, si_pid={digits}, si_status=0}}, WEXITED, NULL) = 0',
             f'7 +++ exited with {digits} +++', '7 mkdir("x", 0777) = 0']
    played, _, _ = traced(tmp_path, lines)
    played.pop(10, None)
    assert played == {12: ["1@base mkdir x 0777"]}
    labask("why", tmp_path / "run", "--against", tmp_path / "log", status=None)


def test_more_bytes_than_there_may_be(tmp_path):
    open_line, many = '7 openat(AT_FDCWD</srv/site>, "a", O_RDWR) = 3</srv/site/a>', 99999999999999999999
    lines = [open_line, f'7 write(3</srv/site/a>, "a", {many}) = -1 EFAULT (Bad address)',
             f'7 sendfile(3</srv/site/a>, 0</dev/null>, NULL, {many}) = {many}']
    assert traced(tmp_path, lines)[1] == dict.fromkeys((2, 3), "with what the profile's call does not have")


@pytest.mark.parametrize("log, world, options, status", [
    (MKDIR, WORLD, ("--as", "9@base"), 1), (MKDIR, WORLD, ("--umask", "8"), 1), ("nothing", WORLD, (), 1),
    (MKDIR, WORLD.replace(b'# root "/srv/site"\n', b""), (), 1), (MKDIR, WORLD.replace(b"dir /d", b"dir d"), (), 2),
], ids=["process", "umask", "log", "root", "world"])
def test_faults(log, world, options, status, tmp_path):
    """Wrong command lines, and worlds that are refused."""
    (tmp_path / "world").write_bytes(world)
    (tmp_path / "log").write_text(log + "\n")
    labask("trace", tmp_path / "world", tmp_path / "log", *options, status=status)


def test_missing_world(tmp_path):
    (tmp_path / "log").write_text(MKDIR + "\n")
    labask("trace", tmp_path / "none", tmp_path / "log", status=1)


def test_damaged_logs(player):
    """Logs with damaged lines are followed to their ends, and what is written is played and compared."""
    world, options = read_world(WORLD), argparse.Namespace(directory=None, tag=None, start=None, umask=None)

    @settings(max_examples=BROKEN)
    @given(damaged_logs([line.encode("latin-1") for line, _ in LOG]))
    def follow(text):
        log = read_log(text)
        script = trace.trace(world, log, options, player)
        run = WORLD + b"".join(line + b"\n" for line in script.lines)
        found = against.compare_all(read_world(run), log, player.play_accepted(run).replies)
        assert script.played + sum(script.left_out.values()) >= sum(isinstance(event, Call) for event in log.events)
        assert len(found) <= script.played

    follow()


def test_arguments():
    """Readings of arguments."""
    assert [each.written for each in split_arguments(b'3</a,b>, "x, \\"y", {a=1, b=[2, 3]}, 1<<3|4')] == \
        [b"3</a,b>", b'"x, \\"y"', b"{a=1, b=[2, 3]}", b"1<<3|4"]
    handle = Argument(b"3</a\\74b\\76 (deleted)>").handle
    assert (handle.number, handle.path) == (3, b"/a<b>")
    assert Argument(b"S_IFREG|S_ISUID|0755").bits == 0o4755


def test_strings():
    assert Argument(b'"\\1\\12\\1234\\x41\\n\\\\"...').string.value == b"\x01\n\x534A\n\\"
    assert not Argument(b'"a"...').string.whole, "a string that was cut"
    assert Argument(b'"\\8\\9\\78"').string.value == b"89\x078", "digits that are not octal"


@pytest.mark.parametrize("text, number", [(b"8192*1024", 8388608), (b"-1", -1), (b"0x1f", 31), (b"022", 18)])
def test_numbers(text, number):
    assert Argument(text).number == number
