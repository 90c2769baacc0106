"""`trace` of logs that seek, read and write past the end of a file: zeros are written up to there before, as Linux does."""
import json
import os
import shutil
import subprocess

import pytest
from logs_by_hand import follow, log_of
from system import as_user, give, labask, own_ids, strace

WORLD = """\
# root "/srv/site"
world 2
levels base
categories
bound all
dir / 0777 0 0 base
file /f 0666 7 7 base "hello"
fifo /p 0666 7 7 base
proc base 7 7 - "="
script
"""
OPEN = 'openat(AT_FDCWD</srv/site>, "f", O_RDWR) = 3</srv/site/f>'
FILE = "3</srv/site/f>"


@pytest.fixture
def traced(player):
    """Gives the script of a log behind its first line, the verdicts, what the file has in the end, and the text."""
    def trace(calls):
        found = follow(player, WORLD, log_of([OPEN, *calls]))
        script = found.script
        more = f"1@base open /f r\n1@base read {free(script)} 65536\n".encode()
        replies = player.play_accepted(found.world.text + more).replies
        return script[1:], found.verdicts, replies[len(script) + 1].text, found.text
    return trace


def free(script):
    """The descriptor that the next open gets: no test closes one before its end."""
    return sum(line.startswith(("open", "dup")) for line in script)


def content(reply):
    """The bytes that a reply to `read` has."""
    return reply.partition("ok ")[2]


def test_write_past_the_end(traced):
    script, compared, end, text = traced([f"lseek({FILE}, 8, SEEK_SET) = 8", f'write({FILE}, "ab", 2) = 2'])
    assert script == ["lseek 0 end 0", 'write 0 "\\x00\\x00\\x00"', "lseek 0 set 8", 'write 0 "ab"']
    assert set(compared.values()) == {"same"} and set(compared) == {1, 2, 3}
    assert content(end) == '"hello\\x00\\x00\\x00ab"'
    assert "# 2, besides: zeros up to the offset 8\n" in text


@pytest.mark.parametrize("whence, offset", (("SEEK_END", 3), ("SEEK_CUR", 8)))
def test_other_bases(traced, whence, offset):
    script, compared, end, _ = traced([f"lseek({FILE}, {offset}, {whence}) = 8", f'write({FILE}, "ab", 2) = 2'])
    assert script[2] == "lseek 0 set 8" and content(end) == '"hello\\x00\\x00\\x00ab"'
    assert set(compared.values()) == {"same"}


def test_seek_from_a_place_past_the_end(traced):
    calls = [f"lseek({FILE}, 100, SEEK_SET) = 100", f"lseek({FILE}, -93, SEEK_CUR) = 7", f'write({FILE}, "ab", 2) = 2']
    script, compared, end, text = traced(calls)
    assert content(end) == '"hello\\x00\\x00ab"' and 2 not in compared
    assert "# 2, left out, followed without a call (past the end, and nothing is written there): lseek" in text


def test_nothing_is_written_there(traced):
    script, compared, end, text = traced([f"lseek({FILE}, 100, SEEK_SET) = 100", f"lseek({FILE}, 1, SEEK_SET) = 1"])
    assert script == ["lseek 0 set 1"] and content(end) == '"hello"'
    script, _, end, text = traced([f"lseek({FILE}, 100, SEEK_SET) = 100", f'write({FILE}, "", 0) = 0'])
    assert script == ['write 0 ""'] and content(end) == '"hello"' and text.count("past the end, and nothing") == 1


def test_read_past_the_end(traced):
    calls = [f"lseek({FILE}, 8, SEEK_SET) = 8", f'read({FILE}, "", 9) = 0', f'write({FILE}, "ab", 2) = 2']
    script, compared, end, _ = traced(calls)
    assert script[:2] == ["lseek 0 end 0", "read 0 9"] and content(end) == '"hello\\x00\\x00\\x00ab"'
    assert set(compared.values()) == {"same"}


def test_duplicates_and_children_share_the_offset(traced):
    calls = [f"lseek({FILE}, 8, SEEK_SET) = 8", f"dup({FILE}) = 4</srv/site/f>", 'write(4</srv/site/f>, "ab", 2) = 2']
    script, compared, end, _ = traced(calls)
    assert script == ["dup 0", "lseek 1 end 0", 'write 1 "\\x00\\x00\\x00"', "lseek 1 set 8", 'write 1 "ab"']
    assert content(end) == '"hello\\x00\\x00\\x00ab"' and set(compared.values()) == {"same"}
    calls = [f"lseek({FILE}, 7, SEEK_SET) = 7", "fork() = 8", f'8 write({FILE}, "ab", 2) = 2', f'write({FILE}, "c", 1) = 1']
    script, compared, end, _ = traced(calls)
    assert content(end) == '"hello\\x00\\x00abc"' and set(compared.values()) == {"same"}


def test_write_at_the_end_stays_there(traced):
    opened = OPEN.replace("O_RDWR", "O_WRONLY|O_APPEND").replace("3<", "5<")
    calls = [opened, "lseek(5</srv/site/f>, 100, SEEK_SET) = 100", 'write(5</srv/site/f>, "ab", 2) = 2']
    script, _, end, _ = traced(calls)
    assert script == ["open f wa", 'write 1 "ab"'] and content(end) == '"helloab"'


def test_calls_with_an_offset(traced):
    calls = [f'pwrite64({FILE}, "ab", 2, 8) = 2', f'pread64({FILE}, "", 4, 20) = 0', f'pread64({FILE}, "hell", 4, 0) = 4']
    script, compared, end, _ = traced(calls)
    assert content(end) == '"hello\\x00\\x00\\x00ab"' and set(compared.values()) == {"same"}


def test_copy_to_a_place_past_the_end(traced):
    calls = [OPEN.replace("3<", "4<"), "lseek(4</srv/site/f>, 7, SEEK_SET) = 7",
             f"copy_file_range({FILE}, NULL, 4</srv/site/f>, NULL, 5, 0) = 5"]
    script, compared, end, _ = traced(calls)
    assert content(end) == '"hello\\x00\\x00hello"' and set(compared.values()) == {"same"}


def test_more_than_a_file_may_have(traced):
    script, compared, end, text = traced([f"lseek({FILE}, 65537, SEEK_SET) = 65537", f'write({FILE}, "ab", 2) = 2'])
    assert script == [] and content(end) == '"hello"'
    assert "(past the most bytes that a file may have): write" in text
    script, compared, end, _ = traced([f"lseek({FILE}, 65535, SEEK_SET) = 65535", f'write({FILE}, "a", 1) = 1'])
    assert content(end).count("\\x00") == 65530 and set(compared.values()) == {"same"}


def test_failed_seek_is_played(traced):
    script, compared, _, _ = traced([f"lseek({FILE}, -3, SEEK_SET) = -1 EINVAL (Invalid argument)"])
    assert script == ["lseek 0 set -3"] and compared[2] == "same"


@pytest.mark.skipif(not strace() or not all(map(shutil.which, ("make", "cc", "ld"))), reason="there is no strace, make or compiler")
def test_build_by_make(open_folder, player):
    """A small build is followed: each call has the reply of the log but for sizes of directories, and the program is the same."""
    tree = open_folder / "project"
    tree.mkdir()
    (tree / "main.c").write_text('#include "part.h"\nint main(void) { return part(1); }\n')
    (tree / "part.c").write_text('#include "part.h"\nint part(int one) { return one - 1; }\n')
    (tree / "part.h").write_text("int part(int);\n")
    (tree / "Makefile").write_text("program: main.o part.o\n\tcc -o $@ main.o part.o\n%.o: %.c part.h\n\tcc -c -o $@ $<\n")
    give(tree)
    user, group, groups = own_ids()
    processes = ("--proc", f"{user}:{group}:{groups}:=", "--proc", "7:7:-:cap_dac_read_search=ep")
    (open_folder / "world").write_bytes(labask("world", tree, "--bytes", "65536", *processes)[0])
    log = open_folder / "log"
    log.touch(0o666)
    log.chmod(0o666)
    subprocess.run([strace(), "-f", "-y", "-s", "65536", "-o", str(log), "make", "-s"], cwd=tree, preexec_fn=as_user, check=True,
                   env={"PATH": os.environ["PATH"], "TMPDIR": "/tmp", "LC_ALL": "C"}, stdout=subprocess.DEVNULL)
    run = labask("trace", open_folder / "world", log)[0]
    (open_folder / "run").write_bytes(run)
    found = json.loads(labask("why", open_folder / "run", "--against", log, "--json", status=None)[0])
    assert set(found["counts"]) <= {"same", "known difference, size and link count of a directory"}, found["counts"]
    replies = player.play_accepted(run + b"2@base stat /program\n").replies
    assert int(replies[-1].words[4].value) == (tree / "program").stat().st_size, "the program has as many bytes as on the system"
