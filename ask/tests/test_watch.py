"""The question watch plays a file anew at each change, and says what is new, gone or wrong; no file that is watched ends it."""
import os
import pathlib
import signal
import subprocess
import sys
import threading
from typing import Iterator, List, Tuple

import pytest
from support import LABASK, TOP, labask

from labask.watch import marked

pytestmark = pytest.mark.usefixtures("program")
LESSON = TOP / "examples" / "lesson.txt"
CLOSED, OPEN = b"dir /exam 0750", b"dir /exam 0751"
NEW = ["- 1@public open EACCES dac_search p1", "+ 1@public open EACCES dac_read p2"]


@pytest.fixture
def world(tmp_path: pathlib.Path) -> pathlib.Path:
    """A copy of an example that may be changed."""
    path = tmp_path / "world.txt"
    path.write_bytes(LESSON.read_bytes())
    return path


class Started:
    """The command, which runs."""

    def __init__(self, words: Tuple[object, ...]):
        self.run = subprocess.Popen([sys.executable, str(LABASK), "watch", *map(str, words)], stdout=subprocess.PIPE, stderr=subprocess.PIPE,
                                    text=True, errors="replace", preexec_fn=lambda: signal.signal(signal.SIGINT, signal.default_int_handler))
        self.watchdog = threading.Timer(120, self.run.kill)
        self.watchdog.start()

    def through(self, word: str) -> List[str]:
        """The lines up to the first one with a word."""
        assert self.run.stdout is not None
        lines: List[str] = []
        while not lines or word not in lines[-1]:
            lines.append(self.run.stdout.readline().rstrip("\n"))
            assert lines[-1] or self.run.poll() is None, lines
        return lines

    def end(self) -> Tuple[str, str, int]:
        """What it writes after Ctrl-C, and its status."""
        self.run.send_signal(signal.SIGINT)
        out, messages = self.run.communicate(timeout=60)
        return out, messages, self.run.returncode

    def kill(self) -> None:
        """Ends it, where it has not ended."""
        self.watchdog.cancel()
        self.run.kill()
        self.run.communicate()


@pytest.fixture
def started(world: pathlib.Path) -> Iterator[Started]:
    """The command with the file, which is ended after the test, however that ends."""
    begun = Started((world,))
    yield begun
    begun.kill()


def changed(path: pathlib.Path, old: bytes, new: bytes) -> None:
    """Writes a file in place with other bytes."""
    path.write_bytes(path.read_bytes().replace(old, new))


def test_rename_in_place_and_interrupt(started: Started, world: pathlib.Path) -> None:
    first = started.through("done")
    assert first[0] == f"{world}: played" and all(line.startswith("  ") for line in first[1:])
    other = world.with_name("other")
    other.write_bytes(world.read_bytes().replace(CLOSED, OPEN))
    other.rename(world)
    second = started.through("done")
    assert second[0] == f"{world}: 1 line new, 1 gone" and [line for line in second[1:] if line[0] != " "] == NEW
    changed(world, OPEN, CLOSED)
    assert [line for line in started.through("done")[1:] if line[0] != " "] == [f"{'-+'[line[0] == '-']}{line[1:]}" for line in NEW[::-1]]
    assert started.end() == ("", "", 0)


def test_what_is_wrong_is_waited_for(started: Started, world: pathlib.Path) -> None:
    started.through("done")
    changed(world, b"dir /exam", b"directory /exam")
    assert started.through("labsys: refused")[0] == f'{world}:8: word 1 "directory": expected dir, file, fifo, proc or script'
    kept = world.read_bytes().replace(b"directory", b"dir")
    world.unlink()
    assert started.through("No such file") == [f"{world}: No such file or directory"]
    for make in (os.mkdir, os.mkfifo):
        make(world)
        assert started.through("regular") == [f"{world}: not a regular file, and no other is watched"]
        world.rename(world.with_name(make.__name__))
        started.through("No such file")
    world.write_bytes(kept + b"\xff\xfe\0\n")
    assert "byte" in started.through("labsys: refused")[0]
    world.write_bytes(kept)
    assert started.through("done")[0] == f"{world}: 0 lines new, 0 gone"
    assert started.end() == ("", "", 0)


def test_a_page_each_time(world: pathlib.Path, tmp_path: pathlib.Path) -> None:
    page, due = tmp_path / "page.html", tmp_path / "due.html"
    begun = Started((world, "--page", page))
    try:
        begun.through("page.html: written")
        before = page.read_bytes()
        changed(world, CLOSED, OPEN)
        begun.through("page.html: written")
        assert begun.end() == ("", "", 0)
    finally:
        begun.kill()
    assert labask("page", world, "--output", due)[0] == 0
    assert before != page.read_bytes() == due.read_bytes()
    assert sorted(path.name for path in tmp_path.iterdir()) == ["due.html", "page.html", "world.txt"]


def test_rules_each_time(world: pathlib.Path, tmp_path: pathlib.Path) -> None:
    rules = tmp_path / "rules"
    rules.write_bytes(b"deny 1@public read /exam/questions\nno rule\n")
    begun = Started((world, "--rules", rules))
    try:
        assert begun.through(f"{rules}:2")[-1].startswith(f"{rules}:2: ")
        rules.write_bytes(b"deny 1@public read /exam/questions\n")
        assert begun.through(" undecided")[-1].startswith("1 rule: 1 hold")
        rules.unlink()
        assert begun.through(f"{rules}:")[-1] == f"{rules}: No such file or directory"
        assert begun.end() == ("", "", 0)
    finally:
        begun.kill()


def test_comments_are_rules(world: pathlib.Path) -> None:
    changed(world, b"3@public open /exam/questions w\n", b"3@public open /exam/questions w\n# expect ok\n")
    status, out, messages = labask("watch", world, "--rules", world, "--times", 1)
    assert (status, messages) == (0, "") and "broken" in out


@pytest.mark.parametrize("words, said", [
    (("-",), "standard input does not change"), (("/none",), "/none: No such file or directory"), (("",), "the word is empty"),
    (("/",), "/: not a regular file"), (("/dev/null",), "/dev/null: not a regular file"), ((LESSON, "--json"), "not written as JSON"),
    ((LESSON, "--rules", "/none"), "/none: No such file"), ((LESSON, "--page", "/none/x", "--times", "1"), "/none/x: No such file"),
    ((LESSON, "--page", LESSON, "--times", "1"), "the page would overwrite it"),
    ((LESSON, "--page", "/dev/null", "--times", "1"), "/dev/null is no regular file"), ((LESSON, "--times", "x"), "is no number"),
], ids=str)
def test_wrong_words(words: Tuple[object, ...], said: str) -> None:
    before = LESSON.read_bytes()
    status, _, messages = labask("watch", *words)
    assert status == 1 and said in messages and "Traceback" not in messages
    assert LESSON.read_bytes() == before and not os.path.isfile("/dev/null")


def test_marks() -> None:
    assert list(marked(["a", "b", "c"], ["a", "x", "c", "d"])) == ["  a", "- b", "+ x", "  c", "+ d"]
    assert list(marked([], [])) == []
