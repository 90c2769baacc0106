"""Tests what is written to a terminal: by rich where it is there, and the same words without it."""
import os
import pty
import re
import subprocess
import sys

import pytest
from support import HERE, TOP

from labask import terminal
from labask.effort import Effort

pytestmark = pytest.mark.usefixtures("program")

CODES = re.compile(r"\x1b\[[0-9;?]*[A-Za-z]")
WORDS = ("who", "examples/lesson.txt", "/exam/marks")


def on_terminal(*words: str, without_rich: bool) -> str:
    """What a command line writes to a terminal that is wide enough."""
    program = "import sys; sys.argv[0] = 'labask'\n"
    if without_rich:
        program += "from labask import terminal; terminal.has_rich = lambda: False\n"
    program += "from labask.main import main; sys.exit(main())"
    own, its = pty.openpty()
    given = {**os.environ, "PYTHONPATH": str(HERE.parent / "src"), "COLUMNS": "200", "TERM": "xterm-256color"}
    with subprocess.Popen([sys.executable, "-c", program, *words], stdin=subprocess.DEVNULL, stdout=its, stderr=its, cwd=TOP, env=given):
        os.close(its)
        return read_all(own).decode()


def read_all(descriptor: int) -> bytes:
    """All that is written to a terminal until no program has it open."""
    found = b""
    while True:
        try:
            piece = os.read(descriptor, 65_536)
        except OSError:  # how Linux says that its other end is closed
            piece = b""
        if not piece:
            os.close(descriptor)
            return found
        found += piece


def cells(written: str):
    """The words of a table without its lines and styles, in their order."""
    plain = CODES.sub("", written).replace("\r", "\n")
    return [word for word in re.split(r"\s+", plain) if word and not re.fullmatch("[─━]+", word)]


def test_a_terminal_without_rich_gets_plain_text() -> None:
    done = subprocess.run([sys.executable, str(HERE.parent / "labask"), *WORDS], stdout=subprocess.PIPE, cwd=TOP, check=False)
    written = on_terminal(*WORDS, without_rich=True)
    assert re.sub(r"\x1b\[K(labask: [^\r\n]*)?|\r", "", written) == done.stdout.decode()


def test_a_terminal_with_rich_gets_the_same_words() -> None:
    pytest.importorskip("rich")
    plain, styled = (on_terminal(*WORDS, "--quiet", without_rich=without) for without in (True, False))
    assert "\x1b[32myes" in styled and "\x1b" not in plain
    assert cells(styled) == cells(plain)


def test_what_is_no_terminal_gets_the_same_with_rich_and_without(monkeypatch: pytest.MonkeyPatch, capsys) -> None:
    rows = [["A", "B"], ["x", "[red]y[/red]"]]
    for there in (False, True):
        monkeypatch.setattr(terminal, "has_rich", lambda there=there: there)
        assert not terminal.show_rich_table(rows, str)
    assert capsys.readouterr().out == ""


def test_progress_is_shown_in_one_line_that_goes_away(monkeypatch: pytest.MonkeyPatch, capsys: pytest.CaptureFixture[str]) -> None:
    monkeypatch.setattr("labask.terminal.has_rich", lambda: False)
    effort = Effort(quiet=False)
    effort.progress("who: 1 of 2")
    effort.progress("who: 2 of 2")  # too soon to be shown
    effort.clear()
    effort.clear()
    assert capsys.readouterr().err.replace("\r\x1b[K", "|") == "|labask: who: 1 of 2|"
    Effort().progress("who: 1 of 2")
    assert capsys.readouterr().err == ""
