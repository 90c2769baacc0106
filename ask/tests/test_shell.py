"""The question shell answers each line, and no line that is wrong ends it or changes what was played."""
import contextlib
import io
import os
import pathlib
import pty
import select
import subprocess
import sys
from typing import Tuple

import pytest
from hypothesis import given, settings
from hypothesis import strategies as st
from support import LABASK, TOP, labask

from labask.playing import Player
from labask.shell import Shell
from labask.worlds import read_file, read_world

pytestmark = pytest.mark.usefixtures("program")
WORLD = TOP / "examples" / "lesson.txt"
DENIED, DONE = "1@public open /exam/questions r", "1@public open /timetable r"
PIECES = ["why", "who", "label", "undo", "save", "script", "help", "1@public", "9@public", "getpid", "open", "/timetable", "r", "1", "2-1",
          "0", "public", "label:zzz", "world", "\xff", "\0", '"', "#", '"\\x00"', '"\\xff"', "999999999999"]


def session(monkeypatch: pytest.MonkeyPatch, *lines: str, words: Tuple[object, ...] = ()) -> str:
    """What a session of lines writes; its status is that of its end."""
    monkeypatch.setattr(sys, "stdin", io.TextIOWrapper(io.BytesIO("".join(line + "\n" for line in lines).encode("latin-1"))))
    status, out, messages = labask("shell", WORLD, *words)
    assert (status, messages) == (0, "")
    return out


@pytest.fixture
def shell(player: Player) -> Shell:
    """A session with no line so far."""
    return Shell(str(WORLD), read_world(read_file(str(WORLD))), player)


def test_replies_and_reasons(monkeypatch: pytest.MonkeyPatch) -> None:
    out = session(monkeypatch, DONE, "", "# a comment", DENIED, "why", "why 1", "quit", DONE)
    assert out.startswith("1: ok 0\n2: EACCES dac_search p1\ncall 2, ") and "with cap_dac_read_search: ok 1" in out
    assert "by the rules alone" in out and "3: " not in out


def test_why_at_once(monkeypatch: pytest.MonkeyPatch) -> None:
    assert "with cap_dac_read_search" in session(monkeypatch, DENIED, words=("--why",))


@pytest.mark.parametrize("line, said", [
    ("1@public opne /x r", 'word 2 "opne": no call or utility'), ("hello", "refused"), ("why 9", "there are 1 calls so far"),
    ("why 2-1", "ends before it begins"), ("why x", "is no number"), ("who /none", "no line of the world has the path /none"),
    ("label public", "two labels are compared"), ("label public zzz", "unknown level zzz"), ("save", "one file is named"),
    ("save /none/x", "No such file or directory"), ("save \"a\\x00\"", "one file is named"), ("save " + str(WORLD), "File exists"),
    ("who \"label:\\xff\"", "no object of the world has the label"), ("who \xff", "column 5: byte that no word has"), ("1@public getpid\r", "carriage return"),
])
def test_a_wrong_line_changes_nothing(line: str, said: str, monkeypatch: pytest.MonkeyPatch) -> None:
    out = session(monkeypatch, DONE, line, "script", DONE)
    assert said in out and out.endswith(f"{DONE}\n2: ok 1\n")


def test_undo_and_save(tmp_path: pathlib.Path, monkeypatch: pytest.MonkeyPatch) -> None:
    path = tmp_path / "saved.txt"
    out = session(monkeypatch, "undo", DENIED, DONE, "undo", "script", f"save {path}", f"save {path}")
    assert out.startswith("there is no line to undo\n") and f"left out: {DONE}\n{DENIED}\nsaved: {path}\n" in out
    assert path.read_bytes().endswith(b"\nscript\n" + DENIED.encode() + b"\n")
    assert labask("why", path)[0] == 3


def test_questions_of_other_modules(monkeypatch: pytest.MonkeyPatch) -> None:
    out = session(monkeypatch, "who /timetable", "label secret public")
    assert "/timetable  1@public" in out and "secret dominates public." in out


def test_completion(shell: Shell) -> None:
    assert shell.completions("", "1@") == ["1@public", "1@secret"] and shell.completions("", "w") == ["who", "why"]
    assert shell.completions("1@public ", "op") == ["open"] and shell.completions("1@public open ", "/exam/") == ["/exam/marks", "/exam/questions"]
    assert shell.completions("who ", "/t") == ["/timetable"]
    with contextlib.redirect_stdout(io.StringIO()):
        shell.enter("1@public fork")
    assert shell.completions("", "4@") == ["4@public"]


@settings(max_examples=25)
@given(lines=st.lists(st.one_of(st.lists(st.sampled_from(PIECES), max_size=4).map(" ".join), st.binary(max_size=12).map(
    lambda line: line.replace(b"\n", b" ").decode("latin-1"))), max_size=3))
def test_any_line_has_an_answer(lines: "list[str]", player: Player, tmp_path_factory: pytest.TempPathFactory) -> None:
    shell = Shell(str(WORLD), read_world(read_file(str(WORLD))), player)
    here = os.getcwd()
    os.chdir(tmp_path_factory.mktemp("saved"))
    try:
        with contextlib.redirect_stdout(io.StringIO()):
            for line in lines:
                shell.enter(line)
    finally:
        os.chdir(here)
    assert player.play_accepted(shell.text(())).out == shell.played.out


def test_words_that_name_no_session() -> None:
    assert labask("shell", "-")[0] == labask("shell", WORLD, "--json")[0] == labask("shell", "/none")[0] == 1


def read_terminal(descriptor: int, due: str) -> str:
    """What is written to a terminal, up to a text that is due, or where nothing more comes."""
    out = ""
    while due not in out and select.select([descriptor], [], [], 60)[0]:
        out += os.read(descriptor, 4096).decode()
    return out


def test_tab_completes_on_a_terminal() -> None:
    pytest.importorskip("readline")
    terminal, other = pty.openpty()
    command = [sys.executable, str(LABASK), "shell", str(WORLD)]
    with subprocess.Popen(command, stdin=other, stdout=other, stderr=other, env={**os.environ, "TERM": "dumb"}, start_new_session=True) as run:
        os.close(other)
        try:
            assert read_terminal(terminal, "labask> ").endswith("labask> ")
            os.write(terminal, b"1@p\t ope\t /ti\t r\n")
            assert "1@public open /timetable r" in read_terminal(terminal, "1: ok 0")
            os.write(terminal, b"quit\n")
            assert run.wait(timeout=60) == 0
        finally:
            run.kill()
            os.close(terminal)
