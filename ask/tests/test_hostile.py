"""Throws hostile worlds, command lines and bytes at the questions: there is an answer or a message, and never a traceback."""
import contextlib
import io
import pathlib
import tempfile
from typing import List, Tuple

import pytest
from hypothesis import HealthCheck, given, settings
from hypothesis import strategies as st
from support import EXAMPLES

from labask.answers import Status
from labask.main import main

pytestmark = pytest.mark.usefixtures("program")

LIMITS = settings(max_examples=15, deadline=None, database=None, suppress_health_check=list(HealthCheck))
WORDS = ["dir", "file", "fifo", "proc", "script", "world", "2", "levels", "categories", "bound", "all", "none", "/", "/a", "/a/b", '""',
         '"x"', '"="', "0755", "0", "10", "-", "low", "high", "low:a", "1@low", "9@high", "open", "read", "r", "w", "getpid", "fork",
         "setfcap", "cap_kill=ep", "4294967295", "4294967296", "#", '"', "\\", "\t", "\x00", "\xff", "²", "label:low", "/**", "/*"]
OPTIONS = ["--json", "--process", "--jobs", "--time", "--depth", "--without", "--against", "--all", "--least", "--none", "--", "-", "-x"]
GOOD = [path.read_bytes() for path in EXAMPLES if path.stat().st_size < 2_000]
lines = st.lists(st.sampled_from(WORDS), max_size=8).map(" ".join).map(lambda text: text.encode("utf-8"))
texts = st.one_of(st.binary(max_size=200), st.lists(lines, max_size=12).map(b"\n".join))
signs = st.one_of(st.characters(blacklist_categories=["Cs"]), st.sampled_from("\udc80\udcff"))
words = st.one_of(st.sampled_from(WORDS), st.text(signs, max_size=8), st.integers(-2, 70_000).map(str)).map(
    lambda word: word.replace("\0", ""))  # no word of a command line has it


@st.composite
def broken(draw: st.DrawFn) -> bytes:
    """An example with some bytes taken out and others put in, or with a line more."""
    text = draw(st.sampled_from(GOOD))
    at = draw(st.integers(0, len(text)))
    end = min(len(text), at + draw(st.integers(0, 12)))
    return text[:at] + draw(st.one_of(st.binary(max_size=4), lines.map(lambda line: b"\n" + line + b"\n"))) + text[end:]


def asked(*command: str) -> Tuple[int, str, str]:
    """The status of a command line, its output and its messages."""
    out, said = io.TextIOWrapper(io.BytesIO(), "utf-8", "surrogateescape"), io.TextIOWrapper(io.BytesIO(), "utf-8", "backslashreplace")
    with contextlib.redirect_stdout(out), contextlib.redirect_stderr(said):
        try:
            status = main(list(command))
        except SystemExit as end:
            status = int(end.code or 0)
    out.flush()
    said.flush()
    return status, out.buffer.getvalue().decode("latin-1"), said.buffer.getvalue().decode("latin-1")  # type: ignore[attr-defined]


def require_answer(*command: str) -> None:
    """A command line has a status of those that there are; behind one of a fault there is a message."""
    status, out, said = asked(*command)
    assert status in list(Status), (command, status, said)
    assert "Traceback" not in said
    if status in (Status.WRONG_WORDS, Status.NO_PROGRAM):
        assert said, command
    if status == Status.REFUSED:
        assert "refused" in out + said or "too long" in out + said or "message" in out, command
    if status in (Status.NO, Status.YES):
        assert out, command


@pytest.mark.parametrize("question", [("check",), ("check", "--all"), ("who", "--json"), ("why",), ("flow", "--depth", "4"),
                                      ("fmt",), ("lint",)])
@LIMITS
@given(text=st.one_of(texts, broken()))
def test_any_file_has_an_answer(question: Tuple[str, ...], text: bytes) -> None:
    with tempfile.TemporaryDirectory() as folder:
        path = pathlib.Path(folder) / "world"
        path.write_bytes(text)
        require_answer(*question, str(path), *(("/a", "1@low") if question[0] == "flow" else ()))


@LIMITS
@given(question=st.sampled_from(["check", "who", "why", "flow", "cuts", "diff", "fmt", "label", "lint", "test"]), given_words=st.lists(words, max_size=3),
       options=st.lists(st.sampled_from(OPTIONS), max_size=2), place=st.integers(0, 5))
def test_any_command_line_has_an_answer(question: str, given_words: List[str], options: List[str], place: int) -> None:
    asked_words = [str(EXAMPLES[0]), *given_words, *options]
    require_answer(question, *asked_words[place % len(asked_words):], *asked_words[:place % len(asked_words)])


@LIMITS
@given(program=words)
def test_any_name_of_a_program_has_an_answer(program: str) -> None:
    require_answer("check", str(EXAMPLES[0]), f"--labsys={program}")


@pytest.mark.parametrize("name", ["", "/none", "/dev/null/x", "\udcff", "x" * 5_000])
@pytest.mark.parametrize("question", ["check", "who", "why", "page", "world"])
def test_any_name_of_a_file_has_an_answer(question: str, name: str) -> None:
    require_answer(question, "--", name) if not name else require_answer(question, name)
