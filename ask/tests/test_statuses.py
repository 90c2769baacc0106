"""Tests the exit statuses: that each question says what they mean, and those that do not depend on an answer."""
import pathlib
import subprocess
import sys

import pytest
from support import HERE, TOP, labask

from labask.answers import Status
from labask.main import QUESTIONS

pytestmark = pytest.mark.usefixtures("program")

LESSON = TOP / "examples" / "lesson.txt"
PAGE = (TOP / "docs" / "ASK.md").read_text(encoding="utf-8")


@pytest.mark.parametrize("question", QUESTIONS)
def test_help_and_pages_say_what_a_status_means(question: str) -> None:
    status, out, _ = labask(question, "--help")
    assert status == 0 and "Exit status: " in out
    table = PAGE.partition("| Question | Yes, 3 | No, 0 |")[2].partition("\n\n")[0]
    assert f"`{question}`" in table, "docs/ASK.md does not say what yes and no are"


def test_pages_have_every_status() -> None:
    _, out, _ = labask("--help")
    manual = (TOP / "docs" / "labask.1").read_text(encoding="ascii").partition(".Sh EXIT STATUS")[2]
    for status in Status:
        assert f"\n.It {int(status)}\n" in manual and f"\n| {int(status)} | " in PAGE
        assert f" {int(status)} where" in " ".join(out.split()) or f" {int(status)} for" in out


def test_what_is_written_has_the_status_of_an_answer(tmp_path: pathlib.Path) -> None:
    (tmp_path / "tree").mkdir()
    for words in (("page", LESSON, "--output", tmp_path / "page"), ("world", tmp_path / "tree"), ("check", LESSON)):
        assert labask(*words)[0] == Status.DONE, words
    (tmp_path / "broken").write_bytes(b"world 3\n")
    assert labask("check", tmp_path / "broken")[0] == labask("who", tmp_path / "broken")[0] == Status.REFUSED


def test_an_answer_that_nobody_reads_is_no_answer() -> None:
    command = f'{sys.executable} {HERE.parent / "labask"} who {LESSON} --json; echo "status $?" >&2'
    with subprocess.Popen(["sh", "-c", command], stdout=subprocess.PIPE, stderr=subprocess.PIPE) as run:
        assert run.stdout is not None and run.stderr is not None
        run.stdout.close()
        assert run.stderr.read() == b"status 1\n"
