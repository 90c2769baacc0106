"""Each exercise of the lesson fails as it stands, and its answer passes; what the lesson shows is played by tests/examples.py."""
import pathlib
import re
import shlex
import shutil
from typing import List, NamedTuple

import pytest
from support import TOP, labask

PAGE = (TOP / "docs" / "LESSON.md").read_text(encoding="utf-8")
FOLDER = TOP / "examples" / "lesson"


class Exercise(NamedTuple):
    """A row of the table of the lesson: its minutes, and the command that fails with the one that passes."""
    step: str
    minutes: int
    failing: str
    passing: str

    @property
    def text(self) -> str:
        """The section of the page."""
        found = re.search(rf"^## {self.step}\. .*?(?=^## )", PAGE, re.M | re.S)
        assert found is not None
        return found[0]


def exercises() -> List[Exercise]:
    """The rows of the table that have a command."""
    rows = re.findall(r"^\| \[(\d)\]\(.*?\) \| (\d+) \| .*? \| `(.*?)`.*? \| `(.*?)`.*? \|$", PAGE, re.M)
    return [Exercise(step, int(minutes), failing, passing) for step, minutes, failing, passing in rows]


def status_of(exercise: Exercise, command: str) -> int:
    """The exit status of a command; that of `orders` has the rules which the section shows."""
    rules = dict.fromkeys(re.findall(r"--rule '(.*?)'", exercise.text)) if command.startswith("orders") else {}
    status, _, messages = labask(*shlex.split(command), *(word for rule in rules for word in ("--rule", rule)))
    assert messages == ""
    return status


@pytest.fixture
def folder(tmp_path: pathlib.Path, monkeypatch: pytest.MonkeyPatch) -> pathlib.Path:
    """A copy of the exercises, which is the current directory."""
    copied = tmp_path / "lesson"
    shutil.copytree(FOLDER, copied)
    monkeypatch.chdir(copied)
    return copied


@pytest.mark.usefixtures("program", "folder")
@pytest.mark.parametrize("exercise", exercises(), ids=lambda exercise: exercise.step)
def test_it_fails_and_its_answer_passes(exercise: Exercise) -> None:
    assert status_of(exercise, exercise.failing) == 3
    assert status_of(exercise, exercise.passing) == 0


@pytest.mark.usefixtures("program")
def test_an_answer_in_place_of_its_exercise(folder: pathlib.Path) -> None:
    """A pupil mends the world itself, and asks the same command."""
    for exercise in exercises():
        answer = re.search(r"answers/\S+", exercise.passing)
        assert answer is not None
        shutil.copy(folder / answer[0], folder)
        assert status_of(exercise, exercise.failing) == 0, exercise.step


def test_minutes_and_files() -> None:
    assert sum(exercise.minutes for exercise in exercises()) + 5 == 90 and "| [Begin](#begin) | 5 |" in PAGE
    assert [exercise.step for exercise in exercises()] == [str(number) for number in range(1, 9)]
    worlds = {path.name for path in FOLDER.glob("*.txt")}
    assert worlds == {path.name for path in (FOLDER / "answers").iterdir()}
    assert {exercise.step for exercise in exercises()} == {name[0] for name in worlds}


@pytest.mark.parametrize("path", sorted(FOLDER.glob("*.txt")), ids=lambda path: path.stem)
def test_few_lines_are_mended(path: pathlib.Path) -> None:
    """Besides the first line, which is a comment, an answer has at most five lines that the exercise has not."""
    start, answer = (file.read_text(encoding="ascii").splitlines()[1:] for file in (path, FOLDER / "answers" / path.name))
    assert 1 <= len([line for line in answer if line not in start]) <= 5 and len(start) == len(answer)
