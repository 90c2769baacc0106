"""What each question answers about the examples, compared with the files of `expected/`; exit statuses, `--json` and `--help`.

The file `expected/QUESTION/NAME.out` has the answer about `examples/NAME.txt`; `pytest --write` writes it anew.
"""
import json
import re

import pytest
from support import ANSWERED, EXAMPLES, HERE, TOP, labask

from labask import main as labask_main

EXPECTED = HERE / "expected"
FLOWS = {
    "alike_below_1": ("/plan", "1@unc"), "backup_for_all": ("/pay/list of may", "1@internal:eng"),
    "backup_for_operators": ("/pay/list of may", "1@internal:eng"), "categories": ("/merger", "1@internal:eng"),
    "fetched_program": ("/etc/hosts", "1@public/fetched"), "lesson": ("/exam/questions", "1@secret"),
    "read_by_capability": ("/a", "1@unc"), "relabelling": ("/in/note", "1@public"), "utilities": ("/bin/login", "1@public"),
}
CUTS = {"backup_for_all": 6, "lesson": 3, "login": 3, "owners_and_modes": 2, "read_by_capability": 1, "relabelling": 2}
LESSON = TOP / "examples" / "lesson.txt"
REFUSED = "world 2\nlevels a\ncategories\nbound all\ndir / 0755 0 0 a\ndir /b 0755 0 0 c\nscript\n"
REFUSAL = ':6: LABEL "c": unknown level c; levels are a'
pytestmark = pytest.mark.usefixtures("program")


def questions(name):
    """The command lines about an example."""
    path = f"examples/{name}.txt"
    yield from ((question, path) for question in ("check", "who", "why"))
    if name in FLOWS:
        yield ("flow", path, *FLOWS[name])
    if name in CUTS:
        yield ("cuts", path, CUTS[name])


def expected_of(words):
    """The file with the answer to a command line about an example."""
    return EXPECTED / words[0] / f"{(TOP / words[1]).stem}.out"


QUESTIONS = [words for path in EXAMPLES for words in questions(path.stem)]


@pytest.mark.parametrize("words", QUESTIONS, ids=lambda words: f"{words[0]}-{(TOP / words[1]).stem}")
def test_answers(words, write, monkeypatch):
    monkeypatch.chdir(TOP)
    status, out, messages = labask(*words)
    path = expected_of(words)
    assert status in ANSWERED, out + messages
    if write:
        path.parent.mkdir(parents=True, exist_ok=True)
        path.write_text(out + messages, encoding="utf-8")
    assert out + messages == path.read_text(encoding="utf-8")


def test_no_other_answers_are_expected():
    assert set(EXPECTED.glob("*/*.out")) == set(map(expected_of, QUESTIONS))


@pytest.mark.parametrize("words", QUESTIONS, ids=lambda words: f"{words[0]}-{(TOP / words[1]).stem}")
def test_json(words, monkeypatch):
    monkeypatch.chdir(TOP)
    status, out, _ = labask(*words, "--json")
    assert status in ANSWERED and isinstance(json.loads(out), dict)


@pytest.mark.parametrize("status, words", [
    (0, ("check", LESSON)), (1, ()), (1, ("what",)), (1, ("check",)), (1, ("check", "/none")), (1, ("who", LESSON, "/none")),
    (1, ("who", LESSON, "--process", "9@public")), (1, ("why", LESSON, 99)), (1, ("flow", LESSON, "/exam", "1@public")),
    (1, ("flow", LESSON, "/exam/marks", "/exam")), (1, ("flow", LESSON, "/exam/marks", "/exam/marks")), (1, ("cuts", LESSON, 2)),
    (70, ("check", LESSON, "--labsys", "/none")), (70, ("--labsys", "/none", "who", LESSON)),
], ids=str)
def test_statuses(status, words):
    """The exit status; where there is no answer, there is a message and no output."""
    got, out, messages = labask(*words)
    assert got == status
    assert status == 0 or (messages and not out)


@pytest.mark.parametrize("question, words", [("check", ()), ("who", ()), ("why", ()), ("flow", ("/b", "/c")), ("cuts", (1,))])
def test_refused(question, words, tmp_path):
    path = tmp_path / "refused.txt"
    path.write_text(REFUSED)
    status, out, messages = labask(question, path, *words)
    assert status == 2 and f"{path}{REFUSAL}" in out + messages


@pytest.mark.parametrize("name", labask_main.QUESTIONS)
def test_help(name):
    """The help names each question, and that of a question its options."""
    assert re.search(rf"^    {name} ", labask("--help")[1], re.M)
    status, out, _ = labask(name, "--help")
    assert status == 0 and "--json" in out and "--labsys" in out
