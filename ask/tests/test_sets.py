"""Tests the words that name several objects or processes, and that each is asked as it is by its own name."""
import json
import pathlib

import pytest
from support import TOP, labask

from labask.answers import WrongWords
from labask.path_patterns import PathPattern
from labask.sets import objects_named, processes_named
from labask.worlds import read_world

pytestmark = pytest.mark.usefixtures("program")

LESSON = TOP / "examples" / "lesson.txt"
HEAD = "world 2\nlevels low high\ncategories a b\nbound all\n"
WORLD = HEAD + "".join(f"dir {path} 0755 0 0 {label}\n" for path, label in (
    ("/", "low"), ("/wards", "low"), ("/wards/east", "high:a"), ("/wards/east/room", "high:a,b"), ("/wards/west", "low"),
    ("/wards/west/record", "high:a,b"), ("/wards/record", "high"), ('"/odd *"', "low"), ('"/odd x"', "low"), ('"/\\xff\\x0a"', "low"),
    ("/wardsman", "low"))) + 'proc low 1 1 - "="\nproc high:a,b 1 1 - "="\nproc low 2 1 - "="\nscript\n'
NAMED = {
    "/": ["/"], "/wards": ["/wards"], "//wards/./east/": ["/wards/east"], "/wards/*": ["/wards/east", "/wards/west", "/wards/record"],
    "/wards/**": ["/wards/east", "/wards/east/room", "/wards/west", "/wards/west/record", "/wards/record"],
    "/wards/*st": ["/wards/east", "/wards/west"], "/wards/?est": ["/wards/west"], "/*/record": ["/wards/record"],
    "/**/record": ["/wards/west/record", "/wards/record"], "/wards/**/record": ["/wards/west/record", "/wards/record"],
    "/w*": ["/wards", "/wardsman"], "/odd *": ["/odd *"], "/odd ?": ["/odd *", "/odd x"], "/\udcff*": ["/\udcff\n"],
    "/???": [], "/wards/east/*": ["/wards/east/room"], "/wards**": [
        "/wards/east", "/wards/east/room", "/wards/west", "/wards/west/record", "/wards/record", "/wardsman"],
    "label:high:a,b": ["/wards/east/room", "/wards/west/record"], "label:high:b,a": ["/wards/east/room", "/wards/west/record"],
    "label:high": ["/wards/record"], "label:none": [], "/none": [], "wards": [], "": [],
}


@pytest.mark.parametrize("word", NAMED)
def test_objects_are_those_that_are_named(word: str) -> None:
    world = read_world(WORLD.encode())
    if NAMED[word]:
        found = [each.path.decode("utf-8", "surrogateescape") for each in objects_named(world, word)]
        assert found == NAMED[word]
    else:
        with pytest.raises(WrongWords):
            objects_named(world, word)


@pytest.mark.parametrize("pattern", ["/**" * 20 + "/b", "/*a" * 20 + "/b", "/**/*?**" * 10 + "/b"])
def test_a_path_takes_at_most_a_step_for_each_byte(pattern: str, monkeypatch: pytest.MonkeyPatch) -> None:
    steps, step = [], PathPattern.step

    def counted(self, places, byte):
        steps.append(len(places))
        return step(self, places, byte)

    monkeypatch.setattr(PathPattern, "step", counted)
    found, path = PathPattern(pattern.encode()), b"/aa" * 300
    assert not found.matches(path + b"/c") and found.matches(b"/aa" * 20 + b"/b")
    assert len(steps) <= 2 * len(path) and max(steps) <= len(found.parts) + 1


@pytest.mark.parametrize("word, tags", [("1@low", ["1@low"]), ("002@low", ["2@low"]), ("label:low", ["1@low", "2@low"]),
                                        ("1@high:b,a", ["1@high:a,b"]), ("label:high:b,a", ["1@high:a,b"])])
def test_processes_are_those_that_are_named(word: str, tags) -> None:
    assert [each.tag for each in processes_named(read_world(WORLD.encode()), word)] == tags


@pytest.mark.parametrize("word", ["", "3@low", "low", "label:", "label:high", "1@low*", "/wards"])
def test_a_word_that_names_no_process_is_refused(word: str) -> None:
    with pytest.raises(WrongWords):
        processes_named(read_world(WORLD.encode()), word)


def answers(*words: object):
    """The answers of `who` as JSON has them."""
    status, out, said = labask("who", "--json", *words)
    assert said == "" and status in (0, 3), (words, status, said)
    return json.loads(out)["answers"]


def test_a_set_is_asked_as_each_of_it_is_alone() -> None:
    every = answers(LESSON)
    below = [each for each in every if each["object"].startswith("/exam/")]
    public = [each for each in every if each["process"].endswith("@public")]
    assert answers(LESSON, "/exam/**") == below == answers(LESSON, "/exam/questions", "/exam/*")
    assert answers(LESSON, "--process", "label:public") == public
    assert answers(LESSON, "--process", "label:public", "--process", "1@secret") == every


def test_options_stand_anywhere_among_the_words() -> None:
    asked, option = (LESSON, "/exam", "/exam/marks"), ("--process", "1@public")
    orders = [(*asked[:at], *option, *asked[at:]) for at in range(4)]
    orders += [(*option, "--", *asked), (LESSON, *option, "--", *asked[1:]), (LESSON, "/exam", "--jobs", 1, *option, "/exam/marks")]
    assert [answers(*words) for words in orders] == [answers(*orders[0])] * len(orders)
    assert len(answers(*orders[0])) == 6


def test_a_word_that_names_nothing_ends_the_question() -> None:
    for words, said in ((("/none/*",), "no line of the world has a path /none/*"), (("label:x",), "no object of the world has the label x"),
                        (("--process", "label:x"), "no process of the world has the label x")):
        status, out, messages = labask("who", LESSON, *words)
        assert (status, out) == (1, "") and said in messages


def test_statuses_say_yes_or_no(tmp_path: pathlib.Path) -> None:
    for options in ((), ("--json",)):
        assert labask("who", LESSON, *options)[0] == 3
        assert labask("who", LESSON, "/exam/marks", "--process", "1@public", *options)[0] == 0
    crowd = tmp_path / "crowd"
    crowd.write_text(HEAD + "dir / 0700 0 0 low\n" + 'file /f 0000 0 0 low ""\n' + 'proc low 1 1 - "="\n' * 4_095 + "script\n")
    status, out, _ = labask("who", crowd, "/f", "--process", "1@low")
    assert status == 4 and out.split("\n")[1].split() == "/f 1@low dac_search at / dac_search at / not asked - -".split()
