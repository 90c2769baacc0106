"""Tests `fuzz`, `shrink` and `case`: by programs that are labsys with something changed, and by faults in a copy of the model.

`LABASK_FAULTS` names how many faults of the model are looked for, drawn from all; without it a few are. Worlds are counted, and no time is.
"""
import json
import os
import pathlib
import random
import sys
from typing import Callable, List, Tuple

import pytest
from faulty_kernel import FaultyKernel, all_faults
from run_cases import read_case, run_case
from support import HERE, TOP, labask

from labask.answers import Status
from labask.effort import Effort
from labask.fuzz import Fuzzing, Work
from labask.fuzzing import comparing
from labask.fuzzing.beginning import absolute, begun
from labask.fuzzing.comparing import Comparer, Terms
from labask.fuzzing.draft import Draft, Renaming
from labask.fuzzing.making import made
from labask.fuzzing.renumbering import only
from labask.playing import Player
from labask.signatures import CALLS
from labask.worlds import read_world

LESSON = TOP / "examples" / "lesson.txt"
WORLDS = 2_000  # at which a fault that was not found would be given up
MOST_CALLS = 6
FEW = 8  # faults that are looked for, where it is not said how many
ALL = random.Random("faults").sample(range(len(all_faults())), len(all_faults()))
FAULTS = ALL[:int(os.environ.get("LABASK_FAULTS", FEW))]
Kernel = Callable[[str], pathlib.Path]


@pytest.fixture
def kernel(program: str, tmp_path: pathlib.Path) -> Kernel:
    """Makes a program of a line of a shell; `labsys` there is the program, and the first line calls it."""
    def make(line: str) -> pathlib.Path:
        path = tmp_path / "kernel"
        path.write_text(f'#!/bin/sh\nlabsys() {{ "{program}" "$@"; }}\n{line}\n', encoding="ascii")
        path.chmod(0o755)
        return path

    return make


def fuzz(kernel: pathlib.Path, *words: str) -> Tuple[int, str]:
    """The status and the answer of a short search."""
    status, out, messages = labask("fuzz", "--against", kernel, "--worlds", "24", *words)
    assert messages == ""
    return status, out


# ---- what is compared

def test_worlds_of_every_seed_are_accepted(player: Player) -> None:
    called = set()
    for seed in range(30):
        text = made(f"test {seed}", tuple(CALLS))
        assert text == made(f"test {seed}", tuple(CALLS))
        replies = player.play_accepted(text).replies
        called |= {reply.call for reply in replies}
        assert replies and {line.split(" ")[1] for line in text.decode().partition("\nscript\n")[2].splitlines()} <= set(CALLS)
    assert called == set(CALLS)


def test_the_same_program_differs_in_nothing(kernel: Kernel) -> None:
    status, out = fuzz(kernel('labsys "$@"'))
    assert status == Status.NO and "Never reached:" in out and out.count("24 worlds were played by both") == 1


CHANGES = [
    ("a reply", 'labsys "$@" | sed "s/ mkdir ok/ mkdir EROFS/"', (), True),
    ("a capability at the end", 'labsys "$@" | sed "/^end/s/=.*/=\\"/"', (), True),
    ("the status", 'labsys "$@"; exit 9', (), True),
    ("no output", 'labsys "$@" >/dev/null', (), True),
    ("no trail", 'labsys play /dev/null', (), True),
    ("no trail, which is not compared", 'labsys play /dev/null', ("--out-only",), False),
    ("a record", 'labsys "$@"; sed -i "s/ fork / spoon /" "$2"', (), True),
    ("a record, which is not compared", 'labsys "$@"; sed -i "s/ fork / spoon /" "$2"', ("--out-only",), False),
    ("places", 'labsys "$@" | sed -E "s/ [pq]([0-9]+)$/ z\\\\1/"; sed -i -E "s/ [pq]([0-9]+)$/ z\\\\1/" "$2"', (), True),
    ("places, which are not compared", 'labsys "$@" | sed -E "s/ [pq]([0-9]+)$/ z\\\\1/"; sed -i -E "s/ [pq]([0-9]+)$/ z\\\\1/" "$2"',
     ("--no-place",), False),
    ("numbers of objects", 'labsys "$@" | sed -E "s/( f?stat ok .*) ([0-9]+)@/\\\\1 9\\\\2@/"', ("--out-only",), True),
    ("numbers of objects, which are not compared", 'labsys "$@" | sed -E "s/( f?stat ok .*) ([0-9]+)@/\\\\1 9\\\\2@/"; '
     'sed -i -E "s/ obj:/ obj:9/; s/^([0-9]+ (exec|cap_set_file|mac_set_file) [^ ]+) /\\\\1 9/" "$2"', ("--no-place",), False),
    ("a call that it has not", 'labsys "$@" | sed -E "s/ chmod (ok|E.*)/ chmod ENOSYS/"', ("--out-only",), False),
]


@pytest.mark.parametrize("line, words, differs", [each[1:] for each in CHANGES], ids=[each[0] for each in CHANGES])
def test_changes(kernel: Kernel, line: str, words: List[str], differs: bool) -> None:
    status, out = fuzz(kernel(line), *words)
    assert (status == Status.YES) == differs == ("difference 1, of world" in out)


def test_words_of_another_kernel(kernel: Kernel, tmp_path: pathlib.Path) -> None:
    other = kernel('labsys "$@" | sed "s/EACCES/E_ACCESS/; s/cap_chown/POWER_CHOWN/g"; sed -i "s/EACCES/E_ACCESS/; s/cap_chown/POWER_CHOWN/g" "$2"')
    words = tmp_path / "words"
    words.write_text("# words\n\nE_ACCESS EACCES\nPOWER_CHOWN cap_chown\n", encoding="ascii")
    assert fuzz(other)[0] == Status.YES and fuzz(other, "--map", str(words))[0] == Status.NO
    for line in ("one", "a b c", "= b"):
        words.write_text(line, encoding="ascii")
        status, _, messages = labask("fuzz", "--against", other, "--map", words)
        assert status == Status.WRONG_WORDS and f"{words}:1: expected" in messages


def test_a_program_that_does_not_end(kernel: Kernel, monkeypatch: pytest.MonkeyPatch) -> None:
    monkeypatch.setattr(comparing, "SECONDS", 0.3)
    monkeypatch.setattr("labask.fuzzing.shrinking.MOST_PLAYS", 2)
    status, out = fuzz(kernel("sleep 60"), "--jobs", "1")
    assert status == Status.YES and "PROGRAM  nothing" in out


@pytest.mark.parametrize("words, said", [
    (("--against", "/none"), "there is no program"), (("--against", "'"), "is no command"), (("--against", ""), "there is no program"),
    ((), "--against"), (("--against", "cat", "--calls", "open,creat"), "there is no call 'creat'"),
    (("--against", "cat", "--most", "0"), "--most is 0"), (("--against", "cat", "--map", "/none/map"), "/none/map"),
])
@pytest.mark.usefixtures("program")
def test_wrong_words(words: Tuple[str, ...], said: str) -> None:
    status, out, messages = labask("fuzz", *words)
    assert (status, out) == (Status.WRONG_WORDS, "") and said in messages and "Traceback" not in messages


def test_the_answer_does_not_depend_on_the_jobs(kernel: Kernel) -> None:
    other = kernel('labsys "$@" | sed "s/ close ok/ close EIO/; s/ stat ok .*/ stat EIO/"')
    answers = {fuzz(other, "--json", "--most", "2", "--out-only", "--jobs", jobs) for jobs in ("1", "3")}
    assert len(answers) == 1 and len(json.loads(answers.pop()[1])["differences"]) == 2


# ---- what is made of a difference

def test_a_difference_is_written_as_a_case(kernel: Kernel, program: str, tmp_path: pathlib.Path) -> None:
    other = kernel('labsys "$@" | sed "s/ mkdir ok/ mkdir EROFS/"')
    status, out = fuzz(other, "--cases", str(tmp_path / "cases"))
    (path,) = (tmp_path / "cases").iterdir()
    assert status == Status.YES and f"written to {path}" in out
    assert not run_case([program], path, 20).wrong and run_case([str(other)], path, 20).wrong
    assert len(read_world(read_case(path)["input"]).script) == 1


def test_shrink(kernel: Kernel, program: str, tmp_path: pathlib.Path) -> None:
    words = ("shrink", LESSON, "--against", kernel('labsys "$@" | sed "s/EPERM owner .*/ok/"'), "--out-only")
    status, out, messages = labask(*words)
    least = read_world(out.encode())
    assert (status, messages) == (Status.YES, "") and [line.call for line in least.script] == ["chmod"]
    assert len(least.objects) == 2 and len(least.processes) == 1
    case = tmp_path / "least.case"
    case.write_text(labask(*words, "--case")[1], encoding="ascii")
    assert not run_case([program], case, 20).wrong
    assert json.loads(labask(*words, "--json")[1])["calls"] == 1
    assert labask("shrink", LESSON, "--against", program)[0] == Status.NO


def test_case(program: str, tmp_path: pathlib.Path) -> None:
    """A case is one that the program passes, of what is accepted and of what is refused."""
    refused, case = tmp_path / "refused.txt", tmp_path / "made.case"
    refused.write_bytes(b"world 2\nlevels low\n== note\n")
    for path in (LESSON, refused, TOP / "examples" / "pipes.txt"):
        status, out, _ = labask("case", path, "--note", "what it shows")
        case.write_text(out, encoding="ascii")
        assert status == Status.DONE and not run_case([program], case, 20).wrong
    assert labask("case", LESSON, "--note", "two\nlines")[0] == Status.WRONG_WORDS


def test_processes_are_renamed() -> None:
    head = b'world 2\nlevels a b\ncategories\nbound all\ndir / 0777 0 0 a\nproc a 0 0 - "="\nproc b 0 0 - "="\nproc a 0 0 - "="\nscript\n'
    old = read_world(head).processes
    names = Renaming(old, [None, old[1], old[2]])
    assert list(map(names.line, ["2@a fork", "3@a getpid", "2@a kill 3@a TERM", "1@b kill 2@a 0", "4@b getpid"])) == [
        "1@a fork", "2@a getpid", "1@a kill 2@a TERM", "1@b kill 1@a 0", "4@b getpid"]


HEAD = """world 2
levels low high
categories
bound all
dir / 0777 0 0 low
file /a 0666 0 0 low "x"
dir /d 0777 0 0 low
proc low 0 0 - "all=ep"
script
"""


def draft_of(*lines: str) -> Draft:
    """A draft of a small world."""
    return Draft.of(read_world((HEAD + "\n".join(lines) + "\n").encode()))


def test_lines_alone_get_the_numbers_that_they_have_then(player: Player) -> None:
    draft = draft_of("1@low open /a r", "1@low open /a rw", "1@low fork", "1@low fork", "3@low read 1 5", "1@low kill 3@low TERM",
                     "1@low write 1 y")
    alone = only(draft, [1, 3, 4, 5, 6])
    assert alone.script == ("1@low open /a rw", "1@low fork", "2@low read 0 5", "1@low kill 2@low TERM", '1@low write 0 "y"')
    assert [reply.text for reply in player.play_accepted(alone.text).replies] == ["ok 0", "ok 2@low", 'ok "x"', "ok", "ok 1"]


def test_a_world_begins_later(player: Player) -> None:
    draft = draft_of("1@low mkdir /d/e 0700", "1@low chmod /a 0600", "1@low fork", "2@low mac_set_proc high", "1@low mac_set_file /a high",
                     "2@low mac_get_proc", "1@low rename /a /d/e/b", "2@low stat /a", '1@low cap_set_proc "="')
    later = begun(draft, range(7))
    assert later is not None and later.script == ("1@high stat /a", '1@low cap_set_proc "="') or later.script == (
        "2@low stat /a", '1@low cap_set_proc "="')
    assert [each.path for each in later.objects] == [b"/", b"/d", b"/d/e", b"/d/e/b"] and later.objects[-1].label == "high"
    assert [(each.label, each.caps) for each in later.processes] == [("low", "all=ep"), ("high", "all=ep")]
    assert player.play(later.text).status == Status.NO and begun(draft_of("1@low rmdir /a", "1@low getpid"), [0]) is None


def test_paths_get_absolute(player: Player) -> None:
    draft = absolute(draft_of("1@low chdir /d", "1@low mkdir e 0700", "1@low chdir e", "1@low rmdir /d/e", "1@low stat ."))
    assert draft.script == ("1@low chdir /d", "1@low mkdir /d/e 0700", "1@low chdir /d/e", "1@low rmdir /d/e", "1@low stat .")
    assert player.play_accepted(draft.text).replies


# ---- faults of a copy of the model

@pytest.mark.parametrize("fault", FAULTS)
def test_a_fault_of_the_model_is_found(fault: int, player: Player) -> None:
    fuzzing = Fuzzing(Work(Comparer(player, FaultyKernel(fault), Terms(trail=False)), 1, tuple(CALLS)), Effort())
    results = fuzzing.differences(iter(range(1, WORLDS + 1)), 1)
    assert results, f"not found: {all_faults()[fault].text}"
    found = fuzzing.work.shrink(results[0])
    assert found.calls <= MOST_CALLS, f"{all_faults()[fault].text}: {found.text.decode()}"


def test_the_model_without_a_fault_differs_in_nothing(player: Player) -> None:
    fuzzing = Fuzzing(Work(Comparer(player, FaultyKernel(None), Terms(trail=False)), 1, tuple(CALLS)), Effort())
    assert not fuzzing.differences(iter(range(1, 31)), 1)


def test_the_faulty_program(program: str) -> None:
    words = f"{sys.executable} -S {HERE / 'faulty_kernel.py'} none"
    assert labask("fuzz", "--against", words, "--out-only", "--worlds", "2")[0] == Status.NO
