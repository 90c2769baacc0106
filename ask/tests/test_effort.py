"""Tests how much work a question may be: plays side by side, the end of the time, Ctrl-C, and the program behind the script."""
import json
import pathlib
import shutil
import signal
import subprocess
import sys
import threading
import time
from typing import Tuple

import pytest
from support import HERE, TOP, labask

from labask.effort import Effort, effort_of
from labask.playing import Player, PlayingFault, find_program
from labask.programs import program_behind

pytestmark = pytest.mark.usefixtures("program")

LESSON = TOP / "examples" / "lesson.txt"
LABASK = HERE.parent / "labask"
SOURCES = ("labsys", "build.sh", "crates.txt", "docs/version.txt", "docs/help.txt")


def checkout(folder: pathlib.Path) -> pathlib.Path:
    """A checkout whose program is built, and without sources; gives the path of its script."""
    built = folder / "crates" / "labsys" / "out" / "labsys"
    for made in (built.parent, folder / "docs"):
        made.mkdir(parents=True)
    for name in SOURCES:
        shutil.copy(TOP / name, folder / name)
    shutil.copy(find_program(), built)
    (built.parent / "labsys.built").touch()
    return folder / "labsys"


def test_results_come_in_order_and_side_by_side() -> None:
    together, most, lock = 0, 0, threading.Lock()

    def work(number: int) -> int:
        nonlocal together, most
        with lock:
            together += 1
            most = max(most, together)
        time.sleep(0.02 * (number % 3))
        with lock:
            together -= 1
        return number * number

    assert list(Effort(3).results(work, range(20))) == [number * number for number in range(20)]
    assert 1 < most <= 3


@pytest.mark.parametrize("jobs", [1, 3])
def test_no_item_is_taken_where_the_effort_is_over(jobs: int) -> None:
    effort, taken = Effort(jobs), []

    def items():
        for number in range(100):
            taken.append(number)
            effort.interrupted = number == 5
            yield number

    found = list(effort.results(lambda number: number, items()))
    assert found == list(range(5)) and taken == list(range(6)) and effort.stopped


def test_what_is_done_in_time_is_whole() -> None:
    effort = Effort(2, until=time.monotonic() + 60)
    assert list(effort.results(str, range(3))) == ["0", "1", "2"] and not effort.stopped and not effort.over()


def test_a_fault_of_the_work_comes_through() -> None:
    with pytest.raises(ZeroDivisionError):
        list(Effort(2).results(lambda number: 1 // number, [1, 0, 1]))


def test_plays_side_by_side_are_as_one_by_one() -> None:
    player, world = Player([find_program()]), LESSON.read_bytes()
    texts = [world + b"1@public getpid\n" * count for count in range(12)]
    assert [each.out for each in player.play_all(texts, Effort(4))] == [player.play(text).out for text in texts]


@pytest.mark.parametrize("words", [("--jobs", "0"), ("--jobs", "x"), ("--time", "-1"), ("--time", "1.5"), ("--jobs", "99999")])
def test_other_words_than_numbers_are_refused(words) -> None:
    status, out, said = labask("who", LESSON, *words)
    assert (status, out) == (1, "") and "is no number" in said or "is 0" in said


def test_the_answer_does_not_depend_on_the_jobs() -> None:
    assert len({labask("who", LESSON, "--jobs", count) for count in (1, 2, 5)}) == 1


def test_an_end_of_the_time_is_said_and_has_a_status() -> None:
    status, out, _ = labask("who", LESSON, "--time", "0")
    assert status == 4 and "The table is not whole: it was stopped after 0 of 60 answers." in out
    status, out, _ = labask("who", LESSON, "--time", "0", "--json")
    assert status == 4 and json.loads(out) == {"played": True, "whole": False, "answers": [], "never": {}}


def slow_labsys(folder: pathlib.Path, pause: float) -> pathlib.Path:
    """A program that waits before it plays as labsys does, and makes a file `plays` then."""
    program = folder / "slow"
    lines = ("#!/bin/sh", f"case $1 in play) touch {folder}/plays && sleep {pause} ;; esac", f'exec {find_program()} "$@"')
    program.write_text("\n".join(lines) + "\n", encoding="ascii")
    program.chmod(0o755)
    return program


def ended(run: "subprocess.Popen[bytes]") -> Tuple[bytes, bytes]:
    """What a program writes until it ends. One that does not end is killed, and the test fails."""
    try:
        return run.communicate(timeout=120)
    except subprocess.TimeoutExpired:
        run.kill()
        raise


def interrupted(folder: pathlib.Path, pause: float, times: int):
    """The status, output and messages of `who` of many plays where Ctrl-C comes so many times while it plays."""
    world = folder / "world"
    files = "".join(f'file /f{number} 0644 0 0 a ""\n' for number in range(4_000))
    world.write_text(f'world 2\nlevels a\ncategories\nbound all\ndir / 0755 0 0 a\n{files}' + 'proc a 1 1 - "="\n' * 8 + "script\n",
                     encoding="ascii")
    words = [sys.executable, str(LABASK), "--labsys", str(slow_labsys(folder, pause)), "who", str(world), "--jobs", "1"]
    with subprocess.Popen(words, stdout=subprocess.PIPE, stderr=subprocess.PIPE) as run:
        while not (folder / "plays").exists():
            time.sleep(0.05)
        for _ in range(times):
            run.send_signal(signal.SIGINT)
            time.sleep(0.5)
        out, said = ended(run)
    return run.returncode, out.decode(), said.decode()


def test_the_first_interrupt_gives_what_is_known(tmp_path: pathlib.Path) -> None:
    status, out, said = interrupted(tmp_path, 1, 1)
    assert status == 3 and "The table is not whole: it was stopped after " in out and said == ""


def test_the_second_interrupt_ends_a_play_that_waits(tmp_path: pathlib.Path) -> None:
    begin = time.monotonic()
    status, out, said = interrupted(tmp_path, 3_600, 2)
    assert (status, out, said) == (4, "", "labask: stopped\n") and time.monotonic() < begin + 60


def test_the_program_behind_a_script_is_found(tmp_path: pathlib.Path) -> None:
    script = checkout(tmp_path)
    assert program_behind(str(script)) == str(tmp_path / "crates" / "labsys" / "out" / "labsys")


def test_the_program_of_an_installed_script_is_found(tmp_path: pathlib.Path) -> None:
    (tmp_path / "bin").mkdir()
    (tmp_path / "libexec").mkdir()
    shutil.copy(TOP / "labsys", tmp_path / "bin" / "labsys")
    shutil.copy(find_program(), tmp_path / "libexec" / "labsys")
    link = tmp_path / "link"
    link.symlink_to(tmp_path / "bin" / "labsys")
    assert program_behind(str(link)) == str(tmp_path / "libexec" / "labsys")


def test_another_program_stays_what_it_is(tmp_path: pathlib.Path) -> None:
    wrapper = slow_labsys(tmp_path, 0)
    assert program_behind(find_program()) == find_program() and program_behind(str(wrapper)) == str(wrapper)


def test_a_script_without_its_program_is_named(tmp_path: pathlib.Path) -> None:
    script = checkout(tmp_path)
    shutil.rmtree(tmp_path / "crates")
    with pytest.raises(PlayingFault, match="labsys ended with status 70"):
        program_behind(str(script))


def test_the_handler_is_left_where_interrupts_are_ignored() -> None:
    before = signal.signal(signal.SIGINT, signal.SIG_IGN)
    try:
        class Arguments:
            jobs, time, quiet = 2, None, False
        assert effort_of(Arguments).jobs == 2 and signal.getsignal(signal.SIGINT) is signal.SIG_IGN  # type: ignore[arg-type]
    finally:
        signal.signal(signal.SIGINT, before)


def test_an_interrupt_ends_what_was_started(tmp_path: pathlib.Path) -> None:
    program, started = tmp_path / "waiting", tmp_path / "started"
    lines = ("#!/bin/sh", f"case $1 in check) echo $$ > {started}; sleep 3600 ;; esac", f'exec {find_program()} "$@"')
    program.write_text("\n".join(lines) + "\n", encoding="ascii")
    program.chmod(0o755)
    words = [sys.executable, str(LABASK), "--labsys", str(program), "check", str(LESSON)]
    with subprocess.Popen(words, stdout=subprocess.PIPE, stderr=subprocess.PIPE) as run:
        while not started.exists() or not started.read_text(encoding="ascii"):
            time.sleep(0.05)
        run.send_signal(signal.SIGINT)
        out, said = ended(run)
    assert (run.returncode, out, said) == (4, b"", b"labask: stopped\n")
    assert not pathlib.Path("/proc", started.read_text(encoding="ascii").strip()).exists()
