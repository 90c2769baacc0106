"""Tests `--dask`: a scheduler and two workers on this machine give the same answers as one process, also where one of them dies."""
import importlib.util
import json
import os
import pathlib
import pickle
import signal
import subprocess
import sys
import time
from dataclasses import dataclass, field
from typing import Iterator, List, Optional, Tuple

import pytest
from support import HERE, LABASK, TOP, labask

from labask.cluster import Done, done_of, sources, value_of
from labask.effort import Effort
from labask.playing import Player, PlayingFault, Refusal, Refused
from labask.rule_answers import Shortest

LESSON, RACE, KEEPS = (TOP / "examples" / name for name in ("lesson.txt", "race.txt", "backup_for_operators.txt"))
SECONDS = 60.0
needs_dask = pytest.mark.skipif(importlib.util.find_spec("distributed") is None,
                                reason="distributed, of Debian's package python3-distributed, is not there")
Answer = Tuple[int, bytes, bytes]


@dataclass
class Cluster:
    """A scheduler, and workers that play by `labsys` in the folder, which is slow where there is a file `slow`."""
    folder: pathlib.Path
    program: str
    running: "List[subprocess.Popen[bytes]]" = field(default_factory=list)

    def start(self, *words: str, path: str = str(HERE.parent / "src")) -> "subprocess.Popen[bytes]":
        """Starts a part of it."""
        told = {**os.environ, "LABSYS": str(self.folder / "labsys"), "PYTHONPATH": path}
        run = subprocess.Popen([sys.executable, "-m", "dask", *words, "--host", "127.0.0.1", "--no-dashboard", "--scheduler-file",
                                str(self.folder / "scheduler")], cwd=self.folder, env=told, stdin=subprocess.DEVNULL,
                               stdout=subprocess.DEVNULL, stderr=subprocess.DEVNULL)
        self.running.append(run)
        return run

    def start_scheduler(self) -> None:
        """Starts the scheduler, and waits until it says where it is."""
        program = self.folder / "labsys"
        pause = f"[ ! -e {self.folder}/slow ] || {{ touch {self.folder}/plays; sleep 0.3; }}"
        program.write_text(f'#!/bin/sh\ncase $1 in play) {pause} ;; esac\nexec {self.program} "$@"\n', encoding="ascii")
        program.chmod(0o755)
        self.start("scheduler", "--port", "0")
        wait_for(self.folder / "scheduler")

    def start_worker(self, **options: str) -> "subprocess.Popen[bytes]":
        """Starts a worker of one thread."""
        return self.start("worker", "--nthreads", "1", "--no-nanny", "--local-directory", str(self.folder), **options)

    @property
    def address(self) -> str:
        """Where the scheduler is."""
        found: str = json.loads((self.folder / "scheduler").read_text())["address"]
        return found

    def begin(self, *words: object) -> "subprocess.Popen[bytes]":
        """Begins to ask a question."""
        told = {**os.environ, "LABSYS": self.program}
        return subprocess.Popen([sys.executable, str(LABASK), *map(str, words), "--dask", self.address], env=told,
                                stdin=subprocess.DEVNULL, stdout=subprocess.PIPE, stderr=subprocess.PIPE)

    def asked(self, *words: object) -> Answer:
        """The answer to a question."""
        return ended(self.begin(*words))

    def end(self) -> None:
        """Ends all parts."""
        for run in reversed(self.running):
            run.kill()
            run.wait()


def wait_for(path: pathlib.Path) -> None:
    """Waits until a file is there."""
    end = time.monotonic() + SECONDS
    while not path.exists():
        assert time.monotonic() < end, path
        time.sleep(0.02)


def ended(run: "subprocess.Popen[bytes]") -> Answer:
    """The exit status of a question, its answer and its messages."""
    try:
        out, said = run.communicate(timeout=SECONDS)
    except subprocess.TimeoutExpired:
        run.kill()
        raise
    return run.returncode, out, said


def alone(*words: object) -> Answer:
    """The answer of one process."""
    status, out, said = labask(*words, "--jobs", 1)
    return status, out.encode("latin-1"), said.encode("latin-1")


@pytest.fixture(name="cluster", scope="module")
def cluster_of_two(program: str, tmp_path_factory: pytest.TempPathFactory) -> Iterator[Cluster]:
    """A cluster of two workers."""
    made = Cluster(tmp_path_factory.mktemp("cluster"), program)
    try:
        made.start_scheduler()
        made.start_worker()
        made.start_worker()
        yield made
    finally:
        made.end()


@needs_dask
@pytest.mark.parametrize("words", [
    ("orders", RACE, "--orders", 40), ("test", TOP / "examples" / "hospital.rules"), ("cuts", LESSON, 1),
    ("cuts", KEEPS, "--flow", "/pay/list of may", "1@internal:eng", "--depth", 3), ("who", LESSON),
    ("flow", KEEPS, "/pay/*", "label:internal:eng", "--depth", 3)], ids=lambda words: " ".join(map(str, words[::2])))
def test_a_cluster_answers_as_one_process(cluster: Cluster, words: Tuple[object, ...]) -> None:
    assert cluster.asked(*words) == alone(*words)


@needs_dask
def test_differences_are_found_and_shrunk_alike(cluster: Cluster, program: str, tmp_path: pathlib.Path) -> None:
    other = tmp_path / "other"
    other.write_text(f"#!/bin/sh\n{program} \"$@\" | sed 's/ENOENT/ENOTDIR/'\n", encoding="ascii")
    other.chmod(0o755)
    words = ("fuzz", "--against", other, "--out-only", "--worlds", 10, "--most", 2)
    found = cluster.asked(*words)
    assert found == alone(*words) and found[0] == 3


@needs_dask
@pytest.mark.parametrize("words", [("who", LESSON), ("test", TOP / "examples" / "hospital.rules")],
                         ids=lambda words: str(words[0]))
def test_no_time_gives_what_is_known(cluster: Cluster, words: Tuple[object, ...]) -> None:
    assert cluster.asked(*words, "--time", 0) == alone(*words, "--time", 0)


@needs_dask
def test_an_interrupt_ends_a_question(cluster: Cluster) -> None:
    (cluster.folder / "slow").touch()
    try:
        run = cluster.begin("cuts", LESSON, 1)
        wait_for(cluster.folder / "plays")
        run.send_signal(signal.SIGINT)
        status, out, said = ended(run)
    finally:
        (cluster.folder / "slow").unlink()
        (cluster.folder / "plays").unlink()
    assert b"It was stopped early; other changes were not tried." in out and said == b"" and status in (3, 4)


@needs_dask
def test_a_worker_that_dies_loses_no_answer(cluster: Cluster) -> None:
    dying, words = cluster.start_worker(), ("cuts", LESSON, 1)
    (cluster.folder / "slow").touch()
    try:
        run = cluster.begin(*words)
        wait_for(cluster.folder / "plays")
        time.sleep(1)
        assert run.poll() is None
        dying.kill()
        dying.wait()
        (cluster.folder / "slow").unlink()
        assert ended(run) == alone(*words)
    finally:
        (cluster.folder / "plays").unlink()


@needs_dask
@pytest.mark.parametrize("address", ["127.0.0.1:1", "nowhere", "x://y:1"])
def test_an_address_without_a_cluster_is_refused(program: str, address: str) -> None:
    run = subprocess.Popen([sys.executable, str(LABASK), "who", str(LESSON), "--dask", address], stdout=subprocess.PIPE,
                           stderr=subprocess.PIPE, env={**os.environ, "LABSYS": program})
    status, out, said = ended(run)
    assert (status, out) == (1, b"") and said.startswith(f"labask: --dask {address}: ".encode()) and said.count(b"\n") == 1


@needs_dask
def test_a_worker_without_labask_is_named(program: str, tmp_path: pathlib.Path) -> None:
    made = Cluster(tmp_path, program)
    try:
        made.start_scheduler()
        assert made.asked("who", LESSON)[::2] == (1, f"labask: --dask {made.address}: Only 0/1 workers arrived after 5.0\n".encode())
        made.start_worker(path="")
        status, out, said = made.asked("who", LESSON)
        assert (status, out) == (70, b"")
        assert said == b"labask: a worker of --dask has no module labask: its PYTHONPATH has to have the folder ask/src\n"
    finally:
        made.end()


@needs_dask
def test_a_scheduler_that_dies_is_said(program: str, tmp_path: pathlib.Path) -> None:
    made = Cluster(tmp_path, program)
    try:
        made.start_scheduler()
        made.start_worker()
        (tmp_path / "slow").touch()
        run = made.begin("cuts", LESSON, 1)
        wait_for(tmp_path / "plays")
        made.running[0].kill()
        assert ended(run) == (70, b"", b"labask: the cluster of --dask was lost\n")
    finally:
        made.end()


def test_the_package_that_is_missing_is_named(program: str, monkeypatch: pytest.MonkeyPatch) -> None:
    def none(_: str, package: Optional[str] = None) -> None:
        return None

    monkeypatch.setattr(importlib.util, "find_spec", none)
    said = "labask: --dask needs the module distributed, which Debian's package python3-distributed has\n"
    assert labask("who", LESSON, "--dask", "127.0.0.1:1") == (1, "", said)


def test_other_questions_do_not_take_it(program: str) -> None:
    for question in ("why", "check", "page"):
        status, out, said = labask(question, LESSON, "--dask", "127.0.0.1:1")
        assert (status, out) == (1, "") and "--dask" in said


# ---- what is sent

def sent(value: object) -> object:
    """A value as a worker has it."""
    return pickle.loads(pickle.dumps(value))


def test_a_player_is_sent_without_its_runs(monkeypatch: pytest.MonkeyPatch) -> None:
    player = Player(["/there/labsys", "word"])
    monkeypatch.delenv("LABSYS", raising=False)
    found = sent(player)
    assert isinstance(found, Player) and found.program == ["/there/labsys", "word"]
    monkeypatch.setenv("LABSYS", "/here/labsys")
    found = sent(player)
    assert isinstance(found, Player) and found.program == ["/here/labsys", "word"]


def test_the_seconds_that_are_left_are_sent() -> None:
    effort, endless = sent(Effort(4, time.monotonic() + 1_000, False)), sent(Effort(4))
    assert isinstance(effort, Effort) and effort.until is not None and not effort.over() and effort.jobs == 1 and effort.quiet
    assert isinstance(endless, Effort) and endless.until is None
    over = sent(Effort(4, time.monotonic()))
    assert isinstance(over, Effort) and over.over()


def test_the_shortest_script_is_sent_as_it_is_by_now() -> None:
    shortest = Shortest(6, 9)
    shortest.found(4, 7)
    shortest.found(4, 8)
    found = sent(shortest)
    assert isinstance(found, Shortest) and found.known == shortest.known == (4, 7)
    found.found(3, 8)
    assert (found.known, shortest.known) == ((3, 8), (4, 7))


@pytest.mark.parametrize("fault", [Refused(b"text", Refusal(3, "world", "name")), Refused(b"text", None), PlayingFault("no")], ids=str)
def test_faults_come_back(fault: Exception) -> None:
    def work(_: int) -> None:
        raise fault

    done = sent(done_of(work, 1))
    assert isinstance(done, Done)
    with pytest.raises(type(fault)) as raised:
        value_of(done)
    assert str(raised.value).startswith(str(fault)) and getattr(raised.value, "text", None) == getattr(fault, "text", None)


def test_the_sources_have_one_digest() -> None:
    assert sources() == sources() and len(sources()) == 64
