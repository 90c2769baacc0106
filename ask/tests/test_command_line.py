"""Words of the command line that name nothing, or stand in another order, and files and programs that are not what is due."""
import shlex
import subprocess
import sys
import time

import pytest
from support import ANSWERED, LABASK, TOP, labask

from labask import playing

WORLD = TOP / "examples" / "lesson.txt"
pytestmark = pytest.mark.usefixtures("program")


def judge(words, status, said):
    """Fails where a command line has another exit status, or other messages, than it should have."""
    got, _, messages = labask(*words)
    assert got == status and said in messages and "Traceback" not in messages, messages


# digits of other scripts, and what Python alone reads as a number
NO_NUMBERS = ("\u0661", "\u00b2", "1_0", " 1", "+1", "9" * 5000)


@pytest.mark.parametrize("digits", NO_NUMBERS, ids=lambda digits: ascii(digits)[:9])
@pytest.mark.parametrize("words", [
    ("why", WORLD, "{}"), ("cuts", WORLD, "{}"), ("cuts", WORLD, "1", "--apply", "{}"),
    ("flow", WORLD, "/exam/marks", "1@public", "--depth", "{}"), ("world", "/none", "--bytes", "{}"),
    ("world", "/none", "--root-user", "{}"), ("world", "/none", "--proc", "{}:1:-:="), ("world", "/none", "--proc", "1:1:{}:="),
], ids=lambda words: f"{words[0]} {words[-2]}")
def test_no_numbers(words, digits):
    judge((*words[:-1], words[-1].format(digits)), 1, "is no number from 0 to")


@pytest.mark.parametrize("digits", NO_NUMBERS, ids=lambda digits: ascii(digits)[:9])
@pytest.mark.parametrize("words", [("who", WORLD, "--process"), ("flow", WORLD, "/exam/marks")], ids=lambda words: words[0])
def test_no_tags(words, digits):
    judge((*words, f"{digits}@public"), 1, "has no process")


@pytest.mark.parametrize("line", [
    b'"\\xb2@public" getpid', b'1@public kill "\\xb2@public" 0', b"9" * 1500 + b"@public getpid", b"9" * 5000 + b"@public getpid",
], ids=lambda line: repr(line[:30]))
def test_no_tags_in_a_file(line, tmp_path):
    """Numbers of processes that are none are explained as other faults are."""
    head = WORLD.read_bytes().partition(b"\nscript\n")[0] + b"\nscript\n"
    path = tmp_path / "tags.txt"
    path.write_bytes(head + line + b"\n")
    status, out, messages = labask("check", path)
    assert status == 2 and f"{path}:{head.count(10) + 1}: " in out and not messages


@pytest.mark.parametrize("words", [
    ("world", ""), ("world", "/", "--labels", ""), ("--labsys", "", "check", WORLD), ("check", WORLD, "--labsys", ""),
    *(("trace", WORLD, WORLD, option, "") for option in ("--directory", "--start", "--as")),
], ids=lambda words: " ".join(map(str, words[-2:])))
def test_empty_words(words):
    """Words that name a file, a directory or a process, and are empty."""
    judge(words, 1, "the word is empty")


def test_options_between_words():
    """Options may stand before, between and behind the words of a question; behind -- no word is an option."""
    options, asked = ("--process", "1@public"), (WORLD, "/exam", "/exam/marks")
    orders = [("who", *asked[:at], *options, *asked[at:]) for at in range(4)] + [("who", *options, "--", *asked)]
    answers = {labask(*words) for words in orders}
    assert len(answers) == 1 and answers.pop()[0] in ANSWERED


def test_program_between_words(program):
    option = ("--labsys", program)
    answers = {labask(*words) for words in (("why", WORLD, "4"), ("why", *option, WORLD, "4"), ("why", WORLD, *option, "4"))}
    assert len(answers) == 1 and answers.pop()[0] in ANSWERED


@pytest.mark.parametrize("words, said", [
    (("who", WORLD, "--none", "/exam"), "unrecognized arguments: --none"), (("who", "--process", "1@public"), "required: FILE"),
], ids=["unknown", "lacking"])
def test_wrong_options(words, said):
    judge(words, 1, said)


# programs that are not labsys, as scripts, and how the message about each of them ends
OTHERS = {
    "silent": ("exit 0", 'answered ""'), "failing": ("exit 3", 'answered ""'), "ended": ("kill -9 $$", 'answered ""'),
    "talking": ("echo some words", 'answered "some words"'), "named": ("echo labsys 1.0.0", "does not answer as labsys does"),
    "copying": ('echo "$1"; cat', 'answered "--version"'), "resting": ("sleep 60", "did not answer within 1 seconds"),
    "endless": ("while :; do printf x; done", f'answered "{"x" * 64}"'),
    "slow": ("printf labsys; sleep 60 & wait", "did not answer within 1 seconds"),
    "hanging": ('[ "$1" != --version ] || exec echo labsys 1.0.0; sleep 60', "did not answer within 1 seconds"),
}


@pytest.mark.parametrize("question", ("check", "why"))
@pytest.mark.parametrize("name", OTHERS)
def test_other_programs(name, question, tmp_path, monkeypatch):
    """Programs that are not labsys are refused with one line, within the time limit."""
    monkeypatch.setattr(playing, "FIRST_SECONDS", 1.0)
    (line, said), program = OTHERS[name], tmp_path / name
    program.write_text(f"#!/bin/sh\n{line}\n", encoding="ascii")
    program.chmod(0o755)
    begin = time.monotonic()
    status, out, messages = labask(question, WORLD, "--labsys", program)
    assert (status, out) == (70, "") and messages.endswith(f"{said}\n") and messages.count("\n") == 1
    assert time.monotonic() - begin < 20


@pytest.mark.parametrize("content, mode", [(b"hello\n", 0o755), (b"#!/none/sh\n", 0o755), (b"#!/bin/sh\n", 0o644)])
def test_no_programs(content, mode, tmp_path):
    path = tmp_path / "program"
    path.write_bytes(content)
    path.chmod(mode)
    judge(("check", WORLD, "--labsys", path), 70, f"{path}")


def test_folder_as_program(tmp_path):
    judge(("check", WORLD, "--labsys", tmp_path), 70, f"there is no program {tmp_path}")


FULL = "standard output: No space left on device"
NO_OUTPUT, NO_INPUT = "standard output: Bad file descriptor", "standard input: Bad file descriptor"
# questions with W for the world, D for a folder and O for a new file, how a shell starts them, the status and the message
CLOSED = [
    *(("check W", closed, 0, "") for closed in ("0<&-", "2>&-", "0<&- 2>&-")),
    *((question, "1>&-", 1, NO_OUTPUT) for question in ("check W", "check W --json", "who W", "why W", "page W", "world D", "--help")),
    *((question, "0<&- 1>&- 2>&-", 1, "") for question in ("check W", "page W", "who --help")),
    *((question, ">/dev/full", 1, FULL) for question in ("who W --json", "page W", "--help")),
    ("check -", "0<&-", 1, NO_INPUT), ("check -", "0<&- 2>&-", 1, ""), ("check W none", "2>&-", 1, ""),
    ("page W --output O", "0<&- 1>&-", 0, ""), ("check W --labsys /none", "0<&- 1>&- 2>&-", 70, ""),
]


@pytest.mark.parametrize("question, closed, status, said", CLOSED, ids=[f"{question} {closed}" for question, closed, *_ in CLOSED])
def test_closed_descriptors(question, closed, status, said, tmp_path):
    """With closed standard descriptors, or a full device, there is the answer, or a message and a status other than 0."""
    names = {"W": WORLD, "D": tmp_path, "O": tmp_path / "page.html"}
    words = [sys.executable, LABASK, *(names.get(word, word) for word in question.split())]
    done = subprocess.run(["sh", "-c", f"{shlex.join(map(str, words))} {closed}"], stdin=subprocess.DEVNULL, stdout=subprocess.PIPE,
                          stderr=subprocess.PIPE, check=False)
    assert (done.returncode, done.stderr.decode()) == (status, f"labask: {said}\n" if said else "")
    assert bool(done.stdout) == (status == 0 and "1>" not in closed)
