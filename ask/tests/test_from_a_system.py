"""The commands of docs/FROM_A_SYSTEM.md are played as they stand, and what they write compared with what the page shows.

They are played with strace, where it is there, and with a stand-in that runs the program and gives the log that is kept. In a block
between two lines ``` each line that begins with `$ ` is a command for `sh`, one that begins with `# ` is a remark, and the others are
what the command before them writes. `pytest --write` writes what is shown anew, and `pytest --record` records anew the logs that
stand in for strace where it is not there.
"""
import os
import pathlib
import re
import shlex
import shutil
import subprocess
import sys
import tempfile

import pytest
from support import HERE, TOP
from system import PLAIN, USER, as_user, root, strace

from labask.strace.comparing import KNOWN, known_texts

PAGE = TOP / "docs" / "FROM_A_SYSTEM.md"
DIFFERENCES = TOP / "docs" / "DIFFERENCES.md"
KEPT = HERE / "logs" / "page"
RECORDED = "/srv/site"
# calls that programs make at their start, and that are left out of the logs that are kept
START = re.compile(r"\d+ (?:mmap|mprotect|munmap|brk|rt_sig\w+|rseq)\(")
BLOCK = re.compile(r"^```\n(# .*?)^```$", re.M | re.S)
STAND_IN = r"""#!/bin/sh
# what stands in for strace: the program runs, and the log that is kept becomes its log
while [ "$1" != -o ]; do shift; done
log=$2; shift 2
"$@"
exec sed -e "s,{recorded},$(pwd -P),g" -e "/ gete*uid() /s/= {user}/= $(id -u)/" -e "/ gete*gid() /s/= {user}/= $(id -g)/" \
    "{kept}/${{log##*/}}" > "$log"
"""


def script(path, text):
    """Writes a program."""
    path.write_text(text)
    path.chmod(0o755)


def make_folder(folder, program, tracer):
    """A folder in which the commands run, with `strace` as it is given or with what stands in for it."""
    script(folder / "labsys", f'#!/bin/sh\nexec {shlex.quote(program)} "$@"\n')
    (folder / "ask").symlink_to(HERE.parent)
    (folder / "bin").mkdir()
    (folder / "bin" / "python3").symlink_to(sys.executable)
    if tracer is None:
        script(folder / "bin" / "strace", STAND_IN.format(recorded=RECORDED, kept=KEPT, user=USER))
    else:
        (folder / "bin" / "strace").symlink_to(tracer)
    if root():
        for path in (folder, folder / "bin"):
            os.chown(path, USER, USER)


def run(command, folder):
    """What a command writes."""
    environment = {**PLAIN, "PATH": f"{folder}/bin:{PLAIN['PATH']}", "LABSYS": str(folder / "labsys"), "PYTHONDONTWRITEBYTECODE": "1"}
    done = subprocess.run(["sh", "-c", command], stdin=subprocess.DEVNULL, stdout=subprocess.PIPE, stderr=subprocess.STDOUT,
                          cwd=folder, env=environment, preexec_fn=as_user, check=False, timeout=900)
    return done.stdout.decode()


def play_block(block, folder):
    """A block as it should be."""
    played = ""
    for line in block.splitlines():
        if line.startswith("# "):
            played += line + "\n"
        elif line.startswith("$ "):
            written = run(line[2:], folder)
            assert not written or written.endswith("\n"), f"no line feed ends the output of: {line}"
            played += line + "\n" + written
    return played


def play_page(folder, program, tracer):
    """The page as it should be."""
    make_folder(folder, program, tracer)
    return BLOCK.sub(lambda block: f"```\n{play_block(block[1], folder)}```", PAGE.read_text(encoding="utf-8"))


def record(tracer, program):
    """Records the logs of the page in a folder at a path that says nothing of this system."""
    shutil.rmtree(KEPT, ignore_errors=True)
    KEPT.mkdir(parents=True)
    with tempfile.TemporaryDirectory(prefix="labask-", dir=pathlib.Path(RECORDED).parent) as name:
        folder = pathlib.Path(name)
        folder.chmod(0o755)
        play_page(folder, program, tracer)
        for log in folder.glob("*.log"):
            text = log.read_text(encoding="latin-1").replace(f"{folder}/site", RECORDED)
            kept = [line for line in text.splitlines(True) if not START.match(line)]
            (KEPT / log.name).write_text("".join(kept).replace(str(folder), "/srv"), encoding="latin-1")


@pytest.mark.parametrize("traced", (True, False), ids=("strace", "kept logs"))
def test_page(traced, open_folder, program, write, request):
    tracer = strace() if traced else None
    if traced and tracer is None:
        pytest.skip("there is no strace that may trace, which Debian has in its package strace")
    if traced and request.config.getoption("--record"):
        record(tracer, program)
    due = play_page(open_folder, program, tracer)
    if write:
        PAGE.write_text(due, encoding="utf-8")
    assert PAGE.read_text(encoding="utf-8").splitlines() == due.splitlines()


@pytest.mark.parametrize("name", known_texts())
def test_known_differences_are_named(name):
    """One of the pages has the difference in the first column of a table."""
    text = PAGE.read_text(encoding="utf-8") + DIFFERENCES.read_text(encoding="utf-8")
    assert f"| [{name}](" in text or f"| {name} |" in text


@pytest.mark.parametrize("difference", KNOWN.items(), ids=lambda difference: "-".join(difference[0]))
def test_rows_of_known_errors(difference):
    """The row in docs/DIFFERENCES.md has the call, the reply of this kernel and the error of Linux."""
    (word, here, there), name = difference
    lines = DIFFERENCES.read_text(encoding="utf-8").splitlines()
    row = next((line for line in lines if line.startswith(f"| [{name}](")), f"`{word} {here} {there}")
    assert f"`{word}" in row and here in row and (there == "ok" or there in row)
