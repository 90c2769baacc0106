#!/usr/bin/env python3
"""Plays the examples and the commands that pages show, and compares what they write with what is stored and shown.

    examples.py --cmd COMMAND            fails where something differs
    examples.py --cmd COMMAND --write    writes what is stored and shown anew

Each world `examples/NAME.txt` is played, and each of `examples/programs/NAME.txt` by its programs. Beside it `NAME.out` has its
output, and `NAME.trail` its trail. `examples/README.md` names each.

On a page, a block between two lines ``` is played where it begins with `$ `. Each line of it that begins with `$ ` is a
command for `sh`. The lines after it, up to the next command or the end of the block, are what the command writes. The
commands of a page run in one folder, where `labsys` is COMMAND, and `examples` and `ask` are those of the repository. A block
that begins with `world ` is an input that `labsys check` accepts. No other block may show a command of `./labsys`.
"""
import argparse
import difflib
import os
import pathlib
import re
import shlex
import shutil
import subprocess
import sys
import tempfile

TOP = pathlib.Path(__file__).resolve().parent.parent
EXAMPLES = TOP / "examples"
PROGRAMS = EXAMPLES / "programs"
PAGES = [TOP / "README.md", *sorted((TOP / "docs").glob("*.md")), EXAMPLES / "README.md"]
BLOCK = re.compile(r"^```\n(.*?)^```$", re.M | re.S)
SHOWN = 12


class Fault(Exception):
    """What is wrong with an example or a page, other than that its bytes differ."""


def make_folder(folder, cmd):
    """Makes a folder in which the commands of the pages can run."""
    program = folder / "labsys"
    program.write_text(f'#!/bin/sh\nexec {shlex.join(cmd)} "$@"\n')
    program.chmod(0o755)
    (folder / "examples").symlink_to(EXAMPLES)
    (folder / "ask").symlink_to(TOP / "ask")


def run(command, folder, given=b""):
    """The exit status of a command, and the bytes that it writes to standard output and standard error."""
    done = subprocess.run(command, input=given, stdout=subprocess.PIPE, stderr=subprocess.STDOUT, cwd=folder, timeout=120)
    return done.returncode, done.stdout


def play_example(path, folder):
    """The output and the trail of an example."""
    word = "sched" if path.parent == PROGRAMS else "play"
    status, output = run(["./labsys", word, "trail"], folder, path.read_bytes())
    if status != 0:
        raise Fault(f"exit status {status}")
    return output, (folder / "trail").read_bytes()


def play_session(block, folder):
    """A block of commands, each with what it writes."""
    played = b""
    for line in block.splitlines():
        if line.startswith("$ "):
            played += line.encode() + b"\n" + run(["sh", "-c", line[2:]], folder)[1]
            if not played.endswith(b"\n"):
                raise Fault("no line feed ends the output of: " + line)
    return played.decode()


def play_block(block, folder):
    """A block of a page, as it should be. One with a command of `jq` is left as it is where there is no `jq`."""
    if re.search(r"^\$ .*\| jq ", block, re.M) and not shutil.which("jq"):
        return block
    if block.startswith("$ "):
        return play_session(block, folder)
    if block.startswith("world ") and run(["./labsys", "check"], folder, block.encode())[0] != 0:
        raise Fault("a world that is shown is refused")
    if re.search(r"^\./labsys", block, re.M):
        raise Fault("a command is shown without `$ `: " + block.splitlines()[0])
    return block


def play_page(path, folder):
    """The bytes of a page, as they should be."""
    text = path.read_text(encoding="utf-8")
    return BLOCK.sub(lambda block: f"```\n{play_block(block[1], folder)}```", text).encode()


def due_bytes(path, cmd):
    """The bytes due of the files that an example or a page decides, by their paths."""
    with tempfile.TemporaryDirectory() as name:
        folder = pathlib.Path(name)
        make_folder(folder, cmd)
        if path in PAGES:
            return {path: play_page(path, folder)}
        output, trail = play_example(path, folder)
        return {path.with_suffix(".out"): output, path.with_suffix(".trail"): trail}


def difference(path, due):
    """The first lines in which a file differs from the bytes due; none where it is equal."""
    there = path.read_bytes() if path.exists() else b""
    lines = difflib.unified_diff(there.decode("latin-1").split("\n"), due.decode("latin-1").split("\n"),
                                 "stored or shown", "played", "", "", 1, "")
    return list(lines)[:SHOWN]


def left_over(examples):
    """Outputs and trails without their example, and examples that the page does not name."""
    page = (EXAMPLES / "README.md").read_text(encoding="utf-8")
    for path in sorted([*EXAMPLES.iterdir(), *PROGRAMS.iterdir()]):
        if path.suffix in (".out", ".trail") and path.with_suffix(".txt") not in examples:
            yield path, "no example has this name"
        elif path in examples and f"`{path.relative_to(EXAMPLES)}`" not in page:
            yield path, "examples/README.md does not name it"


def play_all(paths, cmd):
    """The bytes due of all files, by their paths, and the faults, each with its path."""
    due, faults = {}, []
    for path in paths:
        try:
            due.update(due_bytes(path, cmd))
        except (Fault, OSError, subprocess.TimeoutExpired) as fault:
            faults.append((path, str(fault)))
    return due, faults


def main():
    parser = argparse.ArgumentParser(description="Plays the examples and the commands that pages show.")
    parser.add_argument("--cmd", required=True, help="the command and its first words, as a shell would split them")
    parser.add_argument("--write", action="store_true", help="write what is stored and shown anew, unless there is a fault")
    words = parser.parse_args()
    cmd = [os.path.abspath(word) if os.path.exists(word) else word for word in shlex.split(words.cmd)]
    examples = sorted([*EXAMPLES.glob("*.txt"), *PROGRAMS.glob("*.txt")])
    due, faults = play_all(examples + PAGES, cmd)
    faults += left_over(examples)
    differing = {path: lines for path, content in due.items() if (lines := difference(path, content))}
    if words.write and not faults:
        for path in differing:
            path.write_bytes(due[path])
            print(f"written {path.relative_to(TOP)}")
    else:
        faults += [(path, "\n    ".join(lines)) for path, lines in differing.items()]
    for path, fault in faults:
        print(f"FAILED {path.relative_to(TOP)}\n    {fault}")
    print(f"{len(examples)} examples and {len(PAGES)} pages, {len(faults)} faults")
    sys.exit(1 if faults else 0)


if __name__ == "__main__":
    main()
