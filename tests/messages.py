#!/usr/bin/env python3
"""Compares what the program writes to standard error with what is wanted: of wrong command lines, of faults, and at a terminal.

    messages.py --cmd COMMAND
"""
import argparse
import os
import pathlib
import pty
import shlex
import subprocess
import sys
import tempfile

WORLD = (pathlib.Path(__file__).resolve().parent.parent / "examples" / "read_by_capability.txt").read_bytes()
USAGE = "labsys: usage\nUsage: labsys <COMMAND> [ARGUMENT]\n"
NUMBER = "N is a number from 1 to 100000, of at most 6 digits"
LABEL_OR_FILE = "is a word that is not empty and does not begin with -"

# words that name no command, and what is wrong with them
WRONG = [
    ([], "a command is missing; try labsys --help"),
    (["world.txt"], '"world.txt" is no command; try labsys --help'),
    (["-h"], '"-h" is no command; try labsys --help'),
    (["a\nb"], '"a\\nb" is no command; try labsys --help'),
    (["play"], "play needs FILE, where the trail goes: labsys play FILE < WORLD"),
    (["play", ""], f"FILE {LABEL_OR_FILE}"),
    (["play", "a", "b"], "play has a word too many: labsys play FILE < WORLD"),
    (["play", "--", "x"], 'labsys has no option "--": labsys play FILE < WORLD'),
    (["check", "--all"], 'labsys has no option "--all": labsys check < WORLD'),
    (["view", "a", "b", "c"], "view has 2 words too many: labsys view LABEL < WORLD"),
    (["--help", "play"], "labsys play FILE < WORLD\nplays WORLD; the replies go to standard output, and the trail to FILE"),
    (["-h", "gen"], "labsys gen N\nwrites a generated world with a script of N calls"),
    (["--help", "plays"], '"plays" is no command; try labsys --help'),
    (["--help", "play", "x"], "--help is given alone"),
    (["--version", "play"], "--version is given alone"),
    (["play", "--help"], "labsys play FILE < WORLD\nplays WORLD; the replies go to standard output, and the trail to FILE"),
    (["sched"], "sched needs FILE, where the trail goes: labsys sched FILE < PROGRAMS"),
    (["sched", "-x"], f"FILE {LABEL_OR_FILE}"),
    (["view"], "view needs LABEL, which sees the replies: labsys view LABEL < WORLD"),
    (["view", "-unc"], f"LABEL {LABEL_OR_FILE}"),
    (["view", "-h"], "labsys view LABEL < WORLD\nplays WORLD; what LABEL sees of the replies goes to standard output"),
    (["check", "trail.out"], "check has a word too many: labsys check < WORLD"),
    (["check", "--help"], "labsys check < WORLD\ncounts the objects, processes and calls of WORLD"),
    (["gen"], "gen needs N, the number of calls: labsys gen N"),
    (["gen", "0"], NUMBER),
    (["gen", "0000001"], NUMBER),
    (["gen", "-h"], "labsys gen N\nwrites a generated world with a script of N calls"),
    (["drill", "100001"], NUMBER),
    (["upgrade", "x"], "upgrade has a word too many: labsys upgrade < OLD"),
    (["least", "x"], "least has a word too many: labsys least < WORLD"),
    (["least", "--help"], "labsys least < WORLD\nplays WORLD, and writes it without the capabilities that its script never needed"),
    (["upgrade", "--help"], "labsys upgrade < OLD\nwrites OLD, an input of the old format, in the format of today"),
    (["select"], "select needs SPEC, which picks records: labsys select SPEC < TRAIL"),
    (["select", "-all"], f"SPEC {LABEL_OR_FILE}"),
    (["select", "-h"], "labsys select SPEC < TRAIL\nwrites the records of TRAIL that SPEC picks, a line of JSON for each"),
    (["lineage", "x"], "lineage has a word too many: labsys lineage < TRAIL"),
    (["lineage", "--help"], "labsys lineage < TRAIL\nsays whether each record of TRAIL can follow those before it"),
    (["drill", "--help"], "labsys drill N\nplays the world that gen N writes, and counts the answers"),
]

# what a shell does after COMMAND, the status, and standard error
FAULTS = [
    ("play no/trail < world", 5, "labsys: trail fault\nlabsys: no/trail: No such file or directory (os error 2)\n"),
    ("play trail < .", 3, "labsys: read fault\nlabsys: standard input: Is a directory (os error 21)\n"),
    ("play trail < world > /dev/full", 4, "labsys: write fault\nlabsys: standard output: No space left on device (os error 28)\n"),
    ("gen 1 > /dev/full", 4, "labsys: write fault\nlabsys: standard output: No space left on device (os error 28)\n"),
    ("play trail <&-", 3, "labsys: read fault\nlabsys: standard input: Bad file descriptor (os error 9)\n"),
    ("play trail < world >&-", 4, "labsys: write fault\nlabsys: standard output: Bad file descriptor (os error 9)\n"),
    ("play world < world", 1, "labsys: world is the file of standard input, and the trail would overwrite it\n"),
    ("sched ./world < world", 1, "labsys: ./world is the file of standard input, and the trail would overwrite it\n"),
    ("play link < world", 1, "labsys: link is the file of standard input, and the trail would overwrite it\n"),
    ("play other < world", 1, "labsys: other is the file of standard input, and the trail would overwrite it\n"),
    ("play out < world > out", 1, "labsys: out is the file of standard output, and the trail would overwrite it\n"),
    ("play /dev/null < world > /dev/null", 0, ""),
    ("play trail < world", 0, ""),
    ("check < world", 0, ""),
    ("gen 1", 0, ""),
]


def faults_of_words(command, folder):
    """What is wrong with the messages of wrong command lines."""
    for words, wanted in WRONG:
        done = subprocess.run(command + words, input=WORLD, capture_output=True, cwd=folder, timeout=60)
        if (done.returncode, done.stdout, done.stderr.decode()) != (1, b"", f"{USAGE}{wanted}\n"):
            yield f"{words}: status {done.returncode}, {done.stderr.decode()!r}"


def faults_of_faults(command, folder):
    """What is wrong with the messages of faults."""
    for rest, status, wanted in FAULTS:
        line = f"{shlex.join(command)} {rest}"
        done = subprocess.run(line, shell=True, stdout=subprocess.DEVNULL, stderr=subprocess.PIPE, cwd=folder, timeout=60)
        if (done.returncode, done.stderr.decode()) != (status, wanted):
            yield f"{rest}: status {done.returncode}, {done.stderr.decode()!r}"


def faults_at_a_terminal(command, folder):
    """What is wrong with what is written where standard input is a terminal, at which nothing but its end is typed."""
    for words, wanted in [(["check"], "labsys: reading standard input\n"), (["play", "trail"], "labsys: reading standard input\n"), (["lineage"], "labsys: reading standard input\n"), (["gen", "1"], "")]:
        typed, terminal = pty.openpty()
        os.write(typed, b"\x04")
        done = subprocess.run(command + words, stdin=terminal, stdout=subprocess.DEVNULL, stderr=subprocess.PIPE, cwd=folder, timeout=60)
        os.close(typed)
        os.close(terminal)
        if done.stderr.decode() != wanted:
            yield f"{words} at a terminal: {done.stderr.decode()!r}"


def main():
    parser = argparse.ArgumentParser(description="Compares what the program writes to standard error with what is wanted.")
    parser.add_argument("--cmd", required=True, help="the command and its first words, as a shell would split them")
    command = [os.path.abspath(word) if os.path.exists(word) else word for word in shlex.split(parser.parse_args().cmd)]
    with tempfile.TemporaryDirectory() as name:
        folder = pathlib.Path(name)
        (folder / "world").write_bytes(WORLD)
        (folder / "link").symlink_to("world")
        os.link(folder / "world", folder / "other")
        faults = [fault for check in (faults_of_words, faults_of_faults, faults_at_a_terminal) for fault in check(command, folder)]
    print("\n".join(faults), end="\n" if faults else "")
    sys.exit(1 if faults else 0)


if __name__ == "__main__":
    main()
