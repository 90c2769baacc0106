#!/usr/bin/env python3
"""Checks the man page: it has the form of mdoc, and its examples are what the program writes.

    man_page.py --cmd COMMAND

The world of the section INPUT is the file world.txt of the examples. A line of an example after `$` is a command, and the lines
after it are its output; one that shows none may write any. The form is checked where `mandoc` is there.
"""
import argparse
import os
import pathlib
import re
import shlex
import shutil
import subprocess
import sys
import tempfile

PAGE = pathlib.Path(__file__).resolve().parent.parent / "docs" / "labsys.1"


def literals(page):
    """The texts that the page shows as they are."""
    return re.findall(r"^\.Bd -literal -offset indent\n(.*?)^\.Ed$", page, re.M | re.S)


def faults_of_form():
    """What `mandoc` reports of the page; nothing where it is not there."""
    if not shutil.which("mandoc"):
        return ""
    return subprocess.run(["mandoc", "-T", "lint", PAGE], stdout=subprocess.PIPE, text=True, check=False).stdout


def main():
    arguments = argparse.ArgumentParser(description=__doc__, formatter_class=argparse.RawDescriptionHelpFormatter)
    arguments.add_argument("--cmd", required=True, help="the command and its first words, as a shell would split them")
    words = [os.path.abspath(word) if os.path.exists(word) else word for word in shlex.split(arguments.parse_args().cmd)]
    world, *examples = literals(PAGE.read_text(encoding="utf-8"))
    failed = faults_of_form()
    with tempfile.TemporaryDirectory() as folder:
        (pathlib.Path(folder) / "world.txt").write_text(world)
        for example in examples:
            line, _, wanted = example.partition("\n")
            command = line.removeprefix("$ ").replace("labsys", shlex.join(words))
            got = subprocess.run(command, shell=True, cwd=folder, stdout=subprocess.PIPE, text=True, check=False)
            if got.returncode != 0 or wanted not in ("", got.stdout):
                failed += f"{line}\n    wanted {wanted!r}, got {got.stdout!r} and status {got.returncode}\n"
    print(failed, end="")
    sys.exit(1 if failed else 0)


if __name__ == "__main__":
    main()
