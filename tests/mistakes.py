#!/usr/bin/env python3
"""Plays the usual mistakes that docs/FORMATS.md lists, and compares the refusal of each with the word that stands there.

    mistakes.py --cmd COMMAND

A row of a table of mistakes has a line, the word, and what is wrong. A line of a world is played before the line `script` of the
world on that page, and a line of a script after it. The mistakes that the page has in sentences are played too.
"""
import argparse
import os
import pathlib
import re
import shlex
import subprocess
import sys

PAGE = pathlib.Path(__file__).resolve().parent.parent / "docs" / "FORMATS.md"
ROW = re.compile(r"^\| `(.*?)` \| `(\w+)` \| .* \|$")
HEAD = "| Line | Word | What is wrong |"


def world_of(page):
    """The world of the page, which ends with the line `script`."""
    return re.search(r"^```\n(world 2\n.*?^script\n)```$", page, re.M | re.S)[1]


def tables_of(page):
    """The tables of mistakes: each is a list of lines and words."""
    for text in page.split(HEAD)[1:]:
        rows = [ROW.match(line) for line in text.strip().split("\n\n")[0].splitlines()[1:]]
        yield [(row[1], row[2]) for row in rows]


def mistakes_of(page):
    """Each mistake as an input, the last line that is expected, and the line that shows it."""
    world = world_of(page)
    before, count = world[: -len("script\n")], world.count("\n")
    of_worlds, of_scripts = tables_of(page)
    for line, word in of_worlds:
        yield f"{before}{line}\nscript\n", f"refused {count} world {word}", line
    for line, word in of_scripts:
        yield f"{world}{line}\n", f"refused {count + 1} script {word}", line
    four = "".join(world.splitlines(True)[:4])
    yield world.replace("\n", "\r\n"), "refused 1 world syntax", "carriage returns"
    yield f"{four}dir /a 0755 0 0 public\n", "refused 5 world no_parent", "another first object"
    yield f"{four}script\n", "refused 5 world syntax", "script without an object"
    yield f"{before}dir\t/a 0755 0 0 public\nscript\n", f"refused {count} world syntax", "a tab in a world"
    yield f"{world}1@secret:eng\tgetpid\n", f"refused {count + 1} script syntax", "a tab in a script"
    yield f"{world}1@secret:eng getpid\r\n", f"refused {count + 1} script syntax", "a carriage return in a script"
    yield f"{world}#\ta comment\r\n", "done 0", "a tab and a carriage return in a comment"
    yield world[:-1], f"refused {count} world syntax", "no line feed after script"
    yield f"{world}1@secret:eng getpid", f"refused {count + 1} script syntax", "no line feed at the end"


def last_line(command, text):
    done = subprocess.run([*command, "play", os.devnull], input=text.encode(), stdout=subprocess.PIPE, check=False)
    return done.stdout.decode("latin-1").rstrip("\n").split("\n")[-1]


def main():
    arguments = argparse.ArgumentParser(description=__doc__, formatter_class=argparse.RawDescriptionHelpFormatter)
    arguments.add_argument("--cmd", required=True, help="the command and its first words, as a shell would split them")
    command = shlex.split(arguments.parse_args().cmd)
    played = failed = 0
    for text, wanted, shown in mistakes_of(PAGE.read_text(encoding="utf-8")):
        got = last_line(command, text)
        played += 1
        if got != wanted:
            failed += 1
            print(f"FAILED {shown}\n    wanted {wanted}, got {got}")
    print(f"{played - failed} passed, {failed} failed")
    sys.exit(1 if failed else 0)


if __name__ == "__main__":
    main()
