"""The question `shrink`: the least world and script on which another program differs from `labsys`, made from one on which it does."""
import argparse
from typing import Iterator

from labask.answers import Status, write_json
from labask.effort import add_effort_arguments, effort_of
from labask.fuzzing.case_text import case_text
from labask.fuzzing.comparing import Difference
from labask.fuzzing.options import add_terms, comparer_of
from labask.fuzzing.shrinking import Shrinker
from labask.playing import Player
from labask.shortening import short
from labask.worlds import read_file, read_world


def add_arguments(parser: argparse.ArgumentParser) -> None:
    """Adds the arguments of the question."""
    parser.add_argument("file", metavar="FILE", help="the world with its script")
    add_terms(parser)
    parser.add_argument("--case", action="store_true", help="write a case for tests/run_cases.py instead of an input")
    add_effort_arguments(parser)


def comments(difference: Difference) -> Iterator[str]:
    """The difference, as comments of a world."""
    yield f"# {short(difference.line)}"
    yield f"#   labsys:  {short(difference.own.text)}"
    yield f"#   PROGRAM: {short(difference.other.text)}"


def answer(arguments: argparse.Namespace, player: Player) -> int:
    """Answers the question."""
    text, effort = read_file(arguments.file), effort_of(arguments)
    player.play_accepted(text)
    compared = (comparer := comparer_of(arguments, player)).compare(text)
    assert compared is not None
    if compared.difference is None:
        if arguments.json:
            write_json({"differs": False, "compared": compared.compared})
        else:
            print(f"# No difference was found: {compared.compared} replies are alike.")
        return Status.NO
    least, difference = Shrinker(comparer, effort).shrink(text, compared.difference)
    effort.clear()
    if arguments.json:
        write_json({"differs": True, "line": difference.line, "labsys": difference.own.text, "program": difference.other.text,
                    "calls": len(read_world(least).script), "text": least.decode("latin-1"), "whole": not effort.over()})
    elif arguments.case:
        note = f"at {short(difference.line)} another program wrote: {short(difference.other.text)}"
        print(case_text(least, player.play(least), note).decode("utf-8", "surrogateescape"), end="")
    else:
        print("\n".join(comments(difference)))
        print(least.decode("latin-1"), end="")
    return Status.YES
