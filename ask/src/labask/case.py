"""The question `case`: an input with what `labsys` writes of it, as a case for `tests/run_cases.py`."""
import argparse

from labask.answers import Status, write_json
from labask.fuzzing.case_text import case_text, one_line
from labask.playing import Player
from labask.worlds import read_file

NOTE = "labsys plays this input so"


def add_arguments(parser: argparse.ArgumentParser) -> None:
    """Adds the arguments of the question."""
    parser.add_argument("file", metavar="FILE", help="the world with its script; it may be refused")
    parser.add_argument("--note", metavar="TEXT", default=NOTE, help="what the case shows, in one line")


def answer(arguments: argparse.Namespace, player: Player) -> int:
    """Writes the case."""
    note, text = one_line(arguments.note), read_file(arguments.file)
    case = case_text(text, player.play(text), note).decode("utf-8", "surrogateescape")
    if arguments.json:
        write_json({"case": case})
    else:
        print(case, end="")
    return Status.DONE
