"""The options that name another program, and say on what terms it is compared."""
import argparse
import os
import shlex
import shutil
from typing import List

from labask.answers import WrongWords
from labask.fuzzing.comparing import Comparer, Driver, Terms, read_map
from labask.playing import Player


def add_terms(parser: argparse.ArgumentParser) -> None:
    """Adds the options."""
    parser.add_argument("--against", metavar="PROGRAM", required=True, help="the program of another kernel, with its first words as a "
                        "shell would split them; it is called as `PROGRAM play FILE < INPUT`")
    parser.add_argument("--map", metavar="FILE", help="a file with a word of PROGRAM and the word of labsys for it on each line")
    parser.add_argument("--no-place", action="store_true", help="leave out the places of denials and the numbers of objects")
    parser.add_argument("--out-only", action="store_true", help="compare the output and the status alone, and not the trail")


def command_of(text: str) -> List[str]:
    """The words of a command; raises `WrongWords` where there is no such program."""
    try:
        words = shlex.split(text)
    except ValueError as fault:
        raise WrongWords(f"{text!r} is no command: {fault}") from fault
    if not words or shutil.which(words[0]) is None:
        raise WrongWords(f"there is no program {text!r}")
    return [os.path.abspath(word) if os.path.exists(word) else word for word in words]


def comparer_of(arguments: argparse.Namespace, player: Player) -> Comparer:
    """What compares the programs of a command line."""
    terms = Terms(read_map(arguments.map), not arguments.out_only, not arguments.no_place)
    return Comparer(player, Driver(command_of(arguments.against)), terms)
