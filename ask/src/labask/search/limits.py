"""How far a search goes, and the options that say so."""
import argparse
from dataclasses import dataclass

from labask.command_words import number

DEPTH = 16
STATES = 2_000


@dataclass(frozen=True)
class Limits:
    """How far a search goes: the most calls of a script, and the most states that are looked at."""
    depth: int = DEPTH
    states: int = STATES


def add_limit_arguments(parser: argparse.ArgumentParser) -> None:
    """Adds the options that say how far a search goes."""
    parser.add_argument("--depth", metavar="N", type=number, default=DEPTH, help=f"the most calls of a script; {DEPTH} by default")
    parser.add_argument("--states", metavar="N", type=number, default=STATES,
                        help=f"the most states that are looked at; {STATES} by default")


def limits_of(arguments: argparse.Namespace) -> Limits:
    """The limits that a command line gives."""
    return Limits(arguments.depth, arguments.states)
