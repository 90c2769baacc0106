"""Types of words of the command line, for `add_argument`."""
import argparse
import re

LARGEST = 4294967295


def number(text: str, limit: int = LARGEST) -> int:
    """A number of decimal digits of ASCII."""
    if not re.fullmatch(r"[0-9]{1,10}", text) or int(text) > limit:
        raise argparse.ArgumentTypeError(f"{text!r} is no number from 0 to {limit}")
    return int(text)


def named(text: str) -> str:
    """The name of a file or directory, which an empty word is not; the system would take it for the current directory."""
    if not text:
        raise argparse.ArgumentTypeError("the word is empty, and nothing has an empty name")
    return text
