#!/usr/bin/env python3
"""Plays every proper prefix of the input of a case, and compares status and output with what the whole one gives.

    prefixes.py --cmd COMMAND [CASE]

A prefix that ends with a line feed at the line `script` or after it is an input of its own, with status 0. Every other one is
refused at the line in which it ends, with status 2.
"""
import argparse
import concurrent.futures
import os
import pathlib
import shlex
import subprocess
import sys

from run_cases import read_case

CASE = pathlib.Path(__file__).resolve().parent / "cases" / "directories" / "hidden_name_is_listed_and_keeps_its_directory.case"


def expected(case, length):
    """The status and the output of the first bytes of a case's input: the end lines follow the replies to the whole lines."""
    prefix = case["input"][:length]
    whole, rest = prefix.rpartition(b"\n")[0].split(b"\n"), prefix.rpartition(b"\n")[2]
    lines = [line for line in whole if line]
    if b"script" not in lines:
        return 2, b"refused %d world syntax\n" % (len(lines) + 1)
    calls = len(lines) - lines.index(b"script") - 1
    out = case["out"].splitlines(keepends=True)
    ends = [line for line in out if line.startswith(b"end ")]
    last = b"refused %d script syntax\n" % (len(lines) + 1) if rest else b"done %d\n" % calls
    return 2 if rest else 0, b"".join(out[:calls] + ends) + last


def is_as_expected(command, case, length):
    """Whether the command gives what is expected of a prefix."""
    done = subprocess.run(command + ["play", os.devnull], input=case["input"][:length], stdout=subprocess.PIPE, timeout=60)
    return (done.returncode, done.stdout) == expected(case, length)


def main():
    parser = argparse.ArgumentParser(description="Plays every proper prefix of the input of a case.")
    parser.add_argument("--cmd", required=True, help="the command and its first words, as a shell would split them")
    parser.add_argument("case", nargs="?", default=CASE)
    given = parser.parse_args()
    case, command = read_case(given.case), shlex.split(given.cmd)
    lengths = range(len(case["input"]))
    with concurrent.futures.ThreadPoolExecutor(os.cpu_count() or 1) as pool:
        wrong = [n for n, passed in zip(lengths, pool.map(lambda n: is_as_expected(command, case, n), lengths)) if not passed]
    for length in wrong:
        print(f"the first {length} bytes: not as expected")
    print(f"{len(lengths) - len(wrong)} prefixes passed, {len(wrong)} failed")
    sys.exit(1 if wrong else 0)


if __name__ == "__main__":
    main()
