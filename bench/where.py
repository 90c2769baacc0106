#!/usr/bin/env python3
"""Tells where the time of runs goes, by samples of `perf record`.

    bench/where.py --inputs FOLDER [--cmd PROGRAM] [--seconds N] [COMMAND..]

A COMMAND is `play`, `view` or `check`; without one it is each of them. Each file FOLDER/NAME.in is a load. A row has the
percentage of samples in the calls of the system, in the functions that take, give back, copy and fill memory, in those that read
lines, in those that play calls and keep the state, and in those that write, and then the functions with most samples. A function
that the compiler moved into its caller counts as a part of that. A load is run again for about N seconds.
"""
import argparse
import collections
import math
import os
import pathlib
import re
import subprocess
import tempfile
import time

from beside import BUILT, WORDS, head, show

# The first group whose pattern begins a symbol has it.
GROUPS = {
    "system": r"\[k\]",
    "memory": r"rattle_(alloc|realloc|free|dealloc)|(__)?(libc_)?(malloc|free|realloc|calloc|cfree)|_int_|unlink_chunk|sysmalloc|systrim|(__)?mem(cpy|move|set|cmp)|std_(alloc|heap)::|core::slots::",
    "reading": r"io_ends::(lines|ends)|fs_path::(?!\w+::put_)|core::(slice|str)::|lab_text::(text::(mac_from|grade|cats|level)|policy|scan|word)|line_text::(reader|fault)|script_text::(line|call|argument|read)"
    r"|cap_clause::(list|clause)|world_text::|kern_model::calls::CallName|lab_engine::(reading|opening)|core::hash::|memchr::|sec_utils::",
    "calls": r"kern_core::|sys_\w+::|fs_(dirs|nodes)::|fd_table::|num_table::|proc_(table|creds)::|chk_rules::|kern_model::|lab_lattice::|slab::|smallvec::|std_collections::|core::cmp::|cap_bits::",
    "writing": r"",
}


def samples_of(words, load, runs, folder):
    """The symbols of the samples of some runs, each with how many there are."""
    data = str(folder / "perf.data")
    again = 'load=$1; runs=$2; shift 2; for run in $(seq "$runs"); do "$@" < "$load"; done'
    record = ["perf", "record", "-q", "-e", "cpu-clock", "-F", "2000", "-o", data, "--", "sh", "-c", again, "sh", str(load), str(runs), *words]
    subprocess.run(record, stdout=subprocess.DEVNULL, stderr=subprocess.DEVNULL, check=True)
    script = subprocess.run(["perf", "script", "-i", data, "-F", "comm,ip,sym,dso"], stdout=subprocess.PIPE, stderr=subprocess.DEVNULL, text=True, check=True)
    found = collections.Counter()
    for line in script.stdout.splitlines():
        match = re.match(r"\s*(\S+)\s+[0-9a-f]+ (.*) \((.*)\)$", line)
        if match and match.group(1) == pathlib.Path(words[0]).name[:15]:
            _, symbol, place = match.groups()
            found["[k]" if place.startswith("[kernel") else re.sub(r"::<.*", "", symbol)] += 1
    return found


def group_of(symbol):
    """The group of a symbol."""
    return next(name for name, pattern in GROUPS.items() if re.match(pattern, symbol))


def row(load, command, program, seconds, folder):
    """The row of a load."""
    words = [program, *(os.devnull if word == "TRAIL" else word for word in WORDS[command](load))]
    begun = time.monotonic()
    with open(load, "rb") as text:
        subprocess.run(words, stdin=text, stdout=subprocess.DEVNULL, check=True)
    runs = math.ceil(seconds / (time.monotonic() - begun))
    found = samples_of(words, load, runs, folder)
    groups = collections.Counter()
    for symbol, count in found.items():
        groups[group_of(symbol)] += count
    most = [f"`{symbol}` {percent(count, found)}" for symbol, count in found.most_common(5) if symbol != "[k]"]
    return [load.stem, *(percent(groups[name], found) for name in GROUPS), ", ".join(most[:4])]


def percent(count, found):
    """How many of a hundred samples these are."""
    return str(round(100 * count / found.total()))


def main():
    arguments = argparse.ArgumentParser(description=__doc__, formatter_class=argparse.RawDescriptionHelpFormatter)
    arguments.add_argument("--inputs", required=True, action="append", type=pathlib.Path, metavar="FOLDER", help="a folder with loads NAME.in; may be given again")
    arguments.add_argument("--cmd", default=BUILT, type=pathlib.Path, metavar="PROGRAM", help="the program")
    arguments.add_argument("--seconds", type=float, default=1, metavar="N", help="for how long each load is run")
    arguments.add_argument("commands", nargs="*", choices=[[], *WORDS], metavar="COMMAND", help="play, view or check")
    given = arguments.parse_args()
    loads = sorted(load for folder in given.inputs for load in folder.glob("*.in"))
    with tempfile.TemporaryDirectory() as folder:
        for command in given.commands or WORDS:
            print(f"\n`{command}`:\n")
            head(["Load", *(name.capitalize() for name in GROUPS), "Functions with most samples"])
            for load in loads:
                show(row(load, command, str(given.cmd.resolve()), given.seconds, pathlib.Path(folder)))


if __name__ == "__main__":
    main()
