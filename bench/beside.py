#!/usr/bin/env python3
"""Measures two programs on the loads of folders, in turn, so that other work on the machine hits both.

    bench/beside.py --inputs FOLDER [--old-inputs FOLDER] --plain PROGRAM [--cmd PROGRAM] [--runs N] [--scale [--from LOAD=CALL]..] [COMMAND..]

A COMMAND is `play`, `view` or `check`; without one it is each of them. `view` is from the highest label of the load's world. Each
file FOLDER/NAME.in is a load; with --old-inputs the plain program reads the load of this name in that folder, of the old format of
worlds. A row has of both programs the best seconds of N runs, the seconds of user time of the middle run, the millions of
instructions of one run under valgrind, and the MiB, each with the ratio of labsys to the plain program; of `play` it has the
ratio of the writes alone too, which are those of pieces.c. It fails where the two write different bytes. With --scale it
prints another table: for the first eighth, quarter and half of a load and for the whole, the power of its bytes by which
seconds and instructions grow. Where a load begins with calls of another kind, --from takes these off. It needs a C compiler and valgrind.
"""
import argparse
import concurrent.futures
import math
import os
import pathlib
import re
import statistics
import subprocess
import sys
import tempfile

from started import compiled, taken

BUILT = pathlib.Path(__file__).resolve().parent.parent / "crates" / "labsys" / "out" / "labsys"
WORDS = {"play": lambda load: ["play", "TRAIL"], "view": lambda load: ["view", highest_label(load)], "check": lambda load: ["check"]}


def highest_label(load):
    """The text of the highest label of a load's world: its last level with all categories, and its lowest grade."""
    lists = {}
    with open(load, encoding="utf-8") as lines:
        for line in lines:
            word, *names = line.split()
            if word == "bound":
                break
            lists[word] = names
    cats = ":" + ",".join(lists["categories"]) if lists["categories"] else ""
    grade = "/" + lists["grades"][0] if "grades" in lists else ""
    return lists["levels"][-1] + cats + grade


def begin_of(text, call):
    """How many bytes of a load stand before the first call of this name; none without a name."""
    found = call and re.search(rb"^\d+@\S+ %s\b" % call.encode(), text, re.MULTILINE)
    return found.start() if found else 0


def part_of(load, part, begin, folder):
    """A file with the first bytes of a load and, up to a part of its bytes, the lines after these, with the line `script`."""
    text = load.read_bytes()
    first = text[: text.rindex(b"\n", 0, begin + int((len(text) - begin) * part)) + 1]
    path = pathlib.Path(folder) / f"{load.stem}.{part}.in"
    path.write_bytes(first if b"\nscript\n" in first else first + b"script\n")
    return path


def power(sizes, values):
    """The slope of the line that fits the logarithms best."""
    xs, ys = [math.log(size) for size in sizes], [math.log(value) for value in values]
    x, y = statistics.mean(xs), statistics.mean(ys)
    return sum((a - x) * (b - y) for a, b in zip(xs, ys)) / sum((a - x) ** 2 for a in xs)


def ratio(one, other):
    """The text of a ratio, where what is divided by is not too small to tell."""
    return f"{one / other:.1f}" if other else "-"


class Bench:
    """A folder for what the runs write, and the compiled programs of measuring."""

    def __init__(self, folder, old_inputs, runs):
        self.folder = pathlib.Path(folder)
        self.old_inputs = old_inputs
        self.runs = runs
        self.starter = compiled("start", folder)
        self.pieces = compiled("pieces", folder)
        self.counting = concurrent.futures.ThreadPoolExecutor(os.cpu_count())

    def words(self, name, words):
        """The words, with a file of this program for the trail."""
        return [str(self.folder / f"{name}.trail") if word == "TRAIL" else word for word in words]

    def run(self, name, program, words, load):
        """What a run took; its output and its trail stay in files of this name."""
        took = taken(self.starter, [program, *self.words(name, words)], load, self.folder / f"{name}.out", self.folder)
        if took.status != 0:
            sys.exit(f"{program} ends with status {took.status} on {load}")
        return took

    def instructions(self, program, words, load):
        """How many instructions a run takes. It is counted when a processor is free, and not while runs are timed."""
        return self.counting.submit(self.counted, program, words, load)

    def counted(self, program, words, load):
        """How many instructions a run takes."""
        counting = ["valgrind", "--tool=cachegrind", "--cache-sim=no", f"--cachegrind-out-file={os.devnull}", program]
        counting += [os.devnull if word == "TRAIL" else word for word in words]
        with open(load, "rb") as text:
            run = subprocess.run(counting, stdin=text, stdout=subprocess.DEVNULL, stderr=subprocess.PIPE, text=True, check=True)
        return int(re.search(r"refs:\s+([\d,]+)", run.stderr).group(1).replace(",", ""))

    def written(self, name):
        """The bytes that the last run of this name wrote."""
        files = [self.folder / f"{name}.{end}" for end in ("out", "trail")]
        return [file.read_bytes() for file in files if file.exists()]

    def load_of(self, name, load):
        """The load as a program reads it."""
        return self.old_inputs / load.name if name == "plain" and self.old_inputs else load

    def timed(self, load, programs, command):
        """The runs of both programs on a load, and for `play` those of the writes alone."""
        words = WORDS[command](load)
        took = {name: [] for name in [*programs, "pieces"]}
        for _ in range(self.runs):
            for name, program in programs.items():
                took[name].append(self.run(name, program, words, self.load_of(name, load)))
            if command == "play":
                files = [str(self.folder / f"plain.{end}") for end in ("out", "trail")]
                took["pieces"].append(self.run("pieces", self.pieces, [*files, "TRAIL"], load))
        if self.written("plain") != self.written("labsys"):
            sys.exit(f"the programs write different bytes on {load}")
        return took

    def compared(self, loads, programs, command):
        """The rows of the loads: all are timed before the first instructions are counted."""
        timed = {load: self.timed(load, programs, command) for load in loads}
        counts = {load: {name: self.instructions(program, WORDS[command](load), self.load_of(name, load)) for name, program in programs.items()} for load in loads}
        for load, took in timed.items():
            best = {name: min(run.seconds for run in found) for name, found in took.items() if found}
            user = {name: statistics.median(run.user for run in took[name]) for name in programs}
            millions = {name: count.result() / 1e6 for name, count in counts[load].items()}
            mib = {name: max(run.mib for run in took[name]) for name in programs}
            cells = [load.stem]
            for values, form in ((best, "{:.2f}"), (user, "{:.2f}"), (millions, "{:,.0f}"), (mib, "{:.1f}")):
                cells += [f"{form.format(values['labsys'])}, {form.format(values['plain'])}", ratio(values["labsys"], values["plain"])]
            yield cells + ([ratio(best["pieces"], best["plain"])] if command == "play" else [])

    def grown(self, loads, program, command, begins):
        """The rows of how loads grow. Where a call is named, the calls before the first of this name are in each part, and are taken off."""
        parts, seconds = {}, {}
        for load in loads:
            begin = begin_of(load.read_bytes(), begins.get(load.stem))
            parts[load] = begin, [part_of(load, part, begin, self.folder) for part in (*([0] if begin else []), 1 / 8, 1 / 4, 1 / 2, 1)]
            for path in parts[load][1]:
                seconds[path] = min(self.run("labsys", program, WORDS[command](load), path).seconds for _ in range(self.runs))
        counts = {path: self.instructions(program, WORDS[command](load), path) for load, (_, paths) in parts.items() for path in paths}
        for load, (begin, paths) in parts.items():
            least = paths[0] if begin else None
            sizes = [path.stat().st_size - begin for path in paths[-4:]]
            times = [seconds[path] - seconds.get(least, 0) for path in paths[-4:]]
            taken_by = [counts[path].result() - (counts[least].result() if begin else 0) for path in paths[-4:]]
            title = f"{load.stem}, from the first `{begins[load.stem]}` on" if begin else load.stem
            yield [title, ", ".join(f"{time:.2f}" for time in times), f"{power(sizes, times):.2f}", f"{power(sizes, taken_by):.2f}"]


def show(cells):
    """Prints a row."""
    print(f"| {' | '.join(cells)} |", flush=True)


def head(cells):
    """Prints the head of a table."""
    show(cells)
    print("|" + "---|" * len(cells), flush=True)


def main():
    arguments = argparse.ArgumentParser(description=__doc__, formatter_class=argparse.RawDescriptionHelpFormatter)
    arguments.add_argument("--inputs", required=True, action="append", type=pathlib.Path, metavar="FOLDER", help="a folder with loads NAME.in; may be given again")
    arguments.add_argument("--old-inputs", type=pathlib.Path, metavar="FOLDER", help="the loads in the old format, for the plain program")
    arguments.add_argument("--plain", required=True, type=pathlib.Path, metavar="PROGRAM", help="the program to compare with")
    arguments.add_argument("--cmd", default=BUILT, type=pathlib.Path, metavar="PROGRAM", help="labsys; without it, that of the checkout")
    arguments.add_argument("--runs", default=5, type=int, metavar="N")
    arguments.add_argument("--scale", action="store_true", help="print how seconds and instructions grow")
    arguments.add_argument("--from", default=[], action="append", dest="begins", metavar="LOAD=CALL", help="with --scale, how this load grows from the first call of this name on")
    arguments.add_argument("commands", nargs="*", choices=[[], *WORDS], metavar="COMMAND", help="play, view or check")
    given = arguments.parse_args()
    begins = dict(begin.split("=") for begin in given.begins)
    programs = {"labsys": given.cmd.resolve(), "plain": given.plain.resolve()}
    loads = [load for folder in given.inputs for load in sorted(folder.resolve().glob("*.in"))]
    with tempfile.TemporaryDirectory() as folder:
        bench = Bench(folder, given.old_inputs and given.old_inputs.resolve(), given.runs)
        for command in given.commands or WORDS:
            print(f"\n`{command}`:\n")
            if given.scale:
                head(["Load", "Seconds of an eighth, a quarter, a half, the whole", "Power of seconds", "Power of instructions"])
                rows = bench.grown(loads, programs["labsys"], command, begins)
            else:
                pairs = [cell for of in ("Seconds", "User time", "Million instructions", "MiB") for cell in (f"{of} of `labsys`, plain", "Ratio")]
                head(["Load", *pairs, *(["The writes alone"] if command == "play" else [])])
                rows = bench.compared(loads, programs, command)
            for row in rows:
                show(row)


if __name__ == "__main__":
    main()
