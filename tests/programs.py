#!/usr/bin/env python3
"""Plays random programs by `sched`, and compares what it writes with a second reading of turns.

    programs.py --cmd COMMAND [--runs N] [--seed N]

The second reading does not know the calls. It takes each reply and its records from what the command wrote, and says which
process has the next turn and which call its program chooses by its last reply. Then the calls are played as a script by `play`,
which has to write the same output and the same trail. In every other run no process has a capability, so nothing crosses a
label: there the replies to the processes below a label have to stay the same where the other processes and their programs are
left out.
"""
import argparse
import concurrent.futures
import os
import pathlib
import random
import shlex
import subprocess
import sys
import tempfile

LABELS = ["l0", "l1", "l1:a", "l2:a"]
# of each label, the labels that it dominates
BELOW = {"l0": {"l0"}, "l1": {"l0", "l1"}, "l1:a": {"l0", "l1", "l1:a"}, "l2:a": {"l0", "l1", "l1:a", "l2:a"}}
HEAD = "world 2\nlevels l0 l1 l2\ncategories a\nbound all\n"
TREE = 'dir / 0777 0 0 l0\ndir /d 0777 0 0 l0\nfile /f 0666 0 0 l0 "text"\n'
# and a directory of each other label, whose name each process sees
TREE += "".join(f"dir /{label[:2]}{len(label)} 0777 0 0 {label}\n" for label in LABELS[1:])
PATHS = ["/f", "/d", "/d/a", "/d/b", "/l12", "/l12/a", "/l14/a", "/l24", "/l24/a", "/"]
CAPS = ["=", "=", "cap_kill=ep", "cap_mac_read,cap_mac_write=ep", "cap_mac_relabel_subj,cap_mac_upgrade=ep"]
WHENS = ["always", "fresh", "done", "denied", "refused", "number 0", "number 1", "number 4"]
MOST_JUMPS = 64
# calls whose answer is one number, where they are done
NUMBERED = {"open", "dup", "write", "lseek"}


def random_call(dice):
    path, other = dice.choice(PATHS), dice.choice(PATHS)
    return dice.choice([
        "fork", "fork", "getpid", "getppid", "wait", "pipe", f"exit {dice.randrange(4)}", "getids", "umask 7", "cap_get_proc", "mac_get_proc",
        f"mkdir {path} 0777", f"open {path} rwc 0666", f"open {path} r", f"open {path} w", "write 0 \"data\"", "write 1 \"d\"", "read 0 4", "read 1 9",
        "close 0", "close 1", "dup 0", "lseek 0 set 1", f"stat {path}", f"readdir {path}", f"unlink {path}", f"rmdir {path}", f"rename {path} {other}",
        f"mac_get_file {path}", f"chmod {path} 0700", f"mac_set_proc {dice.choice(LABELS)}", f"kill {dice.randrange(1, 4)}@{dice.choice(LABELS)} TERM",
    ])


def random_step(dice):
    kind = dice.random()
    if kind < 0.7:
        return f"do {random_call(dice)}"
    return "stop" if kind > 0.97 else f"jump {dice.choice(WHENS)} {dice.choice([0, 1, 2, 3, 5, 7, 9, 11, 255])}"


class Input:
    """A world with processes of some labels, and programs for some numbers."""

    def __init__(self, dice, plain):
        self.processes = [(dice.choice(LABELS), "=" if plain else dice.choice(CAPS)) for _ in range(dice.randrange(2, 8))]
        self.slices = [dice.choice(LABELS) for _ in range(dice.randrange(2, 7))]
        self.rounds = dice.randrange(1, 40)
        pids = [f"{n}@{label}" for label in LABELS for n in (1, 2, 3)]
        self.programs = {pid: [random_step(dice) for _ in range(dice.randrange(0, 16))] for pid in dice.sample(pids, dice.randrange(6, 13))}

    def world(self, below=None):
        """Its world, or that with the processes below a label alone."""
        seen = BELOW[below] if below else LABELS
        return HEAD + TREE + "".join(f'proc {label} 1 1 - "{caps}"\n' for label, caps in self.processes if label in seen) + "script\n"

    def text(self, below=None):
        seen = BELOW[below] if below else LABELS
        slices = [label for label in self.slices if label in seen]
        programs = "".join(f"program {pid}\n" + "".join(f"{step}\n" for step in steps) + "# the end\n" for pid, steps in self.programs.items() if label_of(pid) in seen)
        return self.world(below) + f"slices {' '.join(slices)}\n\nrounds {self.rounds}\n" + programs


def label_of(pid):
    return pid.split("@", 1)[1]


def number_of(pid):
    return int(pid.split("@", 1)[0])


def last_reply(call, words):
    """What a jump may ask of the words of a reply: a word for it, and the number that it is, or None."""
    if words[0] != "ok":
        return ("denied" if len(words) > 1 else "refused"), None
    one = call in NUMBERED and len(words) == 2
    return "done", int(words[1]) if one else None


def holds(condition, last, number):
    word, *more = condition
    if word == "number":
        return number == int(more[0])
    return word in ("always", last)


class Reading:
    """The turns of an input, by the replies and the records of a run."""

    def __init__(self, given, replies, trail):
        self.programs = given.programs
        self.replies = [line.split(" ") for line in replies]
        self.records = {}
        for line in trail:
            number, *words = line.split(" ")
            if number.isdigit():
                self.records.setdefault(int(number), []).append(words)
        self.last_turns = {}
        self.calls = []
        self.living = {words[1]: (self.steps_of(words[1]), 0, "fresh", None) for words in self.records.get(0, [])}

    def steps_of(self, pid):
        return [step.split(" ") for step in self.programs.get(pid, [])]

    def next_in_turn(self, label):
        numbers = sorted(number_of(pid) for pid in self.living if label_of(pid) == label)
        later = [n for n in numbers if n > self.last_turns.get(label, 0)]
        return (later or numbers or [None])[0]

    def turn(self, label):
        """A turn of a label: what is wrong with it, or nothing."""
        number = self.next_in_turn(label)
        if number is None:
            return None
        self.last_turns[label] = number
        pid = f"{number}@{label}"
        steps, place, last, value = self.living[pid]
        call = None
        jumps = 0
        while call is None and jumps < MOST_JUMPS and place < len(steps) and steps[place] != ["stop"]:
            keyword, *words = steps[place]
            if keyword == "do":
                call, place = words, place + 1
            else:
                place = int(words[-1]) if holds(words[:-1], last, value) else place + 1
                jumps += 1
        self.living[pid] = (steps, place, last, value)
        return None if call is None else self.take(pid, call)

    def take(self, pid, call):
        """Takes the next reply, which has to be that to this call."""
        at = len(self.calls)
        self.calls.append(f"{pid} {' '.join(call)}\n")
        if at >= len(self.replies):
            return f"no reply {at + 1}, to {pid} {' '.join(call)}"
        who, word, *words = self.replies[at]
        if (who, word) != (pid, call[0]):
            return f"reply {at + 1} is to {who} {word}, and {pid} {' '.join(call)} is due"
        steps, place, _, _ = self.living[pid]
        last, value = last_reply(word, words)
        self.living[pid] = (steps, place, last, value)
        for kind, *more in self.records.get(at + 1, []):
            if kind == "fork":
                self.living[more[1]] = (steps, place, "fresh", None)
            elif kind == "exit":
                del self.living[more[0]]
        return None


def run(command, words, text):
    """The status, the output and the trail of a run."""
    with tempfile.TemporaryDirectory() as folder:
        path = pathlib.Path(folder, "trail")
        done = subprocess.run([*command, *words, str(path)], input=text.encode(), stdout=subprocess.PIPE, check=False)
        trail = path.read_text(encoding="utf-8") if path.exists() else ""
        return done.returncode, done.stdout.decode(), trail


def faults_of_turns(given, out, trail):
    """What is wrong with the turns of a run, and the script that its programs chose."""
    lines = out.splitlines()
    replies = [line for line in lines[:-1] if not line.startswith("end ")]
    reading = Reading(given, replies, trail.splitlines())
    faults = []
    for label in given.slices * given.rounds:
        fault = reading.turn(label)
        if fault:
            return [fault], reading.calls
    if lines[-1] != f"done {len(reading.calls)}" or len(replies) != len(reading.calls):
        faults.append(f"{len(reading.calls)} calls are due, and the run ends with {lines[-1]}")
    living = [line.split(" ")[1] for line in lines[:-1] if line.startswith("end ")]
    if sorted(living) != sorted(reading.living):
        faults.append(f"{sorted(reading.living)} live, and the end lines are of {living}")
    return faults, reading.calls


def faults_below(command, given, out, label):
    """What is wrong with a run without capabilities, as a label sees it."""
    if not BELOW[label] & set(given.slices):
        return []
    status, alone, _ = run(command, ["sched"], given.text(label))
    seen = [line for line in out.splitlines()[:-1] if label_of(line.removeprefix("end ").split(" ")[0]) in BELOW[label]]
    return [] if (status, seen) == (0, alone.splitlines()[:-1]) else [f"below {label} other lines are written where nothing else is there"]


def faults_of(command, seed):
    dice = random.Random(seed)
    plain = seed % 2 == 0
    given = Input(dice, plain)
    status, out, trail = run(command, ["sched"], given.text())
    if status != 0:
        return [f"status {status}"], given
    faults, calls = faults_of_turns(given, out, trail)
    if not faults and run(command, ["play"], given.world() + "".join(calls)) != (0, out, trail):
        faults.append("play of the chosen script writes something else")
    if not faults and plain:
        faults += [fault for label in LABELS for fault in faults_below(command, given, out, label)]
    return faults, given


def main():
    parser = argparse.ArgumentParser(description="Plays random programs, and compares their turns with those of a second reading.")
    parser.add_argument("--cmd", required=True, help="the command and its first words, as a shell would split them")
    parser.add_argument("--runs", type=int, default=1000, help="how many inputs are played")
    parser.add_argument("--seed", type=int, default=0, help="the seed of the first input")
    options = parser.parse_args()
    command = shlex.split(options.cmd)
    seeds = range(options.seed, options.seed + options.runs)
    count = 0
    with concurrent.futures.ThreadPoolExecutor(os.cpu_count() or 1) as pool:
        for seed, (faults, given) in zip(seeds, pool.map(lambda seed: faults_of(command, seed), seeds)):
            count += len(faults)
            if faults:
                print("".join(f"seed {seed}: {fault}\n" for fault in faults) + given.text())
    print(f"{len(seeds)} inputs of programs, {count} faults")
    sys.exit(1 if count else 0)


if __name__ == "__main__":
    main()
