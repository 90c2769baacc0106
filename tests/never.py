#!/usr/bin/env python3
"""Plays random scripts on random worlds, and compares their trails with what `never` says of each world.

    never.py --cmd COMMAND [--worlds N] [--scripts N]

No record of a trail may be an exercise of a capability of the line `never`, and none may cross a label of a line `uncrossed`, which
`view` of this label shows too. It counts how many labels are uncrossed and open, and how many of the open ones some script crosses.
The scripts have 200 calls. By default 12 worlds are made with 6 scripts each, and with the variable NEVER_WHOLE set 100 with 500.
"""
import argparse
import concurrent.futures
import os
import pathlib
import random
import shlex
import subprocess
import sys
import tempfile
from collections import Counter

from least import NAMES

LEVELS = ["low", "mid", "high"]
CATEGORIES = ["a", "b"]
GRADES = ["weak", "strong"]
LABELS = ["low", "low", "low:a", "mid", "mid:a", "mid:b", "mid/weak", "high:a,b", "high/weak"]
OVER_LABELS = [name for name in NAMES if name.startswith("cap_mac_")]
UPWARD = ["cap_mac_read", "cap_mac_upgrade"]
HEAD = f"world 2\nlevels {' '.join(LEVELS)}\ncategories {' '.join(CATEGORIES)}\ngrades {' '.join(GRADES)}\n"
CALLS = 200
WHOLE = bool(os.environ.get("NEVER_WHOLE"))


def label_of(text):
    """A label by its text: its level, its categories, and its grade, which is the highest where the text has none."""
    rest, _, grade = text.partition("/")
    level, _, categories = rest.partition(":")
    return LEVELS.index(level), frozenset(categories.split(",")) - {""}, GRADES.index(grade or GRADES[-1])


def dominates(one, other):
    """Whether a label dominates another one, by their texts."""
    (level, categories, grade), (low, few, better) = label_of(one), label_of(other)
    return level >= low and categories >= few and grade <= better


def crosses(record, label):
    """Whether the words of a record are an exercise that crosses a label."""
    if record[1] != "exercise" or record[4] not in OVER_LABELS:
        return False
    return len({dominates(label, text) for text in (record[3], record[7], record[8]) if text != "-"}) == 2


def caps_of(pick, over_labels, actions):
    """A text of capabilities: some of the five over labels, some others, or none."""
    others = pick.sample([name for name in NAMES if name not in OVER_LABELS], pick.choice([0, 0, 1, 3]))
    names = sorted({*others, *over_labels}, key=NAMES.index)
    return f"{','.join(names)}={pick.choice(actions)}" if names else "="


def some_over_labels(pick):
    """Some of the five capabilities over labels, often none, and often such as only read or move up."""
    return pick.choice([[], [], [pick.choice(UPWARD)]]) if pick.random() < 0.9 else pick.sample(OVER_LABELS, pick.randrange(1, 4))


def made_world(pick):
    """The labels of the processes of a world in the order of its lines, and its text."""
    bound = pick.choice([["all"], ["all"], pick.sample(NAMES, 12)])
    lines = [f"bound {','.join(bound)}", "dir / 0777 0 0 low", f"dir /d 0777 10 10 {pick.choice(LABELS)}"]
    trusted = pick.random() < 0.8
    for name in ("f", "g", "p", "q"):
        over = some_over_labels(pick) if trusted and name in "pq" else []
        lines.append(f'file /{name} {pick.choice(["0644", "0666", "4755", "0777"])} 10 10 {pick.choice(LABELS)} "x" '
                     f'"{caps_of(pick, over, ["ep", "ei", "eip", "p", "i"])}"')
    labels = [pick.choice(LABELS) for _ in range(pick.randrange(2, 6))]
    for label in labels:
        over = some_over_labels(pick) if trusted and label_of(label)[0] else []
        lines.append(f'proc {label} {pick.choice([0, 10, 11])} 10 - "{caps_of(pick, over, ["ep", "eip", "p", "i"])}"')
    return labels, HEAD + "".join(f"{line}\n" for line in lines)


def made_call(pick, processes):
    """A call of some process, or of a child of one."""
    path, other = (pick.choice(["/f", "/g", "/p", "/q", "/d", "/d/x", "/d/y"]) for _ in range(2))
    label, caps = pick.choice(LABELS), caps_of(pick, some_over_labels(pick), ["ep", "eip", "p", "i"])
    call = pick.choice([
        f"open {path} {pick.choice(['r', 'w', 'rw', 'rwc 0666'])}", "read 0 10", 'write 0 "y"', "close 0", f"stat {path}", f"readdir {path}",
        f"mkdir {path} 0777", f"link {path} {other}", f"unlink {path}", f"rename {path} {other}", f"chmod {path} {pick.choice(['0666', '4777'])}",
        f"chown {path} 10 10", f"mac_get_file {path}", f"mac_set_file {path} {label}", f"mac_set_fd 0 {label}", f"mac_set_proc {label}",
        "mac_get_proc", f"exec {path}", f"exec {path}", "fork", f"kill {pick.choice(processes)} TERM", f"setuid {pick.choice([0, 10])}",
        f'cap_set_proc "{caps}"', f'cap_set_file {path} "{caps}"', f"cap_get_file {path}", f'setfcap "{caps}" {path}', f"setfmac {label} {path}",
    ])
    return f"{pick.choice(processes)} {call}\n"


def processes_of(labels):
    """The tags of the processes of a world, and of as many more with these labels."""
    counts = Counter(labels)
    return [f"{number}@{label}" for label, count in counts.items() for number in range(1, 2 * count + 1)]


def run(command, words, given):
    """What a command writes."""
    return subprocess.run(command + words, input=given.encode(), stdout=subprocess.PIPE, timeout=120, check=True).stdout.decode()


def said_of(command, world):
    """What `never` says of a world: the capabilities that no script exercises, and the labels by their words."""
    said = {"never": set(), "uncrossed": [], "open": []}
    for line in run(command, ["never"], f"{world}script\n").splitlines():
        word, rest = line.split()[0], line.split()[-1]
        if word == "never":
            said["never"] = set({"all": NAMES, "none": []}.get(rest, rest.split(",")))
        elif word in said:
            said[word].append(rest)
    return said


def records_of(command, given):
    """The records of the trail of an input, each as its words."""
    with tempfile.TemporaryDirectory() as folder:
        trail = pathlib.Path(folder) / "trail"
        run(command, ["play", str(trail)], given)
        return [line.split() for line in trail.read_text(encoding="latin-1").splitlines()[4:]]


def faults_of_world(command, seed, scripts):
    """What is wrong with what is said of a world, how many labels are uncrossed and open, and how many open ones were crossed."""
    pick = random.Random(seed)
    labels, world = made_world(pick)
    said, faults, crossed = said_of(command, world), [], set()
    if {*said["uncrossed"], *said["open"]} != set(labels):
        faults.append(f"world {seed}: labels {said}")
    for number in range(scripts):
        given = f"{world}script\n" + "".join(made_call(pick, processes_of(labels)) for _ in range(CALLS))
        for record in records_of(command, given):
            if record[1] == "exercise" and record[4] in said["never"]:
                faults.append(f"world {seed}, script {number}: an exercise of {record[4]}")
            faults += [f"world {seed}, script {number}: {' '.join(record)} crosses {label}" for label in said["uncrossed"] if crosses(record, label)]
            crossed |= {label for label in said["open"] if crosses(record, label)}
        if number == 0:
            faults += [f"world {seed}: view {label} crosses" for label in said["uncrossed"] if "crossed" in run(command, ["view", label], given).splitlines()]
    return faults, len(said["uncrossed"]), len(said["open"]), len(crossed)


def main():
    parser = argparse.ArgumentParser(description="Plays random scripts on random worlds, and compares their trails with what never says.")
    parser.add_argument("--cmd", required=True, help="the command and its first words, as a shell would split them")
    parser.add_argument("--worlds", type=int, default=100 if WHOLE else 12, help="how many worlds are made")
    parser.add_argument("--scripts", type=int, default=500 if WHOLE else 6, help="how many scripts are played on each")
    words = parser.parse_args()
    command = shlex.split(words.cmd)
    with concurrent.futures.ThreadPoolExecutor(os.cpu_count() or 1) as pool:
        found = list(pool.map(lambda seed: faults_of_world(command, seed, words.scripts), range(words.worlds)))
    faults = [fault for each in found for fault in each[0]]
    uncrossed, opened, crossed = (sum(each[at] for each in found) for at in (1, 2, 3))
    print("".join(f"{fault}\n" for fault in faults), end="")
    print(f"{words.worlds * words.scripts} scripts on {words.worlds} worlds, {len(faults)} faults: {uncrossed} labels uncrossed, {opened} open,"
          f" of which {crossed} were crossed")
    sys.exit(1 if faults else 0)


if __name__ == "__main__":
    main()
