#!/usr/bin/env python3
"""Reads trails by `select` and `lineage`, and compares what they write with a second reading of the same trails.

    trails.py --cmd COMMAND

The trails are those that `play` writes of all cases and examples. `lineage` says `yes` of each, and `select` writes of each
record the line of JSON that is made of its words here, and that Python reads back. Then single words of one worked trail
are turned, each into others of its kind, and the answer of `lineage` is compared with that of a second checker.
"""
import argparse
import concurrent.futures
import itertools
import json
import os
import pathlib
import re
import shlex
import subprocess
import sys
import tempfile

from run_cases import read_case

TOP = pathlib.Path(__file__).resolve().parent.parent
WORD = re.compile(r'"(?:[^"\\]|\\.)*"|[^ ]+')
SPECS = TOP / "crates" / "cap_bits" / "specs"
NAMES = re.findall(r'^cap_name .*"(cap_\w+)"', (SPECS / "Cap.antt").read_text(encoding="utf-8"), re.M)

# the keys of the words after the process, by the word of the record
KEYS = {
    "boot": ["label", "caps"],
    "fork": ["child"],
    "exec": ["object", "file", "caps"],
    "exit": ["kind", "value"],
    "cap_set_proc": ["caps"],
    "cap_set_file": ["object", "caps"],
    "mac_set_proc": ["old", "new"],
    "mac_set_file": ["object", "old", "new"],
    "exercise": ["label", "cap", "check", "thing", "thing_label", "new", "place"],
    "deny": ["name", "errno", "check", "place"],
    "switch": ["state"],
    "note": ["bytes"],
}

# a trail with records of each kind, whose words are turned
WORKED = """\
trail 1
levels unc sec
categories a
bound cap_kill,cap_setgid,cap_audit_control
0 boot 1@unc unc "cap_kill=ep cap_setgid=i"
0 boot 1@sec:a sec:a "="
1 fork 1@unc 2@unc
2 exec 2@unc 2@unc "cap_kill=ep cap_setgid=ei" "cap_kill=ep cap_setgid=eip"
3 exercise 2@unc unc cap_kill kill proc:1@unc unc - pid
4 cap_set_proc 2@unc "cap_kill=ep"
5 exercise 2@unc unc cap_kill kill proc:1@unc unc - pid
6 fork 2@unc 3@unc
6 exit 2@unc exit 3
7 exercise 3@unc unc cap_kill kill proc:1@unc unc - pid
8 deny 1@sec:a open EACCES mac_read p1
9 mac_set_proc 3@unc unc sec
10 mac_set_file 3@unc 2@unc unc sec
11 cap_set_file 3@unc 2@unc "cap_kill=ep"
12 switch 3@unc off
13 note 3@unc "x\\\\ \\x0a"
14 exec 1@unc 2@unc "cap_kill=i cap_audit_control=ep" "cap_setgid=i cap_audit_control=ep"
"""

# words of one kind, any of which may stand in the place of another
KINDS = [
    ["1@unc", "2@unc", "3@unc", "4@unc", "1@sec:a", "1@sec"],
    [
        '"="', '"cap_kill=p"', '"cap_kill=ep"', '"cap_kill=eip"', '"cap_kill=ei"', '"cap_kill=ep cap_setgid=i"', '"all=eip"',
        '"cap_kill=ep cap_setgid=eip"', '"cap_kill=ep cap_setgid=ei"', '"cap_setgid=i cap_audit_control=ep"', '"cap_audit_control=ep"',
    ],
    ["cap_kill", "cap_setgid", "cap_audit_control"],
    ["unc", "unc:a", "sec", "sec:a"],
    ["kill", "mac_read", "setgid"],
    ["proc:1@unc", "obj:9@sec"],
    ["pid", "p1", "q2", "fd"],
    ["EACCES", "EPERM"],
    ["open", "mac_set_fd"],
    ["on", "off"],
]


def words_of(line):
    return WORD.findall(line)


def records_of(trail):
    """The records of a trail, each as its words, and how many lines are before them."""
    lines = trail.splitlines()
    head = next(i for i, line in enumerate(lines) if line.startswith("bound ")) + 1
    return head, [words_of(line) for line in lines[head:]]


def bare(word):
    return word[1:-1] if word.startswith('"') else word


def object_of(words):
    """The value that the JSON line of a record has."""
    call, event, pid, *rest = words
    keys = dict(zip(KEYS[event], (None if key == "new" and word == "-" else bare(word) for key, word in zip(KEYS[event], rest))))
    return {"call": int(call), "event": event, "pid": pid, **keys}


def names_in(text):
    """The capabilities of a list of names."""
    return set() if text == "none" else set(NAMES) if text == "all" else set(text.split(","))


def sets_of(word):
    """The effective, inheritable and permitted set of a quoted capability text in its canonical form."""
    sets = {"e": set(), "i": set(), "p": set()}
    for clause in bare(word).split():
        names, flags = clause.split("=")
        for flag in flags:
            sets[flag] |= names_in(names)
    return sets


def after_exec(old, file, bound):
    permitted = file["p"] & bound | file["i"] & old["i"]
    return {"e": permitted if file["e"] else set(), "i": old["i"], "p": permitted}


def may_become(old, new):
    return new["p"] <= old["p"] and new["e"] <= new["p"] and new["i"] <= old["i"] | old["p"]


def fault_of(sets, bound, words):
    """Why a record cannot follow, by the capability sets of the processes that are known, which it changes where it can."""
    event, pid, rest = words[1], words[2], words[3:]
    if event == "boot":
        if pid in sets:
            return "number"
        sets[pid] = sets_of(rest[1])
    elif pid not in sets:
        return "unknown"
    elif event == "fork":
        if rest[0] in sets:
            return "number"
        sets[rest[0]] = sets[pid]
    elif event == "exec":
        if sets_of(rest[2]) != after_exec(sets[pid], sets_of(rest[1]), bound):
            return "exec"
        sets[pid] = sets_of(rest[2])
    elif event == "cap_set_proc":
        if not may_become(sets[pid], sets_of(rest[0])):
            return "grow"
        sets[pid] = sets_of(rest[0])
    elif event == "exercise" and rest[1] not in sets[pid]["e"]:
        return "exercise"
    return None


def lineage_of(trail):
    """What `lineage` is to write of a trail that is accepted."""
    head, records = records_of(trail)
    bound = names_in(trail.splitlines()[head - 1].split()[1])
    sets = {}
    for at, words in enumerate(records):
        why = fault_of(sets, bound, words)
        if why:
            return f"no {head + at + 1} {why}\n"
    return f"yes {len(records)}\n"


def run(command, words, text):
    done = subprocess.run(command + words, input=text, stdout=subprocess.PIPE, timeout=120, check=False)
    return done.returncode, done.stdout


def inputs():
    """The inputs of all cases of `play` and of all examples, each with its name."""
    for path in sorted((TOP / "tests" / "cases").rglob("*.case")):
        case = read_case(path)
        if case["words"][:1] == ["play"] and len(case["input"]) < 1 << 20:
            yield path.name, case["input"]
    for path in sorted((TOP / "examples").glob("*.txt")):
        yield path.name, path.read_bytes()


def faults_of_own_trail(command, name, text):
    """What is wrong with the answers about the trail that `play` writes of an input."""
    with tempfile.TemporaryDirectory() as folder:
        path = pathlib.Path(folder, "trail")
        run(command, ["play", str(path)], text)
        if not path.exists():
            return []
        trail = path.read_bytes()
    records = records_of(trail.decode())[1]
    faults = []
    if run(command, ["lineage"], trail) != (0, b"yes %d\n" % len(records)):
        faults.append(f"{name}: lineage does not accept its trail")
    lines = "".join(json.dumps(object_of(words), sort_keys=True, separators=(",", ":")) + "\n" for words in records)
    status, out = run(command, ["select", "all"], trail)
    if (status, out.decode()) != (0, f"{lines}done {len(records)}\n"):
        faults.append(f"{name}: select all writes other lines")
    elif [json.loads(line) for line in out.splitlines()[:-1]] != [object_of(words) for words in records]:
        faults.append(f"{name}: the lines are read back as other values")
    return faults


def turned_trails():
    """The worked trail with single words turned into others of their kind, one line left out, or one line twice."""
    lines = WORKED.splitlines(keepends=True)
    for at, line in enumerate(lines[4:], 4):
        words = words_of(line.rstrip("\n"))
        for place, word in enumerate(words[2:], 2):
            others = next((kind for kind in KINDS if word in kind), [])
            for other in others:
                yield "".join(lines[:at] + [" ".join(words[:place] + [other] + words[place + 1:]) + "\n"] + lines[at + 1:])
        yield "".join(lines[:at] + lines[at + 1:])
        yield "".join(lines[:at + 1] + lines[at:])
    for bound in ["none", "all", "cap_kill", "cap_setgid,cap_audit_control"]:
        yield "".join(lines[:3] + [f"bound {bound}\n"] + lines[4:])


def faults_of_turned(command, trail):
    status, out = run(command, ["lineage"], trail.encode())
    if (status, out.decode()) == (0, lineage_of(trail)):
        return []
    return [f"wanted {lineage_of(trail)!r}, got {status} {out!r} of\n{trail}"]


def main():
    parser = argparse.ArgumentParser(description="Reads trails by select and lineage, and compares the answers.")
    parser.add_argument("--cmd", required=True, help="the command and its first words, as a shell would split them")
    command = shlex.split(parser.parse_args().cmd)
    turned = sorted(set(turned_trails()))
    with concurrent.futures.ThreadPoolExecutor(os.cpu_count() or 1) as pool:
        own = list(pool.map(lambda pair: faults_of_own_trail(command, *pair), inputs()))
        others = list(pool.map(lambda trail: faults_of_turned(command, trail), turned))
    faults = list(itertools.chain(*own, *others))
    print("".join(f"{fault}\n" for fault in faults), end="")
    print(f"{len(own)} trails of runs and {len(turned)} turned trails, {len(faults)} faults")
    sys.exit(1 if faults else 0)


if __name__ == "__main__":
    main()
