#!/usr/bin/env python3
"""Narrows worlds by `least`, and plays what it writes with the script after it.

    least.py --cmd COMMAND

The inputs are those of all cases and examples, and small ones that are made from seeds. Where `play` accepts an input and no
line of its script asks for capability sets, `least` does too. What it drops is named by no exercise of the trail, what its
world still has is, and that world with the same script gets the same replies. Where a line asks, that line is refused. In a worked
input each capability that is kept is needed: without it the replies are others.
"""
import argparse
import concurrent.futures
import itertools
import os
import pathlib
import random
import re
import shlex
import subprocess
import sys
import tempfile

from run_cases import read_case

TOP = pathlib.Path(__file__).resolve().parent.parent
SPECS = TOP / "crates" / "cap_bits" / "specs"
NAMES = re.findall(r'^cap_name .*"(cap_\w+)"', (SPECS / "Cap.antt").read_text(encoding="utf-8"), re.M)
ASKING = {b"cap_get_file", b"cap_set_file", b"cap_get_fd", b"cap_set_fd", b"cap_get_proc", b"cap_set_proc", b"getfcap", b"setfcap"}
MADE = 300
MOST_BYTES = 1 << 24
MOST_IN_LINE = 2048

# each of these capabilities is needed by one call
WORKED = """\
world 2
levels unc conf sec
categories a b
bound all
dir / 0777 0 0 unc
file /mine 0644 11 11 unc ""
file /sec 0644 10 10 sec "hello"
proc unc 10 10 - "%s=ep"
proc unc 11 11 - "cap_link_dir=p"
script
1@unc chown /mine 10 10
1@unc kill 2@unc 0
1@unc mac_get_file /sec
1@unc setuid 12
"""
NEEDED = ["cap_chown", "cap_kill", "cap_setuid", "cap_mac_read"]


def run(command, words, given):
    """The exit status of a command, what it writes, and the trail where it plays."""
    with tempfile.TemporaryDirectory() as folder:
        trail = pathlib.Path(folder) / "trail"
        words = words + [str(trail)] if words == ["play"] else words
        done = subprocess.run(command + words, input=given, stdout=subprocess.PIPE, timeout=60)
        return done.returncode, done.stdout, trail.read_bytes() if trail.exists() else b""


def script_of(given):
    """What stands after the line `script`."""
    lines = given.splitlines(keepends=True)
    at = next(i for i, line in enumerate(lines) if line.split() == [b"script"])
    return b"".join(lines[at + 1:])


def asks(script):
    """Whether a line of a script asks for capability sets."""
    return any(len(line.split()) > 1 and line.split()[1] in ASKING for line in script.splitlines() if not line.startswith(b"#"))


def replies(out):
    """The replies in an output, without the end lines and the last line."""
    return [line for line in out.splitlines()[:-1] if not line.startswith(b"end ")]


def exercised(trail):
    """The capabilities that the exercises of a trail name."""
    return {line.split()[4].decode() for line in trail.splitlines() if line.split()[1:2] == [b"exercise"]}


def named_in(text):
    """The capabilities that a text in canonical form names, outside the contents of files."""
    words = re.findall(r"\bcap_\w+|\ball\b", re.sub(r'^(file \S+ \S+ \S+ \S+ \S+ )"(?:[^"\\]|\\.)*"', r"\1", text, flags=re.M))
    return set(NAMES) if "all" in words else set(words)


def faults_of_input(command, name, given):
    """What is wrong with what `least` writes of an input."""
    status, out, trail = run(command, ["play"], given)
    if status != 0:
        return []
    script = script_of(given)
    least_status, least_out, _ = run(command, ["least"], given)
    if asks(script):
        refused = re.fullmatch(rb"refused \d+ script caps_asked\n", least_out)
        return [] if least_status == 2 and refused else [f"{name}: a line that asks is not refused: {least_status} {least_out!r}"]
    first, _, world = least_out.decode().partition("\n")
    if least_status != 0 or not first.startswith("# never needed "):
        return [f"{name}: status {least_status}, {first!r}"]
    used, dropped, kept = exercised(trail), named_in(first), named_in(world)
    if dropped & used or kept - used:
        return [f"{name}: {sorted(dropped)} dropped and {sorted(kept)} kept where {sorted(used)} were exercised"]
    again = least_out + script
    if len(again) > MOST_BYTES or any(len(line) > MOST_IN_LINE for line in again.splitlines()):
        return []
    status, narrow_out, _ = run(command, ["play"], again)
    if status != 0 or replies(narrow_out) != replies(out):
        return [f"{name}: the replies of the narrowed world are others"]
    return []


def inputs():
    """The inputs of cases and examples, each with its name."""
    for path in sorted((TOP / "tests" / "cases").rglob("*.case")):
        case = read_case(path)
        if case["words"][:1] in (["play"], ["view"], ["check"]) and len(case["input"]) < 1 << 20:
            yield path.stem, case["input"]
    for path in sorted((TOP / "examples").glob("*.txt")):
        yield path.stem, path.read_bytes()


def caps_of(pick, actions):
    """A text of capabilities with the same action, or none."""
    names = sorted(pick.sample(NAMES, pick.choice([0, 1, 3, 6, 12, 18])), key=NAMES.index)
    return f"{','.join(names)}={pick.choice(actions)}" if names else "="


def made_world(pick):
    """The lines of a small world."""
    levels = ["unc", "conf", "sec"]
    names = pick.sample(NAMES, pick.randrange(len(NAMES)))
    yield "world 2\nlevels unc conf sec\ncategories a\nbound " + (",".join(names) or "none")
    yield "dir / 0777 0 0 unc"
    yield f"dir /d {pick.choice(['0777', '0700', '0755'])} 10 10 {pick.choice(levels)}"
    for name in ("f", "g", "p", "q"):
        mode = pick.choice(["0644", "0600", "4755", "2755", "0755", "0777"])
        yield f'file /{name} {mode} {pick.choice([0, 10, 11])} 10 {pick.choice(levels)} "x" "{caps_of(pick, ["ep", "ei", "eip", "p"])}"'
    for level in (*levels, "unc"):
        yield f'proc {level} {pick.choice([0, 10, 11])} 10 - "{caps_of(pick, ["ep", "ep", "eip", "p", "i"])}"'
    yield "script"


def made_call(pick):
    """A call of some process, that does not ask for capability sets."""
    path, other = (pick.choice(["/f", "/g", "/p", "/q", "/d", "/d/x", "/"]) for _ in range(2))
    label, user = pick.choice(["unc", "conf", "sec", "sec:a"]), pick.choice([0, 10, 11])
    who = pick.choice(["1@unc", "2@unc", "3@unc", "1@conf", "1@sec"])
    target = pick.choice(["1@unc", "2@unc", "1@conf", "1@sec"])
    call = pick.choice([
        f"open {path} {pick.choice(['r', 'w', 'rw'])}", "read 0 10", 'write 0 "y"', f"stat {path}", f"readdir {path}", f"mkdir {path}/y 0755",
        f"rmdir {path}", f"link {path} {other}l", f"unlink {path}", f"rename {path} {other}r", f"chmod {path} {pick.choice(['0600', '4711', '2770'])}",
        f"chown {path} {user} 10", f"mac_get_file {path}", f"mac_set_file {path} {label}", f"setfmac {label} {path} {other}", f"getfmac {path} {other}",
        f"exec {path}", "fork", f"kill {target} {pick.choice(['0', 'TERM', 'KILL'])}", f"setuid {user}", f"setgid {user}", f"mac_set_proc {label}", "getids",
        'aud_write "n"', "aud_switch off", "exit 1", "wait", f"chdir {path}",
    ])
    return f"{who} {call}"


def made_input(seed):
    """An input that a seed gives."""
    pick = random.Random(seed)
    lines = [*made_world(pick), *(made_call(pick) for _ in range(pick.randrange(40)))]
    return f"seed {seed}", "".join(f"{line}\n" for line in lines).encode()


def faults_of_worked(command):
    """What is wrong with the worked input: what is kept of it is needed, one as the other."""
    whole = (WORKED % ",".join(NEEDED)).encode()
    status, out, _ = run(command, ["play"], whole)
    _, least_out, _ = run(command, ["least"], (WORKED % "all").encode())
    if status != 0 or named_in(least_out.decode().partition("\n")[2]) != set(NEEDED):
        yield f"worked: {least_out.decode()!r}"
    for name in NEEDED:
        rest = (WORKED % ",".join(other for other in NEEDED if other != name)).encode()
        if replies(run(command, ["play"], rest)[1]) == replies(out):
            yield f"worked: the replies are the same without {name}"


def main():
    parser = argparse.ArgumentParser(description="Narrows worlds by least, and plays what it writes.")
    parser.add_argument("--cmd", required=True, help="the command and its first words, as a shell would split them")
    command = shlex.split(parser.parse_args().cmd)
    given = [*inputs(), *(made_input(seed) for seed in range(MADE))]
    with concurrent.futures.ThreadPoolExecutor(os.cpu_count() or 1) as pool:
        found = list(pool.map(lambda pair: faults_of_input(command, *pair), given))
    faults = [*itertools.chain(*found), *faults_of_worked(command)]
    print("".join(f"{fault}\n" for fault in faults), end="")
    print(f"{len(given)} inputs, {len(faults)} faults")
    sys.exit(1 if faults else 0)


if __name__ == "__main__":
    main()
