#!/usr/bin/env python3
"""Runs a command on cases, and compares its exit status and each byte of its output and its trail.

    run_cases.py --cmd COMMAND [--out-only] [--calls LIST] [--summary] [FOLDER or FILE ...]

Without a folder or file it runs every case below the folder of this script. With --out-only
status and output are compared, and neither the trail nor which files are made. With --calls
it runs the cases of which the scripts have these calls alone; a utility counts as the call
that it makes. With --summary it writes how many replies were the same, by call and answer.

A command may answer ENOSYS to a call that it has not. Where another reply is wanted, what
comes from there on is not compared, and the case is counted as skipped.

A case is a text file. It has these sections, in this order, each after a line `== NAME`:

    == note       one sentence: what the case shows; may be absent
    == words      the words of the command line, one on each line
    == input      the bytes of standard input
    == status     the exit status
    == out        the bytes of standard output
    == trail      the bytes of the file that the second word names; absent where the
                  command may make no file

A title `== input, without the last newline` drops the last line feed of the section. A
title `== input from` has one line of Python after it, whose value is the bytes; `== out
from` and `== trail from` likewise.

The command runs in an empty temporary folder of its own.
"""
import argparse
import collections
import concurrent.futures
import difflib
import os
import shlex
import subprocess
import sys
import tempfile

UTILITIES = {"getfcap": "cap_get_file", "setfcap": "cap_set_file", "getfmac": "mac_get_file", "setfmac": "mac_set_file"}
MISSING = b"ENOSYS"
ORDER = ["note", "words", "input", "status", "out", "trail"]
SHOWN = 12


class BadCase(Exception):
    pass


# of a case that was run: lines that say what is wrong, none where it passed; whether a reply ENOSYS ended the comparison; and how often
# the replies to each call with each answer were the same, different or skipped
Ran = collections.namedtuple("Ran", "wrong skipped replies", defaults=[False, collections.Counter()])


def read_case(path):
    """The sections by their names, as bytes; `words` is a list and `status` a number."""
    with open(path, "rb") as f:
        lines = f.read().split(b"\n")
    if lines[-1] != b"":
        raise BadCase("the file does not end with a newline")
    parts, name = [], None
    for line in lines[:-1]:
        if line.startswith(b"== "):
            parts.append([line[3:].decode(), []])
        elif not parts:
            raise BadCase("text before the first section")
        else:
            parts[-1][1].append(line + b"\n")
    got = {}
    for title, body in parts:
        text = b"".join(body)
        base = title
        if title == "input, without the last newline":
            base = "input"
            if not text.endswith(b"\n"):
                raise BadCase("nothing to drop in " + title)
            text = text[:-1]
        elif title.endswith(" from"):
            base = title[:-5]
            if base not in ("input", "out", "trail") or len(body) != 1:
                raise BadCase("section " + title)
            text = eval(text.decode().strip(), {}, {})
            if not isinstance(text, bytes):
                raise BadCase("%s gives no bytes" % title)
        if base not in ORDER or (got and ORDER.index(base) <= ORDER.index(list(got)[-1])):
            raise BadCase("section out of order: " + title)
        got[base] = text
    for need in ("words", "input", "status", "out"):
        if need not in got:
            raise BadCase("no section " + need)
    got["words"] = [w.decode() for w in got["words"].split(b"\n")[:-1]]
    got["status"] = int(got["status"])
    return got


def diff(name, want, got):
    if want == got:
        return []
    lines = list(difflib.unified_diff(want.decode("latin-1").split("\n"), got.decode("latin-1").split("\n"),
                                      name + " wanted", name + " got", "", "", 1, "")
                 if len(want) + len(got) < 200000 else first_difference(want, got))
    more = len(lines) - SHOWN
    return ["    " + (x if len(x) < 200 else x[:200] + " ...") for x in lines[:SHOWN]] + \
        (["    ... and %d more lines of difference" % more] if more > 0 else [])


def first_difference(want, got):
    a, b = want.split(b"\n"), got.split(b"\n")
    for i in range(max(len(a), len(b))):
        x, y = a[i] if i < len(a) else None, b[i] if i < len(b) else None
        if x != y:
            return ["line %d" % (i + 1), "-%s" % (x if x is None else x.decode("latin-1")),
                    "+%s" % (y if y is None else y.decode("latin-1"))]
    return []


def calls_of(case):
    """The calls of the script of a case, or of its programs; words that are no calls are there too."""
    script = case["input"].partition(b"\nscript\n")[2].decode("latin-1").split("\n")
    words = (line.split() for line in script if not line.lstrip().startswith("#"))
    return {UTILITIES.get(line[1], line[1]) for line in words if len(line) > 1}


def missing_at(want, got):
    """The place of the first line with the reply ENOSYS where another one is wanted; None where there is none."""
    for at, line in enumerate(got.split(b"\n")):
        if line.endswith(b" " + MISSING) and b"@" in line.split(b" ")[0] and line not in want.split(b"\n")[at:at + 1]:
            return at
    return None


def up_to(text, count):
    """The first lines of an output."""
    return b"\n".join(text.split(b"\n")[:count])


def records_up_to(trail, count):
    """The lines of a trail up to the records of so many calls."""
    lines = trail.split(b"\n")
    number = [line.split(b" ")[0] for line in lines]
    return b"\n".join(line for line, n in zip(lines, number) if not n.isdigit() or int(n) <= count)


def replies_of(want, got, end):
    """How often the replies to each call with each answer are the same, different, or skipped from the place END on."""
    found, other = collections.Counter(), got.split(b"\n")
    for at, line in enumerate(want.split(b"\n")):
        words = line.decode("latin-1").split(" ")
        if "@" not in words[0] or len(words) < 3:
            continue
        rest = [word for word in words[2:] if word == "ok" or word.startswith("E") and word.isupper()][:1]
        check = words[words.index(rest[0]) + 1:][:1] if rest and rest[0] in ("EACCES", "EPERM") else []
        judged = "skipped" if end is not None and at >= end else "same" if other[at:at + 1] == [line] else "different"
        found[words[1], " ".join(rest + check), judged] += 1
    return found


def trail_faults(case, folder, calls=None):
    """Lines that say what is wrong with the files that a run made in its folder. The trail is compared up to so many calls."""
    made = sorted(os.listdir(folder))
    want = [case["words"][1]] if "trail" in case else []
    if made != want:
        return ["    files wanted %s, made %s" % (want or "none", made or "none")]
    if not want:
        return []
    with open(os.path.join(folder, want[0]), "rb") as f:
        got = f.read()
    if calls is None:
        return diff("trail", case["trail"], got)
    return diff("trail", records_up_to(case["trail"], calls), records_up_to(got, calls))


def run_case(cmd, path, timeout, out_only=False, calls=None):
    """What came of a case; None where its script has other calls than those that are given."""
    try:
        case = read_case(path)
    except (BadCase, OSError, ValueError, SyntaxError, NameError) as e:
        return Ran(["    bad case: %s" % e])
    if calls is not None and not calls_of(case) <= calls:
        return None
    with tempfile.TemporaryDirectory() as folder:
        try:
            done = subprocess.run(cmd + case["words"], input=case["input"], stdout=subprocess.PIPE,
                                  stderr=subprocess.PIPE, cwd=folder, timeout=timeout)
        except subprocess.TimeoutExpired:
            return Ran(["    no end within %d seconds" % timeout])
        except OSError as e:
            return Ran(["    %s" % e])
        end = missing_at(case["out"], done.stdout)
        wrong = []
        if done.returncode != case["status"]:
            wrong.append("    status wanted %d, got %d" % (case["status"], done.returncode))
        wrong += diff("out", *(text if end is None else up_to(text, end) for text in (case["out"], done.stdout)))
        if not out_only:
            wrong += trail_faults(case, folder, end)
        if wrong and done.stderr:
            wrong.append("    standard error: " + done.stderr.decode("latin-1").strip().split("\n")[-1][:200])
        return Ran(wrong, end is not None, replies_of(case["out"], done.stdout, end))


def find(paths):
    out = []
    for p in paths:
        if os.path.isdir(p):
            for folder, folders, files in os.walk(p):
                folders.sort()
                out += [os.path.join(folder, f) for f in sorted(files) if f.endswith(".case")]
        else:
            out.append(p)
    return out


def print_summary(replies):
    """Writes how many replies were the same, by call and answer."""
    rows = [("CALL", "ANSWER", "SAME", "DIFFERENT", "SKIPPED")]
    for call, answer in sorted({key[:2] for key in replies}):
        rows.append((call, answer, *(str(replies[call, answer, word]) for word in ("same", "different", "skipped"))))
    for row in rows:
        print("%-14s %-20s %6s %10s %8s" % row)


def main():
    ap = argparse.ArgumentParser(description="Runs cases against a command.")
    ap.add_argument("--cmd", required=True, help="the command and its first words, as a shell would split them")
    ap.add_argument("--timeout", type=int, default=120, help="the most seconds for one case")
    ap.add_argument("--out-only", action="store_true", help="compare status and output alone")
    ap.add_argument("--calls", type=lambda text: set(text.split(",")), help="run the cases that have these calls alone")
    ap.add_argument("--summary", action="store_true", help="write how many replies were the same, by call and answer")
    ap.add_argument("--jobs", type=int, default=os.cpu_count() or 1)
    ap.add_argument("paths", nargs="*")
    a = ap.parse_args()
    here = os.path.dirname(os.path.abspath(__file__))
    cmd = [os.path.abspath(w) if os.path.exists(w) else w for w in shlex.split(a.cmd)]
    paths = find(a.paths or [here])
    ways, replies = collections.Counter(), collections.Counter()
    with concurrent.futures.ThreadPoolExecutor(a.jobs) as pool:
        for path, ran in zip(paths, pool.map(lambda p: run_case(cmd, p, a.timeout, a.out_only, a.calls), paths)):
            ways["left out" if ran is None else "failed" if ran.wrong else "skipped" if ran.skipped else "passed"] += 1
            if ran is not None:
                replies.update(ran.replies)
                if ran.wrong:
                    print("FAILED " + os.path.relpath(path))
                    print("\n".join(ran.wrong))
    if a.summary:
        print_summary(replies)
    print(", ".join(["%d passed, %d failed" % (ways["passed"], ways["failed"])]
                    + ["%d %s" % (ways[way], way) for way in ("skipped", "left out") if ways[way]]))
    sys.exit(1 if ways["failed"] else 0)


if __name__ == "__main__":
    main()
