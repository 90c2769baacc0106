#!/usr/bin/env python3
"""Checks docs/DIFFERENCES.md against the cases of tests/cases/differences. It plays nothing; run_cases.py plays the cases.

    differences.py    fails where a row has no case, a case no row, or a row shows a call or a reply that its case has not

A row is a line of a table. Its first cell links to its case, and each case has one row. Its second cell shows calls, each as
`CALL`: `REPLY`. The case has a line with this call, and the reply to it is REPLY.
"""
import pathlib
import re
import sys

import run_cases

TOP = pathlib.Path(__file__).resolve().parent.parent
PAGE = TOP / "docs" / "DIFFERENCES.md"
CASES = TOP / "tests" / "cases" / "differences"
LINK = re.compile(r"\]\(\.\./tests/cases/differences/(\w+)\.case\)")
SHOWN = re.compile(r"`([^`]+)`: `([^`]+)`")


def rows_of(text):
    """The cells of each row of the tables of a page, without the headings."""
    table = []
    for line in text.splitlines() + [""]:
        if line.startswith("|"):
            table.append(line.strip("| ").split(" | "))
        else:
            yield from table[2:]
            table = []


def replies_of(case):
    """The calls of a case without their tags, each with its reply."""
    script = case["input"].decode().split("\nscript\n", 1)[1]
    calls = [line.split(" ", 1)[1] for line in script.splitlines() if line.strip() and not line.startswith("#")]
    replies = [line.split(" ", 2)[2] for line in case["out"].decode().splitlines()[:len(calls)]]
    return list(zip(calls, replies))


def faults_of(row):
    """What is wrong with a row that links to one case."""
    name = LINK.search(row[0])[1]
    path = CASES / f"{name}.case"
    if not path.exists():
        yield f"the row of {name} has no case"
        return
    played = replies_of(run_cases.read_case(path))
    shown = SHOWN.findall(row[1])
    if not shown:
        yield f"the row of {name} shows no call"
    for call, reply in shown:
        if (call, reply) not in played:
            yield f"{name} has no call `{call}` with the reply `{reply}`"


def main():
    rows = list(rows_of(PAGE.read_text(encoding="utf-8")))
    faults = ["no case in the row: " + row[0] for row in rows if len(LINK.findall(row[0])) != 1]
    rows = [row for row in rows if len(LINK.findall(row[0])) == 1]
    names = [LINK.search(row[0])[1] for row in rows]
    faults += [f"{name} has {names.count(name)} rows" for name in sorted(set(names)) if names.count(name) > 1]
    faults += [f"{path.stem} has no row" for path in sorted(CASES.glob("*.case")) if path.stem not in names]
    for row in rows:
        faults += faults_of(row)
    for fault in faults:
        print("FAILED docs/DIFFERENCES.md: " + fault)
    print(f"{len(rows)} rows, {len(faults)} faults")
    sys.exit(1 if faults else 0)


if __name__ == "__main__":
    main()
