#!/usr/bin/env python3
"""Lists the answers of the call table that no case shows, a call and an answer on each line.

    answers.py            lists them, and fails where there is one
    answers.py --all      lists all answers of the table, each with a case that shows it

The answers of a call are `ok`, the error numbers of its row, each check of its row that is denied, and each one that is
exercised, where a capability overrides it. The rows are read from docs/CALLS.md, the checks from docs/PROFILE.md. A case
shows an answer in its output, and an exercise in its trail.
"""
import pathlib
import re
import sys

from run_cases import find, read_case

TOP = pathlib.Path(__file__).resolve().parent.parent
# What a row that two calls share has, and one of them never answers: no descriptor refers to a directory.
NEVER = [("mac_set_fd", "ENOTEMPTY")]
UTILITIES = {"getfcap": "cap_get_file", "setfcap": "cap_set_file", "getfmac": "mac_get_file", "setfmac": "mac_set_file"}
CODE = re.compile(r"`(\w+)[^`]*`")
ERROR = re.compile(r"\bE[A-Z]{3,}\b")


def cells_of(line):
    """The cells of a row of a table."""
    return [cell.strip() for cell in re.split(r"(?<!\\)\|", line.strip().strip("|"))]


def section_of(text, title):
    """The text below a heading, up to the next one."""
    return re.split(r"^#+ ", text.split(f"# {title}\n", 1)[1], maxsplit=1, flags=re.M)[0]


def rows_of(text):
    """The rows of the tables of a text, without their headings."""
    lines = text.splitlines()
    return [cells_of(line) for at, line in enumerate(lines) if line.startswith("|") and not line.startswith("|---") and not lines[at + 1:at + 2] == [re.sub(r"[^|]+", "---", line)]]


class Checks:
    """The checks of the profile: the error of each that stops a call, and those that a capability overrides."""

    def __init__(self, profile):
        self.errors, self.overridden = {}, set()
        for cells in rows_of(section_of(profile, "Checks")):
            for name in CODE.findall(cells[0]):
                if "`" in cells[2]:
                    self.overridden.add(name)
                if cells[3] in ("EACCES", "EPERM"):
                    self.errors[name] = cells[3]

    def answers(self, name):
        """What a check may lead to."""
        denied = [f"{self.errors[name]} {name}"] if name in self.errors else []
        return denied + ([f"exercise {name}"] if name in self.overridden else [])


class Table:
    """The call table: the text of each call's row, and the texts that rows share by a name."""

    def __init__(self, calls, profile):
        self.checks = Checks(profile)
        self.shared = {"walk": section_of(profile, "The walk of a path").strip().split("\n\n")[0].replace("`Walk.antt`", "")}
        for cells in rows_of(section_of(calls, "What rows share")):
            self.shared[cells[0].strip("*")] = cells[1]
        self.rows = {}
        for title in re.findall(r"^## (.*)$", calls, re.M):
            for cells in rows_of(calls.split(f"## {title}\n", 1)[1].split("\n## ", 1)[0]):
                self.add_row(title, cells, calls)

    def add_row(self, title, cells, calls):
        """Adds the calls of a row, whose first cell has each with its arguments."""
        for form in re.findall(r"`([^`]+)`", cells[0]):
            name = form.split()[0]
            if title not in ("What rows share", "How the table is tested") and name.islower() and len(name) > 1:
                below = re.match(r"\[below\]\(#(\w+)\)", cells[1])
                begun = {"Attributes": "open fd; " if " FD" in form else "reach; " if " PATH" in form else ""}.get(title, "")
                self.rows[name] = begun + (section_of(calls, below[1]) if below else cells[1])

    def answers(self, name):
        """The answers of a call, in the order of its row."""
        return ["ok"] + list(dict.fromkeys(self.answers_in(self.rows[name])))

    def answers_in(self, text):
        """The answers that a text of a row names."""
        names = "|".join([rf"\b(?:{'|'.join(self.shared)})\b", r"as `\w+`", CODE.pattern, ERROR.pattern])
        for found in re.finditer(names, text, re.I):
            word = found[1] if (found[1] or "").isupper() else found[0]
            if word.lower() in self.shared:
                yield from self.answers_in(self.shared[word.lower()])
            elif word.startswith("as `"):
                yield from self.answers_in(self.rows[word[4:-1]])
            elif word.isupper():
                yield word
            elif found[1]:
                yield from self.checks.answers(found[1])


def shown_by(case):
    """The answers that a case shows, each with its call."""
    names = []
    for line in case["out"].decode("latin-1").splitlines():
        words = line.split(" ")
        if len(words) > 2 and "@" in words[0] and words[0] != "end":
            name = UTILITIES.get(words[1], words[1])
            answer = re.sub(r'^"(?:[^"\\]|\\.)*" ', "", " ".join(words[2:])) if words[1] in UTILITIES else " ".join(words[2:])
            names.append(name)
            first, _, rest = answer.partition(" ")
            yield name, f"{first} {rest.split(' ')[0]}" if first in ("EACCES", "EPERM") else first
    for line in case.get("trail", b"").decode("latin-1").splitlines():
        words = line.split(" ")
        if words[1:2] == ["exercise"] and int(words[0]) <= len(names):
            yield names[int(words[0]) - 1], f"exercise {words[5]}"


def shown():
    """The answers that cases show, each with its call and the first case that shows it."""
    found = {}
    for path in find([str(TOP / "tests" / "cases")]):
        case = read_case(path)
        if case["words"][:1] == ["play"]:
            for pair in shown_by(case):
                found.setdefault(pair, pathlib.Path(path).relative_to(TOP / "tests" / "cases"))
    return found


def main():
    texts = [(TOP / "docs" / name).read_text(encoding="utf-8") for name in ("CALLS.md", "PROFILE.md")]
    table, cases = Table(*texts), shown()
    pairs = [(name, answer) for name in table.rows for answer in table.answers(name) if (name, answer) not in NEVER]
    if sys.argv[1:] == ["--all"]:
        for pair in pairs:
            print(*pair, f"({cases.get(pair, 'no case')})")
        return
    missing = [pair for pair in pairs if pair not in cases]
    for pair in missing:
        print(*pair)
    sys.exit(1 if missing else 0)


if __name__ == "__main__":
    main()
