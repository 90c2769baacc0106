#!/usr/bin/env python3
"""Lists the definitions that the clauses of `run` use: what a reader of its contract has to believe.

    definitions.py            prints the files that have such definitions, and how many lines these take: all, and for `play` alone
    definitions.py --print    prints the definitions
    definitions.py --check    prints nothing, and fails where docs/THEOREMS.md lists other files

A definition is used where the file of `run` imports it, or a definition that is used names it. For `play` alone the clauses of
other commands are left out, and of a definition by cases of the command, or of what it reads, those of other commands. The case of `lineage` counts,
since `play` promises what `lineage` has to write of its trail.
"""
import pathlib
import re
import sys

TOP = pathlib.Path(__file__).resolve().parent.parent
CRATES = TOP / "crates"
RUN = CRATES / "labsys" / "src" / "running.rt"
USE = re.compile(r"^\s*(?:ghost )?(?:pub )?use Rattle\.(\w+)\.specs\.([\w.]+?)(?:\.\{([^}]*)\})?(?: as (\w+))?;?$", re.M)
HEAD = re.compile(r"^(\s*)(?:(?:unfoldable|abbrev|pub) )*(?:(record|data) (\S+)|(\S+) :(?= ))")
OF_OTHERS = {"Schedules", "Views", "Upgrades", "Narrows", "SaysNever", "ChecksLineage"}
CASE_OF_OTHERS = re.compile(
    r"^\w+ (?:\(Some )?\(?(?:OnInput )?\(?"
    r"(?:Sched|Check|Gen|Drill|View|Upgrade|Least|Never|Select|CallsWithoutSets|OldLines|Programs)\b")
NAME = re.compile(r"[\w'◌-]+(?:\.[\w'-]+)*")


class File:
    """A file of definitions: its imports, and its definitions by their names."""

    def __init__(self, path):
        text = path.read_text(encoding="utf-8")
        self.path = path
        self.names = {}
        self.modules = {}
        for crate, module, names, alias in USE.findall(text):
            target = CRATES / crate / "specs" / (module.replace(".", "/") + ".antt")
            if not target.exists():
                continue
            if names:
                for name in names.split(","):
                    name, _, other = name.strip().partition(" as ")
                    self.names[other or name] = (target, name)
            else:
                self.modules[alias or module.rsplit(".", 1)[-1]] = target
        self.blocks = {}
        for block in blocks_of(text) if path.suffix == ".antt" else []:
            for name in block.names:
                self.blocks[name] = block

    def uses(self, text):
        """The definitions that a text of this file names, each as a file and a name."""
        for token in NAME.findall(text):
            first, _, rest = token.partition(".")
            if first in self.modules and rest:
                yield self.modules[first], rest.split(".")[0]
            elif first in self.names:
                yield self.names[first]
            elif first in self.blocks:
                yield self.path, first


class Block:
    """A definition with the comment above it: its name, the names of its constructors, its lines."""

    def __init__(self, name, lines):
        self.names = [name]
        self.lines = lines


def blocks_of(text):
    """The definitions of a text, in order."""
    found, comment, block, indent = [], [], None, ""
    for line in text.splitlines():
        head = HEAD.match(line)
        if not line.strip() or line.startswith(("use ", "pub use ", "module ")):
            comment, block = [], None
        elif block and line.startswith(indent + "  "):
            block.lines.append(line)
            if block.data and head:
                block.names.append(head[4])
        elif line.strip().startswith("--"):
            comment.append(line)
        elif head and not (block and head[4] in block.names):
            indent = head[1]
            block = Block(head[3] or head[4], comment + [line])
            block.data = head[2] == "data"
            found.append(block)
            comment = []
        elif found and line.split()[0] in found[-1].names:
            block = found[-1]
            block.lines.append(line)
    return found


def lines_used(block, play):
    """The lines of a definition that count, for `play` alone or for all commands."""
    return [line for line in block.lines if not (play and CASE_OF_OTHERS.match(line))]


def used(play=False):
    """The definitions that are used, from the clauses of `run` on, as a list of blocks for each file."""
    files, found = {RUN: File(RUN)}, {}
    todo = list(files[RUN].uses(RUN.read_text(encoding="utf-8")))
    while todo:
        path, name = todo.pop()
        if play and name in OF_OTHERS:
            continue
        file = files.setdefault(path, None) or files.update({path: File(path)}) or files[path]
        block = file.blocks.get(name)
        if block is not None and block not in found.setdefault(path, set()):
            found[path].add(block)
            todo.extend(file.uses("\n".join(lines_used(block, play))))
    return {path: [b for b in dict.fromkeys(files[path].blocks.values()) if b in blocks] for path, blocks in sorted(found.items()) if blocks}


def rows_of(definitions):
    """A row of the table in docs/THEOREMS.md for each folder."""
    folders = {}
    for path in definitions:
        folders.setdefault(path.parent.relative_to(CRATES), []).append(f"`{path.stem}`")
    return [f"| `crates/{folder}` | {', '.join(names)} |" for folder, names in folders.items()]


def count(play):
    """How many lines the definitions take."""
    return sum(len(lines_used(b, play)) for blocks in used(play).values() for b in blocks)


def print_definitions(definitions):
    for path, blocks in definitions.items():
        print(f"== {path.relative_to(TOP)}\n")
        for block in blocks:
            print("\n".join(block.lines), end="\n\n")


def main():
    definitions = used()
    rows = rows_of(definitions)
    if sys.argv[1:] == ["--check"]:
        listed = [line for line in (TOP / "docs" / "THEOREMS.md").read_text(encoding="utf-8").splitlines() if line.startswith("| `crates/")]
        if listed != rows:
            sys.exit("docs/THEOREMS.md lists other files than those of the definitions that run uses; tests/definitions.py prints the list")
    elif sys.argv[1:] == ["--print"]:
        print_definitions(definitions)
    else:
        print("\n".join(rows))
        print(f"{count(False):,} lines, {count(True):,} of them for play alone")


if __name__ == "__main__":
    main()
