#!/usr/bin/env python3
"""Lists where each call of the call table has its row, its body, its laws, its cases and its edits.

    call_index.py            prints the tables
    call_index.py --write    writes them into docs/CALL_INDEX.md, between its two marks
    call_index.py --check    prints nothing, and fails where the page has other tables, where they lack an edit of a crate that
                             they list, or where the file of a body names its call neither in its own name nor in its first line

The words of the calls are read from the code of `kern_model`, the rows from its call table, the bodies from the `play` of each
crate of calls. A lemma is one on a row where its statement names the row. A case is one of a call where its script makes the
call, by a utility too. An edit is one of a call where it changes a function that the body needs.
"""
import argparse
import collections
import functools
import itertools
import pathlib
import re
import sys

from answers import UTILITIES, shown_by
from run_cases import find, read_case

TOP = pathlib.Path(__file__).resolve().parent.parent
CRATES = TOP / "crates"
CASES = TOP / "tests" / "cases"
LAWS = CRATES / "iso_laws" / "proofs"
MODEL = CRATES / "kern_model"
PAGE = TOP / "docs" / "CALL_INDEX.md"
BEGIN, END = "<!-- written by tests/call_index.py -->", "<!-- to here -->"
# the files in which each crate of calls names the function of each call
PLAYS = [*(f"{crate}/src/playing.rt" for crate in ("sys_file", "sys_tree", "sys_attr", "sys_proc")), "kern_core/src/calls.rt"]
# the crate that plays them, and the crates of `crates.txt` from `sys_lookup` back to `kern_model`, whose functions they call
SHARED = [
    "kern_core", "sys_lookup", "chk_rules", "proc_creds", "proc_table", "fd_table", "fs_dirs", "fs_nodes", "num_table",
    "kern_model",
]
SHARED_INTRO = """\
## What calls share

What calls share is in the crate that plays them and in the crates below. The table has the functions that an edit changes, in
that crate and in those from `sys_lookup` down to `kern_model`. The edits of `lab_lattice`, `cap_bits` and `fs_path` are in the
folders `must-fail` there."""
WORD = re.compile(r'CallName::(\w+) => b"(\w+)"')
ROW = re.compile(r"^row s who p \(?call\.(\w+)[^=]*= (\w+) ", re.M)
IMPORT = re.compile(r"^use Rattle\.kern_model\.specs\.(\w+)\.\{([^}]*)\}$", re.M)
# an arm of a `match` on a call, up to the arguments of the first function that it calls: `Call::Close(fd) => close(`, or
# `Call::AudWrite(bytes) => auditing::aud_write(`
ARM = re.compile(
    r"((?:Call::\w+(?:\([^)]*\))?[\s|]*)+)=>\s*"  # its calls, with what each binds
    r"(?:\{\s*(?:let [^;]*;\s*)*)?(?:Ok\()?"  # what may come before: a block, its `let` statements, `Ok(`
    r"((?:\w+::)*\w+)\("  # the function that it calls, with its module
)
USE = re.compile(r"^use crate::([\w:]+)::\{?([^};]*)\}?;$", re.M)
FUNCTION = re.compile(r"^( *)(?:pub(?:\(crate\))? )?fn (\w+).*?^\1\}$", re.M | re.S)
LEMMA = re.compile(r"^( *)(?:unfoldable |abbrev |pub )*([\w'-]+) : ", re.M)

Lemma = collections.namedtuple("Lemma", "name path statement")
Edit = collections.namedtuple("Edit", "path changes")
Function = collections.namedtuple("Function", "name path text")


@functools.cache
def read(path):
    return path.read_text(encoding="utf-8")


@functools.cache
def words():
    """The word of each variant of `Call`, in the order of the call table."""
    found = dict(WORD.findall(read(MODEL / "src" / "calls.rt")))
    return {variant: found[variant] for variant, _ in ROW.findall(read(MODEL / "specs" / "Table.antt"))}


def rows():
    """The row of each variant of `Call`: its name, and its file."""
    text = read(MODEL / "specs" / "Table.antt")
    modules = {name.strip(): module for module, names in IMPORT.findall(text) for name in names.split(",")}
    found = {variant: (name, MODEL / "specs" / f"{modules[name]}.antt") for variant, name in ROW.findall(text)}
    for name, path in found.values():
        if not re.search(rf"^(?:unfoldable |abbrev |pub )*{name} :", read(path), re.M):
            sys.exit(f"{path.relative_to(TOP)} does not define {name}")
    return found


@functools.cache
def functions_of(crate):
    """The functions of a crate, by their names."""
    found = collections.defaultdict(list)
    for path in sorted((CRATES / crate / "src").rglob("*.rt")):
        for match in FUNCTION.finditer(read(path)):
            found[match[2]].append(Function(match[2], path, match[0]))
    return found


@functools.cache
def bodies():
    """The function that is the body of each variant of `Call`."""
    found = {}
    for play in PLAYS:
        path = CRATES / play
        folder = path.with_suffix("") if path.name == "calls.rt" else path.parent
        text = read(path)
        modules = {name.strip(): module for module, names in USE.findall(text) for name in names.split(",")}
        functions = functions_of(path.relative_to(CRATES).parts[0])
        for calls, target in ARM.findall(text):
            module, _, name = target.rpartition("::")
            if not module.startswith("sys_"):
                module = module or modules.get(name)
                file = folder / f"{module.replace('::', '/')}.rt" if module else path
                for variant in re.findall(r"Call::(\w+)", calls):
                    found[variant] = next((each for each in functions[name] if each.path == file), None)
                    if not found[variant]:
                        sys.exit(f"{file.relative_to(TOP)} has no function {name}, which {path.relative_to(TOP)} calls")
    for variant in words():
        if variant not in found:
            sys.exit(f"no body is found of Call::{variant}")
    return found


@functools.cache
def lemmas():
    """The lemmas on definitions: each with its file and its statement."""
    found = []
    for path in sorted(LAWS.rglob("*.antt")):
        text = read(path)
        for match in LEMMA.finditer(text):
            rest = text[match.end():]
            end = re.search(rf"\n{match[1]}\S", rest)
            found.append(Lemma(match[2], path, rest[:end.start()] if end else rest))
    return found


@functools.cache
def edits_of(crate):
    """The edits of a crate: what each changes, as a file and a text."""
    found = []
    for path in sorted((CRATES / crate / "must-fail").glob("*.edit")):
        changes, file = [], None
        for line in read(path).splitlines():
            key, _, value = line.partition(": ")
            if key == "file":
                file = CRATES / crate / value.strip()
            elif key == "old":
                changes.append((file, value.strip()))
        found.append(Edit(path, changes))
    return found


def needed(body, functions):
    """The functions of the same crate that a body needs, with itself. Of two with one name it is that of the file.

    A function is needed where it is called by its name, `name(` or `module::name(`. Calls of methods, `value.name(`, are not
    followed, since the text does not have the type of the value; so an edit of a method is not on the line of a call.
    """
    found, todo = [], [body]
    while todo:
        function = todo.pop()
        if function not in found:
            found.append(function)
            for name in dict.fromkeys(re.findall(r"(?<![\w.])(\w+)\(", function.text)):
                there = functions.get(name, [])
                todo += [each for each in there if each.path == function.path] or there
    return found


def is_in(edit, functions):
    """Whether an edit changes one of some functions."""
    return any(file == function.path and old in function.text for file, old in edit.changes for function in functions)


def called_in(case):
    """The words of the calls that the script of a case makes."""
    script = re.split(rb"^script$", case["input"], maxsplit=1, flags=re.M)[1:]
    found = set(re.findall(rb"^ *[^ #\n]+ +(\w+)", script[0], re.M)) if script else set()
    return {UTILITIES.get(word, word) for word in map(bytes.decode, found)}


def cases():
    """The cases of each call, with how many answers of the call each shows."""
    found = collections.defaultdict(list)
    for path in map(pathlib.Path, find([str(CASES)])):
        case = read_case(path)
        shown = collections.Counter(name for name, _ in set(shown_by(case)))
        for name in called_in(case):
            found[name].append((path, shown[name]))
    return found


def link(text, path):
    """A link of the page to a file of the repository."""
    return f"[`{text}`](../{path.relative_to(TOP)})"


def listed(links, none="none"):
    return ", ".join(dict.fromkeys(links)) or none


def shown_case(found):
    """How many cases a call has, and the one that shows the most of its answers; of several the first."""
    if not found:
        return "none"
    path, _ = max(found, key=lambda each: each[1])
    return f"{len(found)}{', as' if len(found) > 1 else ':'} {link(path.stem, path)}"


def laws_on(row):
    """The lemmas whose statements name a row."""
    named = re.compile(rf"(?<![\w'-]){row}(?![\w'-])")
    return [link(lemma.name, lemma.path) for lemma in lemmas() if named.search(lemma.statement)]


def edits_under(body):
    """The edits of what a body needs."""
    crate = body.path.relative_to(CRATES).parts[0]
    functions = needed(body, functions_of(crate))
    return [link(edit.path.stem, edit.path) for edit in edits_of(crate) if is_in(edit, functions)]


def table_of_calls():
    """A line for each call."""
    every_row, every_case = rows(), cases()
    lines = ["| Call | Row | Body | Laws | Cases | Edits |", "|---|---|---|---|---|---|"]
    for variant, word in words().items():
        (row, row_file), body = every_row[variant], bodies()[variant]
        links = [link(row, row_file), link(body.name, body.path), listed(laws_on(row)), shown_case(every_case[word])]
        edits = listed(edits_under(body), "those of [what calls share](#what-calls-share)")
        lines.append(f"| {' | '.join([f'`{word}`', *links, edits])} |")
    return lines


def table_of_shared():
    """A line for each function that calls share and that an edit changes."""
    lines, files = ["| Crate | Function | Edits |", "|---|---|---|"], {body.path for body in bodies().values()}
    for crate in SHARED:
        functions = [each for some in functions_of(crate).values() for each in some if each.path not in files]
        for function in sorted(functions, key=lambda each: each.path):
            links = [link(edit.path.stem, edit.path) for edit in edits_of(crate) if is_in(edit, [function])]
            if links:
                lines.append(f"| `{crate}` | {link(function.name, function.path)} | {listed(links)} |")
    return lines


def tables():
    """What the page has between its marks."""
    return "\n".join(["", *table_of_calls(), "", SHARED_INTRO, "", *table_of_shared(), ""])


def unnamed():
    """The bodies whose file names their call neither in its own name nor in its first line."""
    calls = words()
    for variant, body in bodies().items():
        first = read(body.path).split("\n", 1)[0]
        if body.path.stem != calls[variant] and f"`{calls[variant]}`" not in first:
            yield f"the first line of {body.path.relative_to(TOP)} does not name `{calls[variant]}`"


def edits_left_out(text):
    """The edits of the crates that play calls, and of those below, that the tables do not have."""
    for crate in dict.fromkeys([play.split("/")[0] for play in PLAYS] + SHARED):
        for edit in edits_of(crate):
            if link(edit.path.stem, edit.path) not in text:
                yield f"no table has {edit.path.relative_to(TOP)}"


def with_tables(page, text):
    """The page with a text between its marks, each of which it has to have once."""
    for mark in (BEGIN, END):
        if page.count(mark) != 1:
            sys.exit(f"{PAGE.relative_to(TOP)} has to have the mark {mark} once, and nothing is written there")
    before, _, rest = page.partition(BEGIN)
    _, mark, after = rest.partition(END)
    if not mark:
        sys.exit(f"{PAGE.relative_to(TOP)} has its end mark before {BEGIN}, and nothing is written there")
    return f"{before}{BEGIN}\n{text}\n{END}{after}"


def first_difference(page, due):
    """The first line in which the page differs from what it is to have."""
    for number, (there, line) in enumerate(itertools.zip_longest(page.splitlines(), due.splitlines()), 1):
        if there != line:
            yield f"{PAGE.relative_to(TOP)}, line {number}: other tables are there, first in this line"
            yield f"has: {'(no line)' if there is None else there}"
            yield f"due: {'(no line)' if line is None else line}"
            yield f"python3 tests/{pathlib.Path(__file__).name} --write writes them"
            return


def main():
    arguments = argparse.ArgumentParser(description=__doc__, formatter_class=argparse.RawDescriptionHelpFormatter)
    ways = arguments.add_mutually_exclusive_group()
    ways.add_argument("--write", action="store_true", help="write the tables into the page")
    ways.add_argument("--check", action="store_true", help="compare the page with them")
    way = arguments.parse_args()
    text = tables()
    if way.check:
        faults = [*unnamed(), *edits_left_out(text), *first_difference(read(PAGE), with_tables(read(PAGE), text))]
        sys.exit("\n".join(faults) or 0)
    elif way.write:
        PAGE.write_text(with_tables(read(PAGE), text), encoding="utf-8")
    else:
        print(text)


if __name__ == "__main__":
    main()
