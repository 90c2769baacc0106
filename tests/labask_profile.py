#!/usr/bin/env python3
"""Writes what `labask` knows of the kernel, from the sources of the crates: the module ask/src/labask/kernel_profile.py.

What each call may answer comes from the call table, docs/CALLS.md; by `answers.py` a case shows each of these answers.

    labask_profile.py            prints the module
    labask_profile.py --write    writes it
    labask_profile.py --check    prints nothing, and fails where the file has another text
"""
import argparse
import re
import sys
import textwrap

import answers
import pages

MODULE = pages.TOP / "ask" / "src" / "labask" / "kernel_profile.py"
HEAD = '''\
"""What the kernel has: capabilities, calls, checks, errors and limits.

`tests/labask_profile.py --write` writes this file from the sources of the crates.
"""
from typing import Dict, NamedTuple, Optional, Tuple


class Check(NamedTuple):
    """The error of a call that a check denies, and the capability that overrides the check. One without an error denies nothing."""
    error: Optional[str]
    capability: Optional[str]


class Utility(NamedTuple):
    """The call that a utility makes for each of its paths, and how many of its arguments stand before them."""
    call: str
    before: int


class ListOfNames(NamedTuple):
    """How many names a list of a world has at least, where its line is there, and how many at most."""
    least: int
    most: int
'''
TUPLE = "Tuple[str, ...]"
CALLS = "crates/kern_model/src/calls.rt"
ARGUMENTS = "crates/script_text/src/argument.rt"
# the names of the arguments of calls, by their types
NAMES = {
    "Path": "PATH", "OpenFlags": "FLAGS", "Option<Mode>": "[MODE]", "Mode": "MODE", "Fd": "FD", "u32": "N", "u8": "N",
    "ByteList": "BYTES", "i64": "OFFSET", "Uid": "UID", "Gid": "GID", "CapState": "CAPS", "Label": "LABEL", "Pid": "PID",
}
# types whose values are words, and the functions that read them
WORDS = {"Whence": "whence", "Signal": "signal", "bool": "switch"}
# limits by their names in the module, with the file and the constant of each
LIMITS = {
    "MAX_INPUT": ("kern_model/src/limits.rt", "MAX_INPUT", "bytes of an input"),
    "MAX_LINE": ("fs_path/src/words.rt", "MAX_LINE", "bytes of a line"),
    "MAX_PATH": ("fs_path/src/path.rt", "MAX_TEXT", "bytes of a path"),
    "MAX_PATH_NAMES": ("fs_path/src/path.rt", "MAX_NAMES", "names of a path"),
    "MAX_PATH_NAME": ("fs_path/src/name.rt", "MAX_NAME", "bytes of a name of a path"),
    "MAX_LABEL_NAME": ("lab_text/src/scan.rt", "MAX_NAME", "bytes of the name of a level, a category or a grade"),
    "MAX_NUMBER": ("kern_model/src/limits.rt", "MAX_NUMBER", "of an argument, a user or a group"),
    "MAX_OFFSET": ("kern_model/src/limits.rt", "MAX_OFFSET", "of lseek, forwards or backwards"),
    "MAX_STATUS": ("kern_model/src/limits.rt", "MAX_STATUS", "exit status"),
    "MAX_GROUPS": ("kern_model/src/limits.rt", "MAX_GROUPS", "supplementary groups of a process"),
    "MAX_DESCRIPTORS": ("kern_model/src/limits.rt", "MAX_DESCRIPTORS", "descriptors of a process"),
    "MAX_LINKS": ("kern_model/src/limits.rt", "MAX_LINKS", "names of an object that is no directory"),
    "MAX_FILE_BYTES": ("kern_model/src/limits.rt", "MAX_FILE_BYTES", "bytes of a file, and of one read"),
    "MAX_PIPE_BYTES": ("kern_model/src/limits.rt", "MAX_PIPE_BYTES", "bytes that wait in a pipe or FIFO"),
    "MAX_OBJECT_NUMBER": ("kern_model/src/limits.rt", "MAX_OBJECTS", "objects whose numbers are drawn at one label"),
    "MAX_PROCESS_NUMBER": ("kern_model/src/limits.rt", "MAX_PROCS", "processes whose numbers are drawn at one label"),
    "MAX_DESCRIPTION_NUMBER": ("kern_model/src/limits.rt", "MAX_DESCRIPTIONS", "open descriptions whose numbers are drawn at one label"),
}


def function(path, name):
    """The text of a function of a source."""
    return pages.match_in(path, rf"^(?:pub )?fn {name}\(.*?^\}}", f"function {name}")[0]


def words_read_by(name):
    """The words that a function reads, with | between them."""
    return "|".join(re.findall(r'b"(\w+)"', function(ARGUMENTS, name)))


def variants():
    """The calls by the names of their variants, each with the types of its arguments."""
    body = pages.between(CALLS, "pub enum Call {", "\n}")
    return {name: re.findall(r"[^, ]+", types) for name, types in re.findall(r"^    (\w+)(?:\((.*)\))?,$", body, re.M)}


def words_of_calls():
    """The words of the calls by the names of their variants."""
    return dict(re.findall(r'CallName::(\w+) => b"(\w+)"', pages.text_of(CALLS)))


def calls():
    """The calls with the names of their arguments."""
    words, named = words_of_calls(), {**NAMES, **{kind: words_read_by(name) for kind, name in WORDS.items()}}
    return {words[variant]: " ".join(named[kind] for kind in kinds) for variant, kinds in variants().items()}


def utilities():
    """The utilities, each with the call that it makes and the number of arguments before the paths."""
    made = re.findall(r"Tool::(\w+) => Some\(Call::(\w+)\(path(.*)\)\),", pages.text_of("crates/sec_utils/src/calls.rt"))
    words, called = dict(re.findall(r'Tool::(\w+) => b"(\w+)"', pages.text_of("crates/sec_utils/src/util.rt"))), words_of_calls()
    return {words[tool]: (called[call], more.count(",")) for tool, call, more in made}


def asking():
    """The calls and utilities that ask for capability sets, which `least` refuses."""
    body = function("crates/least_caps/src/needs.rt", "asks")
    found = [words_of_calls()[name] for name in re.findall(r"Call::(\w+)", body)]
    return [*found, *(tool for tool, (call, _) in utilities().items() if call in found)]


def lines():
    """The keywords of a world that make objects and processes, with the names of the words behind them."""
    text = pages.text_of("crates/world_text/src/tree.rt") + pages.text_of("crates/world_text/src/processes.rt")
    found = dict(re.findall(r"`([a-z]+) ([A-Z][A-Z \[\]]+)`", text))
    return {keyword: found[keyword] for keyword in pages.arms("world_text/src/keyword.rt", "Keyword") if keyword in found}


def lists():
    """The lists of a world, with the least and the largest number of their names."""
    source = "crates/lab_text/src/lists.rt"
    words = dict(re.findall(r'NameList::(\w+) => b"(\w+)"', pages.text_of(source)))
    most = dict(re.findall(r"NameList::(\w+) => (\d+|MAX_GRADES)", pages.text_of(source)))
    # the list that has to have names, and the one that has no line where it has none
    needing = re.findall(r"matches!\(self, NameList::(\w+)\)", pages.text_of(source))
    grades = pages.constant("lab_text/src/policy.rt", "MAX_GRADES")
    return {word: (int(name in needing), grades if most[name] == "MAX_GRADES" else int(most[name])) for name, word in words.items()}


def checks():
    """The checks, each with its error and the capability that overrides it; None where there is none."""
    def given(pairs, none):
        return {check: None if value == none else value for check, value in map(str.split, pairs)}
    errors, capabilities = given(pages.errors_of_checks(), "soft"), given(pages.capabilities_of_checks(), "none")
    return {check: (error, capabilities[check]) for check, error in errors.items()}


def answers_of_calls():
    """What each call may answer but ok: error numbers, and errors with the checks that deny."""
    table = answers.Table(pages.text_of("docs/CALLS.md"), pages.text_of("docs/PROFILE.md"))
    return {name: [answer for answer in table.answers(name) if answer.startswith("E") and (name, answer) not in answers.NEVER]
            for name in calls()}


def refusals():
    """The error numbers of each call, without those of checks."""
    return {name: tuple(answer for answer in found if " " not in answer) for name, found in answers_of_calls().items()}


def denials():
    """The checks that may deny each call."""
    return {name: tuple(answer.split()[1] for answer in found if " " in answer) for name, found in answers_of_calls().items()}


def faults():
    """The words of all faults of lines, in the order in which they count."""
    return pages.arms("line_text/src/fault.rt", "LineFault")


def steps():
    """The words with which lines of programs begin."""
    return pages.arms("script_text/src/step_word.rt", "StepKeyword")


def written_value(value, made):
    """A value as Python has it; what has several parts is made by the class of the name `made`."""
    if not isinstance(value, tuple):
        return written(value)
    parts = ", ".join(map(written, value))
    return f"({parts}{',' * (len(value) == 1)})" if made == TUPLE else f"{made}({parts})"


def written(value):
    """A text, a number or None as Python has it."""
    return f'"{value}"' if isinstance(value, str) else f"{value:_}" if isinstance(value, int) else repr(value)


def tuple_of(name, comment, values):
    """The lines of a tuple of texts."""
    body = textwrap.fill(", ".join(map(written, values)) + ",", 135, initial_indent="    ", subsequent_indent="    ")
    return f"# {comment}\n{name}: {TUPLE} = (\n{body}\n)\n"


def dictionary_of(name, comment, values, kind="str"):
    """The lines of a dictionary whose values are texts, or made by a class of this name."""
    body = ", ".join(f"{written(key)}:\0{written_value(value, kind)}".replace(" ", "\0") for key, value in values.items())
    body = textwrap.fill(body + ",", 135, initial_indent="    ", subsequent_indent="    ", break_on_hyphens=False)
    return f"# {comment}\n{name}: Dict[str, {kind}] = {{\n{body}\n}}\n".replace("\0", " ")


def module():
    """The text of the module."""
    limits = (f"{name} = {pages.constant(path, constant):_}  # {what}\n" for name, (path, constant, what) in LIMITS.items())
    return "\n".join([
        HEAD,
        "\n" + tuple_of("CAPABILITIES", "in their order", pages.capabilities()).rstrip("\n"),
        dictionary_of("CALLS", "with the names of their arguments", calls()).rstrip("\n"),
        dictionary_of("UTILITIES", "on paths", utilities(), "Utility").rstrip("\n"),
        tuple_of("ASKING", "calls and utilities that ask for capability sets", asking()).rstrip("\n"),
        f'# of open, in the order of their letters\nOPEN_FLAGS = "{"".join(pages.flags())}"',
        dictionary_of("CHECKS", "in the order of the profile", checks(), "Check").rstrip("\n"),
        tuple_of("ERRORS", "of calls", pages.errors()).rstrip("\n"),
        dictionary_of("REFUSALS", "errors of each call but those of checks", refusals(), TUPLE).rstrip("\n"),
        dictionary_of("DENIALS", "checks that may deny each call", denials(), TUPLE).rstrip("\n"),
        dictionary_of("LINES", "of a world, with the names of the words behind the keyword", lines()).rstrip("\n"),
        dictionary_of("LISTS", "of the names of a world", lists(), "ListOfNames").rstrip("\n"),
        tuple_of("STEPS", "words with which lines of programs begin", steps()).rstrip("\n"),
        tuple_of("FAULTS", "of lines, of which the first counts", faults()).rstrip("\n"),
        "# the most that there may be\n" + "".join(limits),
    ])


def main():
    parser = argparse.ArgumentParser(description="Writes what labask knows of the kernel.")
    how = parser.add_mutually_exclusive_group()
    how.add_argument("--write", action="store_true", help="write the module")
    how.add_argument("--check", action="store_true", help="fail where the file has another text")
    words = parser.parse_args()
    if words.write:
        MODULE.write_text(module(), encoding="ascii")
    elif not words.check:
        print(module(), end="")
    elif not MODULE.is_file() or MODULE.read_text(encoding="ascii") != module():
        sys.exit(f"{MODULE.relative_to(pages.TOP)} differs from the sources; tests/labask_profile.py --write writes it")


if __name__ == "__main__":
    main()
