#!/usr/bin/env python3
"""Compares what pages have by hand with the source that has it exactly.

    pages.py            fails where a page and its source differ
    pages.py --list     lists what is compared, a page and a source on each line

Compared are lists of words (WORDS), limits, counts and exit statuses (NUMBERS), and on each page the files, links, and names of
functions that it names. NUMBERS has a text around each number. On the pages of COVERED it is a fault where a limit of 1,000 or
more, or a number after the word `status`, stands in no text of NUMBERS. Other numbers are compared only where NUMBERS has them.
"""
import argparse
import collections
import functools
import itertools
import pathlib
import re
import sys
import typing

from answers import UTILITIES, rows_of

TOP = pathlib.Path(__file__).resolve().parent.parent
CRATES = TOP / "crates"
PAGES = [
    "README.md", *(f"docs/{path.name}" for path in sorted((TOP / "docs").glob("*.md"))), "examples/README.md", "tests/README.md",
    "bench/README.md", "CHANGELOG.md",
]
CODE = re.compile(r"`([^`]+)`")
LINK = re.compile(r"\]\(([^)\s]+)\)")
TESTS = ["text_tests", "kernel_tests"]
FAMILIES = ["Files and descriptors", "The tree", "Attributes", "Processes", "Audit"]
LIMITS_FILE = "kern_model/src/limits.rt"
STATUS_FILE = "crates/labsys/src/status.rt"
HELP_FILE = "crates/lab_usage/src/commands.rt"


class CommandHelp(typing.NamedTuple):
    """A row of the table of commands: the names of its argument and of what it reads are None or empty where there is none."""
    word: str
    argument: typing.Optional[str]
    read: str
    about: str

    @property
    def usage(self):
        """The word, and the name of its argument."""
        return f"{self.word} {self.argument}" if self.argument else self.word

    @property
    def line(self):
        """The whole line of the command."""
        return f"labsys {self.usage}{' < ' * bool(self.read)}{self.read}"


class Lacking(Exception):
    """A file does not have what is compared."""


@functools.cache
def text_of(name):
    if not (TOP / name).is_file():
        raise Lacking(f"there is no file {name}")
    return (TOP / name).read_text(encoding="utf-8")


def match_in(name, pattern, what):
    """The first match of a pattern in a file. Where there is none, the file lacks `what`."""
    found = re.search(pattern, text_of(name), re.M | re.S)
    if not found:
        raise Lacking(f"{name} has no {what}")
    return found


def between(name, begin, end):
    """The text of a file from one text on, up to the next place of another."""
    return match_in(name, f"{re.escape(begin)}(.*?){re.escape(end)}", f"text {begin!r} with {end!r} after it")[1]


def flat(text):
    """A text with single spaces for its line ends, so that a text is found however its page is filled."""
    return re.sub(r"\s+", " ", text)


# ---- what sources have

def arms(name, enum):
    """The words that a `match` of a file gives the variants of an enum, in order."""
    return [word for word in re.findall(rf'{enum}::\w+(?:\([^)]*\))? => b?"([^"]+)"', text_of(f"crates/{name}"))]


def constant(name, const):
    """The value of a constant of a file."""
    value = match_in(f"crates/{name}", rf"\bconst {const}: \w+ = (\d\w*);", f"constant {const} that is a number")[1]
    return int(value.replace("_", ""), 0)


def limit(const):
    """The value of a constant of the file of limits."""
    return constant(LIMITS_FILE, const)


def octal(mode):
    """A mode as pages write it."""
    return f"{mode:04o}"


def limits():
    """The constants of the file of limits."""
    return re.findall(r"^pub const (\w+):", text_of(f"crates/{LIMITS_FILE}"), re.M)


def limits_of_lists():
    """The limits of the lists of levels and of categories."""
    return re.findall(r"NameList::\w+ => (\d+)", text_of("crates/lab_text/src/lists.rt"))


def statuses():
    """The exit statuses of the program."""
    return re.findall(r"Status::\w+ => (\d+)", text_of(STATUS_FILE))


def status(name):
    """The exit status with a name."""
    return int(match_in(STATUS_FILE, rf"Status::{name} => (\d+)", f"number of Status::{name}")[1])


def status_of_script(function):
    """The status with which a function of the script `labsys` ends it."""
    return int(match_in("labsys", rf"^{function}\(\) \{{\n(?: [^\n]*\n)*? +exit (\d+)\n", f"function {function} with an exit")[1])


def status_of_labask(name):
    """The exit status of `labask` with a name."""
    return int(match_in("ask/src/labask/answers.py", rf"^    {name} = (\d+)$", f"a status {name}")[1])


def statuses_of_script():
    """Those of the program, and the one of the script besides."""
    return [*statuses(), str(status_of_script("give_up"))]


def complaints():
    """What the program writes to standard error of each exit status that its output does not report: the status with the text."""
    texts = re.findall(r'Status::(\w+) => Some\("([^"]+)"\)', text_of(STATUS_FILE))
    return {str(status(name)): f"labsys: {text}" for name, text in texts}


def messages():
    """The lines with its name that the program writes to standard error, but for those with a text of the run."""
    lines = re.findall(r'print_error\(rt, "(labsys: [^"]+)"\)', text_of("crates/labsys/src/main.rt"))
    return sorted([*complaints().values(), *lines])


def table_of_commands():
    """The commands, as the table of their help has them."""
    row = re.compile(r'word: "(\w+)",\s+argument: (?:Some\((\w+)\)|None),\s+input: (?:Some\("(\w+)"\)|None),\s+about: "([^"]+)"')
    names = dict(re.findall(r'const (\w+): ArgumentHelp = ArgumentHelp \{\s+name: "(\w+)"', text_of(HELP_FILE)))
    return [CommandHelp(word, names.get(argument), read, about) for word, argument, read, about in row.findall(text_of(HELP_FILE))]


def usages():
    """The commands with the names of their arguments."""
    return [command.usage for command in table_of_commands()]


def commands():
    return [command.word for command in table_of_commands()]


def words_with_arguments():
    """The words of the commands, with `Some` where an argument stands after them, and `None` where none does."""
    return [f"{command.word} {'Some' if command.argument else 'None'}" for command in table_of_commands()]


def words_of_program():
    """The same of the words that the program reads."""
    return [" ".join(pair) for pair in re.findall(r'\("(\w+)", (Some|None)', text_of("crates/labsys/src/command.rt"))]


def crates():
    return re.findall(r"^(\w+):", text_of("crates.txt"), re.M)


def proved_crates():
    return [crate for crate in crates() if crate not in TESTS]


def checks_by(method, none):
    """The word of each check, with what a `match` of `CheckName` gives it."""
    body = match_in("crates/kern_model/src/checks.rt", rf"pub fn {method}\(self\).*?\n    \}}\n", f"function {method}")[0]
    given = {}
    for names, value in re.findall(r"((?:CheckName::\w+[\s|]*)+)=> (?:Some\((?:\w+::)?(\w+)\)|None)", body):
        given.update((name, value or none) for name in re.findall(r"CheckName::(\w+)", names))
    words = dict(re.findall(r'CheckName::(\w+) => b"(\w+)"', text_of("crates/kern_model/src/words.rt")))
    return [f"{word} {given.get(name, 'nothing')}" for name, word in words.items()]


def errors_of_checks():
    return checks_by("errno", "soft")


def capabilities_of_checks():
    names = dict(re.findall(r'Cap::(\w+) => b"(\w+)"', text_of("crates/cap_bits/src/cap.rt")))
    pairs = [pair.split() for pair in checks_by("cap", "none")]
    return [f"{check} {names.get(cap, cap)}" for check, cap in pairs]


def faults(name, enum):
    """The words of the faults that an enum has, in the order in which they count: that of `LineFault`."""
    body = match_in(f"crates/{name}", rf"pub enum {enum} \{{(.*?)\n\}}", f"enum {enum}")[1]
    names = re.findall(r"^    (\w+)(?:\(|,)", body, re.M)
    pairs = re.findall(r'LineFault::(\w+) => b"(\w+)"', text_of("crates/line_text/src/fault.rt"))
    return [word for fault, word in pairs if any(fault.startswith(name) for name in names)]


def keywords():
    lists = arms("lab_text/src/lists.rt", "NameList")
    return ["world", *lists, "bound", *arms("world_text/src/keyword.rt", "Keyword")]


def flags():
    return re.findall(r"pub (\w): bool", between("crates/kern_model/src/calls.rt", "pub struct OpenFlags {", "}"))


def calls():
    return arms("kern_model/src/calls.rt", "CallName")


def checks():
    return arms("kern_model/src/words.rt", "CheckName")


def capabilities():
    return arms("cap_bits/src/cap.rt", "Cap")


def errors():
    return arms("kern_model/src/words.rt", "Errno")


def tools():
    return arms("sec_utils/src/util.rt", "Tool")


def kit():
    return re.findall(r"^kit=(.*)$", text_of("build.sh"), re.M)


def fields_of(path, record):
    body = match_in(path, rf"pub record {record}\b(.*?)(?:pub record|\Z)", f"record {record}")[1]
    return re.findall(r"^  pub (\w+) :", body, re.M)


def fields_of_plays():
    return fields_of("crates/labsys/specs/Promises.antt", "Plays")


def clauses_of_run():
    """The clauses of the contract, of which `runs` is the record `Runs`."""
    body = match_in("crates/labsys/src/running.rt", r"pub fn run<(.*)", "function run")[1]
    clauses = set(re.findall(r"^    ensures (\w+) \{", body, re.M))
    return clauses - {"runs"} | set(fields_of("crates/labsys/specs/Running.antt", "Runs"))


# ---- what pages have

def first_cells(page, *sections):
    """The words in code at the beginning of the first cells of the tables of some sections, in order."""
    found = []
    for section in sections:
        for cells in rows_of(section_with(page, section)):
            found += [code.split()[0] for code in CODE.findall(cells[0])]
    return found


def section_with(page, title):
    """The text below a heading with what is below its subheadings."""
    level, rest = match_in(page, rf"^(#+) {re.escape(title)}\n(.*)", f"section {title}").groups()
    return re.split(rf"^#{{1,{len(level)}}} ", rest, maxsplit=1, flags=re.M)[0]


def section_alone(page, title):
    """The text below a heading, up to the next one."""
    return re.split(r"^#+ ", section_with(page, title), maxsplit=1, flags=re.M)[0]


def calls_of_table():
    return [word for word in first_cells("docs/CALLS.md", *FAMILIES) if word not in flags()]


def flags_of_table():
    return first_cells("docs/CALLS.md", "open")


def checks_of_table():
    """The words of the rows that may be checks: those of two letters or more, but for calls that are no checks."""
    sections = ["What rows share", *FAMILIES]
    texts = [cells[1] for section in sections for cells in rows_of(section_with("docs/CALLS.md", section))]
    texts += [section_with("docs/CALLS.md", section) for section in ("open", "rename")]
    words = {word for text in texts for word in re.findall(r"`([a-z_]{2,})`", text)}
    return sorted(words - (set(calls()) - set(checks())))


def flags_of_argument():
    return re.findall(r"`(\w)`", between("docs/FORMATS.md", "| FLAGS | letters of ", " in this order"))


def errors_named():
    """The errors that the rows and the rules name."""
    return sorted(set(re.findall(r"\bE[A-Z]{3,}\b", text_of("docs/CALLS.md") + text_of("docs/PROFILE.md"))))


def check_rows(column):
    """Each check of the tables of the profile, with the name in a column: its capability or its error."""
    found = []
    for cells in rows_of(section_alone("docs/PROFILE.md", "Checks")):
        checks, names = CODE.findall(cells[0]), re.findall(r"\w+", cells[column]) or ["none"]
        for at, check in enumerate(checks):
            found.append(f"{check} {names[min(at, len(names) - 1)]}")
    return found


def errors_of_rows():
    return [pair if pair.split()[1].startswith("E") else f"{pair.split()[0]} soft" for pair in check_rows(3)]


def capabilities_listed():
    text = section_with("docs/PROFILE.md", "Capabilities").split("The five", 1)[0]
    return list(dict.fromkeys(re.findall(r"`(cap_\w+)`", text)))


def keywords_of_tables():
    faults = faults_of_tables("The world")
    return list(itertools.takewhile(lambda word: word != faults[0], first_cells("docs/FORMATS.md", "The world")))


def faults_of_tables(section):
    """The words of the table of faults of a section."""
    for table in re.split(r"\n\n", section_with("docs/FORMATS.md", section)):
        if table.startswith("| Word | Comes where |"):
            return [CODE.findall(cells[0])[0] for cells in rows_of(table)]
    return []


def statuses_of_page():
    return [cells[0] for cells in rows_of(section_with("docs/FORMATS.md", "Exit status"))]


def complaints_of_page():
    rows = rows_of(section_with("docs/FORMATS.md", "Exit status"))
    return [f"{cells[0]} {text}" for cells in rows for text in CODE.findall(cells[2])[:1]]


def messages_of_manual():
    """The messages of the manual, but for those with the name of a file."""
    found = re.findall(r'^\.It "?(labsys: [^"\n]+)"?$', text_of("docs/labsys.1"), re.M)
    return sorted(message for message in found if "FILE" not in message)


def statuses_of_manual():
    return re.findall(r"^\.It (\d+)$", text_of("docs/labsys.1"), re.M)


def statuses_of_help():
    return re.findall(r"^  (\d+)  ", text_of("docs/help.txt"), re.M)


def rows_with_words(page, section):
    return [CODE.findall(cells[0])[0] for cells in rows_of(section_with(page, section)) if CODE.findall(cells[0])]


def items_of_manual():
    lines = between("docs/labsys.1", ".Sh DESCRIPTION", ".Sh INPUT")
    return [re.sub(r" Ar ", " ", use) for use in re.findall(r"^\.It Cm (.*)$", lines, re.M)]


def commands_of_help():
    return re.findall(r"^  ([a-z]+(?: [A-Z]+)?) ", between("docs/help.txt", "Commands:\n", "As the only"), re.M)


def utilities_of_page():
    return [row.split()[1] for row in rows_with_words("docs/FORMATS.md", "Utilities")]


def records_of_page():
    return list(dict.fromkeys(first_cells("docs/FORMATS.md", "The trail")))


def words_of_lineage():
    return rows_with_words("docs/FORMATS.md", "Lineage")


def faults_of_trails():
    return rows_with_words("docs/FORMATS.md", "Trails that are refused")


def kit_of_readme():
    return sorted(set(re.findall(r"rattle-kit-\w+", text_of("README.md"))))


def crates_of_readme():
    return re.findall(r"^\| `(\w+)` \|", section_with("README.md", "What is proved"), re.M)


def crates_of_map():
    tree, rest = match_in("docs/ARCHITECTURE.md", r"```\n(.*?)```\n(.*?)A crate uses only", "map of the crates").groups()
    beside = re.findall(r"`(\w+_\w+)`", rest)
    return sorted({*re.findall(r"^[│├└─ ]*(\w+) ", tree, re.M), *beside})


def crates_of_minutes():
    return sorted(first_cells("docs/ARCHITECTURE.md", "What the gate takes"))


def formats_of_version():
    """The first lines of worlds and trails that the text of the version names."""
    return match_in("docs/version.txt", r"^labsys [\d.]+ \((.*)\)$", "formats")[1].split(", ")


def formats():
    """The first line of a world in the newest format, and that of a trail."""
    newest = re.findall(r'Format::\w+ => b"(\w+)"', text_of("crates/world_text/src/format.rt"))[-1]
    return [f"world {newest}", match_in("crates/aud_record/src/header.rt", r'line\.bytes\(b"(trail \w+)\\n"\)', "first line")[1]]


def syntax_words(group):
    """The words that the syntax of Vim has in a group."""
    lines = re.findall(rf"^syntax keyword {group} (.*)$", text_of("editor/labsys.vim"), re.M)
    return sorted(word for line in lines for word in line.split() if word != "contained")


def parts_of_headline():
    rows = rows_of(section_alone("docs/THEOREMS.md", "The headline"))
    return sorted({name for cells in rows for name in CODE.findall(cells[1])} | {"line_by_line"})


def clauses_of_page():
    rows = rows_of(section_alone("docs/THEOREMS.md", "The other clauses of `run`"))
    return sorted({name for cells in rows for name in CODE.findall(cells[1])} - {*fields_of_plays(), "view_alone", "upgraded", "narrowed", "for_all", "answers"})


def in_order(words):
    """The function whose words are those of another, sorted, for a page that has them in another order."""
    return lambda: sorted(words())


# a page, what it has, the words on the page, and those of the source; a list in order, where the page has it so
WORDS = [
    ("tests/pages.py", "limits of the profile", lambda: sorted(LIMITS.values()), in_order(limits)),
    (
        "crates/lab_text/src/lists.rt", "limits of the lists",
        limits_of_lists, lambda: [values()["LEVELS"], values()["CATEGORIES"]],
    ),
    (
        "crates/fs_path/src/values.rt", "limit of the groups",
        lambda: [f"{constant('fs_path/src/values.rt', 'MAX_GROUPS'):,}"], lambda: [values()["GROUPS"]],
    ),
    ("docs/CALLS.md", "calls", in_order(calls_of_table), in_order(calls)),
    ("docs/CALLS.md", "checks", checks_of_table, in_order(checks)),
    ("docs/CALLS.md", "flags of open", in_order(flags_of_table), in_order(flags)),
    ("docs/FORMATS.md", "flags in order", flags_of_argument, flags),
    ("docs/CALLS.md and docs/PROFILE.md", "errors", errors_named, in_order(errors)),
    ("docs/PROFILE.md", "checks with their errors", errors_of_rows, errors_of_checks),
    ("docs/PROFILE.md", "checks with their capabilities", lambda: check_rows(2), capabilities_of_checks),
    ("docs/PROFILE.md", "capabilities", capabilities_listed, capabilities),
    ("docs/FORMATS.md", "keywords of a world", in_order(keywords_of_tables), in_order(keywords)),
    (
        "docs/FORMATS.md", "refusals of a world",
        lambda: faults_of_tables("The world"), lambda: faults("world_text/src/fault.rt", "WorldError"),
    ),
    (
        "docs/FORMATS.md", "refusals of the script",
        lambda: faults_of_tables("The script"), lambda: faults("script_text/src/fault.rt", "LineError"),
    ),
    ("docs/FORMATS.md", "utilities", utilities_of_page, tools),
    ("tests/answers.py", "utilities", lambda: list(UTILITIES), tools),
    ("docs/FORMATS.md", "records", records_of_page, lambda: arms("aud_record/src/event.rt", "Event")),
    (
        "docs/FORMATS.md", "records as JSON",
        lambda: first_cells("docs/FORMATS.md", "Records as JSON")[4:], lambda: arms("aud_record/src/event.rt", "Event"),
    ),
    ("docs/FORMATS.md", "words of `lineage`", words_of_lineage, lambda: arms("aud_red/src/lineage.rt", "Why")),
    ("docs/FORMATS.md", "refusals of a trail", faults_of_trails, lambda: ["unended", "header", "record"]),
    ("docs/FORMATS.md", "exit statuses", statuses_of_page, statuses),
    (
        "docs/FORMATS.md", "messages of exit statuses",
        complaints_of_page, lambda: [" ".join(pair) for pair in complaints().items()],
    ),
    ("docs/labsys.1", "exit statuses", statuses_of_manual, statuses_of_script),
    ("docs/labsys.1", "messages", messages_of_manual, messages),
    ("docs/version.txt", "formats", formats_of_version, formats),
    ("docs/help.txt", "exit statuses", statuses_of_help, statuses),
    ("crates/labsys/src/command.rt", "words of commands", words_of_program, words_with_arguments),
    ("docs/FORMATS.md", "commands", lambda: rows_with_words("docs/FORMATS.md", "Commands"), usages),
    ("docs/labsys.1", "commands", items_of_manual, usages),
    ("docs/help.txt", "commands", commands_of_help, usages),
    ("editor/labsys.vim", "calls", lambda: syntax_words("labsysCall"), in_order(calls)),
    ("editor/labsys.vim", "utilities", lambda: syntax_words("labsysUtility"), in_order(tools)),
    ("editor/labsys.vim", "capabilities", lambda: syntax_words("labsysCapability"), in_order(capabilities)),
    ("README.md", "kit", kit_of_readme, kit),
    ("README.md", "crates", in_order(crates_of_readme), in_order(proved_crates)),
    ("docs/ARCHITECTURE.md", "crates of the map", crates_of_map, in_order(crates)),
    ("docs/ARCHITECTURE.md", "crates of the minutes", crates_of_minutes, in_order(crates)),
    ("docs/THEOREMS.md", "parts of the headline", parts_of_headline, in_order(fields_of_plays)),
    ("docs/THEOREMS.md", "clauses of `run`", clauses_of_page, in_order(clauses_of_run)),
]

# the limits of the profile: a name for each, and its constant
LIMITS = {
    "INPUT": "MAX_INPUT",
    "OBJECTS": "MAX_OBJECTS",
    "PROCESSES": "MAX_PROCS",
    "DESCRIPTIONS": "MAX_DESCRIPTIONS",
    "DESCRIPTORS": "MAX_DESCRIPTORS",
    "GROUPS": "MAX_GROUPS",
    "LINKS": "MAX_LINKS",
    "FILE": "MAX_FILE_BYTES",
    "PIPE": "MAX_PIPE_BYTES",
    "NUMBER": "MAX_NUMBER",
    "OFFSET": "MAX_OFFSET",
    "STATUS": "MAX_STATUS",
    "PERMISSIONS": "MAX_PERMISSIONS",
}
STATUSES = ["Done", "Usage", "Refused", "ReadFault", "WriteFault", "TrailFault", "NoMemory", "TooLong"]

# limits, counts and statuses: a name for each, and its value
VALUES = {
    **{name: functools.partial(limit, const) for name, const in LIMITS.items()},
    **{name: functools.partial(status, name) for name in STATUSES},
    "INPUT+1": lambda: limit("MAX_INPUT") + 1,
    "DESCRIPTIONS-1": lambda: limit("MAX_DESCRIPTIONS") - 1,
    "DESCRIPTORS-1": lambda: limit("MAX_DESCRIPTORS") - 1,
    "PERMISSIONS": lambda: octal(limit("MAX_PERMISSIONS")),
    "LEVELS": lambda: constant("lab_lattice/src/level.rt", "MAX_LEVEL") + 1,
    "CATEGORIES": lambda: constant("lab_lattice/src/cats.rt", "MAX_CATS"),
    "GRADES": lambda: constant("lab_text/src/policy.rt", "MAX_GRADES"),
    "NAME": lambda: constant("fs_path/src/name.rt", "MAX_NAME"),
    "PATH": lambda: constant("fs_path/src/path.rt", "MAX_TEXT"),
    "NAMES": lambda: constant("fs_path/src/path.rt", "MAX_NAMES"),
    "LINE": lambda: constant("fs_path/src/words.rt", "MAX_LINE"),
    "LABEL_NAME": lambda: constant("lab_text/src/scan.rt", "MAX_NAME"),
    "MODE": lambda: octal(constant("fs_path/src/values.rt", "MAX_MODE") & ~constant("fs_path/src/values.rt", "STICKY")),
    "STICKY": lambda: octal(constant("fs_path/src/values.rt", "STICKY")),
    "UMASK": lambda: octal(constant("kern_core/src/from_world.rt", "START_UMASK")),
    "LINES": lambda: constant("gen_world/src/generator.rt", "MAX_LINES"),
    "SLICES": lambda: constant("sched_engine/src/schedule.rt", "MAX_SLICES"),
    "TURNS": lambda: constant("sched_engine/src/schedule.rt", "MAX_TURNS"),
    "STEPS": lambda: constant("sched_engine/src/programs.rt", "MAX_STEPS"),
    "PLACE": lambda: constant("script_text/src/step_word.rt", "MAX_PLACE"),
    "JUMPS": lambda: constant("sched_progs/src/moving.rt", "MAX_JUMPS"),
    "CHUNK": lambda: constant("io_ends/src/whole.rt", "CHUNK"),
    "TIER": lambda: constant("fs_dirs/src/tiers.rt", "TIER"),
    "NoProgram": lambda: status_of_script("give_up"),
    "AskNo": lambda: status_of_labask("NO"),
    "AskYes": lambda: status_of_labask("YES"),
    "AskStopped": lambda: status_of_labask("STOPPED"),
    "AskNoProgram": lambda: status_of_labask("NO_PROGRAM"),
    "CALLS": lambda: len(calls()),
    "CAPABILITIES": lambda: len(capabilities()),
    "EDITS": lambda: len(list(CRATES.glob("*/must-fail/*.edit"))),
}

# pages whose code names functions and definitions
NAMING = [f"docs/{name}.md" for name in ("ARCHITECTURE", "CALLS", "DECISIONS", "PROFILE", "THEOREMS")]
FILE = re.compile(r"(?:crates/|(?:src|specs|proofs)/)?[\w/{},*]+\.(?:antt|rt|py|sh|vim|1|md|txt|c)\b|crates/[\w/{},*]+")


def alternatives(path):
    """The paths that braces stand for."""
    found = re.search(r"\{([^}]*)\}", path)
    if not found:
        return [path]
    ways = [path[:found.start()] + word + path[found.end():] for word in found[1].split(",")]
    return [each for way in ways for each in alternatives(way)]


def is_there(path):
    """Whether a file that a page names is there: in the tree, or in the folder of that name of some crate."""
    if path.startswith(("crates/", "tests/", "docs/", "bench/", "examples/")):
        return any(TOP.glob(path.rstrip("/")))
    folders = [".", "crates/*", "crates/*/*", "crates/*/*/*", "docs", "tests", "bench", "examples"]
    return any(any(TOP.glob(f"{folder}/{path}")) for folder in folders)


def files_named(page):
    """The files that the code of a page names and that are not there. NAME stands for any name, and out/ has what is built."""
    for code in CODE.findall(without_blocks(page)):
        for path in FILE.findall(code) if " " not in code else []:
            for each in alternatives(path):
                if not is_there(each) and "NAME" not in each and "/out/" not in each:
                    yield f"{page} names {each}, which is not there"


def without_blocks(page):
    return re.sub(r"^```.*?^```$", "", text_of(page), flags=re.M | re.S)


def anchors(name):
    """The anchors of the headings of a page."""
    titles = re.findall(r"^#+ (.*)$", without_blocks(name), re.M)
    return {re.sub(r"[^\w\- ]", "", title.lower()).replace(" ", "-") for title in titles}


def links_broken(page):
    """The links of a page that lead nowhere."""
    for target in LINK.findall(without_blocks(page)):
        name, _, anchor = target.partition("#")
        path = ((TOP / page).parent / name).resolve() if name else TOP / page
        if "://" in target:
            continue
        if not path.exists():
            yield f"{page} links to {target}, which is not there"
        elif anchor and anchor not in anchors(path.relative_to(TOP)):
            yield f"{page} links to {target}, which has no such heading"


def identifiers(folder):
    """The names in the code, the definitions and the proofs below a folder."""
    found = set()
    for path in folder.rglob("*"):
        if path.suffix in (".rt", ".antt", ".py", ".c", ".edit") and "out" not in path.parts:
            found.update(re.findall(r"[A-Za-z_][\w]*", path.read_text(encoding="utf-8")), [path.stem, path.parent.name])
    return found


@functools.cache
def names_known():
    return identifiers(CRATES) | identifiers(TOP / "tests") | identifiers(TOP / "bench")


def names_stale(page):
    """The names in the code of a page that nothing has. One that ends with `_` stands for all that begin so.

    A name is known where any file of crates/, tests/ or bench/ has it as a word, be it in a comment or for another thing. So a
    name that is stale on the page is not found while such a word is there.
    """
    known = names_known()
    for code in CODE.findall(without_blocks(page)):
        if re.fullmatch(r"[A-Za-z_]\w*(?:(?:::|\.)[A-Za-z_]\w*)*", code):
            for name in re.findall(r"\w+", code):
                if name not in known and not (name.endswith("_") and any(other.startswith(name) for other in known)):
                    yield f"{page} names `{code}`, and nothing has `{name}`"


def functions_unknown(page, section, column):
    """The functions and types that the rows of a table give a crate, and that its code does not have."""
    crate = ""
    for cells in rows_of(section_with(page, section)):
        crate = (CODE.findall(cells[0]) or [crate])[0]
        code = "\n".join(path.read_text(encoding="utf-8") for path in (CRATES / crate / "src").rglob("*.rt"))
        for name in CODE.findall(cells[column]):
            last = name.split("::")[-1]
            if not re.search(rf"\b(?:fn|struct|enum|trait|impl|type) (?:\w+ for )?{last}\b|impl<[^>]*> {name}\b", code):
                yield f"{page} gives `{crate}` the name `{name}`, which it does not have"


# a page, and a text of it in which `{NAME}` stands for a value
NUMBERS = [
    ("README.md", "root's power split into {CAPABILITIES} capabilities"),
    ("README.md", "The program plays the {CALLS} calls of the profile"),
    ("README.md", "FIFOs up to {NAMES} names deep"),
    ("README.md", "for all {CALLS} calls, isolation of each step"),
    ("README.md", "when the exit status is {Usage}"),
    ("README.md", "does not end with status {NoMemory}, out of memory"),
    ("CHANGELOG.md", "It plays the {CALLS} calls of the profile"),
    ("docs/labsys.1", "and P1003.2c: {CAPABILITIES} capabilities in place of root's"),
    ("docs/labsys.1", "generated calls, 1 to {LINES}."),
    ("docs/labsys.1", "The input has more than {INPUT} bytes."),
    ("docs/CALL_INDEX.md", "For each of the {CALLS} calls"),
    ("docs/CALLS.md", "one row for each of the {CALLS} calls"),
    ("docs/CALLS.md", "it has less room of its {PIPE} bytes than BYTES needs"),
    ("docs/CALLS.md", "EFBIG where the file would have more than {FILE} bytes"),
    ("docs/CALLS.md", "`dup FD` | open fd; EMFILE where the caller has {DESCRIPTORS} descriptors"),
    ("docs/CALLS.md", "EMFILE where the caller has {DESCRIPTORS-1} descriptors or more"),
    ("docs/CALLS.md", "ENFILE where {DESCRIPTIONS-1} description numbers"),
    ("docs/CALLS.md", "ENOSPC where {OBJECTS} object numbers of that label are"),
    ("docs/CALLS.md", "1. EMFILE where the caller has {DESCRIPTORS} descriptors."),
    ("docs/CALLS.md", "2. ENFILE where {DESCRIPTIONS} description numbers of the caller's label are drawn."),
    ("docs/CALLS.md", "6. ENOSPC where {OBJECTS} object numbers of the caller's label are drawn."),
    ("docs/CALLS.md", "make in d; ENOSPC where {OBJECTS} object numbers of the caller's label are drawn | makes a FIFO"),
    ("docs/CALLS.md", "EMLINK where o has {LINKS} names"),
    ("docs/CALLS.md", "EAGAIN where {PROCESSES} process numbers of the caller's label are drawn"),
    ("docs/PROFILE.md", "A world names 1 to {LEVELS} levels, lowest first, and 0 to {CATEGORIES} categories"),
    ("docs/PROFILE.md", "Root's power is split into {CAPABILITIES} capabilities"),
    ("docs/PROFILE.md", "A world may name 1 to {GRADES} grades, lowest first"),
    ("docs/PROFILE.md", "| levels; categories; grades | {LEVELS}; {CATEGORIES}; {GRADES} |"),
    ("docs/PROFILE.md", "| a name in a path | 1 to {NAME} bytes"),
    ("docs/PROFILE.md", "| a path | {PATH} bytes and {NAMES} names |"),
    ("docs/PROFILE.md", "| descriptors of a process | {DESCRIPTORS}, numbered from 0 |"),
    ("docs/PROFILE.md", "| bytes of a file; of a pipe or FIFO | {FILE}; {PIPE} |"),
    ("docs/PROFILE.md", "numbers; object numbers; description numbers of a label | {PROCESSES}; {OBJECTS}; {DESCRIPTIONS} |"),
    ("docs/PROFILE.md", "| supplementary groups of a process | {GROUPS} |"),
    ("docs/PROFILE.md", "| names of a file or FIFO | {LINKS} |"),
    ("docs/PROFILE.md", "and the mode asked for, cut to {PERMISSIONS} and"),
    ("docs/PROFILE.md", "root directory with umask {UMASK} and"),
    ("docs/PROFILE.md", "modes lie within octal {MODE}, and"),
    ("docs/PROFILE.md", "up to {DESCRIPTORS} descriptors, a list of ended children"),
    ("docs/FORMATS.md", "let q be x(i) / 65,536, and"),  # no limit, though a file may have as many bytes
    ("docs/FORMATS.md", "With any other words the status is {Usage}."),
    ("docs/FORMATS.md", "| {Done} | the input was accepted to its end"),
    ("docs/FORMATS.md", "| {Usage} | the words name no command"),
    ("docs/FORMATS.md", "| {Refused} | a line was refused"),
    ("docs/FORMATS.md", "| {ReadFault} | a read failed"),
    ("docs/FORMATS.md", "| {WriteFault} | a write to standard output failed"),
    ("docs/FORMATS.md", "| {TrailFault} | a write to the trail failed"),
    ("docs/FORMATS.md", "| {NoMemory} | out of memory"),
    ("docs/FORMATS.md", "| {TooLong} | the input is too long"),
    ("docs/FORMATS.md", "it runs no program, and ends with status {NoProgram}."),
    ("docs/FORMATS.md", "`play FILE` and `sched FILE` are refused with status {Usage} and one line"),
    ("docs/FORMATS.md", "each read or write there fails, and the status is {ReadFault} or {WriteFault}"),
    ("docs/FORMATS.md", "with status {WriteFault} or {TrailFault}, and raises no signal"),
    ("docs/FORMATS.md", "with a value from 1 to {LINES}."),
    ("docs/ASK.md", "| Question | Yes, {AskYes} | No, {AskNo} |"),
    ("docs/ASK.md", "by the model; where neither is shown, the status is {AskStopped} |"),
    ("docs/ASK.md", "The exit status is {AskNo} where nothing crosses the label of any process"),
    ("docs/ASK.md", "`--rule` may be repeated. The exit status is {AskYes} where a rule"),
    ("docs/ASK.md", "none is broken and one could not be decided, the status is {AskStopped} |"),
    ("docs/ASK.md", "could not be decided and nothing else differs, the status is {AskStopped} |"),
    ("docs/ASK.md", "The exit status is {AskYes} where a call that was asked about was denied or refused, {AskNo} where none was, and {AskStopped} where"),
    ("docs/ASK.md", "where a reply is not as the model has it, that is said, with the status {AskNoProgram}."),
    ("docs/ASK.md", "or by Ctrl-C. The status is {AskStopped} then."),
    ("docs/ASK.md", "The exit status is {AskYes} where a rule"),
    ("docs/ASK.md", "The exit status is {AskNo} whether the runs differ or not."),
    ("docs/ASK.md", "The exit status is {AskYes} where a call is denied here or another difference is not known."),
    ("docs/FORMATS.md", "An input has at most {INPUT} bytes."),
    ("docs/FORMATS.md", "A line ends with a line feed and has at most {LINE} bytes before it"),
    ("docs/FORMATS.md", "1 to 10 decimal digits, leading zeros allowed, with a value of at most {NUMBER} |"),
    ("docs/FORMATS.md", "1 to 4 octal digits, where the bit octal {STICKY} is not set |"),
    ("docs/FORMATS.md", "that of `umask` is at most {PERMISSIONS} |"),
    ("docs/FORMATS.md", "`-` for none, or 1 to {GROUPS} numbers"),
    ("docs/FORMATS.md", "no byte or more than {PATH}, a byte 0,"),
    ("docs/FORMATS.md", "a name `..`, a name of more than {NAME} bytes, or more than {NAMES} names"),
    ("docs/FORMATS.md", "| `levels NAME NAME ...` | 1 to {LEVELS} levels"),
    ("docs/FORMATS.md", "| `categories NAME ...` | 0 to {CATEGORIES} categories"),
    ("docs/FORMATS.md", "is due, the line has at most {LINE} bytes and a line feed"),
    ("docs/FORMATS.md", "| `syntax` | the line has more than {LINE} bytes"),
    ("docs/FORMATS.md", "| `grades NAME NAME ...` | 1 to {GRADES} grades"),
    ("docs/FORMATS.md", "more than {LEVELS} levels, {CATEGORIES} categories, {GRADES} grades"),
    ("docs/FORMATS.md", "{OBJECTS} objects of a label or {PROCESSES} processes of a label"),
    ("docs/FORMATS.md", "A name has 1 to {LABEL_NAME} bytes"),
    ("docs/FORMATS.md", "TAG is `n@label`, with n from 1 to {PROCESSES}:"),
    ("docs/FORMATS.md", "N of `read` is at most {FILE}, that of `exit` at most {STATUS} |"),
    ("docs/FORMATS.md", "| `too_long` | the line has more than {LINE} bytes |"),
    ("docs/FORMATS.md", "a line of the world may have more than {LINE} bytes then"),
    ("docs/FORMATS.md", "the tag is not `n@label` with n from 1 to {PROCESSES} and"),
    ("docs/FORMATS.md", "the number of a PID is not from 1 to {PROCESSES}, or"),
    ("docs/FORMATS.md", "| `slices LABEL ...` | 1 to {SLICES} labels"),
    ("docs/FORMATS.md", "N times the number of labels is at most {TURNS} |"),
    ("docs/FORMATS.md", "| steps | up to {STEPS} lines of steps"),
    ("docs/FORMATS.md", "TO is a number from 0 to {PLACE}."),
    ("docs/FORMATS.md", "no label after `slices`, or more than {SLICES} |"),
    ("docs/FORMATS.md", "the tag of `program` is not `n@label` with n from 1 to {PROCESSES} and"),
    ("docs/PROFILE.md", "or went through {JUMPS} jumps"),
    ("docs/FORMATS.md", "`all` in a list stands for all {CAPABILITIES} names"),
    ("docs/FORMATS.md", "has no list and is about all {CAPABILITIES}."),
    ("docs/FORMATS.md", "`too_long` where it has more than {LINE} bytes, and else"),
    ("docs/FORMATS.md", "Numbers of processes and objects go up to {OBJECTS}, and"),
    ("docs/FORMATS.md", "end with status {Done}, {Refused} or {TooLong}, and let what it wrote to its trail have at most {INPUT} bytes"),
    ("docs/FORMATS.md", "A trail of more than {INPUT} bytes is not judged"),
    ("docs/FORMATS.md", "An input of more than {INPUT} bytes is cut there"),
    ("docs/FORMATS.md", "is refused where it has more than {LINE} bytes, with `syntax`"),
    ("docs/THEOREMS.md", "With any status but {NoMemory}, status {Usage} comes exactly where the words name no command"),
    ("docs/THEOREMS.md", "With status {Done}, {Refused} or {TooLong} all reply lines are in the output"),
    ("docs/THEOREMS.md", "With status {Done}, {Refused} or {TooLong}, where the trail has at most {INPUT} bytes"),
    ("docs/THEOREMS.md", "of the records of the run, and its status is {Done}"),
    ("docs/THEOREMS.md", "| status {Usage} | `usage` |"),
    ("docs/THEOREMS.md", "so status {NoMemory} may come before a command is known"),
    ("docs/THEOREMS.md", "source and sinks are as they were, also with status {NoMemory}."),
    ("docs/THEOREMS.md", "the status is {Usage} by the words, {Done}, {Refused} or {TooLong} by the input"),
    ("docs/THEOREMS.md", "Where the status is {Done}, {Refused} or {TooLong}, it is the one"),
    ("docs/THEOREMS.md", "so over real files too they never end with status {Refused} or {TooLong}."),
    ("docs/THEOREMS.md", "With status {Done}, where no call crosses L"),
    ("docs/THEOREMS.md", "With status {Done} of `lineage`"),
    ("docs/THEOREMS.md", "After status {Done} of a command that reads the source"),
    ("docs/THEOREMS.md", "With status {Done} of `upgrade`"),
    ("docs/THEOREMS.md", "With status {Done} of `never`, the output is"),
    ("docs/THEOREMS.md", "With status {Done} of `least`"),
    ("docs/THEOREMS.md", "Where each line of that text has at most {LINE} bytes, and the output with all that stands behind"),
    ("docs/THEOREMS.md", "of the input at most {INPUT}, the output and that are an input"),
    ("docs/THEOREMS.md", "Where each line of that text has at most {LINE} bytes, and the output at most {INPUT}"),
    ("docs/THEOREMS.md", "With status {Refused} or {TooLong} the due bytes are"),
    ("docs/THEOREMS.md", "With status {ReadFault} the source counted one fault in this call"),
    ("docs/THEOREMS.md", "with status {WriteFault} the output, and with status {TrailFault} the trail"),
    ("docs/THEOREMS.md", "Status {ReadFault} comes only of a command that reads the source"),
    ("docs/THEOREMS.md", "and status {TrailFault} only of one that writes the trail"),
    ("docs/THEOREMS.md", "`isolated_whole` | With status {Done}, {Refused} or {TooLong} all reply lines are in the output. Where no call crosses L, the calls of Low"),
    ("docs/THEOREMS.md", "one list is a prefix of the other. With status {Done}, {Refused} or {TooLong}, where neither run crosses L"),
    ("docs/THEOREMS.md", "With status {Done}, {Refused} or {TooLong} the sinks got all due bytes"),
    ("docs/THEOREMS.md", "With status {ReadFault}, take the bytes"),
    ("docs/THEOREMS.md", "Status {NoMemory}, out of memory, may come at any time"),
    ("docs/THEOREMS.md", "At most {INPUT+1} bytes are taken from it"),
    ("docs/THEOREMS.md", "Nothing is taken where a whole line is held, and else at most {CHUNK} bytes after"),
    ("docs/THEOREMS.md", "categories sets of numbers below {CATEGORIES}"),
    ("docs/THEOREMS.md", "a mode without the bit 1000, at most {GROUPS} groups"),
    ("docs/THEOREMS.md", "the new object is under the next number of its label; `Full` exactly where all {OBJECTS} numbers"),
    ("docs/THEOREMS.md", "the end of the write passes {FILE} bytes"),
    ("docs/THEOREMS.md", "no object has more than {LINKS} names"),
    ("docs/THEOREMS.md", "has fewer than {LINKS} names"),
    ("docs/THEOREMS.md", "`TooMany` exactly where it has {DESCRIPTORS} descriptors"),
    ("docs/THEOREMS.md", "else `Full` exactly where all {DESCRIPTIONS} numbers"),
    ("docs/THEOREMS.md", "`Full` exactly where all {PROCESSES} numbers of the label are drawn"),
    ("docs/THEOREMS.md", "Where each of its lines has at most {LINE} bytes"),
    ("docs/THEOREMS.md", "the generated text for a number of lines from 1 to {LINES};"),
    ("docs/THEOREMS.md", "(1 to {SLICES} labels that have turns, rounds, programs)"),
    ("docs/THEOREMS.md", "labels below the highest, from one round on and at most {TURNS} turns"),
    ("docs/ARCHITECTURE.md", "which holds some {CHUNK} bytes of the input at a time"),
    ("docs/ARCHITECTURE.md", "proved of all {CALLS} rows"),
    ("docs/ARCHITECTURE.md", "All laws go through all {CALLS} rows"),
    ("docs/ARCHITECTURE.md", "The gate tries {EDITS} edits"),
    ("docs/DECISIONS.md", "in tiers of {TIER} entries"),
    ("docs/DECISIONS.md", "a line for each of the {CALLS} calls"),
    ("docs/DECISIONS.md", "so no fault of a read is counted, and the status is {NoMemory}."),
    ("docs/DIFFERENCES.md", "a full pipe of {PIPE} bytes of which one was read"),
    ("docs/DIFFERENCES.md", "the room is {PIPE} bytes less those in the pipe"),
    ("docs/DIFFERENCES.md", "the user {NUMBER}]"),
    ("bench/README.md", "Each run ends as it should: nearly all with status {NoMemory} and"),
    ("bench/README.md", "| End with status {NoMemory} |"),
    ("bench/README.md", "A run reads {CHUNK} bytes of its input at a time"),
    ("bench/README.md", "a file filled to {FILE} bytes"),
    ("bench/README.md", "a pipe is filled to {PIPE} bytes"),
    ("bench/README.md", "within its tier of {TIER} entries"),
    ("bench/README.md", "| {DESCRIPTIONS} | 0.17"),
]
# the pages whose limits of 1,000 or more, and statuses, all stand in a text of NUMBERS: all but those with measured counts and
# with what earlier versions had
COVERED = [*(page for page in PAGES if page not in ("bench/README.md", "CHANGELOG.md")), "docs/labsys.1"]
NUMBER = re.compile(r"(?<![\d,])\d(?:[\d,]*\d)?")
STATUS = re.compile(r"\b[Ss]tatus(?:es)?(?: is)? \d+(?:(?:,| or| and) \d+)*")


@functools.cache
def values():
    """The values, as pages write them."""
    found = {name: value() for name, value in VALUES.items()}
    return {name: value if isinstance(value, str) else f"{value:,}" for name, value in found.items()}


@functools.cache
def texts():
    """The texts of NUMBERS with their values, by their pages."""
    found = collections.defaultdict(list)
    for page, text in NUMBERS:
        found[page].append(re.sub(r"\{([^}]+)\}", lambda name: values()[name[1]], text))
    return found


def texts_lacking():
    """The texts of NUMBERS that their pages do not have."""
    for page, due in texts().items():
        for text in due:
            if text not in flat(text_of(page)):
                yield f"{page} does not have: {text}"


def large_limits(text):
    """Where a text has a limit of 1,000 or more."""
    large = {value for value in values().values() if "," in value}
    return [found.start() for found in NUMBER.finditer(text) if found[0] in large]


def statuses_in(text):
    """Where a text has a number after the word `status`."""
    return [found.start() + number.start() for found in STATUS.finditer(text) for number in re.finditer(r"\d+", found[0])]


def numbers_uncovered(page):
    """The large limits and the statuses of a page that stand in no text of NUMBERS."""
    text = flat(text_of(page))
    spans = [found.span() for due in texts()[page] for found in re.finditer(re.escape(due), text)]
    for place in large_limits(text) + statuses_in(text):
        if not any(begin <= place < end for begin, end in spans):
            yield f"{page} has {NUMBER.match(text, place)[0]} in no text of NUMBERS: {text[max(0, place - 50):place + 30]}"


def numbers_wrong():
    """What is wrong with the numbers of pages."""
    yield from texts_lacking()
    for page in COVERED:
        yield from numbers_uncovered(page)


def difference(there, due):
    """In what a list on a page differs from that of the source, or nothing."""
    lacking, other = [word for word in due if word not in there], [word for word in there if word not in due]
    if lacking or other:
        return "; ".join([f"lacks {word}" for word in lacking] + [f"has {word}, which the source does not" for word in other])
    return "" if there == due else f"in another order, or twice: {' '.join(there)}"


def list_wrong(page, what, on_page, in_source):
    """What is wrong with a list of words."""
    wrong = difference(on_page(), in_source())
    if wrong:
        yield f"{page}, {what}: {wrong}"


def page_wrong(page):
    """What is wrong with the files, the links and the names of a page."""
    yield from files_named(page)
    yield from links_broken(page)
    if page in NAMING:
        yield from names_stale(page)


def faults_or_lacking(compare, *arguments):
    """The faults that a comparison finds, or the one that a file lacks what it compares."""
    try:
        yield from compare(*arguments)
    except Lacking as fault:
        yield str(fault)


def faults_of_pages():
    """All that is wrong."""
    for row in WORDS:
        yield from faults_or_lacking(list_wrong, *row)
    yield from faults_or_lacking(numbers_wrong)
    for page in PAGES:
        yield from faults_or_lacking(page_wrong, page)
    yield from faults_or_lacking(functions_unknown, "README.md", "What is proved", 2)
    yield from faults_or_lacking(functions_unknown, "docs/THEOREMS.md", "The layers", 1)


def main():
    arguments = argparse.ArgumentParser(description=__doc__, formatter_class=argparse.RawDescriptionHelpFormatter)
    arguments.add_argument("--list", action="store_true", help="list what is compared")
    if arguments.parse_args().list:
        for page, what in [each[:2] for each in WORDS] + NUMBERS:
            print(f"{page}: {what}")
        return
    found = dict.fromkeys(faults_of_pages())
    for fault in found:
        print("FAILED " + fault)
    sys.exit(1 if found else 0)


if __name__ == "__main__":
    main()
