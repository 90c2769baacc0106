"""What is wrong with a line that `labsys` has refused: the word at fault, and what was looked for there.

`labsys` judges. These functions look for the faults of the kind that its refusal names, and never say that a line is accepted.
"""
import difflib
import re
from dataclasses import dataclass
from typing import Callable, Dict, Iterator, List, Optional, Sequence, Tuple

from labask.capability_texts import TextFault, read_sets, text_faults
from labask.kernel_profile import (ASKING, LISTS, MAX_FILE_BYTES, MAX_GROUPS, MAX_LINE, MAX_NUMBER, MAX_OBJECT_NUMBER, MAX_PATH,
                                   MAX_PATH_NAME, MAX_PATH_NAMES, MAX_PROCESS_NUMBER, MAX_STATUS, OPEN_FLAGS)
from labask.label_texts import NAME, label_faults, listed
from labask.signatures import CALLS, CAPABILITIES, LINES, UTILITIES, arguments_of
from labask.worlds import TAG_NUMBER, Line, Policy, Word, World, canonical_path, parent_path, quoted

NUMBER_LIMITS = {"read": MAX_FILE_BYTES, "exit": MAX_STATUS}


@dataclass(frozen=True)
class Finding:
    """A fault of a line: the word of the refusal that it explains, its first column, its length, and a message."""
    word: str
    column: int
    length: int
    message: str


def shown(word: Word) -> str:
    """A word between quotes, as messages have it."""
    return quoted(word.value)


def on_word(kind: str, name: str, word: Word, message: str) -> Finding:
    """A finding that marks a whole word."""
    return Finding(kind, word.column, len(word.written), f"{name} {shown(word)}: {message}")


def in_word(kind: str, name: str, word: Word, fault: TextFault) -> Finding:
    """A finding that marks a place inside a word, where its bytes stand as they are, and else the word."""
    inset = 1 if word.quoted else 0
    if len(word.written) != len(word.value) + 2 * inset:
        return on_word(kind, name, word, fault.message)
    return Finding(kind, word.column + inset + fault.column, fault.length, f"{name} {shown(word)}: {fault.message}")


def number_fault(text: str, limit: int = MAX_NUMBER) -> Optional[str]:
    """What is looked for in place of a number."""
    if re.fullmatch(r"[0-9]{1,10}", text) and int(text) <= limit:
        return None
    return f"expected a number of 1 to 10 decimal digits, at most {limit:,}"


def mode_fault(text: str, limit: int = 0o6777) -> Optional[str]:
    """What is looked for in place of a mode."""
    if not re.fullmatch(r"[0-7]{1,4}", text):
        return "expected 1 to 4 octal digits"
    if int(text, 8) & ~limit:
        return f"expected a mode of at most {limit:04o}" if limit == 0o777 else "the bit octal 1000 is not part of the profile"
    return None


def groups_fault(text: str) -> Optional[str]:
    """What is looked for in place of groups."""
    numbers = text.split(",")
    if text == "-" or (len(numbers) <= MAX_GROUPS and not any(map(number_fault, numbers))):
        return None
    return f"expected - for none, or 1 to {MAX_GROUPS} numbers with commas between them"


def path_fault(value: bytes) -> Optional[str]:
    """What is wrong with a path."""
    names = [name for name in value.split(b"/") if name not in (b"", b".")]
    if not 1 <= len(value) <= MAX_PATH:
        return f"a path has 1 to {MAX_PATH:,} bytes"
    if b"\0" in value:
        return "a path has no byte 0"
    if b".." in names:
        return "no path has a name .."
    if any(len(name) > MAX_PATH_NAME for name in names):
        return f"a name has at most {MAX_PATH_NAME} bytes"
    return f"a path has at most {MAX_PATH_NAMES} names" if len(names) > MAX_PATH_NAMES else None


def flags_fault(text: str) -> Optional[str]:
    """What is wrong with the flags of `open`."""
    if not text or text.strip(OPEN_FLAGS) or len(set(text)) < len(text):
        return f"letters of {OPEN_FLAGS} in this order, each at most once"
    if sorted(text, key=OPEN_FLAGS.index) != list(text):
        return f"letters in the order {OPEN_FLAGS}"
    if not set(text) & set("rw"):
        return "r or w is due"
    if "x" in text and "c" not in text:
        return "x only with c"
    return "t and a only with w" if set(text) & set("ta") and "w" not in text else None


def offset_fault(text: str) -> Optional[str]:
    """What is looked for in place of an offset."""
    return number_fault(text[1:] if text.startswith("-") else text) and "expected a number, or - and a number"


def set_text_fault(text: str) -> Iterator[TextFault]:
    """What is wrong with a set text, that of a bound."""
    if text == "none":
        return
    column = 0
    for name in text.split(","):
        if not name:
            yield TextFault(column, 1, bool(text), "the name of a capability is due; none and all are set texts too")
        elif name.lower() not in CAPABILITIES and name.lower() != "all":
            yield TextFault(column, len(name), True, f"unknown capability {name}")
        column += len(name) + 1


def line_findings(line: Line, too_long: str = "syntax") -> Iterator[Finding]:
    """Faults of the bytes of a line."""
    if len(line.text) > MAX_LINE:
        yield Finding(too_long, MAX_LINE, 1, f"the line has {len(line.text):,} bytes; at most {MAX_LINE:,}")
    if line.malformed:
        yield Finding("syntax", line.malformed.column, 1, line.malformed.fault.value)
    if not line.ended:
        yield Finding("syntax", len(line.text), 1, "the line feed at the end of the last line is missing")


def count_findings(words: Sequence[Word], form: str, needed: int, allowed: int, end: int) -> Iterator[Finding]:
    """Words of a line that are missing or too many; `words` are those after the keyword or call, and `form` names them."""
    names = [name.strip("[]") for name in form.split()[1:]]
    if len(words) < needed:
        yield Finding("syntax", end, 1, f"{names[len(words)]} is missing; the line is {form}")
    for word in words[allowed:allowed + 1]:
        comment = "; a comment is a line of its own" if word.text.startswith("#") else ""
        yield on_word("syntax", "the word", word, f"one too many; the line is {form}{comment}")


# ---- lines of a world

def caps_findings(word: Word, unknown: str, malformed: str) -> Iterator[Finding]:
    """Faults of a capability text, with the words of the refusals that they explain."""
    for fault in text_faults(word.text):
        yield in_word(unknown if fault.unknown else malformed, "CAPS", word, fault)


def sets_findings(word: Word, of_process: bool) -> Iterator[Finding]:
    """Capability sets that a process or a file of a world does not have."""
    sets = read_sets(word.text)
    if of_process and sets.effective - sets.permitted:
        names = [name for name in CAPABILITIES if name in sets.effective - sets.permitted]
        yield Finding("syntax", word.column, len(word.written), f"effective but not permitted: {','.join(names)}")
    lacking = (sets.permitted | sets.inheritable) ^ sets.effective
    if not of_process and sets.effective and lacking:
        names = [name for name in CAPABILITIES if name in lacking]
        yield on_word("mixed_caps", "CAPS", word, "what is effective is neither nothing nor exactly all that is permitted or "
                      f"inheritable; see {','.join(names)}")


def value_findings(name: str, word: Word, policy: Policy) -> Iterator[Finding]:
    """Faults of a value of a line of a world, by the name of its word."""
    simple: Dict[str, Callable[[str], Optional[str]]] = {"MODE": mode_fault, "UID": number_fault, "GID": number_fault,
                                                         "GROUPS": groups_fault}
    message = simple[name](word.text) if name in simple else path_fault(word.value) if name == "PATH" else None
    if message:
        yield on_word("syntax", name, word, message)
    elif name == "PATH" and not word.value.startswith(b"/"):
        yield on_word("syntax", name, word, "expected an absolute path, which begins with /")
    elif name == "LABEL":
        for fault in label_faults(word.text, policy):
            yield in_word("unknown_name" if fault.unknown else "syntax", name, word, fault)
    elif name == "CAPS":
        yield from caps_findings(word, "unknown_name", "syntax")


def list_findings(line: Line, keyword: str) -> Iterator[Finding]:
    """Faults of a line of levels, categories or grades."""
    least, most = LISTS[keyword]
    names, seen = line.words[1:], set()
    if len(names) < least:
        yield Finding("syntax", len(line.text), 1, f"a name is missing; the line is {keyword} NAME NAME ...")
    for word in names:
        if not re.fullmatch(NAME.pattern, word.text) or len(word.text) > 31:
            yield on_word("syntax", "NAME", word, "expected 1 to 31 bytes: an ASCII letter, and then letters, digits, _ and -")
    for word in names[most:most + 1]:
        yield on_word("too_many", "NAME", word, f"there are {len(names)} {keyword}; at most {most}")
    for word in names:
        if word.text in seen:
            yield on_word("repeated", "NAME", word, "named twice")
        seen.add(word.text)


def bound_findings(line: Line) -> Iterator[Finding]:
    """Faults of the line of the bound."""
    yield from count_findings(line.words[1:], "bound SET", 1, 1, len(line.text))
    for word in line.words[1:2]:
        for fault in set_text_fault(word.text):
            yield in_word("unknown_name" if fault.unknown else "syntax", "SET", word, fault)


def given_before(world: World, line: Line) -> Dict[bytes, Tuple[int, str, str]]:
    """The objects of the lines before a line by their paths: the line of each, its keyword and its label."""
    return {each.path: (each.line, each.kind.value, each.label) for each in reversed(world.objects) if each.line < line.number}


def place_findings(world: World, line: Line) -> Iterator[Finding]:
    """Faults of an object among those before it: its path, its directory and its label."""
    word, label = line.words[1], line.words[5]
    path, before = canonical_path(word.value), given_before(world, line)
    parent, directory = before.get(parent_path(path)), parent_path(path).decode("latin-1")
    if path in before:
        yield on_word("repeated", "PATH", word, f"line {before[path][0]} has this path")
    if path == b"/" and line.words[0].text != "dir":
        yield on_word("root_label", "word 1", line.words[0], "the root / is a directory; expected dir")
    if path == b"/":
        yield on_word("root_label", "LABEL", label, f"the root has the lowest label; expected {(world.policy.levels or ('',))[0]}")
    elif not before:
        yield on_word("no_parent", "PATH", word, "the first object is the root /")
    elif parent is None:
        yield on_word("no_parent", "PATH", word, f"no line before has its directory {directory}")
    elif parent[1] != "dir":
        yield on_word("no_parent", "PATH", word, f"{directory} of line {parent[0]} is no directory, but a {parent[1]}")
    else:
        due = f"it does not dominate {parent[2]}, the label of {directory} in line {parent[0]}"
        yield on_word("label_order", "LABEL", label, due)


def crowd_findings(line: Line, label: Word, most: int, what: str) -> Iterator[Finding]:
    """Too many objects or processes of a label."""
    yield on_word("too_many", "LABEL", label, f"there are at most {most:,} {what} of a label")


def object_findings(world: World, line: Line) -> Iterator[Finding]:
    """Faults of a line of an object or a process."""
    keyword = line.words[0].text
    if keyword == "script" and len(line.words) == 1:
        yield on_word("syntax", "word 1", line.words[0], "no line before has the root /")
        return
    if keyword == "script":
        yield from count_findings(line.words[1:], "script", 0, 0, len(line.text))
        return
    if keyword not in LINES or line.words[0].quoted:
        yield on_word("syntax", "word 1", line.words[0], "expected dir, file, fifo, proc or script")
        return
    names = [name.strip("[]") for name in LINES[keyword].split()]
    needed = len([name for name in LINES[keyword].split() if not name.startswith("[")])
    words = line.words[1:]
    yield from count_findings(words, f"{keyword} {LINES[keyword]}", needed, len(names), len(line.text))
    for name, word in zip(names, words):
        yield from value_findings(name, word, world.policy)
    if needed <= len(words) <= len(names):
        yield from whole_findings(world, line, dict(zip(names, words)))


def whole_findings(world: World, line: Line, words: Dict[str, Word]) -> Iterator[Finding]:
    """Faults of a line of an object or a process with all of its words, by their names."""
    of_process = line.words[0].text == "proc"
    if "CAPS" in words and not list(text_faults(words["CAPS"].text)):
        yield from sets_findings(words["CAPS"], of_process)
    if not of_process:
        yield from place_findings(world, line)
    elif not given_before(world, line):
        yield on_word("no_parent", "word 1", line.words[0], "the first object is the root /, and comes before every process")
    most, what = (MAX_PROCESS_NUMBER, "processes") if of_process else (MAX_OBJECT_NUMBER, "objects")
    yield from crowd_findings(line, words["LABEL"], most, what)


def head_findings(line: Line, due: Sequence[str]) -> Iterator[Finding]:
    """Faults of a line of which one of some keywords is due."""
    first = line.words[0]
    if first.text not in due or first.quoted:
        yield on_word("syntax", "word 1", first, f"expected {' or '.join(due)}")
    elif first.text in LISTS:
        yield from list_findings(line, first.text)
    else:
        yield from bound_findings(line)


def format_findings(line: Line) -> Iterator[Finding]:
    """Faults of the line of the format."""
    first, rest = line.words[0], line.words[1:]
    if first.written != b"world":
        yield on_word("syntax", "word 1", first, "expected world; the first line is world 2")
    elif [word.text for word in rest] == ["1"]:
        yield on_word("old_format", "word 2", rest[0], "the old format; labsys upgrade writes it in today's, world 2")
    else:
        yield from count_findings(rest, "world 2", 1, 1, len(line.text))
        for word in rest[:1]:
            yield on_word("syntax", "word 2", word, "expected 2")


def due_keywords(world: World, line: Line) -> Tuple[str, ...]:
    """The keywords of which one is due at a line before those of objects and processes; none at these."""
    before = [each.words[0].text for each in world.lines.filled() if each.number < line.number]
    due: List[Tuple[str, ...]] = [("world",), ("levels",), ("categories",), ("grades", "bound")]
    due += [("bound",)] if "grades" in before[:4] else []
    return due[len(before)] if len(before) < len(due) else ()


def world_findings(world: World, line: Line) -> Iterator[Finding]:
    """Faults of a line before that of `script`, or of this one."""
    yield from line_findings(line)
    if not line.words:
        return
    due = due_keywords(world, line)
    if due == ("world",):
        yield from format_findings(line)
    elif due:
        yield from head_findings(line, due)
    else:
        yield from object_findings(world, line)


# ---- lines of a script

def tag_message(text: str, policy: Policy) -> Optional[str]:
    """What is wrong with the number of a process."""
    number, at, label = text.partition("@")
    if not at:
        return "expected n@label"
    if not number:
        return "the number is missing before @; expected n@label"
    if not TAG_NUMBER.fullmatch(number) or not 1 <= int(number) <= MAX_PROCESS_NUMBER:
        return f"processes are numbered from 1 to {MAX_PROCESS_NUMBER:,}; expected n@label"
    return next((fault.message for fault in label_faults(label, policy)), None)


def pid_findings(word: Word, policy: Policy) -> Iterator[Finding]:
    """Faults of an argument PID."""
    message = tag_message(word.text, policy)
    if message:
        malformed = not re.fullmatch(r"[0-9]+@.*", word.text, re.S)
        yield on_word("syntax" if malformed else "bad_label", "PID", word, message)


def argument_findings(call: str, name: str, word: Word, policy: Policy) -> Iterator[Finding]:
    """Faults of an argument of a call, by its name."""
    simple: Dict[str, Callable[[str], Optional[str]]] = {
        "MODE": lambda text: mode_fault(text, 0o777 if call == "umask" else 0o6777), "FLAGS": flags_fault, "OFFSET": offset_fault,
        **dict.fromkeys(("FD", "UID", "GID", "N"), lambda text: number_fault(text, NUMBER_LIMITS.get(call, MAX_NUMBER)
                                                                            if name == "N" else MAX_NUMBER))}
    message = simple[name](word.text) if name in simple else path_fault(word.value) if name == "PATH" else None
    if message:
        yield on_word("bad_path" if name == "PATH" else "syntax", name, word, message)
    elif "|" in name and word.text not in name.split("|"):
        yield on_word("syntax", "the word", word, f"expected {' or '.join(name.split('|'))}")
    elif name == "LABEL":
        for fault in label_faults(word.text, policy):
            yield in_word("bad_label", name, word, fault)
    elif name == "CAPS":
        yield from caps_findings(word, "bad_caps", "bad_caps")
    elif name == "PID":
        yield from pid_findings(word, policy)


def open_findings(words: Sequence[Word], end: int) -> Iterator[Finding]:
    """Where the flags of `open` and its argument MODE do not fit."""
    if len(words) == 2 and "c" in words[1].text and not flags_fault(words[1].text):
        yield Finding("syntax", words[1].column, len(words[1].written), "FLAGS has c, so MODE is due")
    if len(words) == 3 and "c" not in words[1].text:
        yield on_word("syntax", "MODE", words[2], "FLAGS has no c, so MODE is one too many")


def call_findings(line: Line, policy: Policy) -> Iterator[Finding]:
    """Faults of the arguments of a call or utility."""
    call, words = line.words[1].text, line.words[2:]
    form = {**CALLS, **UTILITIES}[call]
    parts = form.split()
    needed = len([part for part in parts if not part.startswith("[") and part != "..."])
    allowed = len(words) + 1 if parts[-1:] == ["..."] else len(parts)
    yield from count_findings(words, f"{call} {form}".strip(), needed, allowed, len(line.text))
    if call == "open":
        yield from open_findings(words, len(line.text))
    for name, word in zip(arguments_of(call, len(words)), words):
        yield from argument_findings(call, name, word, policy)


def script_findings(line: Line, policy: Policy) -> Iterator[Finding]:
    """Faults of a line of the script."""
    yield from line_findings(line, "too_long")
    if not line.words:
        return
    tag, known = line.words[0], [*CALLS, *UTILITIES]
    if tag.quoted:
        yield on_word("syntax", "word 1", tag, "a tag is not quoted")
    if len(line.words) == 1:
        what = "the tag n@label is missing before the call" if tag.text in known else "a call is due after the tag"
        yield on_word("syntax", "word 1", tag, what)
        return
    message = tag_message(tag.text, policy)
    if message:
        yield on_word("bad_tag", "word 1", tag, message)
    call = line.words[1]
    if call.quoted:
        yield on_word("syntax", "word 2", call, "the word of a call is not quoted")
    if call.text not in known:
        near = difflib.get_close_matches(call.text, known, 3, 0.5)
        yield on_word("syntax", "word 2", call, "no call or utility" + (f"; near are {listed(near)}" if near else ""))
    else:
        yield from call_findings(line, policy)
    if call.text in ASKING:
        yield on_word("caps_asked", "word 2", call, "it asks for capability sets or sets them, so its reply could show which ones "
                      f"least takes away; least refuses {', '.join(ASKING[:-1])} and {ASKING[-1]}")


def explain_line(world: World, number: int, part: str, word: str) -> Finding:
    """What is wrong with the line of a refusal: the first fault that is found of its kind."""
    if number > len(world.lines):
        return Finding(word, 0, 0, "the input ends before the line script")
    line = world.lines[number - 1]
    findings = script_findings(line, world.policy) if part == "script" else world_findings(world, line)
    found = next((finding for finding in findings if finding.word == word), None)
    return found or Finding(word, 0, len(line.text), "no fault was found that this word names")
