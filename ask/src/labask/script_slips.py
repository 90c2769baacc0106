"""Slips of lines of a script."""
import re
from typing import Dict, Iterator, List, Sequence

from labask import elsewhere
from labask.explaining import tag_message
from labask.kernel_profile import OPEN_FLAGS, STEPS
from labask.label_texts import label_faults
from labask.signatures import CALLS, FORMS, UTILITIES
from labask.slips import (Advice, comma_advice, comment_advice, ending_advice, ids_advice, label_advice, on_words, outside_quotes,
                          quoted_advice, quotes_advice, replaced, spaced_advice, with_words, written)
from labask.world_slips import WORLD_WORDS
from labask.worlds import Line, Word, World

TERM, KILL = ("SIGTERM", "term", "15", "-15", "-TERM", "-SIGTERM"), ("SIGKILL", "kill", "9", "-9", "-KILL", "-SIGKILL")
SIGNALS: Dict[str, str] = {**dict.fromkeys(TERM, "TERM"), **dict.fromkeys(KILL, "KILL")}
WHENCE = {"SEEK_SET": "set", "SEEK_CUR": "cur", "SEEK_END": "end"}


def place_advice(world: World, line: Line) -> Iterator[Advice]:
    """A line of a world, or one of programs, in a script."""
    first = line.words[0]
    if first.text in WORLD_WORDS:
        yield on_words("word 1", [first], f"a line of the world, which stands before the line script, line {world.script_line}")
    elif first.text in STEPS:
        yield on_words("word 1", [first], "a line of programs, which labsys sched reads; a line of a script is TAG CALL ARGUMENTS")


def process_advice(world: World, line: Line, name: str, word: Word) -> Iterator[Advice]:
    """A word that has a label or a number alone where a process is due; to be written is the first process that fits."""
    text = word.text.rstrip(":")
    message, label = tag_message(word.text, world.policy), text.lstrip("@")
    if message is None or word.quoted:
        return
    if text.isdigit():
        message, found = "the label is missing behind the number; expected n@label", [
            each.tag for each in world.processes if each.tag.startswith(f"{text}@")]
    elif not label_faults(label, world.policy):
        message = message if text.startswith("@") else "the number is missing before the label; expected n@label"
        found = [each.tag for each in world.processes if each.label == world.policy.canonical(label)]
    elif tag_message(text, world.policy) is None:
        message, found = "no colon stands behind it", [text]
    elif text.startswith("@"):
        found = []
    else:
        return
    yield on_words(name, [word], message, [replaced(line, [word], tag) for tag in found[:1]])


def tag_advice(world: World, line: Line) -> Iterator[Advice]:
    """A call without its tag, or a tag without its number."""
    first = line.words[0]
    yield from process_advice(world, line, "word 1", first)
    if first.quoted or first.text not in FORMS and first.text not in elsewhere.NAMES:
        return
    tag = world.processes[0].tag if world.processes else ""
    message = "the tag n@label is missing before the call"
    if first.text in FORMS:
        yield on_words("word 1", [first], message, [f"{tag} ".encode("latin-1") + line.text.strip(b" ")] if tag else [])
    else:
        lines = encoded(elsewhere.lines_here(tag, first.text, line.words[1:])) if tag else []
        yield on_words("word 1", [first], f"{message}; {elsewhere.what_to_write(first.text)}", lines)


def encoded(lines: Sequence[str]) -> List[bytes]:
    """Lines as bytes."""
    return [line.encode("latin-1") for line in lines]


def call_advice(line: Line) -> Iterator[Advice]:
    """The name of a call or of a command elsewhere, that of a call in capitals, or the keyword of a line of programs."""
    tag, call = line.words[0].written.decode("latin-1"), line.words[1]
    if call.text in FORMS or call.quoted:
        return
    if call.text in elsewhere.NAMES:
        lines = encoded(elsewhere.lines_here(tag, call.text, line.words[2:])) if not line.malformed else []
        yield on_words("word 2", [call], f"no call or utility; {elsewhere.what_to_write(call.text)}", lines)
    elif call.text.lower() in FORMS:
        name = call.text.lower()
        yield on_words("word 2", [call], f"letter case counts; the call is {name}", [replaced(line, [call], name)])
    elif call.text == "do":
        text = with_words(line, written(line.words[2:]), 1)
        yield on_words("word 2", [call], "no call or utility; do stands in programs, which labsys sched reads", [text])


def parentheses_advice(line: Line) -> Iterator[Advice]:
    """A call that is written as in the language C."""
    found = re.fullmatch(rb" *([^ ]+@[^ ]+) +(\w+)\((.*)\) *;? *", line.text)
    if found:
        arguments = outside_quotes(found[3], rb" *, *", b" ").strip(b" ")
        text = b" ".join(filter(None, [found[1], found[2], arguments]))
        message = "a call has spaces between its words, without parentheses and commas"
        yield Advice(found.start(2), len(line.text) - found.start(2), message, (text,), True)


def kill_advice(world: World, line: Line) -> Iterator[Advice]:
    """The words of `kill` as they are elsewhere."""
    words = line.words[2:]
    if len(words) == 2 and (words[0].text in SIGNALS or words[0].text in ("0", "TERM", "KILL")):
        first, second = words
        text = replaced(line, words, f"{second.written.decode('latin-1')} {SIGNALS.get(first.text, first.text)}")
        yield on_words("the word", [first], "the number of the process comes before the signal", [text], True)
    elif len(words) == 2 and words[1].text in SIGNALS:
        signal = SIGNALS[words[1].text]
        yield on_words("the word", words[1:], f"the signal is written {signal} here", [replaced(line, words[1:], signal)], True)
    for word in words[:1]:
        yield from process_advice(world, line, "PID", word)


def flags_advice(line: Line) -> Iterator[Advice]:
    """Flags of `open` by their names elsewhere, in another order, or with spaces between them."""
    for word in line.words[3:4]:
        letters = elsewhere.open_letters(word.text)
        if letters:
            yield on_words("FLAGS", [word], f"flags are letters here: {letters}", [replaced(line, [word], letters)])
    flags = [word for word in line.words[3:] if word.text and not set(word.text) - set(OPEN_FLAGS)]
    letters = "".join(sorted(set("".join(word.text for word in flags)), key=OPEN_FLAGS.index))
    if flags and flags == list(line.words[3:3 + len(flags)]) and (len(flags) > 1 or letters != flags[0].text):
        message = f"letters in the order {OPEN_FLAGS}" if len(flags) == 1 else "flags are one word, without spaces"
        yield on_words("FLAGS", flags, message, [replaced(line, flags, letters)], True)


def choice_advice(line: Line, names: Sequence[str], words: Sequence[Word]) -> Iterator[Advice]:
    """A word of several that may stand there, in capitals or by its name elsewhere."""
    for name, word in zip(names, words):
        meant = WHENCE.get(word.text, word.text.lower())
        if "|" in name and word.text not in name.split("|") and meant in name.split("|"):
            yield on_words("the word", [word], f"it is written {meant} here", [replaced(line, [word], meant)], True)


def order_advice(line: Line) -> Iterator[Advice]:
    """A path that stands last where it comes first, as commands elsewhere have it, or first where it comes last."""
    call, words = line.words[1].text, line.words[2:]
    names = FORMS[call].split()
    if len(words) < 2 or names.count("PATH") != 1:
        return
    first, last = words[0].text.startswith("/"), words[-1].text.startswith("/")
    if names[0] == "PATH" and last and not first:
        rest = [text.replace(":", " ") if call == "chown" else text for text in written(words[:-1])]
        lines = [with_words(line, [*written(words[-1:]), *rest], 2)]
        yield on_words("the word", words[-1:], f"the path comes first; the line is {call} {FORMS[call]}", lines)
    elif call in UTILITIES and names[0] != "PATH" and first and not last:
        lines = [with_words(line, written([words[-1], *words[:-1]]), 2)]
        yield on_words("the word", words[:1], f"the paths come last; the line is {call} {FORMS[call]}", lines)


def extra_advice(world: World, line: Line) -> Iterator[Advice]:
    """Options as commands have them, and arguments of a program."""
    call, words = line.words[1].text, line.words[2:]
    options = [word for word in words if re.fullmatch(r"--?[A-Za-z][\w-]*", word.text)]
    if options:
        text = with_words(line, written([word for word in words if word not in options]), 2)
        yield on_words("the word", options[:1], "a call has no options", [text], True)
    if call == "exec" and len(words) > 1 and b" ".join(word.value for word in words) not in world.objects_by_path:
        message = "a program has no arguments here; the line is exec PATH"
        yield on_words("the word", words[1:], message, [with_words(line, written(words[:1]), 2)], True)


def argument_advice(world: World, line: Line) -> Iterator[Advice]:
    """The slips of the arguments of a call or utility that there is."""
    call, words = line.words[1].text, line.words[2:]
    names = FORMS[call].split()
    if call == "kill":
        yield from kill_advice(world, line)
    elif call == "open":
        yield from flags_advice(line)
    yield from choice_advice(line, names, words)
    yield from quotes_advice(line)
    yield from extra_advice(world, line)
    yield from order_advice(line)
    yield from ids_advice(line) if "UID" in names else ()
    if call in CALLS and not line.malformed:
        yield from spaced_advice(line, names, words)
    if "LABEL" in names:
        at = names.index("LABEL")
        yield from label_advice(line, words[at:] if call in CALLS else words[at:at + 1]) if len(words) > at else ()


def script_advice(world: World, line: Line) -> Iterator[Advice]:
    """The slips of a line of a script."""
    yield from place_advice(world, line)
    yield from tag_advice(world, line)
    yield from quoted_advice(line, ["a tag", "the word of a call"], ())
    yield from parentheses_advice(line)
    yield from comment_advice(line)
    yield from ending_advice(line)
    if len(line.words) < 2:
        return
    yield from call_advice(line)
    if line.words[1].text in FORMS:
        yield from argument_advice(world, line)
    else:
        yield from quotes_advice(line)
    yield from comma_advice(line)
    yield from comment_advice(line, inside=True)
