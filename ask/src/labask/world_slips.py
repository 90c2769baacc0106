"""Slips of lines of a world."""
import re
from typing import Iterator

from labask.kernel_profile import LISTS, STEPS
from labask.signatures import FORMS, LINES
from labask.slips import (Advice, comma_advice, comment_advice, ids_advice, label_advice, on_words, quoted_advice, quotes_advice,
                          replaced, spaced_advice)
from labask.worlds import Line

WORLD_WORDS = ("world", *LISTS, "bound", *LINES, "script")


def list_advice(line: Line) -> Iterator[Advice]:
    """Commas between the names of levels, categories or grades."""
    words = [word for word in line.words[1:] if b"," in word.value]
    if words:
        text = line.text[:words[0].column] + re.sub(rb"[ ,]+", b" ", line.text[words[0].column:]).rstrip(b" ")
        yield on_words("the word", words[:1], "names have spaces between them here, and no commas", [text], True)


def bound_advice(line: Line) -> Iterator[Advice]:
    """Spaces between the names of a bound."""
    names = [word.text.strip(",") for word in line.words[1:]]
    if len(names) > 1:
        text = replaced(line, line.words[1:], ",".join(filter(None, names)))
        yield on_words("the word", line.words[2:3], "the names of a bound have commas between them, without spaces", [text], True)


def groups_advice(line: Line) -> Iterator[Advice]:
    """Spaces between the groups of a process, or no word for them."""
    groups = line.words[4:-1]
    if len(groups) > 1 and all(re.fullmatch(r",*\d+,*", word.text) for word in groups):
        text = replaced(line, groups, ",".join(word.text.strip(",") for word in groups))
        yield on_words("GROUPS", groups, "groups have commas between them, without spaces", [text], True)
    if len(line.words) == 5:
        last = line.words[4]
        text = replaced(line, [last], f"- {last.written.decode('latin-1')}")
        yield Advice(last.column, len(last.written), "GROUPS is missing before CAPS; - stands for none", (text,), True)


def content_advice(line: Line) -> Iterator[Advice]:
    """A file without a content."""
    if len(line.words) == 6:
        yield Advice(len(line.text), 1, 'BYTES is missing; "" is the content of an empty file', (line.text.rstrip(b" ") + b' ""',), True)


def call_in_world(line: Line) -> Iterator[Advice]:
    """A call before the line of `script`."""
    first = line.words[0]
    if re.fullmatch(r"\d+@.*", first.text) or first.text in FORMS:
        yield on_words("word 1", [first], "a call, which stands after the line script")
    elif first.text in STEPS:
        yield on_words("word 1", [first], "a line of programs, which stands after the line script; labsys sched reads it")


def keyword_advice(line: Line) -> Iterator[Advice]:
    """A keyword in capitals, or with a colon."""
    first = line.words[0]
    keyword = first.text.lower().rstrip(":")
    if keyword in WORLD_WORDS and first.text != keyword and not first.quoted:
        message = "a keyword has no colon" if first.text.endswith(":") else "letter case counts"
        yield on_words("word 1", [first], f"{message}; it is {keyword}", [replaced(line, [first], keyword)], True)


def label_of_line(line: Line) -> Iterator[Advice]:
    """A label of several words: of an object up to its content, of a process up to its user."""
    process = line.words[0].text == "proc"
    words = line.words[1:] if process else line.words[5:]
    end = next((at for at, word in enumerate(words) if word.quoted or process and word.text.isdigit()), len(words))
    yield from label_advice(line, words[:end]) if end else ()


def world_advice(line: Line) -> Iterator[Advice]:
    """The slips of a line before that of `script`."""
    keyword = line.words[0].text
    yield from quoted_advice(line, ["a keyword"], WORLD_WORDS)
    yield from keyword_advice(line)
    yield from call_in_world(line)
    yield from comment_advice(line)
    yield from quotes_advice(line)
    if keyword in LISTS:
        yield from list_advice(line)
    elif keyword == "bound":
        yield from bound_advice(line)
    elif keyword == "proc":
        yield from groups_advice(line)
    elif keyword == "file":
        yield from content_advice(line)
    if keyword in LINES and not line.malformed:
        yield from ids_advice(line)
        yield from spaced_advice(line, LINES[keyword].split(), line.words[1:])
        yield from label_of_line(line)
    yield from comma_advice(line)
    yield from comment_advice(line, inside=True)
