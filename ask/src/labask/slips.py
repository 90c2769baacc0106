"""Slips of lines: what lines of a world and of a script share.

A slip has a message, and mostly lines to write. Where it is not sure that the line has it, it counts only if what is to be written
is accepted.
"""
import re
from dataclasses import dataclass
from typing import Iterator, List, Sequence, Tuple

from labask.explaining import shown
from labask.worlds import Line, Word, quoted

SPACED = {"PATH": "a path with a space is quoted", "BYTES": "a content with a space is quoted",
          "CAPS": "a capability text of more than one clause is quoted"}


@dataclass(frozen=True)
class Advice:
    """A slip of a line: the columns of the mark, a message, and lines to write; a doubtful one holds where they are accepted."""
    column: int
    length: int
    message: str
    instead: Tuple[bytes, ...] = ()
    doubtful: bool = False


def on_words(name: str, words: Sequence[Word], message: str, instead: Sequence[bytes] = (), doubtful: bool = False) -> Advice:
    """An advice that marks some words of a line, from the first to the last; its message shows the first."""
    length = words[-1].column + len(words[-1].written) - words[0].column
    return Advice(words[0].column, length, f"{name} {shown(words[0])}: {message}", tuple(instead), doubtful)


def replaced(line: Line, words: Sequence[Word], text: str) -> bytes:
    """A line with a text in place of some of its words, from the first to the last."""
    end = words[-1].column + len(words[-1].written)
    return line.text[:words[0].column] + text.encode("latin-1") + line.text[end:]


def with_words(line: Line, words: Sequence[str], behind: int) -> bytes:
    """A line with other words behind the first so many."""
    kept = [word.written.decode("latin-1") for word in line.words[:behind]]
    return " ".join([*kept, *words]).encode("latin-1")


def written(words: Sequence[Word]) -> List[str]:
    """Words as the line has them."""
    return [word.written.decode("latin-1") for word in words]


def outside_quotes(text: bytes, pattern: bytes, with_what: bytes) -> bytes:
    """A text in which what is not quoted has other bytes for those of a pattern."""
    pieces = re.split(rb'("(?:[^"\\]|\\.)*")', text)
    return b"".join(piece if at % 2 else re.sub(pattern, with_what, piece) for at, piece in enumerate(pieces))


def quoted_advice(line: Line, what: Sequence[str], known: Sequence[str]) -> Iterator[Advice]:
    """A keyword, tag or call that is quoted."""
    for number, (word, name) in enumerate(zip(line.words, what), 1):
        if word.quoted and (not known or word.text in known):
            yield on_words(f"word {number}", [word], f"{name} is not quoted", [replaced(line, [word], word.text)])


def comment_advice(line: Line, inside: bool = False) -> Iterator[Advice]:
    """A comment behind other words, which begins with a word, or inside one."""
    word = next((word for word in line.words[1:] if not word.quoted and b"#" in word.written), None)
    if word and inside != word.written.startswith(b"#"):
        column = word.column + word.written.index(b"#")
        lines = (line.text[column:], line.text[:column].rstrip(b" "))
        yield Advice(column, len(line.text) - column, "a comment is a line of its own", lines, True)


def quotes_advice(line: Line) -> Iterator[Advice]:
    """Other quotes than those of the formats."""
    single = re.search(rb"(?<![^ ])'([^']*)'(?![^ ])", line.text)
    if single:
        text = re.sub(rb"(?<![^ ])'([^']*)'(?![^ ])", lambda found: quoted(found[1]).encode("ascii"), line.text)
        yield Advice(single.start(), len(single[0]), "a word is quoted by \", and not by '", (text,), True)
    curved = re.search(rb"\xe2\x80[\x9c-\x9f]", line.text)
    if curved:
        text = re.sub(rb"\xe2\x80[\x9c-\x9f]", b'"', line.text)
        yield Advice(curved.start(), 3, 'a word is quoted by ", and not by curved quotes', (text,), True)


def comma_advice(line: Line) -> Iterator[Advice]:
    """Spaces beside the commas of a list, and commas between words."""
    words = [word for word in line.words[1:] if not word.quoted and (word.written.startswith(b",") or word.written.endswith(b","))]
    if words:
        text = outside_quotes(line.text, rb" *, *", b",")
        yield on_words("the word", words[:1], "a list has commas without spaces", [text], True)
        text = outside_quotes(line.text, rb" *,+(?= )|(?<= ),+ *", b"")
        yield on_words("the word", words[:1], "words have spaces between them, and no commas", [text], True)


def spaced_advice(line: Line, names: Sequence[str], words: Sequence[Word]) -> Iterator[Advice]:
    """A path, a content or a capability text that has spaces and is not quoted; `names` are those of the arguments."""
    needed = len([name for name in names if not name.startswith("[")])
    for count in range(needed, min(len(names), len(words) - 1) + 1):
        for index, name in enumerate(names[:count]):
            spread = words[index:index + len(words) - count + 1]
            name = name.strip("[]")
            if name not in SPACED or any(word.quoted for word in spread):
                continue
            if name == "PATH" and any(re.match(r"/|\d+$", word.text) for word in spread[1:]):
                continue
            end = spread[-1].column + len(spread[-1].written)
            text = replaced(line, spread, quoted(line.text[spread[0].column:end]))
            yield on_words(name, spread, SPACED[name], [text], True)


def label_advice(line: Line, words: Sequence[Word]) -> Iterator[Advice]:
    """A label whose level and categories have spaces or other signs between them than the formats have."""
    names = [name for word in words for name in re.split("[,:]", word.text) if name]
    if len(names) > 1 and not any(word.quoted for word in words):
        text = replaced(line, words, f"{names[0]}:{','.join(names[1:])}")
        yield on_words("LABEL", words, "a label is a level, a colon and categories with commas, without spaces", [text], True)


def ids_advice(line: Line) -> Iterator[Advice]:
    """A user and a group in one word, and root by its name."""
    for word in (word for word in line.words[1:] if re.fullmatch(r"(\d+|root):(\d+|root)", word.text)):
        text = replaced(line, [word], word.text.replace(":", " ").replace("root", "0"))
        yield on_words("the word", [word], "a user and a group are two words", [text], True)
    if any(word.text == "root" for word in line.words):
        text = outside_quotes(line.text, rb"(?<= )root(?= |$)", b"0")
        word = next(word for word in line.words if word.text == "root")
        yield on_words("the word", [word], "a user or a group is a number; that of root is 0", [text], True)


def ending_advice(line: Line) -> Iterator[Advice]:
    """A semicolon at the end of a line."""
    if line.text.rstrip(b" ").endswith(b";"):
        text = line.text.rstrip(b" ;")
        yield Advice(len(text), len(line.text) - len(text), "a line ends without a semicolon", (text,), True)
