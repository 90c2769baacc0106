"""Slips of lines: names and forms that are written elsewhere, words that stand in another place, other quotes.

Of a refused line a slip says what is wrong in words of its own. Of an accepted line a note says what it does not do.
"""
import re
from typing import Iterator, Tuple

from labask.capability_texts import idle_lowerings, text_faults
from labask.explaining import shown
from labask.kernel_profile import LINES, MAX_LINE
from labask.script_slips import script_advice
from labask.signatures import arguments_of
from labask.slips import Advice, on_words
from labask.world_slips import world_advice
from labask.worlds import Line, Word, World, quoted, split_words


def caps_notes(word: Word) -> Iterator[Advice]:
    """Actions of an accepted capability text that do nothing."""
    for fault in idle_lowerings(word.text):
        plain = len(word.written) == len(word.value) + 2 * word.quoted
        column, length = (word.column + word.quoted + fault.column, fault.length) if plain else (word.column, len(word.written))
        yield Advice(column, length, f"CAPS {shown(word)}: {fault.message}")


def clause_notes(line: Line) -> Iterator[Advice]:
    """Clauses of a capability text that `setfcap` takes for paths."""
    texts = [line.words[2]]
    for word in line.words[3:]:
        if word.quoted or not re.search("[=+-]", word.text) or list(text_faults(word.text)):
            return
        texts.append(word)
        one = quoted(b" ".join(each.value for each in texts))
        message = f"setfcap takes it for a path; a capability text of more than one clause is one word, {one}"
        yield on_words("the word", [word], message)


def line_notes(line: Line) -> Iterator[Advice]:
    """What an accepted line of a world or of a script says and seems not to mean."""
    first = line.words[0].text
    if "@" in first:
        call = line.words[1].text
        names, words = arguments_of(call, len(line.words) - 2), line.words[2:]
        yield from clause_notes(line) if call == "setfcap" else ()
    else:
        names, words = [name.strip("[]") for name in LINES.get(first, "").split()], line.words[1:]
    for name, word in zip(names, words):
        yield from caps_notes(word) if name == "CAPS" else ()


def notes_on(text: bytes) -> Iterator[Tuple[Line, Advice]]:
    """What lines of an accepted text say and seem not to mean."""
    for number, piece in enumerate(text.split(b"\n"), 1):
        if re.search(rb"-[eip]|setfcap", piece):
            line = Line(number, piece, *split_words(piece), True)
            yield from ((line, note) for note in line_notes(line)) if line.words else ()


def advice_on(world: World, line: Line, part: str) -> Iterator[Advice]:
    """The slips that a refused line seems to have, the plainest first; none of a line that is too long or does not end."""
    if not line.words or not line.ended or len(line.text) > MAX_LINE:
        return
    yield from script_advice(world, line) if part == "script" else world_advice(line)
