"""Cuts long bytes in reports: of a quoted word the first bytes are shown, and how many there are."""
import re

from labask.worlds import quoted, split_words

SHOWN_BYTES = 64
QUOTED = re.compile(r'"(?:[^"\\]|\\.)*"')
MOST_PLAIN = SHOWN_BYTES + 2  # a word of so few characters has not more bytes


def short(text: str) -> str:
    """A line of a script or a reply, in which each quoted word of more than 64 bytes is cut."""
    return QUOTED.sub(lambda found: short_word(found[0]), text)


def short_word(written: str) -> str:
    """A quoted word, cut where it has more than 64 bytes."""
    words = split_words(written.encode("latin-1"))[0] if len(written) > MOST_PLAIN else ()
    if len(words) != 1 or len(words[0].value) <= SHOWN_BYTES:
        return written
    return f"{quoted(words[0].value[:SHOWN_BYTES])}... ({len(words[0].value)} bytes)"
