"""A text with what `labsys` writes of it, as a case for `tests/run_cases.py`."""
from labask.answers import WrongWords
from labask.playing import Played

TRAIL = "trail.out"


def case_text(text: bytes, played: Played, note: str) -> bytes:
    """The case of a text that was played. Its note is one line."""
    parts = [b"== note\n", note.encode("utf-8", "surrogateescape"), b"\n== words\nplay\n", TRAIL.encode("ascii"), b"\n"]
    parts += [section("input", text), b"== status\n%d\n" % played.status, section("out", played.out)]
    parts += [section("trail", played.trail)] if played.trail else []
    return b"".join(parts)


def section(name: str, content: bytes) -> bytes:
    """A section of a case."""
    if content.endswith(b"\n") and not any(line.startswith(b"== ") for line in content.split(b"\n")):
        return b"== %s\n%s" % (name.encode("ascii"), content)
    return b"== %s from\n%s\n" % (name.encode("ascii"), repr(content).encode("ascii"))


def one_line(note: str) -> str:
    """A note, which has to be a line; raises `WrongWords` for any other."""
    if not note.strip() or "\n" in note or note.startswith("== "):
        raise WrongWords("the note of a case is one line")
    return note
