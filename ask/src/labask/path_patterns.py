"""Patterns of paths: `*` and `?` stand for bytes of one name, `/**/` for any names between two or none, and `**` for what is below.

A pattern is matched place by place, all places of it side by side, so that a path takes one step for each byte, whatever the pattern.
"""
import re
from typing import Dict, FrozenSet, Iterable, List, NamedTuple, Optional, Tuple

SIGN = re.compile(rb"(/\*\*(?=/)|\*\*|[*?])")
SLASH = ord("/")
Places = FrozenSet[int]


class Part(NamedTuple):
    """A part of a pattern: the byte that it stands for, or any, or any but `/`; whether for any number of them; how many parts can be
    passed over from it on."""
    byte: Optional[int] = None
    inside: bool = False
    repeated: bool = False
    passes: int = 0

    def fits(self, byte: int) -> bool:
        """Whether it stands for a byte."""
        return byte == self.byte if self.byte is not None else not (self.inside and byte == SLASH)


ANY = Part(repeated=True, passes=1)
SIGNS: Dict[bytes, List[Part]] = {
    b"/**": [Part(SLASH, passes=2), ANY], b"**": [Part(), ANY], b"*": [Part(inside=True, repeated=True, passes=1)],
    b"?": [Part(inside=True)],
}


class PathPattern:
    """A pattern of paths, which the root does not match."""

    def __init__(self, text: bytes):
        self.parts: List[Part] = [part for piece in SIGN.split(text) for part in SIGNS.get(piece, list(map(Part, piece)))]
        self.known: Dict[Tuple[Places, int], Places] = {}

    def passed(self, places: Iterable[int]) -> Places:
        """These places, and those to which parts can be passed over."""
        found = set(places)
        for place, part in enumerate(self.parts):
            if place in found and part.passes:
                found.add(place + part.passes)
        return frozenset(found)

    def step(self, places: Places, byte: int) -> Places:
        """The places after a byte."""
        parts = [(place, self.parts[place]) for place in places if place < len(self.parts)]
        return self.passed(place + (not part.repeated) for place, part in parts if part.fits(byte))

    def matches(self, path: bytes) -> bool:
        """Whether a path is one of the pattern."""
        places = self.passed((0,))
        for byte in path:
            if (places, byte) not in self.known:
                self.known[places, byte] = self.step(places, byte)
            places = self.known[places, byte]
        return len(self.parts) in places and path != b"/"


def pattern_of(path: bytes) -> Optional[PathPattern]:
    """The pattern that a path has, or None where it has no sign of one."""
    return PathPattern(path) if SIGN.search(path) else None
