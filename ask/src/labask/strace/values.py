"""Reads the arguments of a call as strace writes them: numbers, strings, descriptors with their paths, flags and structures."""
import re
from dataclasses import dataclass
from typing import Dict, FrozenSet, List, Optional, Tuple

TOKEN = re.compile(rb'"(?:[^"\\]|\\.)*"(?:\.\.\.)?|/\*.*?\*/|[(\[{]|[)\]}]|<|>|,|[^"()\[\]{}<>,/]+|/', re.S)
STRING = re.compile(rb'"((?:[^"\\]|\\.)*)"(\.\.\.)?$', re.S)
ESCAPE = re.compile(rb"\\(x[0-9a-fA-F]{2}|[0-7]{1,3}|.)", re.S)
LETTERS = {b"n": b"\n", b"t": b"\t", b"r": b"\r", b"f": b"\f", b"v": b"\v", b"a": b"\a", b"b": b"\b"}
# as many digits as a number of 64 bits has in octal; what has more of them is no number of a log
DIGITS = rb"\d{1,23}"
NUMBER = re.compile(rb"(-?%b|0x[0-9a-f]{1,23})(?: |$|/)" % DIGITS)
DESCRIPTOR = re.compile(rb"(-?%b|AT_FDCWD)(?:<(.*)>(?:\(deleted\))?)?$" % DIGITS, re.S)
PRODUCT = re.compile(rb"%b(?:\*%b){0,3}$" % (DIGITS, DIGITS))
ITEM = re.compile(rb"\\(?:x[0-9a-fA-F]{2}|[0-7]{1,3}|.)|[^\\]", re.S)
LITERAL = re.compile(rb'"((?:[^"\\]|\\.)*)"(\.\.\.)?', re.S)
WORKING = -100
DELETED = b" (deleted)"


def unescaped(text: bytes) -> bytes:
    """The bytes that a string of strace stands for."""
    def one(found: "re.Match[bytes]") -> bytes:
        item = found[1]
        if item[:1] == b"x" and len(item) == 3:
            return bytes([int(item[1:], 16)])
        return bytes([int(item, 8) & 255]) if item[:1] in b"01234567" else LETTERS.get(item, item)
    return ESCAPE.sub(one, text)


def cut_strings(text: bytes, most: int) -> bytes:
    """A text in which each string is cut to so many bytes, with the number of bytes that the log has of it."""
    def one(found: "re.Match[bytes]") -> bytes:
        if len(found[1]) <= most:
            return found[0]
        items = ITEM.findall(found[1])
        if len(items) <= most:
            return found[0]
        return b'"%b"... (%d bytes%b)' % (b"".join(items[:most]), len(items), b" and more" if found[2] else b"")
    return LITERAL.sub(one, text)


@dataclass(frozen=True)
class Text:
    """A string: its bytes, and whether the log has all of them."""
    value: bytes
    whole: bool


@dataclass(frozen=True)
class Handle:
    """A descriptor of the log: its number, WORKING for the current directory, and the path behind it where the log tells."""
    number: int
    path: Optional[bytes]


@dataclass(frozen=True)
class Argument:
    """An argument as the log has it, and its readings."""
    written: bytes

    @property
    def text(self) -> str:
        """The argument as text."""
        return self.written.decode("latin-1")

    @property
    def string(self) -> Optional[Text]:
        """The string, or None where it is none, such as NULL."""
        found = STRING.match(self.written)
        return Text(unescaped(found[1]), not found[2]) if found else None

    @property
    def number(self) -> Optional[int]:
        """The number, or None; one that begins with 0 is octal."""
        if PRODUCT.match(self.written) and b"*" in self.written:
            product = 1
            for factor in self.written.split(b"*"):
                product *= int(factor)
            return product
        found = NUMBER.match(self.written)
        if not found:
            return None
        digits = found[1]
        base = 16 if digits.startswith(b"0x") else 8 if re.fullmatch(rb"0[0-7]+", digits) else 10
        return int(digits, base)

    @property
    def handle(self) -> Optional[Handle]:
        """The descriptor, or None."""
        found = DESCRIPTOR.match(self.written)
        if not found:
            return None
        path = unescaped(found[2]) if found[2] is not None else None
        if path is not None and path.endswith(DELETED):
            path = path[:-len(DELETED)]
        return Handle(WORKING if found[1] == b"AT_FDCWD" else int(found[1]), path)

    @property
    def flags(self) -> FrozenSet[str]:
        """The names of flags, without comments."""
        text = re.sub(rb"/\*.*?\*/", b"", self.written)
        return frozenset(part.decode("latin-1").strip() for part in text.split(b"|"))

    @property
    def bits(self) -> Optional[int]:
        """The mode of names and an octal number, as S_IFIFO|0644: the octal number with the set-id bits that names add."""
        named = {"S_ISUID": 0o4000, "S_ISGID": 0o2000, "S_ISVTX": 0o1000}
        value = 0
        for name in self.flags:
            if name in named:
                value |= named[name]
            elif re.fullmatch(r"[0-7]+", name):
                value |= int(name, 8)
            elif not name.startswith("S_IF"):
                return None
        return value

    @property
    def fields(self) -> Dict[str, "Argument"]:
        """The members of a structure between braces, or the items of a list by their numbers."""
        found: Dict[str, Argument] = {}
        body = re.sub(rb" => \{.*$", b"", self.written, flags=re.S)
        for index, item in enumerate(split_arguments(body[1:-1]) if body[:1] in b"{[" else ()):
            name, equals, value = item.written.partition(b"=")
            named = equals and re.fullmatch(rb"[a-z_]+", name)
            found[name.decode("ascii") if named else str(index)] = Argument(value) if named else item
        return found


def opens_path(previous: bytes, following: bytes, angles: int) -> bool:
    """Whether a `<` begins the path of a descriptor: behind its number, and not as the first half of `<<`."""
    return following != b"<" and (angles > 0 or previous[-1:].isdigit() or previous.endswith(b"AT_FDCWD"))


def split_arguments(text: bytes) -> Tuple[Argument, ...]:
    """The arguments of a text, at its commas outside of brackets, strings and paths of descriptors."""
    found: List[Argument] = []
    depth, begin, previous = 0, 0, b""
    angles = 0
    for token in TOKEN.finditer(text):
        piece = token[0]
        if piece == b"<" and opens_path(previous, text[token.end():token.end() + 1], angles):
            angles += 1
        elif piece == b">" and angles:
            angles -= 1
        elif not angles and piece in b"([{":
            depth += 1
        elif not angles and piece in b")]}":
            depth -= 1
        elif piece == b"," and not depth and not angles:
            found.append(Argument(text[begin:token.start()].strip()))
            begin = token.end()
        previous = piece
    last = text[begin:].strip()
    return tuple(found) + ((Argument(last),) if last else ())
