"""Worlds and scripts as text: lines, their words with their columns, objects, processes and calls.

Nothing here judges: whether a line is accepted, and what a call does, only `labsys` says. The reader takes every text, and leaves
out of objects, processes and calls the lines that have not the form of one.
"""
import enum
import functools
import pathlib
import re
import sys
from dataclasses import dataclass, field
from functools import cached_property
from typing import Callable, Dict, Iterable, Iterator, List, Mapping, NamedTuple, Optional, Sequence, Tuple, Union, overload

from labask.kernel_profile import MAX_INPUT as MAX_INPUT
from labask.kernel_profile import MAX_LINE as MAX_LINE
from labask.kernel_profile import UTILITIES as UTILITIES

TAG_NUMBER = re.compile(r"[0-9]{1,10}")
NAME_COMMENT = re.compile(rb" *# *name +([A-Za-z][A-Za-z0-9_-]*) *")


class WordFault(enum.Enum):
    """What is wrong with the bytes of a line."""
    CARRIAGE_RETURN = "carriage return; lines end with a line feed alone"
    TAB = "tab; words have spaces between them"
    BYTE = "byte that no word has; between quotes it is written \\x and two hexadecimal digits"
    QUOTE_IN_WORD = "quote inside a word; a quoted word has spaces around it"
    BACKSLASH_IN_WORD = "backslash outside quotes"
    UNCLOSED = "the closing quote is missing"
    ESCAPE = "escape; expected \\\", \\\\ or \\x and two hexadecimal digits"
    AFTER_QUOTE = "byte after a closing quote; expected a space or the end of the line"


class Kind(enum.Enum):
    """The kinds of objects that a world has lines for."""
    DIRECTORY = "dir"
    FILE = "file"
    FIFO = "fifo"


class Word(NamedTuple):
    """A word of a line: as it is written, the bytes that it stands for, and the column of its first byte, from 0."""
    written: bytes
    value: bytes
    column: int

    @property
    def quoted(self) -> bool:
        """Whether the word stands between quotes."""
        return self.written.startswith(b'"')

    @property
    def text(self) -> str:
        """The bytes that the word stands for, each as the character of that number."""
        return self.value.decode("latin-1")


@dataclass(frozen=True)
class MalformedAt:
    """Where and why a line is no words: the column of the byte at fault, from 0."""
    column: int
    fault: WordFault


@dataclass(frozen=True)
class Line:
    """A line without its line feed; its number counts from 1. `words` has those before the fault, if there is one."""
    number: int
    text: bytes
    words: Tuple[Word, ...]
    malformed: Optional[MalformedAt]
    ended: bool

    @property
    def blank(self) -> bool:
        """Whether the line is left out: it has no words, or is a comment."""
        return not self.words and self.malformed is None


class Lines(Sequence[Line]):
    """The lines of a text, in order; each is read when it is asked for. The last one may lack its line feed."""

    def __init__(self, text: bytes):
        self.pieces = text.split(b"\n")
        self.ended = not self.pieces[-1]
        if self.ended:
            self.pieces.pop()

    def __len__(self) -> int:
        return len(self.pieces)

    @overload
    def __getitem__(self, at: int) -> Line: ...

    @overload
    def __getitem__(self, at: slice) -> Tuple[Line, ...]: ...

    def __getitem__(self, at: Union[int, slice]) -> Union[Line, Tuple[Line, ...]]:
        if isinstance(at, slice):
            return tuple(map(self._line, range(*at.indices(len(self)))))
        return self._line(range(len(self))[at])

    def _line(self, index: int) -> Line:
        ended = self.ended or index + 1 < len(self.pieces)
        words, malformed = split_words(self.pieces[index])
        return Line(index + 1, self.pieces[index], words, malformed, ended)

    def filled(self) -> Iterator[Line]:
        """The lines that are not blank."""
        lines = (self._line(index) for index, piece in enumerate(self.pieces) if piece and not piece.startswith(b"#"))
        return (line for line in lines if not line.blank)


@dataclass(frozen=True)
class WorldObject:
    """A line of an object. `path` is canonical, `number` has the form n@label, and `content` and `caps` are those of a file."""
    line: int
    kind: Kind
    path: bytes
    mode: int
    owner: int
    group: int
    label: str
    content: bytes = b""
    caps: Optional[str] = None
    number: str = ""

    @property
    def written(self) -> bytes:
        """The line in its canonical form, without its line feed; the label and the capability text stand as they are."""
        words = [self.kind.value, path_word(self.path), f"{self.mode:04o}", str(self.owner), str(self.group), self.label]
        if self.kind is Kind.FILE:
            words += [quoted(self.content)] + ([quoted(self.caps.encode("latin-1"))] if self.caps is not None else [])
        return " ".join(words).encode("ascii")


@dataclass(frozen=True)
class WorldProcess:
    """A line of a process; its tag has the form n@label."""
    line: int
    label: str
    user: int
    group: int
    groups: Tuple[int, ...]
    caps: str
    tag: str = ""

    @property
    def written(self) -> bytes:
        """The line in its canonical form, without its line feed; the label and the capability text stand as they are."""
        groups = ",".join(map(str, self.groups)) or "-"
        words = ["proc", self.label, str(self.user), str(self.group), groups, quoted(self.caps.encode("latin-1"))]
        return " ".join(words).encode("ascii")


@dataclass(frozen=True)
class ScriptLine:
    """A line of the script: the canonical tag, the word of the call or utility, its arguments, and the number of its first call."""
    line: Line
    tag: str
    call: str
    arguments: Tuple[Word, ...]
    first_call: int

    @property
    def calls(self) -> int:
        """How many calls the line makes: one, or of a utility one for each path."""
        return max(0, len(self.arguments) - UTILITIES[self.call][1]) if self.call in UTILITIES else 1

    @property
    def text(self) -> str:
        """The line as it is written, without its line feed."""
        return self.line.text.decode("latin-1")

    def single(self, call: int) -> str:
        """The line of one of its calls, by the call's number: of a utility that with this path alone."""
        if self.call not in UTILITIES:
            return self.text
        first = UTILITIES[self.call][1]
        words = [*self.arguments[:first], self.arguments[first + call - self.first_call]]
        return " ".join([self.tag, self.call, *(word.written.decode("latin-1") for word in words)])


@dataclass(frozen=True)
class Policy:
    """The names of labels, each list from the lowest, as the world has them."""
    levels: Tuple[str, ...] = ()
    categories: Tuple[str, ...] = ()
    grades: Tuple[str, ...] = ()
    read: Dict[str, str] = field(default_factory=dict, compare=False, repr=False)

    def canonical(self, label: str) -> str:
        """The canonical text of a label: categories once and in the world's order, a grade only where it is not the highest."""
        if label not in self.read:
            self.read[label] = self.canonical_anew(label)
        return self.read[label]

    def canonical_anew(self, label: str) -> str:
        """As `canonical`, for a label that was not read before."""
        rest, _, grade = label.partition("/")
        level, _, names = rest.partition(":")
        given = set(names.split(",")) if names else set()
        ordered = [name for name in self.categories if name in given] + sorted(given - set(self.categories))
        text = level + (":" + ",".join(ordered) if ordered else "")
        return text + ("/" + grade if grade and grade != (self.grades or ("",))[-1] else "")

    def canonical_tag(self, tag: str) -> str:
        """The canonical form of n@label; another text stays as it is."""
        number, at, label = tag.partition("@")
        return f"{int(number)}@{self.canonical(label)}" if at and TAG_NUMBER.fullmatch(number) else tag


@dataclass(frozen=True)
class World:
    """A text that was read: all of its lines, what the lines of the world say, and the calls of the script."""
    text: bytes
    lines: Lines
    policy: Policy
    bound: str
    objects: Tuple[WorldObject, ...]
    processes: Tuple[WorldProcess, ...]
    script_line: Optional[int]
    script: Tuple[ScriptLine, ...]

    @cached_property
    def objects_by_path(self) -> Dict[bytes, WorldObject]:
        """The objects by their canonical paths."""
        return {each.path: each for each in self.objects}

    @cached_property
    def objects_by_number(self) -> Dict[str, WorldObject]:
        """The objects by their numbers n@label."""
        return {each.number: each for each in self.objects}

    @cached_property
    def processes_by_tag(self) -> Dict[str, WorldProcess]:
        """The processes by their tags n@label."""
        return {each.tag: each for each in self.processes}

    @cached_property
    def process_names(self) -> Tuple[Tuple[str, WorldProcess], ...]:
        """The names that comments `# name NAME` right before their lines give to processes, in order."""
        comments = ((NAME_COMMENT.fullmatch(self.lines.pieces[each.line - 2]), each) for each in self.processes)
        return tuple((comment[1].decode("ascii"), each) for comment, each in comments if comment is not None)

    @cached_property
    def processes_by_name(self) -> Dict[str, WorldProcess]:
        """The processes by their names; the first of a name counts."""
        return dict(reversed(self.process_names))

    @cached_property
    def lines_by_call(self) -> Dict[int, ScriptLine]:
        """The lines of the script by the numbers of their calls, from 1."""
        return {number: each for each in self.script for number in range(each.first_call, each.first_call + each.calls)}

    def head(self, changed: Optional[Mapping[int, Optional[bytes]]] = None, added: Iterable[bytes] = ()) -> bytes:
        """The lines up to `script`: `changed` has other texts, or None, for lines by their numbers; `added` stand last."""
        last = self.script_line or len(self.lines) + 1
        pieces = enumerate(self.lines.pieces[: last - 1], 1)
        kept = (text if not changed else changed.get(number, text) for number, text in pieces)
        return b"".join(text + b"\n" for text in (*(text for text in kept if text is not None), *added, b"script"))

    def with_script(self, calls: Iterable[str], changed: Optional[Mapping[int, Optional[bytes]]] = None) -> bytes:
        """The world with another script, a text for each of its lines, and with changed lines as `head` has them."""
        return self.head(changed) + b"".join(call.encode("latin-1") + b"\n" for call in calls)


BARE = re.compile(rb'[!#-\[\]-~]+')
PLAIN = re.compile(rb"[ !#-\[\]-~]*")
PIECE = re.compile(rb"[^ ]+")
ITEM = re.compile(rb'[ !#-\[\]-~]+|\\["\\]|\\x[0-9a-fA-F]{2}')


KINDS = {kind.value.encode("ascii"): kind for kind in Kind}


def byte_fault(text: bytes, column: int) -> MalformedAt:
    """The fault of the byte of a line that no word goes on with."""
    byte = text[column:column + 1]
    faults = {b"\r": WordFault.CARRIAGE_RETURN, b"\t": WordFault.TAB, b'"': WordFault.QUOTE_IN_WORD,
              b"\\": WordFault.BACKSLASH_IN_WORD}
    return MalformedAt(column, faults.get(byte, WordFault.BYTE))


def quoted_word(text: bytes, column: int) -> Tuple[Optional[Word], Optional[MalformedAt]]:
    """The quoted word that begins at a column, or its fault."""
    value, at = bytearray(), column + 1
    while at < len(text) and text[at:at + 1] != b'"':
        item = ITEM.match(text, at)
        if not item:
            fault = MalformedAt(at, WordFault.ESCAPE) if text[at:at + 1] == b"\\" else byte_fault(text, at)
            return None, fault
        piece = item[0]
        value += bytes([int(piece[2:], 16)]) if piece.startswith(b"\\x") else piece[1:] if piece[:1] == b"\\" else piece
        at = item.end()
    if at >= len(text):
        return None, MalformedAt(column, WordFault.UNCLOSED)
    if text[at + 1:at + 2] not in (b"", b" "):
        after = byte_fault(text, at + 1)
        kept = (WordFault.CARRIAGE_RETURN, WordFault.TAB)
        return None, after if after.fault in kept else MalformedAt(at + 1, WordFault.AFTER_QUOTE)
    return Word(text[column:at + 1], bytes(value), column), None


@functools.lru_cache(maxsize=8_192)
def split_words(text: bytes) -> Tuple[Tuple[Word, ...], Optional[MalformedAt]]:
    """The words of a line up to its fault, and the fault, if there is one. A comment has no words."""
    if PLAIN.fullmatch(text):
        plain = tuple([Word(found[0], found[0], found.start()) for found in PIECE.finditer(text)])
        return () if plain and plain[0].value.startswith(b"#") else plain, None
    words: List[Word] = []
    at = 0
    while True:
        while text[at:at + 1] == b" ":
            at += 1
        if at >= len(text) or (not words and text[at:at + 1] == b"#"):
            return tuple(words), None
        if text[at:at + 1] == b'"':
            word, fault = quoted_word(text, at)
        else:
            bare = BARE.match(text, at)
            word, fault = (Word(bare[0], bare[0], at), None) if bare else (None, byte_fault(text, at))
        if word is None:
            return tuple(words), fault
        words.append(word)
        at = word.column + len(word.written)
        if at < len(text) and text[at:at + 1] != b" ":
            return tuple(words[:-1]), byte_fault(text, at)


def quoted(value: bytes) -> str:
    """A quoted word for these bytes, in the canonical form."""
    def item(byte: int) -> str:
        return "\\" + chr(byte) if byte in b'"\\' else chr(byte) if 0x20 <= byte <= 0x7e else f"\\x{byte:02x}"
    return '"' + "".join(map(item, value)) + '"'


@functools.lru_cache(maxsize=65_536)
def path_word(path: bytes) -> str:
    """A word for a path: bare where its bytes may stand in a bare word, and else quoted."""
    return path.decode("ascii") if BARE.fullmatch(path) else quoted(path)


def canonical_path(path: bytes) -> bytes:
    """An absolute path without empty names and names `.`; a relative one likewise, with `.` for a path without names."""
    names = [name for name in path.split(b"/") if name not in (b"", b".")]
    return b"/" + b"/".join(names) if path.startswith(b"/") else b"/".join(names) or b"."


def parent_path(path: bytes) -> bytes:
    """The path of the directory that a canonical absolute path names an entry of; that of the root is the root."""
    return path.rpartition(b"/")[0] or b"/"


def number_of(word: Word, base: int = 10) -> Optional[int]:
    """The number that a word has, or None."""
    digits = rb"[0-7]{1,4}" if base == 8 else rb"[0-9]{1,10}"
    return int(word.value, base) if re.fullmatch(digits, word.value) else None


def read_object(line: Line, policy: Policy, draw: Callable[[str], str]) -> Optional[WorldObject]:
    """The object of a line, or None where the line has not the form of one. `draw` gives the next number of a label."""
    words = line.words
    kind = KINDS.get(words[0].value)
    if kind is None or not (7 <= len(words) <= 8 if kind is Kind.FILE else len(words) == 6):
        return None
    mode, owner, group = number_of(words[2], 8), number_of(words[3]), number_of(words[4])
    if mode is None or owner is None or group is None:
        return None
    content = words[6].value if kind is Kind.FILE else b""
    caps = words[7].text if len(words) == 8 else None
    label = policy.canonical(words[5].text)
    return WorldObject(line.number, kind, canonical_path(words[1].value), mode, owner, group, label, content, caps, draw(label))


def read_process(line: Line, policy: Policy, draw: Callable[[str], str]) -> Optional[WorldProcess]:
    """The process of a line, or None where the line has not the form of one. `draw` gives the next number of a label."""
    words = line.words
    if words[0].text != "proc" or len(words) != 6:
        return None
    user, group = number_of(words[2]), number_of(words[3])
    if user is None or group is None or not re.fullmatch(rb"-|[0-9]{1,10}(,[0-9]{1,10})*", words[4].value):
        return None
    groups = () if words[4].value == b"-" else tuple(map(int, words[4].value.split(b",")))
    label = policy.canonical(words[1].text)
    return WorldProcess(line.number, label, user, group, groups, words[5].text, draw(label))


def read_script(lines: Iterable[Line], policy: Policy) -> Iterator[ScriptLine]:
    """The calls of the lines after `script`, numbered from 1."""
    number = 1
    for line in lines:
        if len(line.words) >= 2 and line.malformed is None:
            tag, call = policy.canonical_tag(line.words[0].text), line.words[1].text
            read = ScriptLine(line, tag, call, line.words[2:], number)
            number += read.calls
            yield read


def read_names(lines: Iterable[Line]) -> Tuple[Policy, str]:
    """The names of labels and the bound, from the lines that begin with their keywords; the first of each counts."""
    found: Dict[str, Tuple[str, ...]] = {}
    for line in lines:
        if line.words and line.words[0].text in ("levels", "categories", "grades", "bound"):
            found.setdefault(line.words[0].text, tuple(word.text for word in line.words[1:]))
    policy = Policy(found.get("levels", ()), found.get("categories", ()), found.get("grades", ()))
    return policy, " ".join(found.get("bound", ()))


def drawing() -> Callable[[str], str]:
    """A function that draws the next number of a label."""
    drawn: Dict[str, int] = {}

    def draw(label: str) -> str:
        """The next number of a label."""
        drawn[label] = drawn.get(label, 0) + 1
        return f"{drawn[label]}@{label}"

    return draw


def read_things(lines: Iterable[Line], policy: Policy) -> Tuple[Tuple[WorldObject, ...], Tuple[WorldProcess, ...]]:
    """The objects and processes of lines, each with its number."""
    lines = [line for line in lines if line.words and line.malformed is None]
    draw_object, draw_process = drawing(), drawing()
    objects = (read_object(line, policy, draw_object) for line in lines)
    processes = (read_process(line, policy, draw_process) for line in lines if line.words[0].value == b"proc")
    return tuple(filter(None, objects)), tuple(filter(None, processes))


def read_world(text: bytes) -> World:
    """Reads a world with or without calls after its line `script`."""
    lines = Lines(text)
    filled = list(lines.filled())
    script_line = next((line.number for line in filled if len(line.words) == 1 and line.words[0].written == b"script"), None)
    head = [line for line in filled if script_line is None or line.number < script_line]
    policy, bound = read_names(head)
    script = tuple(read_script(filled[len(head) + 1:], policy)) if script_line else ()
    return World(text, lines, policy, bound, *read_things(head, policy), script_line, script)


def read_file(name: str) -> bytes:
    """The bytes of a file; `-` is standard input."""
    if name != "-":
        return pathlib.Path(name).read_bytes()
    try:
        return sys.stdin.buffer.read()
    except OSError as fault:
        raise OSError(fault.errno, fault.strerror, "standard input") from fault
