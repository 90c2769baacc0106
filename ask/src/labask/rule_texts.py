"""Rules: what worlds should let through and what not, a line for each; and where a line is no rule."""
import os
import re
from dataclasses import dataclass
from typing import Callable, Dict, Iterator, List, NamedTuple, Optional, Sequence, Tuple

from labask.check import Explanation
from labask.kernel_profile import CAPABILITIES, CHECKS, ERRORS
from labask.worlds import Line, Lines, Word, World

RIGHTS = ("read", "write", "execute")
FORMS = {
    "world": "world FILE", "never flow": "never flow FROM -> TO [except by CAPABILITY ...]",
    "never exercise": "never exercise CAPABILITY [except by PROCESS ...]", "may": "may PROCESS read|write|execute PATH",
    "deny": "deny PROCESS read|write|execute PATH [by CHECK]", "uncrossed": "uncrossed LABEL", "confined": "confined",
    "call": "call N REPLY [CHECK] [PLACE]",
}
EXPECT = re.compile(rb" *# *expect(?: +(.*?))? *")
WORLD_BEGINS = ("1", "2")


class RuleFault(Exception):
    """A line is no rule, or names nothing of a world; the message shows it."""

    def __init__(self, file: str, line: Line, message: str, word: Optional[Word] = None):
        column, length = (word.column, len(word.written)) if word is not None else (len(line.text), 1)
        super().__init__("\n".join(Explanation(line.number, message, line.text, column, length).lines(file)))


@dataclass(frozen=True)
class Rule:
    """A rule: its line in a file, with its words."""
    line: Line

    @property
    def text(self) -> str:
        """The rule with one space between its words."""
        return " ".join(word.written.decode("latin-1") for word in self.line.words)


@dataclass(frozen=True)
class NeverFlow(Rule):
    """No bytes of FROM ever get to TO by calls that exercise none of the exceptions."""
    source: str
    goal: str
    exceptions: Tuple[str, ...]


@dataclass(frozen=True)
class NeverExercise(Rule):
    """No process but the exceptions and their children ever exercises a capability."""
    capability: str
    exceptions: Tuple[str, ...]


@dataclass(frozen=True)
class Access(Rule):
    """At the start a process may use an object, or is denied to, by a check where one is named."""
    allowed: bool
    process: str
    right: str
    path: str
    check: Optional[str] = None


@dataclass(frozen=True)
class Uncrossed(Rule):
    """No script crosses a label."""
    label: str


@dataclass(frozen=True)
class Confined(Rule):
    """No script crosses any label."""


@dataclass(frozen=True)
class Answered(Rule):
    """A call of the script has a reply that begins with these words."""
    call: int
    reply: Tuple[Word, ...]

    @property
    def text(self) -> str:
        """The rule as it is written in a file of rules, also that of a comment of a script."""
        return " ".join(["call", str(self.call), *(word.written.decode("latin-1") for word in self.reply)])


class Group(NamedTuple):
    """Rules that are asked about the same worlds: the files of these, and the rules."""
    worlds: Tuple[str, ...]
    rules: Tuple[Rule, ...]


def text_of(word: Word) -> str:
    """A word as those of a command line are, with its bytes as the system has them there."""
    return os.fsdecode(word.value)


class RuleReader:
    """Reads the words of a line of rules one after another."""

    def __init__(self, file: str, line: Line):
        self.file, self.line, self.at, self.form = file, line, 0, ""

    def fault(self, message: str, word: Optional[Word] = None) -> RuleFault:
        """The fault of a word, or of the end of the line."""
        return RuleFault(self.file, self.line, message, word)

    def left(self) -> Sequence[Word]:
        """The words that were not read yet."""
        return self.line.words[self.at:]

    def word(self, what: str) -> Word:
        """The next word, which is `what`."""
        if not self.left():
            raise self.fault(f"{what} is missing" + (f"; the rule is {self.form}" if self.form else ""))
        self.at += 1
        return self.line.words[self.at - 1]

    def one_of(self, what: str, choices: Sequence[str]) -> str:
        """The next word, which is one of these."""
        word = self.word(what)
        if word.text not in choices:
            few = "expected " + (" or ".join([", ".join(choices[:-1]), choices[-1]]) if len(choices) > 1 else choices[0])
            raise self.fault(f'{what} "{word.text}": ' + (few if len(choices) < 10 else "there is none of this name"), word)
        return word.text

    def has(self, *keywords: str) -> bool:
        """Whether words follow; then these are the next ones."""
        if not self.left():
            return False
        for each in keywords:
            self.one_of("the word", (each,))
        return True

    def rest(self, what: str, choices: Optional[Sequence[str]] = None) -> Tuple[str, ...]:
        """All words that are left, of which there is one at least."""
        found = [self.one_of(what, choices) if choices else text_of(self.word(what))]
        while self.left():
            found += self.rest(what, choices)
        return tuple(found)

    def end(self) -> None:
        """Nothing may be left."""
        for word in self.left():
            comment = "; a comment is a line of its own" if word.text.startswith("#") else ""
            raise self.fault(f'the word "{word.text}": one too many; the rule is {self.form}{comment}', word)


def read_never(reader: RuleReader) -> Rule:
    """A rule that begins with `never`."""
    kind = reader.one_of("the word", ("flow", "exercise"))
    reader.form = FORMS[f"never {kind}"]
    if kind == "exercise":
        capability = reader.one_of("CAPABILITY", CAPABILITIES)
        return NeverExercise(reader.line, capability, reader.rest("PROCESS") if reader.has("except", "by") else ())
    source = text_of(reader.word("FROM"))
    reader.one_of("the word", ("->",))
    goal = text_of(reader.word("TO"))
    return NeverFlow(reader.line, source, goal, reader.rest("CAPABILITY", CAPABILITIES) if reader.has("except", "by") else ())


def read_access(reader: RuleReader) -> Rule:
    """A rule that begins with `may` or `deny`."""
    allowed = reader.line.words[0].text == "may"
    process, right, path = text_of(reader.word("PROCESS")), reader.one_of("the right", RIGHTS), text_of(reader.word("PATH"))
    denying = [name for name, check in CHECKS.items() if check.error is not None]
    check = reader.one_of("CHECK", denying) if not allowed and reader.has("by") else None
    return Access(reader.line, allowed, process, right, path, check)


def read_reply(reader: RuleReader) -> Tuple[Word, ...]:
    """The words of a reply: `ok` and words of the answer, or an error, which may have a check and a place behind it."""
    first = reader.one_of("REPLY", ("ok", *ERRORS))
    begin = reader.at - 1
    if first == "ok":
        reader.at = len(reader.line.words)
    elif reader.left():
        reader.one_of("CHECK", list(CHECKS))
        if reader.left():
            reader.word("PLACE")
    return reader.line.words[begin:reader.at]


def read_call(reader: RuleReader) -> Rule:
    """A rule that begins with `call`."""
    number = reader.word("N")
    if not re.fullmatch("[0-9]{1,10}", number.text):
        raise reader.fault(f'N "{number.text}": expected the number of a call, from 1', number)
    return Answered(reader.line, int(number.text), read_reply(reader))


READERS: Dict[str, Callable[[RuleReader], Rule]] = {
    "never": read_never, "may": read_access, "deny": read_access, "call": read_call,
    "uncrossed": lambda reader: Uncrossed(reader.line, reader.word("LABEL").text), "confined": lambda reader: Confined(reader.line),
}


def read_rule(file: str, line: Line) -> Rule:
    """The rule of a line; raises `RuleFault` where it is none."""
    if line.malformed is not None:
        raise RuleFault(file, line, line.malformed.fault.value, Word(b"?", b"?", line.malformed.column))
    reader = RuleReader(file, line)
    first = reader.one_of("the word", ("world", *READERS))
    reader.form = FORMS.get(first, "")
    rule = READERS[first](reader)
    reader.end()
    return rule


def beside(file: str, name: str) -> str:
    """The path of a file that a file of rules names, relative to its own folder."""
    return os.path.join(os.path.dirname(file), name) if file != "-" else name


def read_groups(file: str, text: bytes) -> Iterator[Group]:
    """The rules of a file, those behind the same lines `world` together; raises `RuleFault` for a line that is none."""
    worlds: List[str] = []
    rules: List[Rule] = []
    for line in Lines(text).filled():
        if line.words and line.words[0].text == "world" and line.malformed is None:
            if rules:
                yield Group(tuple(worlds), tuple(rules))
                worlds, rules = [], []
            reader = RuleReader(file, line)
            reader.at, reader.form = 1, FORMS["world"]
            word = reader.word("FILE")
            if not word.value or b"\0" in word.value:
                raise reader.fault("FILE is no name of a file", word)
            worlds.append(beside(file, text_of(word)))
            reader.end()
        else:
            rules.append(read_rule(file, line))
    yield Group(tuple(worlds), tuple(rules))


def is_world(text: bytes) -> bool:
    """Whether a text is a world and no file of rules: its first line that is not blank names a format."""
    first = next(Lines(text).filled(), None)
    words = [word.text for word in first.words] if first is not None else []
    return len(words) == 2 and words[0] == "world" and words[1] in WORLD_BEGINS


def expectations(file: str, world: World) -> Iterator[Rule]:
    """The rules of the comments `# expect REPLY` of a script, each about the call before it.

    Of a utility the first is about its first path, and so on.
    """
    calls, call = {each.line.number: each for each in world.script}, 0
    due: List[int] = []
    for number in range(world.script_line or len(world.lines), len(world.lines)):
        line = world.lines[number]
        if line.number in calls:
            call = calls[line.number].first_call
            due = list(range(call, call + calls[line.number].calls))
        comment = EXPECT.fullmatch(line.text) if line.blank else None
        if comment is not None:
            yield expectation(file, line, comment, due)


def expectation(file: str, line: Line, comment: "re.Match[bytes]", due: List[int]) -> Rule:
    """The rule of a comment about the first of the calls that are due, which is taken away."""
    begin = comment.start(1) if comment[1] is not None else len(line.text)
    words = Lines(b" " * begin + line.text[begin:] + b"\n")[0]
    read = Line(line.number, line.text, words.words, words.malformed, True)
    if not due:
        raise RuleFault(file, read, "there is no call before it, or as many replies of that call are expected already")
    if read.malformed is not None:
        raise RuleFault(file, read, read.malformed.fault.value, Word(b"?", b"?", read.malformed.column))
    reader = RuleReader(file, read)
    reader.form = "# expect REPLY [CHECK] [PLACE]"
    reply = read_reply(reader)
    reader.end()
    return Answered(read, due.pop(0), reply)
