"""Calls of the log that only ask for rights, `access` and its kin: a script has them as comments with questions and their answers.

The profile has no such call. The question is asked as the calls that take the rights: a child of the process gets its real user and
group, as POSIX.1 says for `access`, and then opens, lists, executes, or looks for a name. This is played in a run of its own beside
the script, in which children have other numbers.
"""
import re
from dataclasses import dataclass, field, replace
from typing import Dict, Iterator, List, Optional, Sequence

from labask.explaining import path_fault
from labask.playing import Outcome, Player, Reply, Session
from labask.strace.files import Handler
from labask.strace.following import Following, Process
from labask.strace.log import Call
from labask.strace.names import place_at
from labask.strace.script import Leave, Reason
from labask.worlds import Line, ScriptLine, World, path_word, split_words

ASKED = re.compile(rb"# question ([^ ]+ e?access .* [frwx]+)(?:: (.*))?$")
LETTERS = {"R_OK": "r", "W_OK": "w", "X_OK": "x"}
DESCRIPTORS = 32
NEW_NAME = b"labask"


# ---- in a log

def access(following: Following, call: Call, process: Process) -> None:
    """`access`, `faccessat` and `faccessat2`."""
    place, index = place_at(following, call, process, call.name != "access")
    modes, flags = call.arguments[index].flags, call.arguments[index + 1].flags if len(call.arguments) > index + 1 else frozenset(("0",))
    if not modes <= {"F_OK", *LETTERS} or not flags <= {"0", "AT_EACCESS"}:
        raise Leave(Reason.NO_ARGUMENT, ", ".join(sorted(modes | flags - {"0"})))
    letters = "".join(letter for name, letter in LETTERS.items() if name in modes) or "f"
    following.script.ask(call, f"{process.tag} {'eaccess' if 'AT_EACCESS' in flags else 'access'} {place.word} {letters}")


HANDLERS: Dict[str, Handler] = {name: access for name in ("access", "faccessat", "faccessat2")}


# ---- in a script

@dataclass(frozen=True)
class Question:
    """A question of a comment: the process, whether its real ids count, the path, and the rights as letters; f is that it is there."""
    tag: str
    real: bool
    path: bytes
    letters: str

    @property
    def text(self) -> str:
        """The question as the comment has it."""
        return f"{self.tag} {'access' if self.real else 'eaccess'} {path_word(self.path)} {self.letters}"


def question_of(line: Line) -> Optional[Question]:
    """The question of a comment, or None where it has none."""
    found = ASKED.match(line.text)
    words = split_words(found[1])[0] if found else ()
    if len(words) != 4 or path_fault(words[2].value):
        return None
    return Question(words[0].text, words[1].text == "access", words[2].value, words[3].text)


@dataclass
class Interview:
    """A run of a script in which questions are asked besides; `tags` has the processes of the run by their numbers in the script."""
    session: Session
    replies: Sequence[Reply]
    tags: Dict[str, str] = field(default_factory=dict)
    waiting: List[str] = field(default_factory=list)

    def play(self, line: ScriptLine) -> None:
        """Plays a line of the script, at the latest when its outcome matters."""
        self.waiting += [self.text_of(line, number) for number in range(line.first_call, line.first_call + line.calls)]
        if line.call == "fork":
            child = self.flush()[-1]
            due = self.replies[line.first_call - 1]
            if child.outcome is Outcome.DONE and due.outcome is Outcome.DONE:
                self.tags[due.words[0].text] = child.words[0].text

    def flush(self) -> List[Reply]:
        """The replies to the lines that were not sent yet."""
        given = self.session.calls(self.waiting)
        self.waiting.clear()
        return given

    def text_of(self, line: ScriptLine, number: int) -> str:
        """The line of a call with the processes of this run."""
        words = line.single(number).split(" ")
        first = next(index for index, word in enumerate(words) if word)
        words[first] = self.tags.get(line.tag, line.tag)
        if line.call == "kill":
            target = next(index for index, word in enumerate(words) if "@" in word and index > first)
            words[target] = self.tags.get(line.arguments[0].text, line.arguments[0].text)
        return " ".join(words)

    def ask(self, question: Question) -> Optional[Reply]:
        """The answer to a question: the first reply that is not done, or the last; None where it can't be asked."""
        self.flush()
        born = self.session.call(f"{self.tags.get(question.tag, question.tag)} fork")
        if born.outcome is not Outcome.DONE:
            return None
        child = born.words[0].text
        self.session.calls([f"{child} close {number}" for number in range(DESCRIPTORS)])
        if question.real:
            self.take_real(child)
        return self.rights(child, question)

    def take_real(self, child: str) -> None:
        """Makes the real user and group of a child its effective ones."""
        ids = [word.text for word in self.session.call(f"{child} getids").words]
        if ids[3] != ids[4]:
            self.session.call(f"{child} setgid {ids[3]}")
        if ids[0] != ids[1]:
            self.session.call(f"{child} setuid {ids[0]}")

    def rights(self, child: str, question: Question) -> Optional[Reply]:
        """What is answered of the rights, one after another."""
        reply: Optional[Reply] = None
        for letter in question.letters:
            reply = {"f": self.there, "r": self.read, "w": self.write, "x": self.execute}[letter](child, question.path)
            if reply is None or reply.outcome is not Outcome.DONE:
                return reply
        return reply

    def there(self, child: str, path: bytes) -> Optional[Reply]:
        """Whether something is at the path, of which the process may know."""
        return self.session.call(f"{child} stat {path_word(path)}")

    def read(self, child: str, path: bytes) -> Optional[Reply]:
        """Whether a file may be read, or a directory listed."""
        reply = self.opened(child, path, "r")
        return self.session.call(f"{child} readdir {path_word(path)}") if reply.error == "EISDIR" else reply

    def write(self, child: str, path: bytes) -> Optional[Reply]:
        """Whether a file may be written, or a directory made in one."""
        reply, new = self.opened(child, path, "w"), below(path)
        if reply.error != "EISDIR":
            return reply
        if new is None:
            return None
        made = self.session.call(f"{child} mkdir {path_word(new)} 0700")
        if made.outcome is Outcome.DONE:
            self.session.call(f"{child} rmdir {path_word(new)}")
        return None if made.error == "EEXIST" else made

    def execute(self, child: str, path: bytes) -> Optional[Reply]:
        """Whether a file may be executed, or a directory searched: for that a name is looked up that is not there."""
        reply, new = self.session.call(f"{child} exec {path_word(path)}"), below(path)
        if reply.check != "exec_kind":
            return reply
        if new is None:
            return None
        found = self.session.call(f"{child} stat {path_word(new)}")
        if found.error == "ENOTDIR":
            return reply
        return replace(found, outcome=Outcome.DONE, error=None) if found.error == "ENOENT" else found

    def opened(self, child: str, path: bytes, flags: str) -> Reply:
        """The reply to opening a file, which is closed again."""
        reply = self.session.call(f"{child} open {path_word(path)} {flags}")
        if reply.outcome is Outcome.DONE:
            self.session.call(f"{child} close {reply.words[0].text}")
        return reply


def below(path: bytes) -> Optional[bytes]:
    """The path of a name in a directory, or None where no path is so long."""
    new = path.rstrip(b"/") + b"/" + NEW_NAME
    return None if path_fault(new) else new


@dataclass(frozen=True)
class Answered:
    """A question, the number of its line, and the answer; None where it could not be asked."""
    line: int
    question: Question
    reply: Optional[Reply]

    @property
    def text(self) -> str:
        """The answer in a word or more."""
        if self.reply is None:
            return "not asked"
        return "ok" if self.reply.outcome is Outcome.DONE else self.reply.text


def answers(world: World, player: Player, replies: Sequence[Reply]) -> Iterator[Answered]:
    """The answers to the questions of a script, in their order. `replies` are those to the script."""
    asked = [(line.number, question_of(line)) for line in world.lines[world.script_line or len(world.lines):] if not line.words]
    due = {number: question for number, question in asked if question is not None}
    if not due:
        return
    lines = {each.line.number: each for each in world.script if each.line.number < max(due)}
    with Session(player, world.head()) as session:
        interview = Interview(session, replies)
        for number in sorted({*due, *lines}):
            if number in lines:
                interview.play(lines[number])
            else:
                yield Answered(number, due[number], interview.ask(due[number]))
