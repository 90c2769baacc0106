"""The question `shell`: a session in which lines of a script are entered one at a time, each with its reply.

At each line all lines of the session are played again from the start, so a line that is refused changes nothing.
"""
import argparse
import sys
from dataclasses import dataclass, field
from typing import Callable, Dict, Iterator, List, Optional, Sequence

from labask.answers import Status, WrongWords, show_table
from labask.asking import Asked, explain_all
from labask.check import explain
from labask.label import compare
from labask.observing import NoObserver, NoRoom
from labask.playing import STATUS_ACCEPTED, Outcome, Player
from labask.signatures import FORMS
from labask.who import SINGLE_CALLS, ask, chosen, rows_of
from labask.why import call_numbers
from labask.worlds import World, path_word, read_file, read_world, split_words

PROMPT = "labask> "
HELP = """\
n@label CALL ...  play a line of a script, as 1@public open /a r
why [N...]        why the last call, or those of these numbers, were denied or refused
who [PATH...]     who may do what by a single call at the start, before all lines of the session
label A B         which of two labels dominates the other, and their join and meet
undo              leave out the last line
script            the lines so far
save FILE         write the world with the lines so far to a new file
help, quit        this text; end the session"""


def add_arguments(parser: argparse.ArgumentParser) -> None:
    """Adds the arguments of the question."""
    parser.add_argument("file", metavar="FILE", help="the world; its script is not played")
    parser.add_argument("--why", action="store_true", help="say of each call that is denied or refused why it is")


def shown(message: str) -> None:
    """Writes a message, also where it has bytes that no text has."""
    print(message.encode("ascii", "backslashreplace").decode("ascii"))


@dataclass
class Shell:
    """A session: the lines that were accepted so far, and the run of them."""
    name: str
    world: World
    player: Player
    always_why: bool = False
    lines: List[str] = field(default_factory=list)
    done: bool = False

    def __post_init__(self) -> None:
        self.played = self.player.play_accepted(self.text(()))

    def text(self, added: Sequence[str]) -> bytes:
        """The world with the lines so far and further ones."""
        return self.world.with_script([*self.lines, *added])

    def commands(self) -> Dict[str, Callable[[List[str]], None]]:
        """What answers each command, by its word."""
        return {"why": self.why, "who": self.who, "label": self.label, "undo": self.undo, "script": self.script, "save": self.save,
                "help": self.help, "quit": self.quit}

    def enter(self, line: str) -> None:
        """Answers a line, whose characters have the numbers of its bytes; one that is wrong changes nothing."""
        read, fault = split_words(line.encode("latin-1"))
        words = [word.value.decode("utf-8", "surrogateescape") for word in read]
        command = self.commands().get(words[0]) if words else None
        try:
            if command is not None and fault is not None:
                raise WrongWords(f"column {fault.column + 1}: {fault.fault.value}")
            if command is not None:
                command(words[1:])
            elif line.strip(" "):
                self.play(line)
        except (WrongWords, argparse.ArgumentTypeError, NoObserver, NoRoom) as wrong:
            shown(str(wrong))

    # ---- lines of the script

    def play(self, line: str) -> None:
        """Plays a line after those so far, and writes its replies, or why it is refused."""
        text, before = self.text([line]), len(self.played.replies)
        played = self.player.play(text)
        if played.status != STATUS_ACCEPTED:
            print("\n".join(explain(text, played.refusal, self.name, self.player)))
            return
        self.lines.append(line)
        self.played = played
        for reply in played.replies[before:]:
            print(f"{reply.number}: {reply.text}")
        if self.always_why and any(reply.outcome is not Outcome.DONE for reply in played.replies[before:]):
            self.explain(range(before + 1, len(played.replies) + 1))

    def explain(self, numbers: Sequence[int]) -> None:
        """Writes what is to be said of calls of these numbers."""
        world = read_world(self.text(()))
        for each in explain_all(world, self.played, self.player, Asked(frozenset(numbers), None, True)):
            print("\n".join(each.lines()))

    # ---- commands

    def why(self, words: List[str]) -> None:
        """Explains the last call, or those of some numbers."""
        count = len(self.played.replies)
        numbers = [number for word in words for number in call_numbers(word)[:count + 1]] or [count]
        if not all(1 <= number <= count for number in numbers):
            raise WrongWords(f"there are {count} calls so far")
        self.explain(numbers)

    def who(self, words: List[str]) -> None:
        """Says who may do what at the start."""
        processes, objects = chosen(self.world, words, ())
        show_table(rows_of(ask(self.world, processes, objects, self.player)))
        print(SINGLE_CALLS)

    def label(self, words: List[str]) -> None:
        """Compares two labels."""
        if len(words) != 2:
            raise WrongWords("two labels are compared: label A B")
        print("\n".join(compare(self.world, words[0], words[1], self.player).lines()))

    def undo(self, _: List[str]) -> None:
        """Leaves out the last line."""
        if not self.lines:
            raise WrongWords("there is no line to undo")
        shown(f"left out: {self.lines.pop()}")
        self.played = self.player.play_accepted(self.text(()))

    def script(self, _: List[str]) -> None:
        """Writes the lines so far."""
        shown("\n".join(self.lines) or "There is no line so far.")

    def save(self, words: List[str]) -> None:
        """Writes the world with the lines so far to a new file."""
        if len(words) != 1 or not words[0] or "\0" in words[0]:
            raise WrongWords("one file is named: save FILE")
        try:
            with open(words[0], "xb") as file:
                file.write(self.text(()))
        except OSError as fault:
            raise WrongWords(f"{words[0]}: {fault.strerror}") from fault
        shown(f"saved: {words[0]}")

    def help(self, _: List[str]) -> None:
        """Writes what may be entered."""
        print(HELP)

    def quit(self, _: List[str]) -> None:
        """Ends the session."""
        self.done = True

    # ---- completion

    def completions(self, before: str, word: str) -> List[str]:
        """The words with which a word may go on, by what stands before it: commands and tags of living processes, calls, and paths."""
        words = before.split()
        if not words:
            found = [*self.commands(), *self.played.ends]
        elif len(words) == 1 and "@" in words[0]:
            found = list(FORMS)
        else:
            found = [path_word(each.path) for each in self.world.objects]
        return sorted(each for each in found if each.startswith(word))


def complete_by_readline(shell: Shell) -> None:
    """Has the library `readline` edit lines and complete words, where it is there."""
    try:
        import readline
    except ImportError:
        return

    def complete(word: str, state: int) -> Optional[str]:
        """The completion of a number."""
        found = shell.completions(readline.get_line_buffer()[:readline.get_begidx()], word)
        return found[state] if state < len(found) else None

    readline.set_completer_delims(" ")
    readline.set_completer(complete)
    readline.parse_and_bind("tab: complete")


def typed_lines() -> Iterator[str]:
    """Lines that are entered at a terminal, after a prompt, up to the end of the input; Ctrl-C begins a line anew."""
    while True:
        try:
            yield input(PROMPT).encode("utf-8", "surrogateescape").decode("latin-1")
        except KeyboardInterrupt:
            print()
        except EOFError:
            print()
            return


def given_lines() -> Iterator[str]:
    """The lines of standard input."""
    for line in sys.stdin.buffer:
        yield line.rstrip(b"\n").decode("latin-1")


def answer(arguments: argparse.Namespace, player: Player) -> int:
    """Answers lines up to the end of the input."""
    if arguments.json:
        raise WrongWords("a session is for people, and is not written as JSON")
    if arguments.file == "-":
        raise WrongWords("standard input has the lines of the session; the world is a file")
    source = read_file(arguments.file)
    player.check(source)
    shell = Shell(arguments.file, read_world(source), player, arguments.why)
    terminal = sys.stdin.isatty()
    if terminal:
        complete_by_readline(shell)
        print("A line of a script is played at once; help says what else may be entered.")
    for line in typed_lines() if terminal else given_lines():
        shell.enter(line)
        sys.stdout.flush()
        if shell.done:
            break
    return Status.DONE
