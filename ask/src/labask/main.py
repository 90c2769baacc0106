"""The command line of `labask`: a subcommand for each question, each in a module of its own.

The module of a question has `add_arguments(parser)` and `answer(arguments, player)`, which gives the exit status. It is imported
when its question is asked.
"""
import argparse
import importlib
import os
import sys
from dataclasses import dataclass
from typing import Any, NoReturn, Optional, Sequence

from labask import __version__
from labask.answers import Status, WrongWords
from labask.command_words import named
from labask.playing import Player, PlayingFault, Refused, find_program
from labask.programs import program_behind


WRITTEN = "0 where it is written"
STOPPED = "4 where it was stopped early and nothing was found by then"


@dataclass(frozen=True)
class Question:
    """A question: the name of its module, one line of help, and what its exit status says."""
    module: str
    help: str
    status: str


QUESTIONS = {
    "check": Question("check", "does labsys accept FILE, and else what is wrong with the line that it refuses",
                      "0 where FILE is accepted, 2 where it is refused"),
    "who": Question("who", "which process may read, write, execute, list or search which object, and by which right",
                    "3 where some process may do something of what is asked, 0 where none may do any of it, 4 where that was not all asked "
                    "and nothing was found by then"),
    "why": Question("why", "why was a call of the script denied or refused, and which capability would have let it pass",
                    "3 where a call of those asked was denied or refused, or with --against a reply differs from the log, 0 where none was "
                    f"or does, {STOPPED}"),
    "flow": Question("flow", "can bytes of one object get to a process or another object, and by which calls",
                     f"3 where calls were found, 0 where none were, {STOPPED}"),
    "never": Question("never", "what no script can do, which labels nothing ever crosses, and who is trusted not to cross the others",
                      "0 where nothing crosses the label of any process, 3 where that is not so of some label"),
    "cuts": Question("cuts", "which single changes of the world have a call denied",
                     f"3 where a change was found, 0 where none was, {STOPPED}"),
    "orders": Question("orders", "which replies of a script depend on the order of its calls, and is a rule broken in any order",
                       "3 where a reply depends on the order, or with --rule a rule is broken in an order; 0 where none does or is, "
                       f"{STOPPED}"),
    "test": Question("testing", "do the rules of files hold of worlds, and by which script is one broken",
                     "3 where a rule is broken, 0 where all hold, 4 where none is broken and some could not be decided"),
    "diff": Question("diff", "what two worlds allow differently, and which replies of a script differ",
                     f"3 where something differs, 0 where nothing does, {STOPPED}"),
    "lint": Question("lint", "what of a world is accepted but seems not to be meant",
                     f"3 where there are notes, 0 where there are none, {STOPPED}"),
    "label": Question("label", "does a label dominate another one, and what are their join and meet",
                      "3 where the first label dominates the second, 0 where it does not, or where with --lattice a drawing is written"),
    "shell": Question("shell", "a session in which lines are entered one at a time, each with its reply and, on request, why",
                      "0 at the end of the session"),
    "watch": Question("watch", "a world with its script, played anew at each change of its file, with what is new and what is gone",
                      "0 where it was ended by Ctrl-C"),
    "fmt": Question("formatting", "a world with its script in its canonical form, with its comments",
                    "0 where it is written, 3 where with --check something would change"),
    "fuzz": Question("fuzz", "does another program play random worlds as labsys does, and which is the least world on which it does not",
                     "3 where a difference was found, 0 where none was in the worlds that were played, 4 where Ctrl-C came before"),
    "shrink": Question("shrink", "the least world and script on which another program differs from labsys",
                       "3 where it differs on FILE and the least input is written, 0 where it does not"),
    "case": Question("case", "an input with what labsys writes of it, as a case for tests/run_cases.py", WRITTEN),
    "page": Question("page", "one page of HTML with the run of FILE, or with two runs side by side", WRITTEN),
    "serve": Question("serve", "a page on this machine with an editor of a world and script, which plays them",
                      "0 where it was ended by Ctrl-C"),
    "world": Question("world", "a world made from a directory", WRITTEN),
    "trace": Question("tracing", "script lines made from a log of strace", WRITTEN),
}
ENDING = """\
Exit status: 0 where the answer is no, or what was asked for is written; 3 where the answer is yes, as `labask QUESTION --help` says; 4
where the question was stopped early and nothing was found by then; 1 for a wrong command line, a file that can't be read or an answer
that can't be written; 2 where labsys refuses the input; 70 where labsys is missing, is another program, or fails."""


class QuestionParser(argparse.ArgumentParser):
    """The parser of `labask` or of a question. That of a question imports the question's module at its first use."""
    question: Optional[str] = None

    def error(self, message: str) -> NoReturn:
        """Ends with the status of a wrong command line."""
        self.print_usage(sys.stderr)
        self.exit(Status.WRONG_WORDS, f"{self.prog}: {message}\n")

    def _print_message(self, message: str, file: Any = None) -> None:
        """As that of the base class, which passes over faults of writing; help that can't be written is none."""
        if file is sys.stdout:
            file.write(message)
        else:
            super()._print_message(message, file)

    def parse_known_args(self, args: Any = None, namespace: Any = None) -> Any:
        """As that of the base class, with the arguments of the question, between whose words options may stand."""
        if self.question is not None:
            self.add_question(QUESTIONS[self.question].module)
            self.question = None
            rest = args[args.index("--") + 1:] if "--" in args else []
            if not any(word.startswith("-") for word in rest):
                return self.parse_known_intermixed_args([word for word in args if word != "--"], namespace)
        return super().parse_known_args(args, namespace)

    def add_question(self, name: str) -> None:
        """Adds the arguments of the question of a module."""
        module = importlib.import_module(f"labask.{name}")
        module.add_arguments(self)
        self.add_argument("--json", action="store_true", help="write the answer as JSON")
        add_program(self, argparse.SUPPRESS)
        self.set_defaults(answer=module.answer)


def add_program(parser: argparse.ArgumentParser, default: Optional[str]) -> None:
    """Adds the option that names the program."""
    parser.add_argument("--labsys", metavar="PROGRAM", type=named, default=default,
                        help="the program labsys; else that of the variable LABSYS, the one beside the folder of labask, or the "
                        "one on PATH")


def make_parser() -> QuestionParser:
    """The parser of the whole command line."""
    parser = QuestionParser(prog="labask", epilog=ENDING, formatter_class=argparse.RawDescriptionHelpFormatter,
                            description="Answers questions about a world by playing calls with labsys.")
    add_program(parser, None)
    parser.add_argument("--version", action="version", version=f"labask {__version__}", help="print the version and end")
    questions = parser.add_subparsers(metavar="QUESTION", required=True)
    for name, question in QUESTIONS.items():
        made = questions.add_parser(name, help=question.help, description=question.help[0].upper() + question.help[1:] + ".",
                                    epilog=f"Exit status: {question.status}. Those of faults are said by `labask --help`.")
        made.question = name
    return parser


def say_refusal(arguments: argparse.Namespace, refused: Refused, player: Player) -> None:
    """Writes to standard error which line was refused, and what is wrong with it."""
    from labask import check

    for line in check.explain(refused.text, refused.refusal, getattr(arguments, "file", "input"), player):
        print(line, file=sys.stderr)


def fill_descriptors() -> None:
    """Puts a file at each standard descriptor that is closed, so that no other file takes its place.

    What is read or written there fails then, as before; but messages go nowhere.
    """
    for name, mode, flags in (("stdin", "r", os.O_WRONLY), ("stdout", "w", os.O_RDONLY), ("stderr", "w", os.O_WRONLY)):
        if getattr(sys, name) is None:
            setattr(sys, name, open(os.open(os.devnull, flags), mode, encoding="utf-8"))


def discard_output() -> None:
    """Has what is left of the answer go nowhere, which Python would try to write once more at its end."""
    os.dup2(os.open(os.devnull, os.O_WRONLY), sys.stdout.fileno())


def answered(words: Optional[Sequence[str]]) -> int:
    """Answers the question of a command line, and gives the exit status. Also the answer to `--help` is written at once."""
    try:
        arguments = make_parser().parse_args(words)
        player = Player([program_behind(find_program(arguments.labsys))])
        try:
            return int(arguments.answer(arguments, player))
        except Refused as refused:
            say_refusal(arguments, refused, player)
            return Status.REFUSED
        finally:
            player.end_all()
    finally:
        sys.stdout.flush()


def main(words: Optional[Sequence[str]] = None) -> int:
    """Answers the question of a command line, and gives the exit status; says on standard error why there is no answer."""
    fill_descriptors()
    try:
        return answered(words)
    except PlayingFault as fault:
        print(f"labask: {fault}", file=sys.stderr)
        return Status.NO_PROGRAM
    except WrongWords as fault:
        print(f"labask: {fault}", file=sys.stderr)
        return Status.WRONG_WORDS
    except KeyboardInterrupt:
        print("labask: stopped", file=sys.stderr)
        return Status.STOPPED
    except BrokenPipeError:
        discard_output()
        return Status.WRONG_WORDS
    except OSError as fault:
        print(f"labask: {fault.filename or 'standard output'}: {fault.strerror}", file=sys.stderr)
        if not fault.filename:
            discard_output()
        return Status.WRONG_WORDS


if __name__ == "__main__":
    sys.exit(main())
