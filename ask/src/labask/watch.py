"""The question `watch`: a world with its script is played anew each time its file changes, and what came of it is shown."""
import argparse
import contextlib
import difflib
import os
import stat
import sys
import time
from dataclasses import dataclass, field
from typing import Iterator, List, Optional, Sequence, Tuple

from labask.answers import Status, WrongWords
from labask.check import counted, explain
from labask.command_words import named, number
from labask.effort import Effort, add_jobs_argument, default_effort
from labask.page import refuse_same_file
from labask.page_parts import one_run
from labask.page_parts.run import play_run
from labask.page_parts.side import labels_of, make_side
from labask.page_parts.views import named_labels
from labask.playing import Player, Refused
from labask.rule_answers import decide_all
from labask.rule_reports import report
from labask.rule_texts import RuleFault
from labask.search.limits import Limits
from labask.testing import BadInput, Reading
from labask.worlds import read_world

PAUSE = 0.1  # seconds between two looks at the files
Stamp = Tuple[int, int, int, int, int]


def add_arguments(parser: argparse.ArgumentParser) -> None:
    """Adds the arguments of the question."""
    parser.add_argument("file", metavar="FILE", type=named, help="the world with its script")
    parser.add_argument("--page", metavar="PAGE.html", type=named, help="write the page of the run to this file each time")
    parser.add_argument("--rules", metavar="RULES", type=named, help="ask these rules each time, as test does; they may be the comments "
                        "`# expect REPLY` of FILE itself")
    parser.add_argument("--times", metavar="N", type=number, help="end when it was looked at so many times; by default it ends by Ctrl-C")
    add_jobs_argument(parser)


def stamp_of(status: os.stat_result) -> Stamp:
    """What is another one when a file was written or another file has its name."""
    return status.st_dev, status.st_ino, status.st_size, status.st_mtime_ns, status.st_ctime_ns


def stamp_at(name: str) -> Optional[Stamp]:
    """The stamp of what has a name; None where nothing has it."""
    try:
        return stamp_of(os.stat(name))
    except OSError:
        return None


def read_regular(name: str) -> bytes:
    """The bytes of a regular file. Nothing else is read: a FIFO would be waited for."""
    descriptor = os.open(name, os.O_RDONLY | os.O_NONBLOCK | os.O_NOCTTY)
    try:
        if not stat.S_ISREG(os.fstat(descriptor).st_mode):
            raise WrongWords(f"{name}: not a regular file, and no other is watched")
        with open(descriptor, "rb", closefd=False) as file:
            return file.read()
    finally:
        os.close(descriptor)


def marked(before: Sequence[str], now: Sequence[str]) -> Iterator[str]:
    """The lines of a run behind two columns, in which `+` marks a line that is new and `-` one that is gone."""
    for kind, old_begin, old_end, begin, end in difflib.SequenceMatcher(None, before, now).get_opcodes():
        if kind == "equal":
            yield from (f"  {line}" for line in now[begin:end])
        else:
            yield from [*(f"- {line}" for line in before[old_begin:old_end]), *(f"+ {line}" for line in now[begin:end])]


def write_whole(data: bytes, output: str) -> None:
    """Writes a file under another name and then gives it its own, so that nobody reads half of it."""
    place = os.path.realpath(output)
    beside = f"{place}.{os.getpid()}.new"
    try:
        if os.path.exists(place) and not os.path.isfile(place):
            raise WrongWords(f"{output} is no regular file, and the page would take its place")
        with open(beside, "xb") as file:
            file.write(data)
        os.replace(beside, place)
    except OSError as fault:
        raise WrongWords(f"{output}: {fault.strerror}") from fault
    finally:
        with contextlib.suppress(OSError):
            os.remove(beside)


@dataclass
class Watch:
    """What is watched: a file, and the lines of its last run that was accepted; None where there was none."""
    file: str
    player: Player
    effort: Effort
    page: Optional[str] = None
    rules: Optional[str] = None
    before: Optional[List[str]] = None
    seen: List[Optional[Stamp]] = field(default_factory=list)

    def stamps(self) -> List[Optional[Stamp]]:
        """The stamps of the files that are read."""
        return [stamp_at(self.file), *([stamp_at(self.rules)] if self.rules is not None else [])]

    def look(self) -> None:
        """Reads the file, and writes what came of it; one that can't be read is waited for."""
        self.seen = self.stamps()
        try:
            text = read_regular(self.file)
        except OSError as fault:
            print(f"{self.file}: {fault.strerror}")
        except WrongWords as fault:
            print(fault)
        else:
            self.show(text)

    def show(self, text: bytes) -> None:
        """Plays a text, and writes what came of it, or why it is refused."""
        try:
            self.show_run(text)
        except Refused as refused:
            print("\n".join(explain(text, refused.refusal, self.file, self.player)))
            return
        for name, made in ((self.page, self.make_page), (self.rules, self.ask_rules)):
            if name is not None:
                made(name, text)

    def show_run(self, text: bytes) -> None:
        """Plays a text, and writes its replies with those that are new and gone."""
        lines = self.player.play_accepted(text).out.decode("latin-1").splitlines()
        shown = list(marked(lines if self.before is None else self.before, lines))
        new, gone = (sum(line.startswith(sign) for line in shown) for sign in "+-")
        print(f"{self.file}: " + ("played" if self.before is None else f"{counted(new, 'line')} new, {gone} gone"))
        print("\n".join(shown))
        self.before = lines

    def make_page(self, output: str, text: bytes) -> None:
        """Writes the page of the run."""
        for file in (self.file, self.rules):
            if file is not None:
                refuse_same_file(file, output)
        run = play_run(self.player, read_world(text))
        side = make_side(self.player, os.path.basename(self.file), run, labels_of(run, named_labels(run), []), self.effort)
        write_whole("".join(one_run.page_of(self.player, side, self.effort)).encode(), output)
        print(f"{output}: written")

    def ask_rules(self, rules: str, text: bytes) -> None:
        """Asks the rules about the world, and writes the answers; rules that are refused are explained."""
        try:
            reading = Reading(self.player)
            read_regular(rules)
            reading.judged(self.file, text)
            cases = list(reading.cases(rules, [self.file]))
            decide_all(cases, Limits(), self.effort)
        except (BadInput, RuleFault, WrongWords) as fault:
            print(fault)
        except OSError as fault:
            print(f"{rules}: {fault.strerror}")
        else:
            print("\n".join(report(cases)))

    def wait(self) -> None:
        """Waits until a file is another one than was seen, and then until it stays as it is: an editor may write it in steps."""
        before, now = self.seen, self.seen
        while now != before or now == self.seen:
            time.sleep(PAUSE)
            before, now = now, self.stamps()


def answer(arguments: argparse.Namespace, player: Player) -> int:
    """Shows the run of the file, and again each time it changes, until Ctrl-C."""
    if arguments.json:
        raise WrongWords("what is watched is for people, and is not written as JSON")
    if arguments.file == "-":
        raise WrongWords("standard input does not change; a file is watched")
    read_regular(arguments.file)
    if arguments.rules is not None:
        read_regular(arguments.rules)
    watch = Watch(arguments.file, player, default_effort(arguments.jobs), arguments.page, arguments.rules)
    with contextlib.suppress(KeyboardInterrupt):
        looks = 0
        while arguments.times is None or looks < arguments.times:
            if looks:
                watch.wait()
            watch.look()
            sys.stdout.flush()
            looks += 1
    return Status.DONE
