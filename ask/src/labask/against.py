"""Compares the replies to a script that `labask trace` has written with what Linux answered in the log."""
import argparse
import collections
import re
from dataclasses import dataclass
from typing import Any, Dict, Iterator, List, Optional, Sequence

from labask.answers import NOT_ABSENT, PLAYED, Status, WrongWords, write_json
from labask.asking import Asked, Asker
from labask.check import counted
from labask.effort import Effort
from labask.explained import LISTED, Explained
from labask.observing import NoObserver
from labask.playing import Outcome, Played, Player, Reply
from labask.shortening import short
from labask.strace.comparing import Comparison, Verdict, compare, compare_question, note_tags
from labask.strace.log import Call, Log, read_log
from labask.strace.questions import answers
from labask.strace.script import shown
from labask.strace.values import DIGITS
from labask.worlds import ScriptLine, World, read_file

COMMENT = re.compile(rb"# (%b)(: |, )" % DIGITS)
ASKING = re.compile(rb"# (%b), question: " % DIGITS)
EXPLAINED = 10
STOPPED = "The work was stopped before all was tried."


@dataclass(frozen=True)
class Traced:
    """The lines of the script that are a call of the log, which begins at a line of it."""
    log_line: int
    lines: Sequence[ScriptLine]


def traced_calls(world: World) -> Iterator[Traced]:
    """The calls of the log that the comments of a script name, each with the lines that follow its comments."""
    by_line = {each.line.number: each for each in world.script}
    named: Optional[int] = None
    lines: Dict[int, List[ScriptLine]] = {}
    for line in world.lines[world.script_line or len(world.lines):]:
        found = COMMENT.match(line.text)
        if found:
            named = int(found[1]) if found[2] == b": " else None
        elif line.number in by_line and named is not None:
            lines.setdefault(named, []).append(by_line[line.number])
    for log_line, played in lines.items():
        yield Traced(log_line, tuple(played))


def compare_all(world: World, log: Log, replies: Sequence[Reply]) -> List[Comparison]:
    """The calls of the log that the script plays, each compared with the replies to its lines."""
    tags: Dict[int, str] = {}
    found: List[Comparison] = []
    for traced in traced_calls(world):
        call = call_at(log, traced.log_line)
        own = [replies[line.first_call - 1] for line in traced.lines]
        note_tags(call, own, tags)
        found.append(compare(call, own, tags))
    return found


def call_at(log: Log, number: int) -> Call:
    """The call of the log that begins at a line which the script names."""
    call = log.calls_by_line.get(number)
    if call is None:
        raise WrongWords(f"the script names line {number} of the log, where no call begins")
    return call


def compare_questions(world: World, log: Log, replies: Sequence[Reply], player: Player) -> List[Comparison]:
    """The calls of the log that ask for rights, each compared with the answer to its question, which is asked anew."""
    found: List[Comparison] = []
    for each in answers(world, player, replies):
        named = ASKING.match(world.lines[each.line - 2].text)
        if named and each.reply is not None:
            found.append(compare_question(call_at(log, int(named[1])), each.question.text, each.reply))
    return found


def compare_whole(world: World, log: Log, replies: Sequence[Reply], player: Player) -> List[Comparison]:
    """All calls of the log that the script plays or asks about, compared, in the order of the log."""
    compared = compare_all(world, log, replies) + compare_questions(world, log, replies, player)
    return sorted(compared, key=lambda each: each.call.order)


class Report:
    """What is said of calls that are compared: why the first ones are denied here, and which come from an earlier one."""

    def __init__(self, compared: Sequence[Comparison], explained: Sequence[Explained], effort: Effort):
        self.compared, self.effort = compared, effort
        self.differing = [each for each in compared if each.verdict in (Verdict.DENIED, Verdict.OTHER)]
        by_number = {each.reply.number: each for each in self.differing if each.question is None}
        self.explained = {each.reply.number: each for each in explained if each.tried}
        self.followers: Dict[int, List[Comparison]] = {}
        self.causes: Dict[int, int] = {}
        for each in explained:
            own = [by_number[one.call.reply.number] for one in each.followers if one.call.reply.number in by_number]
            self.followers[each.reply.number] = own
            self.causes.update((one.reply.number, each.reply.number) for one in own)

    # ---- as text

    def lines(self) -> Iterator[str]:
        """The answer as text: the calls that are denied here, then the other differences, then all in numbers."""
        for verdict in (Verdict.DENIED, Verdict.OTHER):
            for each in self.differing:
                if each.verdict is verdict and self.cause(each) is None:
                    yield from self.difference(each)
        asked = sum(each.question is not None for each in self.compared)
        yield f"{len(self.compared) - asked} calls of the log were played" + (f", and {counted(asked, 'question')} asked" if asked else "")
        yield from (f"  {count} {what}" for what, count in counts(self.compared).items())
        yield from self.remarks()

    def difference(self, each: Comparison) -> Iterator[str]:
        """A call that differs, with what is said of it."""
        yield f"{each.verdict.value}, line {each.call.line} of the log: {shown(each.call)}"
        more, reply = self.why(each), each.reply
        if each.verdict is Verdict.DENIED and more is not None:
            yield from (f"  {line}" for line in more.own_lines())
        elif each.question is not None:
            yield f"  question {each.question}: {'ok' if reply.outcome is Outcome.DONE else reply.text}"
        else:
            yield f"  call {reply.number}: {reply.tag} {reply.call}: {short(reply.text)}"
        if each.verdict is Verdict.OTHER:
            yield f"    {each.text}"
        yield from self.follower_lines(() if each.question is not None else self.followers.get(reply.number, ()))

    def cause(self, each: Comparison) -> Optional[int]:
        """The call that a call comes from."""
        return None if each.question is not None else self.causes.get(each.reply.number)

    def why(self, each: Comparison) -> Optional[Explained]:
        """What is said of a call."""
        return None if each.question is not None else self.explained.get(each.reply.number)

    def follower_lines(self, followers: Sequence[Comparison]) -> Iterator[str]:
        """The calls that come from one that is denied here: they are done where it is done."""
        if followers:
            yield "    where this call is done, these are done too:"
        for each in followers[:LISTED]:
            yield f"      line {each.call.line} of the log: {shown(each.call)}; here {short(each.reply.text)}"
        if len(followers) > LISTED:
            yield f"      and {len(followers) - LISTED} more"

    def remarks(self) -> Iterator[str]:
        """What is said besides of calls that are denied here."""
        denied = [each for each in self.differing if each.verdict is Verdict.DENIED and each.question is None]
        firsts = [each for each in denied if self.cause(each) is None]
        if self.causes:
            yield f"{counted(len(self.causes), 'call')} of these {'differs' if len(self.causes) == 1 else 'differ'} " \
                  "only since an earlier call is denied here."
        if len(firsts) > len(self.explained):
            yield f"The first {len(self.explained)} of the {len(firsts)} calls that are denied here are explained."
        if self.effort.stopped:
            yield STOPPED
        if denied:
            yield "Behind a denial the script goes on as the log does; the program itself may do something else."

    # ---- as JSON

    def as_json(self) -> Dict[str, Any]:
        """The answer for `--json`."""
        return {"played": True, "stopped": self.effort.stopped, "calls": list(map(self.one_as_json, self.compared)),
                "counts": counts(self.compared)}

    def one_as_json(self, each: Comparison) -> Dict[str, Any]:
        """A call that was compared, as JSON has it."""
        more = self.why(each)
        return {"log_line": each.call.line, "log": shown(each.call), "call": None if each.question else each.reply.number,
                "question": each.question, "reply": each.reply.text,
                "verdict": each.verdict.value, "text": each.text, "cause": self.cause(each),
                "why": more.as_json() if more else None}


def explanations(world: World, played: Played, player: Player, compared: Sequence[Comparison], effort: Effort) -> List[Explained]:
    """What `why` says of calls that a check denied here alone. The first ones are tried again: each takes a run of its own."""
    numbers = frozenset(each.reply.number for each in compared if each.verdict is Verdict.DENIED and each.question is None)
    if not numbers:
        return []
    try:
        asker = Asker(world, played, player, effort, in_step=True)
        found = asker.observe(Asked(numbers))
    except NoObserver:
        return []
    asker.try_again(found, EXPLAINED)
    return found


def counts(compared: Sequence[Comparison]) -> Dict[str, int]:
    """How many calls have each verdict, and of the known differences each by its name."""
    found: "collections.Counter[str]" = collections.Counter()
    for each in compared:
        found[each.verdict.value if each.verdict is not Verdict.KNOWN else f"{each.verdict.value}, {each.text}"] += 1
    return dict(found.most_common())


def answer(arguments: argparse.Namespace, player: Player, world: World, played: Played, effort: Effort) -> int:
    """Compares the replies of a run with a log, and says where they differ."""
    compared = compare_whole(world, read_log(read_file(arguments.against)), played.replies, player)
    report = Report(compared, explanations(world, played, player, compared, effort), effort)
    effort.clear()
    if arguments.json:
        write_json(report.as_json())
    else:
        print("\n".join(report.lines()))
        print(f"{PLAYED} {NOT_ABSENT}" if report.explained else PLAYED)
    return Status.YES if report.differing else Status.NO
