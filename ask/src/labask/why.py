"""The question `why`: why a call was denied or refused, at which object, with which capability it would have passed, and what else
comes from it."""
import argparse
from typing import FrozenSet, Iterator, Sequence

from labask import against
from labask.answers import NOT_ABSENT, PLAYED, Status, WrongWords, write_json
from labask.asking import Asked, explain_all
from labask.command_words import number
from labask.effort import add_effort_arguments, effort_of
from labask.explained import Explained
from labask.playing import Outcome, Played, Player
from labask.sets import label_named
from labask.worlds import World, read_file, read_world


def call_numbers(text: str) -> range:
    """The numbers of calls that a word of the command line names: one, or those from one to another."""
    first, between, last = text.partition("-")
    begin = number(first if between and first else text)
    end = number(last) if between else begin
    if end < begin:
        raise argparse.ArgumentTypeError(f"{text!r} ends before it begins")
    return range(begin, end + 1)


def add_arguments(parser: argparse.ArgumentParser) -> None:
    """Adds the arguments of the question."""
    parser.add_argument("file", metavar="FILE", help="the world with its script")
    parser.add_argument("calls", metavar="N", nargs="*", type=call_numbers,
                        help="the number of a call, from 1, or two with - between them for all from one to the other; by default "
                        "each call that was denied or refused")
    parser.add_argument("--process", metavar="PROCESS", action="append", default=[],
                        help="only calls of this process n@label, or of those whose number has the label of a word label:LABEL; may be "
                        "repeated")
    parser.add_argument("--against", metavar="LOG", help="the log of strace of which `labask trace` made the script: says instead "
                        "which replies differ from those in it")
    add_effort_arguments(parser)


def tags_named(world: World, text: str) -> FrozenSet[str]:
    """The processes that a word names: those of the world, and those that the script has calls of."""
    there = frozenset(line.tag for line in world.script) | frozenset(world.processes_by_tag)
    label = label_named(world, text)
    if label is None:
        found = there & {world.policy.canonical_tag(text)}
    else:
        found = frozenset(tag for tag in there if tag.partition("@")[2] == label)
    if not found:
        raise WrongWords(f"neither the world nor the script has a process {text}")
    return found


def asked_of(arguments: argparse.Namespace, world: World, played: Played) -> Asked:
    """Which calls a command line asks about."""
    last = max((numbers[-1] for numbers in arguments.calls), default=0)
    first = min((numbers[0] for numbers in arguments.calls), default=1)
    if not 1 <= first <= last <= len(played.replies) and arguments.calls:
        raise WrongWords(f"the script has {len(played.replies)} calls; there is no call {first if first < 1 else last}")
    tags = [tags_named(world, text) for text in arguments.process]
    numbers = frozenset(call for numbers in arguments.calls for call in numbers)
    return Asked(numbers or None, frozenset().union(*tags) if tags else None, bool(numbers))


def lines_of(found: Sequence[Explained]) -> Iterator[str]:
    """The answer as text: calls that come from another one that is shown are listed below that one alone."""
    shown = {each.reply.number for each in found}
    for each in found:
        if each.cause not in shown:
            yield from each.lines()
    if not found:
        yield "No call was denied or refused."


def answer(arguments: argparse.Namespace, player: Player) -> int:
    """Answers the question."""
    effort = effort_of(arguments)
    text = read_file(arguments.file)
    played = player.play_accepted(text)
    world = read_world(text)
    if arguments.against is not None:
        if arguments.calls or arguments.process:
            raise WrongWords("with --against all calls of the log are compared, so no call and no process is named")
        return against.answer(arguments, player, world, played, effort)
    found = explain_all(world, played, player, asked_of(arguments, world, played), effort)
    effort.clear()
    if arguments.json:
        write_json({"played": True, "stopped": effort.stopped, "calls": [each.as_json() for each in found]})
    else:
        write_text(found, effort.stopped)
    if any(each.reply.outcome is not Outcome.DONE for each in found):
        return Status.YES
    return Status.STOPPED if effort.stopped else Status.NO


def write_text(found: Sequence[Explained], stopped: bool) -> None:
    """Writes the answer as text."""
    if found or not stopped:
        print("\n".join(lines_of(found)))
    if stopped:
        print(against.STOPPED)
    print(f"{PLAYED} {NOT_ABSENT}" if any(each.reply.outcome is Outcome.DENIED for each in found) else PLAYED)
