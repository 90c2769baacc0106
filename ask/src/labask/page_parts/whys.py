"""What `why` says of the calls of a run, for a page: of the first that were denied or refused, or that executed a program."""
from dataclasses import dataclass, replace
from itertools import islice, takewhile
from typing import Dict, FrozenSet, Tuple

from labask.asking import Asked, explain_all
from labask.effort import Effort
from labask.observing import NoObserver
from labask.playing import Outcome, Played, Player

from .run import Run

MOST_EXPLAINED = 200
MOST_PLAYED = 400_000  # calls that may be played to try the denied ones again, each with what comes after it


@dataclass(frozen=True)
class Whys:
    """What `why` says of calls, as lines of text, by the numbers of the calls; `left` says of another one why it is not there."""
    lines: Dict[int, Tuple[str, ...]]
    left: str


def first_asked(run: Run) -> FrozenSet[int]:
    """The numbers of the calls that are asked about."""
    asked = (call.number for call in run.calls if call.reply.outcome is not Outcome.DONE or call.line.call == "exec")
    counted = takewhile(lambda each: each[0] * each[1] <= MOST_PLAYED, enumerate(asked, 1))
    return frozenset(number for _, number in islice(counted, MOST_EXPLAINED))


def beginning_of(run: Run, call: int) -> Played:
    """The replies of a run up to those of the line of a call, so that nothing behind it is looked at."""
    line = run.world.lines_by_call[call]
    lines = run.played.out.split(b"\n")[:line.first_call + line.calls - 1]
    return replace(run.played, out=b"".join(each + b"\n" for each in lines))


def make_whys(player: Player, run: Run, effort: Effort) -> Whys:
    """Explains the first calls of a run that were denied or refused, or that executed a program."""
    numbers = first_asked(run)
    if not numbers:
        return Whys({}, "")
    left = f"Not asked: of the calls that were not done or executed a program, the first {len(numbers)} are explained here. " \
        "labask why FILE N explains call N."
    try:
        found = explain_all(run.world, beginning_of(run, max(numbers)), player, Asked(numbers, None, True), effort)
    except NoObserver as fault:
        return Whys({}, f"Not explained here: {fault}.")
    finally:
        effort.clear()
    return Whys({each.reply.number: tuple(line.strip() for line in list(each.own_lines())[1:]) for each in found}, left)
