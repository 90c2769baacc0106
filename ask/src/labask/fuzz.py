"""The question `fuzz`: does another program play random worlds as `labsys` does, and which is the least world on which it does not."""
import argparse
import itertools
import pathlib
import time
from dataclasses import dataclass, field
from typing import Any, Dict, Iterator, List, Optional, Sequence, Tuple

from labask.answers import Status, WrongWords, table, write_json
from labask.command_words import named, number
from labask.effort import Effort, add_dask_argument, add_playing_arguments, jobs_effort
from labask.fuzzing.case_text import case_text
from labask.fuzzing.comparing import Comparer, Difference
from labask.fuzzing.making import made
from labask.fuzzing.options import add_terms, comparer_of
from labask.fuzzing.reached import Reached
from labask.fuzzing.shrinking import Shrinker
from labask.playing import Player
from labask.shortening import short
from labask.signatures import CALLS
from labask.worlds import read_world

SECONDS = 60


def add_arguments(parser: argparse.ArgumentParser) -> None:
    """Adds the arguments of the question."""
    add_terms(parser)
    parser.add_argument("--seconds", metavar="N", type=number, help=f"play worlds for so many seconds; {SECONDS} where --worlds is not given")
    parser.add_argument("--worlds", metavar="N", type=number, help="play so many worlds; then the answer is the same each time")
    parser.add_argument("--seed", metavar="S", type=number, default=1, help="play other worlds; 1 by default")
    parser.add_argument("--calls", metavar="LIST", type=calls_of, default=tuple(CALLS), help="the calls of the scripts, with commas "
                        "between them; all by default")
    parser.add_argument("--most", metavar="N", type=number, default=1, help="stop at so many kinds of differences; 1 by default")
    parser.add_argument("--cases", metavar="FOLDER", type=named, help="write each difference there, as a case for tests/run_cases.py")
    add_playing_arguments(parser)
    add_dask_argument(parser)


def calls_of(text: str) -> Tuple[str, ...]:
    """The calls of a list, for `add_argument`."""
    names = tuple(dict.fromkeys(text.split(",")))
    unknown = [name for name in names if name not in CALLS]
    if unknown:
        raise argparse.ArgumentTypeError(f"there is no call {unknown[0]!r}")
    return names


@dataclass(frozen=True)
class Result:
    """What came of a world: its first difference, if there is one, and what was compared."""
    number: int
    difference: Optional[Difference]
    reached: Reached


@dataclass(frozen=True)
class Found:
    """A difference with the least world that was found for it, and how many calls its script has; `number` is that of the first world."""
    number: int
    text: bytes
    difference: Difference
    calls: int


@dataclass(frozen=True)
class Work:
    """Plays worlds by their numbers, each alone, and shrinks those on which the programs differ."""
    comparer: Comparer
    seed: int
    calls: Tuple[str, ...]

    def world(self, number: int) -> bytes:
        """The world of a number."""
        return made(f"labask fuzz {self.seed} {number}", self.calls)

    def play(self, number: int) -> Result:
        """Plays a world."""
        compared, reached = self.comparer.compare(self.world(number)), Reached()
        if compared is None:
            raise AssertionError(f"labsys refuses world {number} of seed {self.seed}")
        reached.add(compared.played, compared.compared)
        return Result(number, compared.difference, reached)

    def shrink(self, result: Result) -> Found:
        """The least world of a difference."""
        assert result.difference is not None
        text, difference = Shrinker(self.comparer, Effort()).shrink(self.world(result.number), result.difference)
        return Found(result.number, text, difference, len(read_world(text).script))


@dataclass
class Fuzzing:
    """Plays worlds until enough are played, or enough kinds of differences are found."""
    work: Work
    effort: Effort
    worlds: int = 0
    reached: Reached = field(default_factory=Reached)

    def differences(self, numbers: Iterator[int], most: int) -> List[Result]:
        """The first world of each kind of difference."""
        found: Dict[Tuple[str, str], Result] = {}
        for result in self.effort.results(self.work.play, numbers):
            self.worlds += 1
            self.reached.update(result.reached)
            if result.difference is not None:
                found.setdefault(result.difference.kind, result)
            self.effort.progress(f"fuzz: {self.worlds} worlds, {len(found)} kinds of differences")
            if len(found) >= most:
                break
        self.effort.clear()
        return list(found.values())


# ---- answers

def side_lines(difference: Difference) -> Iterator[str]:
    """The line of a difference, and what each program wrote of it."""
    yield f"  {short(difference.line)}"
    yield from table([["labsys", short(difference.own.text)], ["PROGRAM", short(difference.other.text)]], "    ")


def found_lines(found: Sequence[Found], files: Sequence[pathlib.Path]) -> Iterator[str]:
    """The lines of the differences."""
    for at, each in enumerate(found):
        yield f"difference {at + 1}, of world {each.number}, shrunk to {each.calls} call{'' if each.calls == 1 else 's'}:"
        yield from side_lines(each.difference)
        if files:
            yield f"  written to {files[at]}"
        else:
            yield from (f"    {line}" for line in each.text.decode("latin-1").splitlines())


def write_cases(folder: str, seed: int, found: Sequence[Found], player: Player) -> List[pathlib.Path]:
    """Writes each difference as a case, whose expected output is that of `labsys`."""
    place = pathlib.Path(folder)
    place.mkdir(parents=True, exist_ok=True)
    files = []
    for each in found:
        note = f"labask fuzz: at {short(each.difference.line)} another program wrote: {short(each.difference.other.text)}"
        files.append(place / f"fuzz_{seed}_{each.number}.case")
        files[-1].write_bytes(case_text(each.text, player.play(each.text), note))
    return files


def as_json(fuzzing: Fuzzing, found: Sequence[Found], files: Sequence[pathlib.Path]) -> Dict[str, Any]:
    """The answer as JSON has it."""
    calls = fuzzing.work.calls
    differences = [{"world": each.number, "calls": each.calls, "line": each.difference.line, "labsys": each.difference.own.text,
                    "program": each.difference.other.text, "text": each.text.decode("latin-1")} for each in found]
    return {"worlds": fuzzing.worlds, "compared": sum(map(fuzzing.reached.total, calls)), "whole": not fuzzing.effort.interrupted,
            "differences": differences, "cases": [str(path) for path in files], "reached": fuzzing.reached.as_json(calls)}


def report(fuzzing: Fuzzing, found: Sequence[Found], files: Sequence[pathlib.Path]) -> Iterator[str]:
    """The lines of the answer."""
    yield from found_lines(found, files)
    yield from fuzzing.reached.lines(fuzzing.work.calls)
    kinds = f"{len(found)} kind{'' if len(found) == 1 else 's'} of differences"
    yield (f"{fuzzing.worlds} worlds were played by both, and {sum(map(fuzzing.reached.total, fuzzing.work.calls)):,} replies are alike; "
           f"{kinds} were found. What was not reached was not compared.")


def answer(arguments: argparse.Namespace, player: Player) -> int:
    """Answers the question."""
    if arguments.most == 0:
        raise WrongWords("--most is 0, and it has to be at least 1")
    seconds = SECONDS if arguments.seconds is None and arguments.worlds is None else arguments.seconds
    effort = jobs_effort(arguments, None if seconds is None else time.monotonic() + seconds)
    fuzzing = Fuzzing(Work(comparer_of(arguments, player), arguments.seed, arguments.calls), effort)
    numbers = itertools.count(1) if arguments.worlds is None else iter(range(1, arguments.worlds + 1))
    results = fuzzing.differences(numbers, arguments.most)
    found = list(jobs_effort(arguments, None).results(fuzzing.work.shrink, results))
    files = write_cases(arguments.cases, arguments.seed, found, player) if arguments.cases else []
    if arguments.json:
        write_json(as_json(fuzzing, found, files))
    else:
        print("\n".join(report(fuzzing, found, files)))
    if found:
        return Status.YES
    return Status.STOPPED if effort.interrupted else Status.NO
