"""The question `test`: do rules hold of worlds, and by which script is one broken?"""
import argparse
import os
import pathlib
import sys
from dataclasses import dataclass, field
from typing import Dict, Iterator, List, Sequence

from labask import check
from labask.answers import Status, WrongWords, write_json
from labask.command_words import named
from labask.effort import add_dask_argument, add_effort_arguments, effort_of
from labask.playing import Player, Refused
from labask.rule_answers import Case, Holding, Subject, decide_all
from labask.rule_reports import as_json, junit, report, tap
from labask.rule_texts import Group, RuleFault, expectations, is_world, read_groups
from labask.search.limits import add_limit_arguments, limits_of
from labask.worlds import read_file, read_world


def add_arguments(parser: argparse.ArgumentParser) -> None:
    """Adds the arguments of the question."""
    parser.add_argument("files", metavar="FILE", nargs="+", help="a file of rules; or a world, of which the comments `# expect REPLY` "
                        "behind calls of its script are the rules")
    parser.add_argument("--world", metavar="WORLD", type=named, action="append", default=[],
                        help="ask the rules of files about this world, in place of those that the files name; may be repeated")
    parser.add_argument("--tap", action="store_true", help="write the answer as TAP")
    parser.add_argument("--junit", metavar="REPORT", type=named, help="write the answer as JUnit XML too, to this file")
    parser.add_argument("--scripts", metavar="DIR", type=named, help="write the script of each broken rule with its world to a file in "
                        "this directory")
    add_limit_arguments(parser)
    add_effort_arguments(parser)
    add_dask_argument(parser)


class BadInput(Exception):
    """A file of rules or a world is refused; the message says where."""


@dataclass
class Reading:
    """The worlds that were read, by the names of their files: each is read and judged once."""
    player: Player
    subjects: Dict[str, Subject] = field(default_factory=dict)

    def subject(self, file: str) -> Subject:
        """The world of a file."""
        if file not in self.subjects:
            self.subjects[file] = self.judged(file, read_file(file))
        return self.subjects[file]

    def judged(self, file: str, text: bytes) -> Subject:
        """The world of a text that `labsys` accepts."""
        try:
            self.player.check(text)
        except Refused as refused:
            raise BadInput("\n".join(check.explain(text, refused.refusal, file, self.player))) from refused
        return self.subjects.setdefault(file, Subject(file, read_world(text), self.player))

    def cases(self, file: str, worlds: Sequence[str]) -> List[Case]:
        """The rules of a file, each with the worlds that it is asked about."""
        text = read_file(file)
        if is_world(text):
            subject = self.judged(file, text)
            found = [Case(file, rule, subject) for rule in expectations(file, subject.world)]
        else:
            found = [case for group in read_groups(file, text) for case in self.cases_of(file, group, worlds)]
        if not found:
            raise WrongWords(f"{file} has no rule, and no comment # expect REPLY behind a call")
        return found

    def cases_of(self, file: str, group: Group, worlds: Sequence[str]) -> Iterator[Case]:
        """The rules of a group of a file."""
        named_worlds = list(worlds) or group.worlds
        if group.rules and not named_worlds:
            raise RuleFault(file, group.rules[0].line, "no world is named: by a line world FILE before it, or by --world",
                            group.rules[0].line.words[0])
        for world in named_worlds:
            yield from (Case(file, rule, self.subject(world)) for rule in group.rules)


def write_scripts(folder: str, cases: Sequence[Case]) -> None:
    """Writes the script of each broken rule with its world to a file that can be played."""
    os.makedirs(folder, exist_ok=True)
    for number, case in enumerate(cases, 1):
        if case.verdict.calls:
            file = "input" if case.file == "-" else pathlib.PurePath(case.file).name
            (pathlib.Path(folder) / f"{number}-{file}-{case.rule.line.number}.txt").write_bytes(case.verdict.world)


def write_answer(arguments: argparse.Namespace, cases: Sequence[Case]) -> None:
    """Writes the answer in the forms that are asked for."""
    if arguments.junit is not None:
        pathlib.Path(arguments.junit).write_bytes(junit(cases))
    if arguments.scripts is not None:
        write_scripts(arguments.scripts, cases)
    if arguments.json:
        write_json(as_json(cases))
    else:
        print("\n".join(tap(cases) if arguments.tap else report(cases)))


def require_other_files(arguments: argparse.Namespace, files: Sequence[str]) -> None:
    """Raises `WrongWords` where the report would be written over a file that is read."""
    report_path = arguments.junit
    if report_path is not None and any(os.path.exists(file) and os.path.exists(report_path) and os.path.samefile(file, report_path)
                                       for file in files if file != "-"):
        raise WrongWords(f"{report_path} is read, so no report is written there")


def answer(arguments: argparse.Namespace, player: Player) -> int:
    """Answers the question."""
    limits, effort, reading = limits_of(arguments), effort_of(arguments), Reading(player)
    try:
        cases = [case for file in arguments.files for case in reading.cases(file, arguments.world)]
        require_other_files(arguments, [*arguments.files, *reading.subjects])
        decide_all(cases, limits, effort)
    except (BadInput, RuleFault) as fault:
        print(fault, file=sys.stderr)
        return Status.REFUSED
    write_answer(arguments, cases)
    holding = {case.verdict.holding for case in cases}
    if Holding.BROKEN in holding:
        return Status.YES
    return Status.STOPPED if Holding.UNDECIDED in holding else Status.NO
