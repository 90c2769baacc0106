"""The question `never`: what no script can do in a world, who is trusted not to cross labels, and who may execute such a program."""
import argparse
from dataclasses import dataclass
from typing import Any, Dict, FrozenSet, Iterator, List, Sequence, Tuple

from labask.answers import Status, show_table, write_json
from labask.effort import Effort, add_dask_argument, add_effort_arguments, effort_of
from labask.exec_formula import in_order
from labask.kernel_profile import CAPABILITIES
from labask.playing import Player
from labask.proved import Proved, proved
from labask.who import Answer, Right, ask
from labask.worlds import World, WorldObject, path_word, read_file, read_world

NOT_EVER = "What such a label and those below it see is the same whatever else is in the world."
WHO_MAY = "Who may execute a program was played by labsys, by a single call at the start; other calls may change it."


def add_arguments(parser: argparse.ArgumentParser) -> None:
    """Adds the arguments of the question."""
    parser.add_argument("file", metavar="FILE", help="the world; its script is not played")
    add_effort_arguments(parser)
    add_dask_argument(parser)


@dataclass(frozen=True)
class Trusted:
    """A process that has some of the capabilities over labels, or a program that may give some; and the processes that may execute it,
    each with what it says of the right."""
    name: str
    label: str
    capabilities: FrozenSet[str]
    executing: Tuple[Answer, ...] = ()
    program: bool = False

    @property
    def shown_name(self) -> str:
        """The tag of the process, or the path of the program as a word."""
        return path_word(self.name.encode("latin-1")) if self.program else self.name

    @property
    def what(self) -> str:
        """Which capabilities are held or given, in words."""
        return f"{'gives' if self.program else 'holds'} {','.join(in_order(self.capabilities))}"

    @property
    def may_execute(self) -> str:
        """Which processes may execute the program at the start, in words."""
        if not self.program:
            return "-"
        return ", ".join(each.process + ("" if each.text == "yes" else f" {each.text}") for each in self.executing) or "none at the start"

    def row(self) -> List[str]:
        """The row of the table."""
        return [self.shown_name, self.label, self.what, self.may_execute]

    def as_json(self) -> Dict[str, Any]:
        """The row as JSON has it."""
        kind = "program" if self.program else "process"
        found: Dict[str, Any] = {kind: self.name, "label": self.label, "capabilities": in_order(self.capabilities)}
        return {**found, "executing": [each.as_json() for each in self.executing]} if self.program else found


def programs_of(world: World, found: Proved) -> Dict[str, WorldObject]:
    """The programs that may give some of the capabilities over labels, by their paths."""
    return {path: world.objects_by_path[path.encode("latin-1")] for path, _ in found.gives}


def trusted_programs(world: World, found: Proved, player: Player, effort: Effort, asked: bool) -> Iterator[Trusted]:
    """These programs, each with the processes that may execute it at the start, where that is asked."""
    programs = programs_of(world, found)
    answers = ask(world, world.processes, list(programs.values()), player, effort) if asked and programs else iter(())
    rights = [each for each in answers if each.right is Right.EXECUTE and each.allowed]
    for path, names in found.gives:
        executing = tuple(each for each in rights if each.path == programs[path].path)
        yield Trusted(path, programs[path].label, names, executing, True)


def trusted_of(world: World, found: Proved, player: Player, effort: Effort, asked: bool = True) -> List[Trusted]:
    """The processes and programs that are trusted not to cross labels; `asked` says whether to ask who may execute the programs."""
    processes = [Trusted(tag, world.processes_by_tag[tag].label, names) for tag, names in found.holds]
    return [*processes, *trusted_programs(world, found, player, effort, asked)]


def capability_text(found: Proved) -> str:
    """Which capabilities a script may exercise, in words."""
    had = in_order(frozenset(CAPABILITIES) - found.never)
    if not had:
        return "No script exercises any capability."
    if not found.never:
        return "A script may exercise each of the capabilities."
    return f"No script exercises a capability but for {', '.join(had)}."


def label_lines(found: Proved) -> Iterator[str]:
    """Which labels nothing crosses, in words."""
    if found.confined:
        yield "No process ever has one of the five capabilities over labels, so nothing crosses any label, whatever the script."
    elif found.uncrossed:
        yield f"Nothing crosses these labels, whatever the script: {'; '.join(found.uncrossed)}."
    if found.confined or found.uncrossed:
        yield NOT_EVER
    if found.open:
        yield f"A script may cross these labels, since this is not ruled out: {'; '.join(found.open)}."


def report(found: Proved, trusted: Sequence[Trusted], whole: bool) -> None:
    """Writes the answer."""
    print("\n".join([capability_text(found), *label_lines(found)]))
    if trusted:
        print("These have or may give a capability over labels:")
        show_table([["TRUSTED", "LABEL", "FOR", "MAY EXECUTE IT"], *(each.row() for each in trusted)])
    print("What no script does is proved, and was said by `labsys never`." + (f" {WHO_MAY}" if found.gives else ""))
    if not whole:
        print("It was stopped early; not all were asked who may execute a program.")


def as_json(found: Proved, trusted: Sequence[Trusted], whole: bool) -> Dict[str, Any]:
    """The answer as JSON has it."""
    return {"played": True, "proved": True, "whole": whole, "never": in_order(found.never), "confined": found.confined,
            "uncrossed": list(found.uncrossed), "open": list(found.open),
            "processes": [each.as_json() for each in trusted if not each.program],
            "programs": [each.as_json() for each in trusted if each.program]}


def answer(arguments: argparse.Namespace, player: Player) -> int:
    """Answers the question."""
    effort, text = effort_of(arguments), read_file(arguments.file)
    found, world = proved(player, text), read_world(text)
    trusted = trusted_of(world, found, player, effort)
    if arguments.json:
        write_json(as_json(found, trusted, not effort.stopped))
    else:
        report(found, trusted, not effort.stopped)
    return Status.YES if found.open else Status.NO
