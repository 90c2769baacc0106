"""The question `lint`: what of a world is accepted but seems not to be meant."""
import argparse
import enum
from collections import defaultdict
from typing import Any, DefaultDict, Dict, FrozenSet, Iterator, List, NamedTuple, Sequence, Set

from labask.answers import Status, write_json
from labask.capability_texts import read_sets
from labask.effort import Effort, add_dask_argument, add_effort_arguments, effort_of
from labask.kernel.state import names_of, read_bound
from labask.kernel_profile import CAPABILITIES
from labask.playing import Player
from labask.proved import proved
from labask.who import Access, Answer, Right, ask
from labask.worlds import World, WorldObject, path_word, read_file, read_world

SET_USER_ID = 0o4000
SAID = "Objects and programs were asked about by single calls at the start, which labsys played; what nobody can have is proved."


class Kind(enum.Enum):
    """What seems not to be meant."""
    BOUND = "bound"
    UNREACHED = "unreached"
    SET_USER_ID = "set-user-id"
    GROUP = "group"
    CAPABILITY = "capability"
    NAME = "name"


class Note(NamedTuple):
    """What a line of the world says and seems not to mean."""
    line: int
    kind: Kind
    message: str


def add_arguments(parser: argparse.ArgumentParser) -> None:
    """Adds the arguments of the question."""
    parser.add_argument("file", metavar="FILE", help="the world; its script is not played")
    add_effort_arguments(parser)
    add_dask_argument(parser)


def listed(names: FrozenSet[str]) -> str:
    """Capabilities in their order."""
    return ",".join(name for name in CAPABILITIES if name in names)


def cut_off(world: World) -> Iterator[Note]:
    """Files whose permitted sets have what the bound takes away."""
    bound = frozenset(names_of(read_bound(world.bound)))
    for each in world.objects:
        lost = read_sets(each.caps or "=").permitted - bound
        if lost:
            yield Note(each.line, Kind.BOUND, f"{path_word(each.path)} permits {listed(lost)}, which the bound cuts off")


def named_capabilities(world: World) -> Dict[int, FrozenSet[str]]:
    """The capabilities that lines of objects and processes name, by the numbers of the lines."""
    found: Dict[int, FrozenSet[str]] = {}
    for line, caps in [(each.line, each.caps) for each in world.objects] + [(each.line, each.caps) for each in world.processes]:
        sets = read_sets(caps or "=")
        found[line] = sets.effective | sets.inheritable | sets.permitted
    return found


def never_had(world: World, player: Player) -> Iterator[Note]:
    """Capabilities of files and processes that no process can ever have."""
    never = proved(player, world.text).never
    for line, names in named_capabilities(world).items():
        if names & never:
            yield Note(line, Kind.CAPABILITY, f"nobody can ever have {listed(names & never)}")


def unreached(objects: Sequence[WorldObject], answers: Dict[bytes, List[Answer]]) -> Iterator[Note]:
    """Objects with which no process may do anything."""
    for each in objects:
        cells = answers.get(each.path, [])
        if cells and all(cell.access is Access.DENIED for cell in cells):
            yield Note(each.line, Kind.UNREACHED, f"no process may do anything with {path_word(each.path)}")


def for_all(objects: Sequence[WorldObject], answers: Dict[bytes, List[Answer]]) -> Iterator[Note]:
    """Set-user-ID programs that every process may execute."""
    for each in objects:
        cells = [cell for cell in answers.get(each.path, []) if cell.right is Right.EXECUTE]
        if each.mode & SET_USER_ID and cells and all(cell.allowed for cell in cells):
            yield Note(each.line, Kind.SET_USER_ID, f"every process may execute {path_word(each.path)}, and becomes user {each.owner} by it")


def two_meanings(world: World) -> Iterator[Note]:
    """Groups that are the own group of a user, of the same number, and have another user as a member."""
    own = {each.user for each in world.processes if each.user == each.group}
    for each in world.processes:
        for group in sorted({each.group, *each.groups}):
            if group in own and group != each.user:
                yield Note(each.line, Kind.GROUP, f"user {each.user} is in group {group}, which is the own group of user {group} too")


def repeated_names(world: World) -> Iterator[Note]:
    """Processes whose names an earlier one has."""
    found: Set[str] = set()
    for name, each in world.process_names:
        if name in found:
            yield Note(each.line, Kind.NAME, f"a process before it has the name {name} too, and alone is named by it")
        found.add(name)


def notes_on(world: World, player: Player, effort: Effort) -> List[Note]:
    """All notes, by their lines; those that were found by then where the effort is over."""
    answers: DefaultDict[bytes, List[Answer]] = defaultdict(list)
    for each in ask(world, world.processes, world.objects, player, effort):
        answers[each.path].append(each)
    if effort.stopped:
        answers.clear()
    found = [*cut_off(world), *never_had(world, player), *unreached(world.objects, answers), *for_all(world.objects, answers),
             *two_meanings(world), *repeated_names(world)]
    return sorted(found, key=lambda note: note.line)


def as_json(note: Note) -> Dict[str, Any]:
    """A note as JSON has it."""
    return {"line": note.line, "kind": note.kind.value, "message": note.message}


def answer(arguments: argparse.Namespace, player: Player) -> int:
    """Answers the question."""
    effort, text = effort_of(arguments), read_file(arguments.file)
    player.check(text)
    notes = notes_on(read_world(text), player, effort)
    if arguments.json:
        write_json({"played": True, "whole": not effort.stopped, "notes": [as_json(each) for each in notes]})
    else:
        print("".join(f"{arguments.file}:{each.line}: {each.kind.value}: {each.message}\n" for each in notes), end="")
        print(f"{len(notes)} {'note' if len(notes) == 1 else 'notes'}. {SAID}")
        if effort.stopped:
            print("It was stopped early: objects and programs were not all asked about.")
    if notes:
        return Status.YES
    return Status.STOPPED if effort.stopped else Status.NO
