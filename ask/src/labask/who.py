"""The question `who`: which process may read, write, execute, list or search which object, and by which right.

Each cell is a call that was played at the start of the world, among calls that change nothing of what is asked next: what is opened
is closed, a directory that is made is removed, and a child executes and ends.
"""
import argparse
import enum
import functools
import importlib
import itertools
from collections import Counter
from dataclasses import dataclass, field
from typing import Any, Dict, Iterable, Iterator, List, NamedTuple, Optional, Sequence, Set, Tuple

from labask.answers import PLAYED, Status, show_table, write_json
from labask.effort import Effort, add_dask_argument, add_effort_arguments, effort_of
from labask.kernel_profile import MAX_DESCRIPTION_NUMBER, MAX_INPUT, MAX_LINE, MAX_PATH, MAX_PATH_NAMES, MAX_PROCESS_NUMBER
from labask.never_passed import never_lines, never_passed
from labask.playing import Outcome, Player, Played, read_reply
from labask.search.limits import add_limit_arguments
from labask.sets import objects_named, processes_named
from labask.worlds import Kind, World, WorldObject, WorldProcess, parent_path, path_word, read_file, read_world, split_words

PLAY_BYTES = 1_048_576  # of a script; there are several then for the processors
PROCESS, CHILD = "\0", "\1"  # stand for the tags of a process and its child in lines
LONGEST_NUMBER = str(MAX_PROCESS_NUMBER)
LEAST_CHILDREN = 16  # in a play; where fewer numbers are left of a label, nothing would come of many plays
SINGLE_CALLS = "Each is about a single call at the start, not about what a process can come to do; that is asked by who --ever."


class Right(enum.Enum):
    """What a process may do with an object."""
    READ = "read"
    WRITE = "write"
    EXECUTE = "execute"
    LIST = "list"
    SEARCH = "search"


class Access(enum.Enum):
    """How a right is answered."""
    RULES = "rules"
    CAPABILITY = "capability"
    DENIED = "denied"
    NOT_ASKED = "not asked"


RIGHTS = {
    Kind.DIRECTORY: (Right.LIST, Right.SEARCH, Right.WRITE),
    Kind.FILE: (Right.READ, Right.WRITE, Right.EXECUTE),
    Kind.FIFO: (Right.READ, Right.WRITE),
}


# refusals that come behind all checks of a right: the name is absent that is looked up, or no number is left for what is made
PASSED = {Right.SEARCH: b"ENOENT", Right.WRITE: b"ENOSPC"}


class Draws(NamedTuple):
    """How many numbers of the caller's label are drawn: of processes, and of descriptions."""
    processes: int = 0
    descriptions: int = 0

    def plus(self, other: "Draws") -> "Draws":
        """So many besides."""
        return Draws(self.processes + other.processes, self.descriptions + other.descriptions)


class Form(NamedTuple):
    """How a right to an object is asked for: lines for the tags of a process and its child, which of them answers, what is drawn."""
    right: Right
    lines: Tuple[str, ...]
    draws: Draws = Draws()
    answering: int = 0


class Answer(NamedTuple):
    """A right with its answer: the capabilities that were exercised, or the check that denies and the path of its object."""
    process: str
    path: bytes
    right: Right
    access: Access
    capabilities: Tuple[str, ...] = ()
    check: Optional[str] = None
    at: Optional[bytes] = None

    @property
    def text(self) -> str:
        """The answer as a cell of the table."""
        if self.access is Access.CAPABILITY:
            return f"by {','.join(self.capabilities)}"
        if self.access is Access.DENIED:
            return str(self.check) + ("" if self.at is None or self.at == self.path else f" at {path_word(self.at)}")
        return "yes" if self.access is Access.RULES else str(self.access.value)

    @property
    def allowed(self) -> bool:
        """Whether the process may."""
        return self.access in (Access.RULES, Access.CAPABILITY)

    def as_json(self) -> Dict[str, Any]:
        """The answer as JSON has it."""
        found: Dict[str, Any] = {"process": self.process, "object": self.path.decode("latin-1"), "right": self.right.value,
                                 "answer": self.access.value}
        if self.access is Access.CAPABILITY:
            found["capabilities"] = list(self.capabilities)
        if self.access is Access.DENIED:
            found.update(check=self.check, at=None if self.at is None else self.at.decode("latin-1"))
        return found


def add_arguments(parser: argparse.ArgumentParser) -> None:
    """Adds the arguments of the question."""
    parser.add_argument("file", metavar="FILE", help="the world; its script is not played")
    parser.add_argument("paths", metavar="PATH", nargs="*", help="the objects to ask about: a path, a pattern as '/wards/**', or "
                        "label:LABEL; all by default")
    parser.add_argument("--process", metavar="PROCESS", action="append", default=[],
                        help="the processes to ask about: n@label, or label:LABEL; all by default; may be given several times")
    parser.add_argument("--ever", action="store_true", help="ask what a process can come to do by any calls, not by a single one")
    parser.add_argument("--calls", action="store_true", help="with --ever, write the calls of each answer")
    add_limit_arguments(parser)
    add_effort_arguments(parser)
    add_dask_argument(parser)


@functools.lru_cache(maxsize=65_536)
def prefix_path(path: bytes, names: int) -> bytes:
    """The path of the first so many names of an absolute path."""
    return b"/" + b"/".join(path.strip(b"/").split(b"/")[:names]) if names else b"/"


def join_path(directory: bytes, name: str) -> bytes:
    """The path of a name in a directory."""
    return directory.rstrip(b"/") + b"/" + name.encode("ascii")


class Namer:
    """Gives names that a directory of the world does not have."""

    def __init__(self, world: World):
        self.taken: Dict[bytes, Set[bytes]] = {}
        for each in world.objects:
            self.taken.setdefault(parent_path(each.path), set()).add(each.path.rpartition(b"/")[2])

    def name(self, directory: bytes) -> str:
        """A name that is not in the directory."""
        taken, number = self.taken.get(directory, set()), 0
        while b"new%d" % number in taken:
            number += 1
        return f"new{number}"


def forms_of(target: WorldObject, namer: Namer) -> Iterator[Form]:
    """How the rights to an object are asked for."""
    path = path_word(target.path)
    if target.kind is Kind.DIRECTORY:
        inside = path_word(join_path(target.path, namer.name(target.path)))
        yield Form(Right.LIST, (f"{PROCESS} readdir {path}",))
        yield Form(Right.SEARCH, (f"{PROCESS} stat {inside}",))
        yield Form(Right.WRITE, (f"{PROCESS} mkdir {inside} 0700", f"{PROCESS} rmdir {inside}"))
        return
    for right, flags in ((Right.READ, "r"), (Right.WRITE, "w")):
        yield Form(right, (f"{PROCESS} open {path} {flags}", f"{PROCESS} close 0"), Draws(descriptions=1))
    if target.kind is Kind.FILE:
        yield Form(Right.EXECUTE, (f"{PROCESS} fork", f"{CHILD} exec {path}", f"{CHILD} exit 0"), Draws(processes=1), 1)


def can_be_asked(form: Form, target: WorldObject, longest_tag: int) -> bool:
    """Whether the lines of a form are short enough, and their paths have few enough names."""
    inside = target.kind is Kind.DIRECTORY and form.right is not Right.LIST
    names, size = target.path.count(b"/") + inside, len(target.path) + 8 * inside
    return names <= MAX_PATH_NAMES and size <= MAX_PATH and max(map(len, form.lines)) + longest_tag <= MAX_LINE


@dataclass(frozen=True)
class Asking:
    """How an object is asked about: the lines, the places of those that answer, None for a right that can't be asked for, and how many
    numbers are drawn.
    """
    target: WorldObject
    text: str
    lines: int
    places: Tuple[Tuple[Right, Optional[int]], ...]
    draws: Draws

    def size(self, tag: str) -> int:
        """How many bytes the lines have at most for the process of a tag."""
        return len(self.text) + self.lines * (len(tag) + len(LONGEST_NUMBER))

    def not_played(self) -> "Asking":
        """The same where none of it can be played."""
        return Asking(self.target, "", 0, tuple((right, None) for right, _ in self.places), Draws())


def asking_of(target: WorldObject, namer: Namer, longest_tag: int, forks: bool) -> Asking:
    """How an object is asked about by processes whose tags are at most so long, and which have children or have none."""
    lines: List[str] = []
    places: List[Tuple[Right, Optional[int]]] = []
    draws = Draws()
    for form in forms_of(target, namer):
        if not can_be_asked(form, target, longest_tag) or (form.draws.processes and not forks):
            places.append((form.right, None))
            continue
        places.append((form.right, len(lines) + form.answering))
        lines += form.lines
        draws = draws.plus(form.draws)
    return Asking(target, "\n".join(lines), len(lines), tuple(places), draws)


class Drawn:
    """How many numbers of each label are drawn so far in a play."""

    def __init__(self, world: World):
        self.at_start = {label: Draws(count) for label, count in Counter(each.label for each in world.processes).items()}
        self.now = dict(self.at_start)

    def start_again(self) -> None:
        """Has only those drawn that are drawn at the start of the world."""
        self.now = dict(self.at_start)

    def forks(self, label: str) -> bool:
        """Whether enough numbers are left at the start that children are made."""
        return self.at_start[label].processes + LEAST_CHILDREN <= MAX_PROCESS_NUMBER

    def has_room(self, label: str, draws: Draws) -> bool:
        """Whether there are so many numbers of a label."""
        after = self.now[label].plus(draws)
        return after.descriptions <= MAX_DESCRIPTION_NUMBER and (after.processes <= MAX_PROCESS_NUMBER or not draws.processes)

    def draw(self, label: str, draws: Draws) -> None:
        """Draws so many numbers of a label."""
        self.now[label] = self.now[label].plus(draws)


@dataclass
class Batch:
    """What is asked in one play: processes with what each is asked, and the lines of the script."""
    asked: List[Tuple[str, Asking]] = field(default_factory=list)
    texts: List[str] = field(default_factory=list)
    size: int = 0

    def add(self, process: WorldProcess, asking: Asking, drawn: Drawn) -> None:
        """Adds what a process is asked about an object."""
        drawn.draw(process.label, asking.draws)
        self.asked.append((process.tag, asking))
        if asking.lines:
            child = f"{drawn.now[process.label].processes}@{process.label}"
            text = asking.text.replace(PROCESS, process.tag).replace(CHILD, child)
            self.texts.append(text)
            self.size += len(text) + 1


def batches_of(world: World, processes: Sequence[WorldProcess], objects: Sequence[WorldObject]) -> Iterator[Batch]:
    """What is asked, in plays that keep to the limits of an input and of the numbers of a label."""
    drawn, room, batch = Drawn(world), min(PLAY_BYTES, MAX_INPUT - len(world.head())), Batch()
    for process, asking in askings_of(world, processes, objects, drawn):
        asking = asking if asking.size(process.tag) <= room else asking.not_played()
        if batch.texts and not (drawn.has_room(process.label, asking.draws) and batch.size + asking.size(process.tag) <= room):
            yield batch
            batch = Batch()
            drawn.start_again()
        batch.add(process, asking, drawn)
    yield batch


def askings_of(world: World, processes: Sequence[WorldProcess], objects: Sequence[WorldObject],
               drawn: Drawn) -> Iterator[Tuple[WorldProcess, Asking]]:
    """Each process with how it is asked about each object."""
    namer, longest = Namer(world), max((len(each.tag) for each in processes), default=0) + len(LONGEST_NUMBER)
    asking = [(process, drawn.forks(process.label)) for process in processes]
    for target in objects:
        made = {forks: asking_of(target, namer, longest, forks) for forks in (False, True)}
        yield from ((process, made[forks]) for process, forks in asking)


def exercises_of(played: Played, player: Player) -> Dict[int, List[str]]:
    """The capabilities that each call exercised, in order, by the numbers of the calls."""
    used: Dict[int, List[str]] = {}
    for record in player.select("event=exercise", played.trail):
        names = used.setdefault(record["call"], [])
        if record["cap"] not in names:
            names.append(record["cap"])
    return used


class Meaning(NamedTuple):
    """What a reply says of a right; a denial is on the way to the object, behind so many names of its path."""
    access: Access
    capabilities: Tuple[str, ...] = ()
    check: Optional[str] = None
    names: Optional[int] = None


def meaning_of(rest: bytes, used: Sequence[str]) -> Meaning:
    """What a reply says of a right: the words behind its tag and call, and the capabilities that the call exercised."""
    reply = read_reply(0, split_words(b"1@x call " + rest)[0])
    if reply.outcome is Outcome.DONE:
        return Meaning(Access.CAPABILITY if used else Access.RULES, tuple(used))
    if reply.outcome is Outcome.DENIED and reply.place is not None:
        return Meaning(Access.DENIED, (), reply.check, int(reply.place[1:]))
    return Meaning(Access.DENIED, (), reply.error)


class Reader:
    """Reads the answers of a play of a batch; replies that are the same are read once."""

    def __init__(self, played: Played, player: Player):
        self.replies, self.used = played.out.split(b"\n"), exercises_of(played, player)
        self.known: Dict[Tuple[bytes, Tuple[str, ...]], Meaning] = {}

    def meaning(self, right: Right, place: int) -> Meaning:
        """What the reply at a place says of a right."""
        rest, used = self.replies[place].split(b" ", 2)[2], tuple(self.used.get(place + 1, ()))
        if rest.startswith(b"ok") or rest == PASSED.get(right):
            rest = b"ok"
        found = self.known.get((rest, used))
        if found is None:
            found = self.known[rest, used] = meaning_of(rest, used)
        return found

    def answers(self, tag: str, asking: Asking, first: int) -> Iterator[Answer]:
        """The answers of a process about an object, whose lines begin at a place."""
        path = asking.target.path
        for right, place in asking.places:
            if place is None:
                yield Answer(tag, path, right, Access.NOT_ASKED)
                continue
            access, capabilities, check, names = self.meaning(right, first + place)
            yield Answer(tag, path, right, access, capabilities, check, None if names is None else prefix_path(path, names))


def played_answers(world: World, batch: Batch, player: Player) -> List[Answer]:
    """The answers of a batch, by one play."""
    reader, first = Reader(player.play_accepted(world.with_script(batch.texts)), player), 0
    found: List[Answer] = []
    for tag, asking in batch.asked:
        found += reader.answers(tag, asking, first)
        first += asking.lines
    return found


def chosen(world: World, paths: Sequence[str], tags: Sequence[str]) -> Tuple[List[WorldProcess], List[WorldObject]]:
    """The processes and objects that are asked about, each once."""
    processes = {each.tag: each for tag in tags for each in processes_named(world, tag)}
    objects = {each.path: each for path in paths for each in objects_named(world, path)}
    return list(processes.values()) if tags else list(world.processes), list(objects.values()) if paths else list(world.objects)


def count_rights(processes: Sequence[WorldProcess], objects: Sequence[WorldObject]) -> int:
    """How many rights of processes to objects there are to ask for."""
    return len(processes) * sum(len(RIGHTS[each.kind]) for each in objects)


def ask(world: World, processes: Sequence[WorldProcess], objects: Sequence[WorldObject], player: Player,
        effort: Optional[Effort] = None) -> Iterator[Answer]:
    """The answers for all rights of the processes to the objects, by object, process and right; fewer where the effort is over."""
    effort, count, total = effort or Effort(), 0, count_rights(processes, objects)
    for answers in effort.results(lambda batch: played_answers(world, batch, player), batches_of(world, processes, objects)):
        count += len(answers)
        effort.progress(f"who: {count:,} of {total:,} answers")
        yield from answers
    effort.clear()


def rows_of(answers: Iterable[Answer]) -> Iterator[List[str]]:
    """The rows of the table: an object and a process, with a cell for each right."""
    columns = {right: column for column, right in enumerate(Right, 2)}
    yield ["OBJECT", "PROCESS", *(right.name for right in Right)]
    for (path, process), cells in itertools.groupby(answers, lambda each: (each.path, each.process)):
        row = [path_word(path), process] + ["-"] * len(columns)
        for cell in cells:
            row[columns[cell.right]] = cell.text
        yield row


def style_of(cell: str) -> str:
    """The style of a cell on a terminal: what may be done stands out, and what a capability is needed for."""
    return {"yes": "green", "by": "yellow", "-": "dim"}.get(cell.partition(" ")[0], "")


def status_of(answers: Sequence[Answer], whole: bool) -> Status:
    """Yes where some process may do what was asked about; no where none may, and all was asked."""
    if any(each.allowed for each in answers):
        return Status.YES
    return Status.NO if whole and all(each.access is not Access.NOT_ASKED for each in answers) else Status.STOPPED


def answer(arguments: argparse.Namespace, player: Player) -> int:
    """Answers the question."""
    if arguments.ever:
        return int(importlib.import_module("labask.ever").answer_ever(arguments, player))
    effort, text = effort_of(arguments), read_file(arguments.file)
    player.check(text)
    world = read_world(text)
    processes, objects = chosen(world, arguments.paths, arguments.process)
    answers = list(ask(world, processes, objects, player, effort))
    never = never_passed(player, text, {each.check for each in answers if each.check is not None})
    if arguments.json:
        write_json({"played": True, "whole": not effort.stopped, "answers": [each.as_json() for each in answers], "never": never})
    else:
        show_table(rows_of(answers), style_of)
        if effort.stopped:
            print(f"The table is not whole: it was stopped after {len(answers):,} of {count_rights(processes, objects):,} answers.")
        print("\n".join([*never_lines(never), f"{PLAYED} {SINGLE_CALLS}"]))
    return status_of(answers, not effort.stopped)
