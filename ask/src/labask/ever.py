"""The question `who --ever`: who can come to read, write or execute an object by any calls, its own and those of others."""
import argparse
import dataclasses
import enum
from dataclasses import dataclass
from typing import Any, Dict, Iterator, List, NamedTuple, Optional, Sequence, Tuple

from labask.answers import Status, table, write_json
from labask.effort import Effort, effort_of
from labask.flow import LOOKED_FOR, Call, Flow, Found
from labask.kernel.calls import Call as KernelCall
from labask.kernel.state import first_state
from labask.playing import Played, Player
from labask.search.finding import Ending, Line
from labask.search.limits import Limits, limits_of
from labask.search.problem import Problem
from labask.search.side_by_side import results
from labask.sets import objects_named, processes_named
from labask.worlds import Kind, World, WorldObject, WorldProcess, path_word, read_file, read_world


class Right(enum.Enum):
    """What a process can come to do with an object."""
    READ = "read"
    WRITE = "write"
    EXECUTE = "execute"


OWN_CALLS = {Right.READ: ("open", "read"), Right.WRITE: ("open", "write"), Right.EXECUTE: ("exec",)}


class Asked(NamedTuple):
    """A right of a process to an object that is asked about."""
    path: bytes
    kind: Kind
    process: str
    right: Right


class Coming(Flow):
    """The search for calls by which a process comes to a right to an object."""

    def __init__(self, world: World, player: Player, asked: Asked, effort: Effort):
        reads = asked.right is Right.READ
        super().__init__(world, player, asked.path if reads else None, asked.process if reads else asked.path, (), effort)
        self.asked = asked
        self.script: Tuple[Line, ...] = ()
        if asked.right is Right.WRITE:
            self.mark = f"bytes of {asked.process}".encode("ascii")

    def problem(self) -> Problem:
        """What the search is asked."""
        if self.asked.right is Right.READ:
            return super().problem()
        state, process = first_state(self.world, self.labels), self.labels.number(self.asked.process)
        thing = self.labels.number(self.world.objects_by_path[self.asked.path].number)
        if self.asked.right is Right.EXECUTE:
            return Problem(state, process=process, program=thing)
        return Problem(state, thing=thing, names=tuple(self.asked.path.strip(b"/").split(b"/")), knows=process)

    def gives(self, lines: Sequence[str], played: Played) -> bool:
        """Whether the right was used; a program is executed by the last call."""
        return self.asked.right is Right.EXECUTE or super().gives(lines, played)

    def accepts(self, script: Tuple[Line, ...]) -> bool:
        """As that of the base class; the script is kept."""
        self.script = script
        return super().accepts(script)


@dataclass(frozen=True)
class Answer:
    """The answer for a right: the script if one was found, through whom it goes if not by the process itself, and how the search ended."""
    asked: Asked
    found: Optional[Found]
    through: Tuple[str, ...]
    programs: Tuple[bytes, ...]
    ending: Ending

    @property
    def extra(self) -> int:
        """How many calls the script has besides the process's own."""
        return len(self.found.calls) - len(OWN_CALLS[self.asked.right]) if self.found is not None else 0

    @property
    def text(self) -> str:
        """The answer as a cell of the table."""
        if self.found is None:
            return "not found" if self.ending is Ending.NEVER else f"not found, stopped at the {STOPPED[self.ending]}"
        if self.through:
            return f"through {' and '.join(self.through)}, {len(self.found.calls)} calls"
        by = f", by {' and '.join(map(path_word, self.programs))}" if self.programs else ""
        return f"after {self.extra} call{'s' if self.extra > 1 else ''}{by}" if self.extra else "directly"

    def as_json(self) -> Dict[str, Any]:
        """The answer as JSON has it."""
        return {"object": self.asked.path.decode("latin-1"), "process": self.asked.process, "right": self.asked.right.value,
                "answer": self.text, "found": self.found is not None, "ending": self.ending.value, "through": list(self.through),
                "calls": [dataclasses.asdict(call) for call in self.found.calls] if self.found else []}


STOPPED = {Ending.DEPTH: "depth", Ending.STATES: "states", Ending.TIME: "time", Ending.FOUND: "end"}


def own_use(coming: Coming) -> bool:
    """Whether the process itself uses the object, and does not get the bytes from another or hand them on."""
    search, who = coming.search, coming.labels.number(coming.asked.process)
    assert search is not None
    last = coming.script[-1]
    if last.who != who:
        return False
    if coming.asked.right is not Right.READ:
        return True
    node = search.first_node()
    for line in coming.script[:-1]:
        node = search.after(node, line) or node
    did = dict(node.state.processes[who].descriptors)[last.call.arguments[0]]
    return node.state.descriptions[did].thing == search.problem.source


def others_of(coming: Coming) -> Tuple[str, ...]:
    """The other processes through whom the bytes go: those that read or write them."""
    who = coming.labels.number(coming.asked.process)
    handed = (line.who for line in coming.script if line.call.name in ("read", "write", "rename", "link") and line.who != who)
    return tuple(dict.fromkeys(map(coming.labels.number_text, handed)))


def programs_of(coming: Coming) -> Tuple[bytes, ...]:
    """The paths of the programs that the process itself executes on the way."""
    who, lines = coming.labels.number(coming.asked.process), coming.script
    found = (line.call for line in (lines[:-1] if coming.asked.right is Right.EXECUTE else lines) if line.who == who)
    return tuple(dict.fromkeys(path_of(call) for call in found if call.name == "exec"))


def path_of(call: KernelCall) -> bytes:
    """The path that a call names."""
    path = call.arguments[0]
    return (b"/" if path.absolute else b"") + b"/".join(path.names)


def ask(world: World, player: Player, asked: Asked, limits: Limits, effort: Effort) -> Answer:
    """The answer for a right."""
    coming = Coming(world, player, asked, effort)
    found = coming.find(limits.depth, limits.states)
    through = others_of(coming) if found is not None and not own_use(coming) else ()
    return Answer(asked, found, through, programs_of(coming) if found is not None else (), coming.result.ending)


def rights_of(kind: Kind) -> Sequence[Right]:
    """The rights to an object that are asked about."""
    return (Right.READ, Right.WRITE, Right.EXECUTE) if kind is Kind.FILE else (Right.WRITE,)


def all_asked(objects: Sequence[WorldObject], processes: Sequence[WorldProcess]) -> Iterator[Asked]:
    """All rights that are asked about."""
    for target in objects:
        for process in processes:
            yield from (Asked(target.path, target.kind, process.tag, right) for right in rights_of(target.kind))


def rows_of(answers: Sequence[Answer]) -> Iterator[List[str]]:
    """The rows of the table: one for each object and process."""
    cells: Dict[Tuple[bytes, str], Dict[Right, str]] = {}
    for each in answers:
        cells.setdefault((each.asked.path, each.asked.process), {})[each.asked.right] = each.text
    yield ["OBJECT", "PROCESS", "READ", "WRITE", "EXECUTE"]
    for (path, process), found in cells.items():
        yield [path_word(path), process, *(found.get(right, "-") for right in Right)]


def call_lines(answer: Answer) -> List[str]:
    """The calls of an answer."""
    calls: Sequence[Call] = answer.found.calls if answer.found is not None else ()
    return table([[call.text, call.reply, call.means] for call in calls], "  ")


def report(answers: Sequence[Answer], asked: int, calls: bool) -> Iterator[str]:
    """The lines of the answer."""
    yield from table(rows_of(answers))
    for each in answers if calls else ():
        if each.found is not None:
            yield f"{each.asked.process} {each.asked.right.value} {path_word(each.asked.path)}: {each.text}"
            yield from call_lines(each)
    if len(answers) < asked:
        yield f"The table is not whole: it was stopped after {len(answers)} of {asked} answers."
    yield f"What was found was played by labsys. {NEVER_WORDS}"
    yield LOOKED_FOR


NEVER_WORDS = "Not found alone says that no script of any length does it, by the rules of labask's model of labsys."


def status_of(answers: Sequence[Answer], asked: int) -> Status:
    """The exit status."""
    if any(each.found is not None for each in answers):
        return Status.YES
    return Status.NO if len(answers) == asked and all(each.ending is Ending.NEVER for each in answers) else Status.STOPPED


def answer_ever(arguments: argparse.Namespace, player: Player) -> int:
    """Answers the question."""
    text = read_file(arguments.file)
    player.check(text)
    world, limits, effort = read_world(text), limits_of(arguments), effort_of(arguments)
    objects = [each for word in arguments.paths for each in objects_named(world, word)] if arguments.paths else list(world.objects)
    processes = [each for word in arguments.process for each in processes_named(world, word)] or list(world.processes)
    asked = list(all_asked([each for each in objects if each.kind is not Kind.DIRECTORY], processes))
    answers = [each for _, each in results(effort, lambda one: ask(world, player, one, limits, effort), asked)]
    if arguments.json:
        write_json({"played": True, "asked": len(asked), "answers": [each.as_json() for each in answers]})
    else:
        print("\n".join(report(answers, len(asked), arguments.calls)))
    return status_of(answers, len(asked))
