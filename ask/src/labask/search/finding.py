"""Looks for a shortest script in the states of the model."""
import enum
import functools
from dataclasses import dataclass
from typing import Any, Callable, Dict, FrozenSet, Iterator, List, NamedTuple, Optional, Sequence, Set, Tuple

from labask.kernel import rules
from labask.kernel.calls import MOST_FILE_BYTES, Call, Path, play
from labask.kernel.state import Kind, Number, Process, State, Thing
from labask.search.closure import Closure, most_of
from labask.search.costs import Task
from labask.search.facts import (ACTS, AS, AT, CWD, ENTRY, FREE, GOAL, HEARD, HOLDS, MANY, ON_PATH, OPENED, TAINT, TRUE, UMASK, Fact, Step,
                                 credentials_of, one)
from labask.search.problem import MARK, MOST_ALIKE, Cast, Grain, Made, Problem
from labask.search.slicing import kept_steps, sliced
from labask.search.wanted import Wanted

STEPS_FOR_A_STATE = 50  # as many steps may be collected for each state that may be looked at
# The calls from which on it is asked first whether a script of any length is there, and how finely; shorter scripts are found sooner.
PROVED_FROM = {4: Grain.CLASSES, 6: Grain.COARSE, 7: Grain.FINE}
FEWER = 0.7  # classes are asked about where there are fewer than this part of what is told apart coarsely


class Ending(enum.Enum):
    """How a search ended."""
    FOUND = "found"
    NEVER = "never"    # no script of any length leads there
    DEPTH = "depth"    # none of so many calls does
    STATES = "states"  # so many states were seen
    TIME = "time"      # the time was over


class Line(NamedTuple):
    """A line of a script: who makes which call."""
    who: Number
    call: Call


@dataclass(frozen=True)
class Node:
    """A state of the search: that of the kernel, which processes have read the bytes, and what is known of what was made."""
    state: State
    holds: FrozenSet[Number]
    families: Dict[Number, int]
    items: Dict[Number, int]
    ran: bool = False


@dataclass
class Result:
    """How a search ended: the script, if one was found; up to how many calls no script does it; and how many states were seen."""
    ending: Ending
    script: Tuple[Line, ...] = ()
    excluded: int = 0
    seen: int = 0


class StopSearch(Exception):
    """The search stops early."""

    def __init__(self, ending: Ending):
        super().__init__(ending.value)
        self.ending = ending


class Search:
    """A search. `accepts` says of a script that leads to the goal whether it is the one; `over` whether the time is over."""

    def __init__(self, problem: Problem, accepts: Callable[[Tuple[Line, ...]], bool], over: Callable[[], bool], most_states: int):
        self.whole = self.problem = problem
        self.accepts, self.over, self.most = accepts, over, most_states
        self.closure = Closure(problem)
        self.cast = self.closure.cast
        self.collected = True
        self.excluded = 0
        self.numbers: Dict[Any, int] = {}
        self.seen = 0
        self.bound = 0
        self.kept: List[Tuple[int, Step]] = []
        self.tasks: Dict[int, Task] = {}
        self.forks: List[Step] = []
        self.failed: Dict[Any, int] = {}

    @functools.cached_property
    def grains(self) -> List[Grain]:
        """The grains in which steps are looked for."""
        return grains_of(self.whole)

    def find(self, depth: int, excluded: int = 0) -> Result:
        """Looks for a script of at most so many calls, where none of so many as are excluded is known to do it."""
        self.excluded = excluded
        for bound in range(excluded + 1, depth + 1):
            if bound in PROVED_FROM and self.is_never(PROVED_FROM[bound]):
                return Result(Ending.NEVER)
            if self.over():
                return self.result(Ending.TIME)
            try:
                script = self.look_within(bound)
            except StopSearch as stop:
                return self.result(stop.ending)
            if script is not None:
                return self.result(Ending.FOUND, script)
            if self.collected:
                self.excluded = bound
        if any(self.is_never(grain) for bound, grain in PROVED_FROM.items() if bound > depth):
            return Result(Ending.NEVER)
        return self.result(Ending.DEPTH)

    def is_never(self, grain: Grain) -> bool:
        """Whether no script of any length leads to the goal; a coarser closure is collected sooner, and shows it less often."""
        if grain not in (*self.grains, Grain.FINE):
            return False
        merged = Closure(self.whole, grain=grain).begin().collect(self.over)
        return merged.whole and GOAL not in merged.facts

    def result(self, ending: Ending, script: Tuple[Line, ...] = ()) -> Result:
        """How the search ended. Where a closure was cut at its limit, no script of so many calls is excluded, nor a longer one."""
        if not self.collected and ending is Ending.DEPTH:
            ending = Ending.STATES
        return Result(ending, script, self.excluded, self.seen)

    def look_within(self, bound: int) -> Optional[Tuple[Line, ...]]:
        """A script of so many calls."""
        self.bound, self.failed, self.tasks = bound, {}, {}
        self.problem, wanted = self.whole, None
        for grain in self.grains:
            rough = self.collect(bound, grain, wanted)
            steps = [step for _, step in kept_steps(rough.steps.values(), rough.first, bound)]
            if not steps:
                return None
            wanted = Wanted(self.cast, steps)
            self.problem = sliced(self.problem, self.cast, steps, wanted.choices())
        closure = self.collect(bound, Grain.FINE, wanted)
        self.kept = kept_steps(closure.steps.values(), self.facts(self.first_node()), bound)
        families = {step.family for _, step in self.kept if step.cost}
        self.forks = [step for step in closure.steps.values() if step.words == ("fork",) and step.family in families]
        return self.look(self.first_node(), bound, ()) if self.kept else None

    def collect(self, bound: int, grain: Grain, wanted: Optional[Wanted]) -> Closure:
        """The closure of scripts of so many calls, of those that are wanted."""
        self.closure = Closure(self.problem, bound, grain, wanted).begin()
        self.cast, self.numbers = self.closure.cast, {}
        for _ in range(bound):
            if not self.closure.advance(self.over):
                raise StopSearch(Ending.TIME)
            if len(self.closure.steps) > STEPS_FOR_A_STATE * self.most:
                raise StopSearch(Ending.STATES)
        self.closure.derive()
        self.collected = self.collected and self.closure.whole
        return self.closure

    def task_of(self, left: int) -> Task:
        """The steps of which so many calls, with those that follow them at least, can be the rest of a script."""
        if left not in self.tasks:
            self.tasks[left] = Task([step for due, step in self.kept if due <= left])
        return self.tasks[left]

    # ---- states

    def first_node(self) -> Node:
        """The first state."""
        holds = frozenset((self.problem.knows,)) if self.problem.knows is not None else frozenset()
        return Node(self.problem.state, holds, dict(self.cast.family_of), dict(self.cast.item_of))

    def facts(self, node: Node) -> Iterator[Fact]:
        """The facts of a state."""
        yield TRUE
        if self.problem.thing is not None:
            yield (ON_PATH, 0, node.items[node.state.root])
        yield from self.process_facts(node)
        for number, thing in node.state.things.items():
            item = node.items[number]
            yield from self.closure.thing_facts(item, thing)
            for directory, _ in node.state.spots.get(number, ()):
                yield (ENTRY, node.items[directory], item)
            if MARK in thing.content:
                yield (TAINT, item)
        yield from self.name_facts(node)

    def process_facts(self, node: Node) -> Iterator[Fact]:
        """The facts of the processes of a state."""
        members: Dict[int, int] = {}
        for number, process in node.state.processes.items():
            family = node.families[number]
            members[family] = members.get(family, 0) + 1
            own = self.credentials(process)
            yield (AS, family, self.closure.view_of[own])
            yield (ACTS, family, own)
            if number in node.holds:
                yield (HOLDS, family, own)
            yield (CWD, family, node.items[process.cwd])
            if process.umask == 0:
                yield (UMASK, family)
            for _, did in process.descriptors:
                description = node.state.descriptions[did]
                item = node.items[description.thing]
                if description.reads:
                    yield from ((OPENED, family, item, "r"), (HEARD, item))
                if description.writes:
                    yield (OPENED, family, item, "w")
        yield from ((MANY, family) for family, count in members.items() if count > 1)

    def credentials(self, process: Process) -> int:
        """The number of the credentials of a process."""
        key = (process.label, process.ids, process.caps)
        if key not in self.numbers:
            self.numbers[key] = self.closure.number(credentials_of(process))
        return self.numbers[key]

    def name_facts(self, node: Node) -> Iterator[Fact]:
        """The facts of the names of the path TO."""
        for number, names in ((number, self.closure.names.get(item)) for number, item in node.items.items()):
            for name in names or ():
                found = node.state.names.get(number, {}).get(name)
                yield (FREE, node.items[number], name) if found is None else (AT, node.items[number], name, node.items[found])

    def reaches(self, node: Node) -> bool:
        """Whether the bytes are where they should get."""
        if self.problem.program is not None:
            return node.ran
        if self.problem.process is not None:
            return self.problem.process in node.holds
        assert self.problem.thing is not None
        things = node.state.things
        if MARK in things[self.problem.thing].content and node.state.spots.get(self.problem.thing):
            return True
        here: Optional[Number] = node.state.root
        for name in self.problem.names:
            here = node.state.names.get(here, {}).get(name) if here is not None else None
        return here is not None and MARK in things[here].content

    def key(self, node: Node) -> Any:
        """What two states are equal in that lead to the same; processes of one family may stand for each other."""
        state, first = node.state, self.problem.state
        processes = sorted(map(hash, (self.local(node, number) for number in state.processes)))
        things = tuple((number, thing._replace(content=MARK if MARK in thing.content else b""), len(state.spots.get(number, ())))
                       for number, thing in state.things.items() if first.things.get(number) is not thing)
        names = tuple((directory, tuple(sorted(names.items()))) for directory, names in state.names.items()
                      if first.names.get(directory) is not names)
        return tuple(processes), frozenset(things), frozenset(names)

    def local(self, node: Node, number: Number) -> Any:
        """What a process is equal to others in."""
        process, state = node.state.processes[number], node.state
        opened = tuple(sorted((one.thing, one.reads, one.writes, one.offset)
                              for one in (state.descriptions[did] for _, did in process.descriptors)))
        return (node.families[number], number == self.problem.process, self.credentials(process), process.cwd, process.umask, opened,
                number in node.holds)

    # ---- looking

    def replay(self, script: Sequence[Line]) -> Optional[Node]:
        """The state after a script that reaches the goal; None where it does not."""
        node: Optional[Node] = self.first_node()
        for line in script:
            node = self.after(node, line) if node is not None else None
        return node if node is not None and self.reaches(node) else None

    def look(self, node: Node, left: int, script: Tuple[Line, ...]) -> Optional[Tuple[Line, ...]]:
        """A script that goes on from a state with at most so many calls."""
        if self.reaches(node):
            return script if self.accepts(script) else None
        key = self.key(node)
        if self.failed.get(key, -1) >= left:
            return None
        steps = self.promising(node, left)
        for step in steps:
            for line in Instances(self, node, step).lines():
                after = self.after(node, line)
                found = self.look(after, left - 1, (*script, line)) if after is not None else None
                if found is not None:
                    return found
        self.failed[key] = left
        return None

    def promising(self, node: Node, left: int) -> List[Step]:
        """The calls that can be made in a state and may lead to the goal with so many calls, the best first."""
        self.seen += 1
        if self.seen > self.most:
            raise StopSearch(Ending.STATES)
        if self.over():
            raise StopSearch(Ending.TIME)
        task = self.task_of(left)
        first = list(dict.fromkeys(task.known(self.facts(node))))
        reached = task.reach(first, task.costs)
        bound = task.bound(first, reached, left)
        if bound > left:
            return []
        planned = set(task.plan(reached))
        found = [(at not in planned, at) for at, step in enumerate(task.given) if step.cost and reached.steps[at] == 0]
        forks = self.forks if bound < left else []  # a child is what its parent is then, which the bound does not count
        return [*(task.given[at] for _, at in sorted(found)), *forks]

    def after(self, node: Node, line: Line) -> Optional[Node]:
        """The state after a line; None where the call is not done or nothing changes."""
        state, reply = play(node.state, line.who, line.call)
        if not reply.done:
            return None
        if line.call.name == "exec" and line.who == self.problem.process and self.is_program(node, line):
            return Node(state, node.holds, node.families, node.items, True)
        holds, families, items = node.holds, node.families, node.items
        if line.call.name == "read":
            if MARK not in reply.answer[0]:
                return None
            holds = holds | {line.who}
        if line.call.name == "fork":
            child = reply.answer[0]
            families = {**families, child: families[line.who]}
            holds = holds | {child} if line.who in holds else holds
        if len(state.things) > len(node.state.things):
            items = {**items, **{number: self.made_item(node, line.who, state, number) for number in state.things if number not in items}}
        return Node(state, holds, families, items)

    def is_program(self, node: Node, line: Line) -> bool:
        """Whether a line executes the program that is asked for."""
        path: Path = line.call.arguments[0]
        here: Optional[Number] = node.state.root if path.absolute else node.state.processes[line.who].cwd
        for name in path.names:
            here = node.state.names.get(here, {}).get(name) if here is not None else None
        return here is not None and here == self.problem.program

    def made_item(self, node: Node, who: Number, state: State, number: Number) -> int:
        """The item of an object that was made."""
        thing = state.things[number]
        family = node.families[who] if thing.kind is Kind.PIPE else -1
        return self.cast.made_item(Made(thing.kind, frozenset((thing.label,)), one(thing.owner), one(thing.group), family))


def grains_of(problem: Problem) -> List[Grain]:
    """The grains in which the steps of a script are looked for, one after the other, before they are told apart finely."""
    classes, coarse = Cast(problem, Grain.CLASSES).size, Cast(problem, Grain.COARSE).size
    return [Grain.CLASSES, Grain.COARSE] if classes < FEWER * coarse else [Grain.COARSE]


class Instances:
    """The calls of a state that are a step."""

    def __init__(self, search: Search, node: Node, step: Step):
        self.search, self.node, self.step = search, node, step
        self.state = node.state

    def lines(self) -> Iterator[Line]:
        """The lines."""
        for who in self.actors():
            for call in self.calls(who):
                yield Line(who, call)

    def actors(self) -> Iterator[Number]:
        """Those who may make the call, one of those that are alike."""
        seen = set()
        views = self.search.closure.view_of
        for number, process in self.state.processes.items():
            own = self.search.credentials(process)
            if self.node.families[number] != self.step.family or self.step.actor not in ((False, own), (True, views[own])):
                continue
            if self.step.words[0] == "write" and number not in self.node.holds:
                continue
            alike = self.search.local(self.node, number)
            if alike not in seen:
                seen.add(alike)
                yield number

    def things(self, item: int) -> List[Number]:
        """The objects that are an item."""
        initial = self.search.cast.items[item][:MOST_ALIKE]
        return initial or [number for number, other in self.node.items.items() if other == item]

    def path(self, who: Number, number: Number, last: bool = False) -> Optional[Path]:
        """A path by which a process gets to an object; with `last` the object is a directory that is searched itself."""
        process = self.state.processes[who]
        if last and not self.searches(process, number):
            return None
        if number == process.cwd and number != self.state.root:
            return Path(False, ())
        if number == self.state.root:
            return Path(True, ())
        for directory, name in self.state.spots.get(number, ()):
            above = self.path(who, directory, True)
            if above is not None:
                return Path(above.absolute, (*above.names, name))
        return None

    def searches(self, process: Process, directory: Number) -> bool:
        """Whether a process may search a directory."""
        thing = self.state.things[directory]
        sees = process.label.dominates(thing.label) or process.has(rules.MAC_READ.cap)
        return sees and (rules.mode_allows(thing, process, rules.EXECUTE) or process.has(rules.DAC_SEARCH.cap))

    def calls(self, who: Number) -> Iterator[Call]:
        """The calls of one process."""
        name, *rest = self.step.words
        if name in ("fork", "pipe"):
            yield Call(name)
        elif name == "umask":
            yield Call(name, (0,))
        elif name in ("setuid", "setgid", "mac_set_proc"):
            yield Call(name, (rest[0],))
        elif name == "cap_set_proc":
            yield Call(name, (most_of(self.state.processes[who].caps),))
        elif name in ("read", "write", "mac_set_fd", "cap_set_fd"):
            yield from self.on_descriptors(who, name, rest)
        elif name in ("mkfifo", "mkdir") or (name == "open" and len(rest) > 2):
            yield from self.making(who, name, *rest)
        elif name in ("unlink", "rename away", "link", "rename", "rename over"):
            yield from self.entries(who, name, rest)
        else:
            yield from self.on_things(who, name, rest)

    def on_descriptors(self, who: Number, name: str, rest: Sequence[Any]) -> Iterator[Call]:
        """The calls on descriptors."""
        things = set(self.things(rest[0]))
        values = {"read": (MOST_FILE_BYTES,), "write": (MARK,)}.get(name, tuple(rest[1:2]))
        reads = name == "read" or (name != "write" and rest[2] == "r")
        for fd, did in self.state.processes[who].descriptors:
            description = self.state.descriptions[did]
            fits = description.reads if reads else description.writes
            if description.thing in things and fits:
                yield Call(name, (fd, *values))

    def on_things(self, who: Number, name: str, rest: Sequence[Any]) -> Iterator[Call]:
        """The calls on objects by their paths."""
        for number in self.things(rest[0]):
            path = self.path(who, number, name == "chdir")
            if path is None:
                continue
            if name == "chown":
                yield from (Call(name, (path, *ids)) for ids in self.owners(rest[0], self.state.things[number]))
            else:
                yield Call("exec" if name == "run" else name, (path, *([] if name in ("exec", "run", "chdir") else rest[1:])))

    def owners(self, item: int, thing: Thing) -> Iterator[Tuple[int, int]]:
        """The owners and groups that are asked for."""
        known = self.search.task_of(self.search.bound).numbers
        users = [user for user in self.search.closure.users if ("owner", item, user) in known or user == thing.owner]
        groups = [group for group in self.search.closure.groups if ("group", item, group) in known or group == thing.group]
        groups.sort(key=lambda group: group != thing.group)
        for user in sorted(users, key=lambda user: user == thing.owner):
            yield from ((user, group) for group in groups if (user, group) != (thing.owner, thing.group))

    def new_name(self, directory: Number, name: Optional[bytes]) -> bytes:
        """A name that a directory does not have, or the one of the path TO."""
        if name is not None:
            return name
        taken = self.state.names.get(directory, {})
        return next(each for each in (b"copy%d" % count for count in range(1, 70_000)) if each not in taken and
                    each not in self.search.problem.names)

    def on_path(self, name: Optional[bytes]) -> Set[Number]:
        """The directories on the path TO in which it goes on with a name."""
        found: Set[Number] = set()
        here: Optional[Number] = self.state.root
        for each in self.search.problem.names:
            if here is None:
                break
            found |= {here} if each == name else set()
            here = self.state.names.get(here, {}).get(each)
        return found

    def new_path(self, who: Number, item: int, name: Optional[bytes]) -> Optional[Path]:
        """The path of a new name in a directory; of a name of the path TO in one on that path, where there is one."""
        on_path = self.on_path(name)
        for directory in sorted(self.things(item), key=lambda number: number not in on_path):
            path = self.path(who, directory, True)
            if path is not None:
                return Path(path.absolute, (*path.names, self.new_name(directory, name)))
        return None

    def making(self, who: Number, name: str, directory: int, item: int, mode: int, at: Optional[bytes]) -> Iterator[Call]:
        """The calls that make an object."""
        path = self.new_path(who, directory, at)
        if path is not None and (self.state.processes[who].umask == 0) == (mode == 0o777):
            yield Call(name, (path, "rwcx", 0o777) if name == "open" else (path, 0o777))

    def entries(self, who: Number, name: str, rest: Sequence[Any]) -> Iterator[Call]:
        """The calls on entries of directories."""
        if name in ("unlink", "rename away"):
            path = self.new_path(who, rest[0], rest[1])
            if path is not None:
                to = path._replace(names=(*path.names[:-1], self.new_name(self.things(rest[0])[0], None)))
                yield Call("unlink", (path,)) if name == "unlink" else Call("rename", (path, to))
        elif name == "link":
            to_path = self.new_path(who, rest[1], rest[2])
            for path in (self.path(who, number) for number in self.things(rest[0])):
                if path is not None and to_path is not None:
                    yield Call("link", (path, to_path))
        else:
            yield from self.renames(who, *rest[:4])

    def renames(self, who: Number, old: int, item: int, directory: int, name: Optional[bytes]) -> Iterator[Call]:
        """The calls of `rename`."""
        to_path = self.new_path(who, directory, name)
        for number in self.things(item):
            for holder, entry in self.state.spots.get(number, ()):
                above = self.path(who, holder, True) if self.node.items[holder] == old else None
                if above is not None and to_path is not None:
                    yield Call("rename", (Path(above.absolute, (*above.names, entry)), to_path))
