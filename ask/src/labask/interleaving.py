"""Every order of the calls of a script that keeps the order of each process, in the model of the kernel.

States that are the same are met once. A number that a call draws is named by that call, so that it is the same number in each order;
`Written` says which one labsys draws in an order. A process that is forked begins at its fork, wherever its
lines stand in the script.
"""
from dataclasses import dataclass, field
from typing import Any, Dict, Hashable, Iterator, List, NamedTuple, Optional, Sequence, Set, Tuple

from labask.effort import Effort
from labask.kernel.calls import Call, Reply, play
from labask.kernel.state import Labels, Number, State, first_state
from labask.kernel.texts import call_text, read_call, reply_text
from labask.kernel_profile import MAX_PROCESS_NUMBER, UTILITIES
from labask.order_rules import BROKEN, Rule, Step
from labask.playing import Outcome, Played
from labask.worlds import ScriptLine, World, split_words

FIRST_NAME = 1 << 32  # a number from here on names what a call has drawn; labsys draws none so high
NAMES = 4  # from one call to the next; a call draws three at most
Log = List[Tuple[Number, Number]]


class NamedState(State):
    """A state whose new numbers are named by the call that draws them. `log`, where there is one, gets each with the number that
    labsys draws."""
    __slots__ = ("call", "made", "log")
    call: int
    made: int
    log: Optional[Log]

    @classmethod
    def of(cls, state: State, log: Optional[Log] = None) -> "NamedState":
        """A state of the model, from which calls are played."""
        other = cls.__new__(cls)
        for name in State.__slots__:
            setattr(other, name, getattr(state, name))
        other.call, other.made, other.log = 0, 0, log
        return other

    def copy(self) -> "NamedState":
        """The same state, of which parts can be replaced."""
        other = NamedState.of(self, self.log)
        other.call = self.call
        return other

    def draw(self, what: str, label: Any) -> Number:
        """The next number of a label, by its name."""
        drawn = super().draw(what, label)
        named = name_of(self.call, label, self.made)
        self.made += 1
        if self.log is not None:
            self.log.append((named, drawn))
        return named


def name_of(call: int, label: Any, place: int = 0) -> Number:
    """The name of a number that a call draws, the first of the call by default."""
    return Number(FIRST_NAME + call * NAMES + place, label)


class Move(NamedTuple):
    """A call of the script: its number there, its line, who makes it, and the call itself."""
    number: int
    line: ScriptLine
    who: Number
    call: Call


class Course(NamedTuple):
    """The calls of a process in their order, and the number of the call that forks it, 0 for a process of the world."""
    moves: Tuple[Move, ...]
    fork: int


@dataclass
class Node:
    """A state that some order comes to: how many calls each process has made, the state, what the rules remember, and the node and
    the call by which it was met first. `orders` counts the beginnings of orders that come to it."""
    made: Tuple[int, ...]
    state: NamedState
    memories: Tuple[Hashable, ...]
    parent: "Optional[Node]" = None
    move: Optional[Move] = None
    orders: int = 1
    steps: "List[Tuple[Move, Node]]" = field(default_factory=list)

    def order(self) -> List[Move]:
        """The calls by which it was met first."""
        found: List[Move] = []
        node: Optional[Node] = self
        while node is not None and node.move is not None:
            found.append(node.move)
            node = node.parent
        return found[::-1]


class Broken(NamedTuple):
    """A rule that is broken, and the first state in which it is."""
    rule: Rule
    node: Node


class Keys:
    """Gives equal states equal keys. A part of a state that was met before is not looked at again."""

    def __init__(self) -> None:
        self.seen: Dict[int, Tuple[object, int]] = {}
        self.numbers: Dict[Hashable, int] = {}

    def number(self, value: Hashable) -> int:
        """The number of a value."""
        return self.numbers.setdefault(value, len(self.numbers))

    def part(self, part: Dict[Any, Any]) -> int:
        """The number of a part of a state."""
        known = self.seen.get(id(part))
        if known is None:
            known = self.seen[id(part)] = (part, self.number(frozenset(part.items())))
        return known[1]

    def names(self, names: Dict[Number, Dict[bytes, Number]]) -> int:
        """The number of the names of all directories."""
        known = self.seen.get(id(names))
        if known is None:
            held = frozenset((number, self.part(entries)) for number, entries in names.items() if entries)
            known = self.seen[id(names)] = (names, self.number(held))
        return known[1]

    def key(self, made: Tuple[int, ...], state: State, memories: Tuple[Hashable, ...]) -> Hashable:
        """The key of a node."""
        return (made, self.part(state.things), self.names(state.names), self.part(state.processes), self.part(state.descriptions),
                self.part(state.drawn), memories)


class Interleaving:
    """All orders of a script, from the run of the script as it stands."""

    def __init__(self, world: World, played: Played):
        self.world, self.labels = world, Labels(world.policy)
        replies = [reply for reply in played.replies if reply.call == "fork" and reply.outcome is Outcome.DONE]
        self.forks: Dict[str, int] = {reply.words[0].text: reply.number for reply in replies}
        self.start = NamedState.of(first_state(world, self.labels))
        self.courses = tuple(self.read_courses())
        self.moves = {move.number: move for course in self.courses for move in course.moves}
        places = {move.number: (at, place) for at, course in enumerate(self.courses) for place, move in enumerate(course.moves)}
        self.forked_at = tuple(places.get(course.fork) for course in self.courses)
        self.own = self.written([self.moves[number] for number in sorted(self.moves)]).names
        self.keys = Keys()
        self.nodes: List[Node] = []
        self.whole = False

    # ---- reading

    def named(self, tag: str) -> Number:
        """The process of a tag: of the world, or by the call that forks it."""
        number = self.labels.number(tag)
        return name_of(self.forks[tag], number.label) if tag in self.forks else number

    def read_courses(self) -> Iterator[Course]:
        """The calls of each process."""
        found: Dict[str, List[Move]] = {}
        for number, line in self.world.lines_by_call.items():
            call = self.read_move(number, line)
            found.setdefault(line.tag, []).append(Move(number, line, self.named(line.tag), call))
        return (Course(tuple(moves), self.forks.get(tag, 0)) for tag, moves in found.items())

    def read_move(self, number: int, line: ScriptLine) -> Call:
        """The call of a line; of a utility that with one of its paths."""
        words, name = line.arguments, line.call
        if line.call in UTILITIES:
            name, before = UTILITIES[line.call]
            words = (line.arguments[before + number - line.first_call], *line.arguments[:before])
        call = read_call(name, words, self.labels)
        return call if name != "kill" else call._replace(arguments=(self.named(self.labels.number_text(call.arguments[0])),
                                                                    *call.arguments[1:]))

    def written(self, order: Sequence[Move]) -> "Written":
        """The lines of an order."""
        return Written(self.start, self.labels, order)

    # ---- searching

    def search(self, rules: Sequence[Rule], most: int, effort: Effort) -> "Findings":
        """Meets every state, up to so many; `whole` says whether all were met."""
        first = Node((0,) * len(self.courses), self.start, tuple(rule.first(self.start) for rule in rules))
        findings = Findings(rules)
        findings.add_broken(first, (None,) * len(rules))
        layer, self.nodes = [first], [first]
        while layer:
            met: Dict[Hashable, Node] = {}
            for node in layer:
                for move, at in self.enabled(node):
                    if len(self.nodes) + len(met) > most or effort.stops():
                        return findings
                    self.make(node, move, at, findings, met)
            effort.progress(f"orders: {len(self.nodes)} states")
            layer = list(met.values())
            self.nodes += layer
        self.whole = True
        return findings

    def enabled(self, node: Node) -> Iterator[Tuple[Move, int]]:
        """The next call of each process, with the place of the process; a child has one from when its fork was made."""
        for at, (course, made, fork) in enumerate(zip(self.courses, node.made, self.forked_at)):
            if made < len(course.moves) and (fork is None or node.made[fork[0]] > fork[1]):
                yield course.moves[made], at

    def make(self, node: Node, move: Move, at: int, findings: "Findings", met: Dict[Hashable, Node]) -> None:
        """Makes a call in a state, and notes where it leads."""
        state, who, reply, call = step(node.state, move)
        compared = self.compared(reply)
        made = (*node.made[:at], node.made[at] + 1, *node.made[at + 1:])
        memories = node.memories
        if memories:
            taken = Step(move.number, who, call, reply, self.words(reply), node.state, state)
            memories = tuple(BROKEN if memory == BROKEN else rule.after(memory, taken)
                             for rule, memory in zip(findings.rules, memories))
        key = self.keys.key(made, state, memories)
        after = met.get(key)
        if after is None:
            after = met[key] = Node(made, state, memories, node, move, 0)
        after.orders += node.orders
        node.steps.append((move, after))
        findings.replies.setdefault(move.number, {}).setdefault(compared, (node, move))
        findings.add_broken(after, node.memories)

    def cover(self) -> Iterator[Tuple[List[Move], int]]:
        """Orders that have every step of every state, each with how many steps no order before it has had."""
        had: Set[Tuple[int, int]] = set()
        for node in self.nodes:
            for move, after in node.steps:
                if (id(node), move.number) not in had:
                    yield self.order_with(node, move, after, had)

    def order_with(self, node: Node, move: Move, after: Node, had: Set[Tuple[int, int]]) -> Tuple[List[Move], int]:
        """A whole order with a step, which goes on by steps that no order has had, and how many of its steps are new."""
        before, order = len(had), [*node.order(), move]
        had.add((id(node), move.number))
        while node.parent is not None and node.move is not None:
            had.add((id(node.parent), node.move.number))
            node = node.parent
        while after.steps:
            new = ((move, other) for move, other in after.steps if (id(after), move.number) not in had)
            move, other = next(new, after.steps[0])
            had.add((id(after), move.number))
            order.append(move)
            after = other
        return order, len(had) - before

    def compared(self, reply: Reply) -> Reply:
        """A reply without the numbers of the objects that the script makes."""
        if not any(isinstance(each, Number) and each.n >= FIRST_NAME for each in reply.answer):
            return reply
        return reply._replace(answer=tuple(Number(0, each.label) if self.is_new_object(each) else each for each in reply.answer))

    def is_new_object(self, value: Any) -> bool:
        """Whether a part of an answer is the number of an object that the script makes."""
        return (isinstance(value, Number) and value.n >= FIRST_NAME
                and self.moves[(value.n - FIRST_NAME) // NAMES].call.name != "fork")

    def words(self, reply: Reply) -> Tuple[bytes, ...]:
        """The words of a reply, with the numbers that the script as it stands has drawn."""
        text = reply_text(renumbered(reply, self.own), self.labels)
        return tuple(word.value for word in split_words(text.encode("latin-1"))[0])


def step(state: NamedState, move: Move) -> Tuple[NamedState, Number, Reply, Call]:
    """The state after a call, who makes it, the reply, and the call with the process that it names as it is by then."""
    who, call = living(state, move.who), move.call
    if call.name == "kill":
        call = call._replace(arguments=(living(state, call.arguments[0]), *call.arguments[1:]))
    state.call = move.number
    after, reply = play(state, who, call)
    assert isinstance(after, NamedState)
    return after, who, reply, call


def living(state: State, number: Number) -> Number:
    """A process by its name, with the label at which it was drawn in this order; one that does not live stays as it is."""
    if number.n < FIRST_NAME or number in state.processes:
        return number
    return next((each for each in state.processes if each.n == number.n), number)


def renumbered(reply: Reply, names: Dict[Number, Number]) -> Reply:
    """A reply with other numbers."""
    return reply._replace(answer=tuple(names.get(each, each) if isinstance(each, Number) else each for each in reply.answer))


@dataclass
class Findings:
    """What a search has found: of each call its replies, each with the first state in which it comes, and the broken rules."""
    rules: Sequence[Rule]
    replies: Dict[int, Dict[Reply, Tuple[Node, Move]]] = field(default_factory=dict)
    broken: Dict[int, Broken] = field(default_factory=dict)

    def add_broken(self, node: Node, before: Sequence[Hashable]) -> None:
        """Notes the rules that a state is the first to break."""
        for at, (memory, old) in enumerate(zip(node.memories, before)):
            if memory == BROKEN and old != BROKEN and at not in self.broken:
                self.broken[at] = Broken(self.rules[at], node)

    @property
    def differing(self) -> List[int]:
        """The numbers of the calls that have more than one reply."""
        return sorted(number for number, replies in self.replies.items() if len(replies) > 1)


class Written:
    """An order as lines for `labsys`, with the replies that the model has, by the numbers that are drawn in this order."""

    def __init__(self, first: NamedState, labels: Labels, moves: Sequence[Move]):
        self.first, self.labels = first, labels
        self.names: Dict[Number, Number] = {}
        self.lines: List[str] = []
        self.due: List[str] = []
        log: Log = []
        self.state = NamedState.of(first, log)
        for move in moves:
            self.lines.append(self.line(move))
            self.state, _, reply, _ = step(self.state, move)
            self.names = dict(log)
            self.add_due(reply)

    def add_due(self, reply: Reply) -> None:
        """Adds a reply that is due."""
        self.due.append(reply_text(renumbered(reply, self.names), self.labels))

    def add_call(self, who: Number, call: Call) -> None:
        """Adds a call that is not one of the script."""
        self.lines.append(f"{self.tag(who)} {call_text(call, self.labels)}")
        self.add_due(play(self.state, who, call)[1])

    def tag(self, number: Number) -> str:
        """The tag of a process; one that was never forked has a number that nobody has."""
        number = living(self.state, number)
        if number.n >= FIRST_NAME:
            number = self.names.get(number, Number(MAX_PROCESS_NUMBER, number.label))
        elif number not in self.first.processes:
            number = Number(MAX_PROCESS_NUMBER, number.label)
        return self.labels.number_text(number)

    def line(self, move: Move) -> str:
        """The line of a call."""
        words = split_words(move.line.single(move.number).encode("latin-1"))[0][1:]
        texts = [word.written.decode("latin-1") for word in words]
        if move.call.name == "kill":
            texts[1] = self.tag(move.call.arguments[0])
        return " ".join([self.tag(move.who), *texts])
