"""Searches the scripts of a world for flows, level by level: the scripts of one call, of two, and of three with what ends a flow.

There are many scripts of two calls. They are worked on in pieces, behind each of which all that can be found out anew is forgotten.
"""
import functools
import hashlib
import itertools
import operator
from dataclasses import dataclass, field, replace
from typing import Callable, Dict, FrozenSet, Iterable, Iterator, List, NamedTuple, Optional, Sequence, Set, Tuple, TypeVar

from exhaustive.calls import OBSERVER, Arguments, Call, after, calls_of, entry_changes, fits, paths_from, walks_of
from exhaustive.copies import ROOTS, Copies, Job
from exhaustive.footprints import Cells, effect_reads, reads, refusal_cells, writes
from exhaustive.names import ROOT, State, Tree, names_of
from exhaustive.random_worlds import RandomWorld

DEPTH = 4
PIECE = 1_000  # scripts that are worked on at once
KEY_BYTES = 16
ON_ITSELF = ("setuid", "setgid", "exec", "cap_set_proc", "mac_set_proc", "chdir")
ON_DESCRIPTOR = ("mac_set_fd", "cap_set_fd", "write")
MOVING = ("rename", "link")
ON_NAMES = ("rename", "link", "unlink", "rmdir", "mkdir")
ABOUT_ITSELF = {"cap_get_proc": "caps", "getids": "ids", "mac_get_proc": "label"}

Script = Tuple[Call, ...]
Fact = Tuple[object, ...]
Facts = Dict[Fact, object]
Goal = Tuple[str, int]  # "process" or "object", and its number
Pair = Tuple[int, int]
Item = TypeVar("Item")


def pieces(items: Iterable[Item]) -> Iterator[List[Item]]:
    """Items in pieces that are worked on at once."""
    left = iter(items)
    return iter(lambda: list(itertools.islice(left, PIECE)), [])


def done(reply: bytes) -> bool:
    """Whether a call was done."""
    return reply.startswith(b"ok")


def only_opens(call: Call) -> bool:
    """Whether a call opens an object and changes nothing else."""
    return call.name == "open" and call.rest in ("r", "w")


class Answer(NamedTuple):
    """The reply to a call, what it depends on, and the node at which it was asked."""
    reply: bytes
    depends: Cells
    node: "Node"


@dataclass(eq=False)
class Node:
    """A script whose calls are done, and what is known of the state after it.

    `table` has the answers to calls, `unasked` the calls whose answer may be another than before, `changes` what a done call changes,
    `parent` the node before the last call, and `footprints` what each call of the script writes and reads, the last one first.
    """
    script: Script
    state: State
    facts: Facts = field(default_factory=dict)
    table: Dict[Call, Answer] = field(default_factory=dict)
    unasked: List[Call] = field(default_factory=list)
    changes: Dict[Call, Facts] = field(default_factory=dict)
    parent: Optional["Node"] = None
    footprints: Tuple[Tuple[Cells, Cells], ...] = ()

    def child(self, call: Call) -> "Node":
        """The node of the script with one call more."""
        footprint = (writes(call, self.state), reads(call, self.state))
        return Node((*self.script, call), after(call, self.state), parent=self, footprints=(footprint, *self.footprints))

    def done_calls(self) -> Iterator[Tuple[Call, Answer]]:
        """The calls that are done there, with their answers."""
        return ((call, answer) for call, answer in self.table.items() if done(answer.reply))

    def shrink(self) -> None:
        """Forgets what `Search.fill` sets again: all but the answers to calls that were asked here."""
        self.table = {call: answer for call, answer in self.table.items() if answer.node is self}
        self.unasked = []


class Search:
    """The search in a world. `found` has the shortest script of each flow; where `pruned` is not set, each call is asked everywhere."""

    def __init__(self, world: RandomWorld, program: str, pruned: bool = True):
        self.world, self.pruned = world, pruned
        self.copies = Copies(world, program)
        self.arguments = Arguments.of(world)
        self.files = [number for number, each in enumerate(world.objects) if each.kind == "file"]
        self.goals = [number for number, each in enumerate(world.objects) if each.kind != "dir"]
        self.found: Dict[Tuple[int, Goal], Script] = {}
        self.seen: Set[int] = set()
        self.lists: Dict[object, Dict[Call, None]] = {}
        self.moves_memo: Dict[object, Dict[Call, None]] = {}

    def run(self) -> None:
        """Searches: the flows that are known at any time have no longer scripts than those that are looked for then."""
        root = Node((), self.copies.first)
        self.tell([root])
        self.unseen(root.facts)
        root.unasked = [call for call in self.calls(root.state) if call.name != "fork"]
        self.ask_unasked([root], lambda node, call: True)
        first = self.next_level([root], 1)
        moved = self.pending_moves()
        for node in first:
            self.fill(node, moved)
        self.ask_unasked(first, lambda node, call: True)
        second = self.next_level(first, 2)
        read, moved = self.pending_reads(), self.pending_moves()
        for piece in self.filled(second, moved):
            self.ask_unasked(piece, lambda node, call: self.ends(node, call, read, moved))
        self.copy_flows(root)
        still = self.pending_moves()
        for piece in self.filled(second, moved):
            needs = {node: self.needed(node, still) for node in piece}
            self.ask_unasked(piece, lambda node, call: self.helps(node, call, needs[node], still))
            self.last_moves(piece, still)
            for node in piece:
                node.table.clear()

    # ---- what is tried

    def calls(self, state: State) -> Dict[Call, None]:
        """The calls that are tried in a state."""
        found: Dict[Call, None] = {}
        for actor in range(len(state.labels)):
            key = (actor, state.tree, state.directories[actor], state.descriptors[actor], state.caps[actor], state.labels[actor])
            if key not in self.lists:
                self.lists[key] = dict.fromkeys(calls_of(actor, state, self.arguments))
            found.update(self.lists[key])
        return found

    def extensions(self, node: Node, depth: int) -> Iterator[Call]:
        """The calls by which a script is extended."""
        needed = next_touches(node) if self.pruned else None
        forked = self.pruned and bool(node.script) and node.script[0].name == "fork"
        for call, _ in node.done_calls():
            if self.pruned and only_opens(call) and depth > 1:
                continue
            if forked and not (call.actor == len(node.state.labels) - 1 and call.name in ON_ITSELF):
                continue
            if needed is None or not needed.isdisjoint(writes(call, node.state)):
                yield call
        if depth == 1:
            yield from (Call(actor, "fork") for actor in range(len(self.world.processes)))

    # ---- the state after a script, as it is told

    def questions(self, state: State) -> List[Call]:
        """The calls that tell a state."""
        files = [path for path, number in state.tree.paths if state.tree.kinds[number] == "file"]
        return [*(Call(OBSERVER, "stat", (path,)) for path, _ in [("/", ROOT), *state.tree.paths]),
                *(Call(OBSERVER, "cap_get_file", (path,)) for path in files),
                *(Call(actor, name) for actor in range(len(state.labels)) for name in ABOUT_ITSELF)]

    def tell(self, nodes: Sequence[Node]) -> None:
        """Asks for the states of nodes, and sets their facts."""
        jobs = [Job(node.script, self.questions(node.state)) for node in nodes]
        self.copies.play(jobs)
        for node, job in zip(nodes, jobs):
            caps = {call.actor: reply.split(b'"')[1].decode() for call, reply in job.replies.items() if call.name == "cap_get_proc"}
            node.state = replace(node.state, caps=tuple(caps[actor] for actor in range(len(caps))))
            node.facts = dict(facts_of(node.state, job.replies))

    def foretell(self, node: Node) -> bool:
        """Sets the facts of a node where its last call does there what it did before; gives whether it does."""
        assert node.parent is not None
        answer = node.parent.table.get(node.script[-1])
        if answer is None or answer.node is node.parent or node.script[-1] not in answer.node.changes:
            return False
        node.facts = changed_facts(node.parent.facts, answer.node.changes[node.script[-1]])
        node.state = replace(node.state, caps=tuple(str(node.facts["caps", actor]) for actor in range(len(node.state.labels))))
        return True

    def note_changes(self, node: Node) -> None:
        """Keeps what the last call of a node has changed, so that it is foretold elsewhere."""
        assert node.parent is not None
        if node.script[-1] in node.parent.table:
            node.parent.changes[node.script[-1]] = difference(node.parent.facts, node.facts)

    # ---- levels

    def next_level(self, level: Sequence[Node], depth: int) -> List[Node]:
        """The nodes of the scripts with one call more that lead to states which were not met before. Their tables are not filled."""
        kept: List[Node] = []
        for children in pieces(node.child(call) for node in level for call in self.extensions(node, depth)):
            fresh = [child for child in children if not self.foretell(child)]
            self.tell(fresh)
            for child in fresh:
                self.note_changes(child)
            kept += [child for child in children if self.unseen(child.facts)]
        return kept

    def unseen(self, facts: Facts) -> bool:
        """Whether a state was not met before; it is from then on."""
        before = len(self.seen)
        self.seen.add(key_of(facts))
        return len(self.seen) > before

    def filled(self, level: Sequence[Node], moved: FrozenSet[Pair]) -> Iterator[List[Node]]:
        """The nodes of a level in pieces, each with its table; behind a piece all that can be found out anew is forgotten."""
        for piece in pieces(level):
            for node in piece:
                self.fill(node, moved)
            yield piece
            for node in piece:
                node.shrink()
            self.forget()

    def forget(self) -> None:
        """Forgets what is only kept so that it is not found out twice."""
        self.lists.clear()
        self.moves_memo.clear()
        for tree in list(self.copies.first.tree.family.values()):
            tree.forget()

    def fill(self, node: Node, moved: FrozenSet[Pair]) -> None:
        """Adds to the table of a node the answers of its parent that do not depend on what its last call has changed."""
        assert node.parent is not None
        changed, table = writes(node.script[-1], node.parent.state), node.parent.table
        tried = {**self.calls(node.state), **self.moves(node.state, moved)}
        if self.pruned:
            inherited = {call: answer for call, answer in table.items() if call in tried and answer.depends.isdisjoint(changed)}
            node.table = {**inherited, **node.table}
        node.unasked = [call for call in tried if call not in node.table and call.name != "fork"]

    def ask_unasked(self, nodes: Sequence[Node], wanted: Callable[[Node, Call], bool]) -> None:
        """Asks the calls at nodes that are wanted, and notes the flows that they end."""
        asked = [(node, [call for call in node.unasked if wanted(node, call)]) for node in nodes]
        self.ask(asked)
        for node, _ in asked:
            node.unasked = [call for call in node.unasked if call not in node.table]

    def ask(self, asked: Sequence[Tuple[Node, List[Call]]]) -> None:
        """Asks calls at nodes, and notes the flows that they end."""
        jobs = [Job(node.script, calls) for node, calls in asked]
        self.copies.play([job for job in jobs if job.asked])
        for (node, calls), job in zip(asked, jobs):
            for call in calls:
                reply = job.replies[call]
                depends = reads(call, node.state) | effect_reads(call, node.state) if done(reply) else \
                    refusal_cells(call, reply, node.state, ROOTS)
                node.table[call] = Answer(reply, depends, node)
            self.note(node, [call for call in calls if done(job.replies[call])])

    def ends(self, node: Node, call: Call, read: FrozenSet[Pair], moved: FrozenSet[Pair]) -> bool:
        """Whether a call would end a flow that is not known yet."""
        if call.name == "open" and call.rest == "r":
            found = walks_of(call, node.state)[0].found
            return found is not None and (found, node.state.parents[call.actor]) in read
        return call in self.moves(node.state, moved)

    def needed(self, node: Node, moved: FrozenSet[Pair]) -> Cells:
        """What the refusals of the moves that would end a flow depend on."""
        return frozenset().union(*(node.table[call].depends for call in self.moves(node.state, moved)))

    def helps(self, node: Node, call: Call, needed: Cells, moved: FrozenSet[Pair]) -> bool:
        """Whether a call may let a move be done that ends a flow."""
        if not self.pruned or not moved:
            return bool(moved)
        if any(map(only_opens, node.script)) and call.name not in ON_DESCRIPTOR:
            return False
        return call.name in ON_NAMES or not needed.isdisjoint(writes(call, node.state))

    def last_moves(self, level: Sequence[Node], moved: FrozenSet[Pair]) -> None:
        """Looks for the moves after three other calls."""
        asked = [each for node in level for each in self.after_third(node, moved)]
        self.ask(asked)
        for node, _ in asked:
            node.table.clear()  # its answers name the node itself, so that neither would be freed at once

    def after_third(self, node: Node, moved: FrozenSet[Pair]) -> Iterator[Tuple[Node, List[Call]]]:
        """The nodes with one call more at which moves are asked, and these moves."""
        needed, touched = self.needed(node, moved), next_touches(node)
        for call, answer in node.done_calls() if moved else ():
            changed = writes(call, node.state)
            if self.pruned and is_in_vain(call, changed, needed, touched):
                continue
            asked = self.moves_after(node, call, changed, moved)
            if asked and self.unseen_third(node, call, answer):
                yield node.child(call), asked

    def moves_after(self, node: Node, call: Call, changed: Cells, moved: FrozenSet[Pair]) -> List[Call]:
        """The moves that may be done after a call and not before it."""
        current, state = self.moves(node.state, moved), after(call, node.state)
        if not self.pruned:
            return list(self.moves(state, moved))
        found = [each for each in self.moves(state, moved) if each not in current or not node.table[each].depends.isdisjoint(changed)]
        return [each for each in found if all_needed(node, call, each, state)]

    def unseen_third(self, node: Node, call: Call, answer: Answer) -> bool:
        """Whether the state after a third call was not met before, as far as it can be foretold."""
        if answer.node is node or call not in answer.node.changes:
            return True
        return self.unseen(changed_facts(node.facts, answer.node.changes[call]))

    # ---- flows

    def note(self, node: Node, calls: Sequence[Call]) -> None:
        """Notes the flows that done calls at a node end."""
        for call in calls:
            source = walks_of(call, node.state)[0].found if call.paths else None
            if call.name == "open" and call.rest == "r" and source in self.files and source not in node.state.overwritten:
                descriptor = len(node.state.descriptors[call.actor])
                script = (*node.script, call, Call(call.actor, "read", (), f"{descriptor} 64"))
                self.add(source, ("process", node.state.parents[call.actor]), script)
            if call.name in MOVING:
                for there, goal in self.moved(call, node.state):
                    self.add(there, ("object", goal), (*node.script, call))

    def add(self, source: int, goal: Goal, script: Script) -> None:
        """Notes a flow, where no script as short is known."""
        if len(script) <= DEPTH and len(self.found.get((source, goal), (None,) * (DEPTH + 1))) > len(script):
            self.found[source, goal] = script

    def moved(self, call: Call, state: State) -> Iterator[Pair]:
        """The files whose bytes a call on names brings to the path of another object, each with that object."""
        tree = state.tree.changed(entry_changes(call, state, None))
        for goal in self.goals:
            there = tree.walk(ROOT, self.world.objects[goal].path).found
            if there is not None and there != goal and there in self.files and there not in state.overwritten:
                yield there, goal

    def copy_flows(self, root: Node) -> None:
        """Notes the flows by a process that opens and reads a file, and opens and writes another."""
        paths = {number: path for path, number in root.state.tree.paths}
        for actor in range(len(self.world.processes)):
            opened = {flags: [number for number in self.files if done(root.table[Call(actor, "open", (paths[number],), flags)].reply)]
                      for flags in ("r", "w")}
            for source, goal in ((source, goal) for source in opened["r"] for goal in opened["w"] if source != goal):
                script = (Call(actor, "open", (paths[source],), "r"), Call(actor, "read", (), "0 64"),
                          Call(actor, "open", (paths[goal],), "w"), Call(actor, "write", (), f'1 "{self.world.objects[source].content}"'))
                self.add(source, ("object", goal), script)

    def pending_moves(self) -> FrozenSet[Pair]:
        """The files and other objects for which no flow is known."""
        return frozenset((source, goal) for source in self.files for goal in self.goals
                         if source != goal and (source, ("object", goal)) not in self.found)

    def pending_reads(self) -> FrozenSet[Pair]:
        """The files and processes for which no flow is known."""
        return frozenset((source, goal) for source in self.files for goal in range(len(self.world.processes))
                         if (source, ("process", goal)) not in self.found)

    # ---- moves that would end a flow

    def moves(self, state: State, moved: FrozenSet[Pair]) -> Dict[Call, None]:
        """The moves in a state that would end a flow, were they done."""
        key = (state.tree, state.directories, state.overwritten, moved)
        if key not in self.moves_memo:
            self.moves_memo[key] = {Call(actor, name, (path, target)): None for actor, directory in enumerate(state.directories)
                                    for name, path, target in self.moves_from(directory, state, moved)}
        return self.moves_memo[key]

    def moves_from(self, directory: int, state: State, moved: FrozenSet[Pair]) -> Iterator[Tuple[str, str, str]]:
        """The moves by a process with a current directory that would end a flow: the call and its two paths."""
        paths: Dict[int, List[str]] = {}
        for path, number in paths_from(directory, state.tree):
            paths.setdefault(number, []).append(path)
        for source, goal in moved:
            if source not in state.overwritten:
                for target, behind in self.targets(goal, state, directory):
                    yield from moves_to(source, target, behind, directory, state.tree, paths)

    def targets(self, goal: int, state: State, directory: int) -> Iterator[Tuple[str, str]]:
        """The second paths of moves that change what is at the path of an object, each with the names behind it."""
        names = names_of(self.world.objects[goal].path)
        for count in range(1, len(names) + 1):
            path, behind = "/" + "/".join(names[:count]), "/".join(names[count:])
            holder = state.tree.walk(ROOT, path).holder
            if holder is None:
                return
            yield path, behind
            if directory != ROOT:
                below = [("", directory), *((f"{each}/", number) for each, number in state.tree.below(directory, ""))]
                yield from ((prefix + names[count - 1], behind) for prefix, number in below if number == holder)


def moves_to(source: int, target: str, behind: str, directory: int, tree: Tree,
             paths: Dict[int, List[str]]) -> Iterator[Tuple[str, str, str]]:
    """The moves to a path after which a file is there, or where names are behind it, at these names below it."""
    walk = tree.walk(directory, target)
    numbers = [source] if not behind else [each for each in paths if tree.kinds[each] == "dir" and tree.walk(each, behind).found == source]
    for number in numbers:
        if fits(tree, number, walk):
            yield from (("rename", path, target) for path in paths.get(number, ()))
        if walk.found is None and not behind:
            yield from (("link", path, target) for path in paths.get(number, ()))


def next_touches(node: Node) -> Optional[Cells]:
    """What the call behind the last one of a script has to change, or None where it may change anything."""
    if node.parent is None:
        return None
    last, before = node.script[-1], node.parent.state
    if last.name == "chdir":
        return reads(last, before)
    return reads(Call(last.actor, "mac_set_file", last.paths, ""), before) if only_opens(last) else None


def is_in_vain(call: Call, changed: Cells, needed: Cells, touched: Optional[Cells]) -> bool:
    """Whether a third call lets no move be done that ends a flow."""
    if only_opens(call) or call.name == "chdir" or touched is not None and touched.isdisjoint(changed):
        return True
    return call.name not in ON_NAMES and needed.isdisjoint(changed)


def all_needed(node: Node, call: Call, last: Call, state: State) -> bool:
    """Whether a last call behind a script and another call may depend on each of them."""
    cells = reads(last, state)
    for changed, seen in ((writes(call, node.state), reads(call, node.state)), *node.footprints):
        if cells.isdisjoint(changed):
            return False
        cells = cells | seen
    return True


def facts_of(state: State, replies: Dict[Call, bytes]) -> Iterator[Tuple[Fact, object]]:
    """What is followed of a state, and what the replies to the calls say that tell it."""
    yield from ((("entry", directory, name), number) for directory, name, number in state.tree.key)
    yield from ((("overwritten", number), True) for number in state.overwritten)
    yield from ((("directory", actor), number) for actor, number in enumerate(state.directories))
    yield from ((("descriptors", actor), numbers) for actor, numbers in enumerate(state.descriptors))
    for call, reply in replies.items():
        yield from told(call, reply, state)


def told(call: Call, reply: bytes, state: State) -> Iterator[Tuple[Fact, object]]:
    """What the reply to a call says that tells a state: all but numbers, sizes and counts of links."""
    if call.actor != OBSERVER:
        yield (ABOUT_ITSELF[call.name], call.actor), reply.split(b'"')[1].decode() if call.name == "cap_get_proc" else reply
        return
    number = state.tree.walk(ROOT, call.paths[0]).found
    if call.name == "cap_get_file":
        yield ("file caps", number), reply
        return
    words = reply.split(b" ")
    yield from ((name, value) for name, value in zip((("kind", number), ("mode", number), ("owner", number), ("group", number)), words[1:]))
    yield ("label of", number), words[8]


def difference(before: Facts, then: Facts) -> Facts:
    """The facts that changed; those that are gone are None."""
    return {**{name: value for name, value in then.items() if before.get(name) != value},
            **{name: None for name in before if name not in then}}


def changed_facts(before: Facts, changes: Facts) -> Facts:
    """The facts after changes."""
    return {name: value for name, value in {**before, **changes}.items() if value is not None}


@functools.lru_cache(maxsize=None)
def digest(name: Fact, value: object) -> int:
    """A number for a fact, by its text."""
    return int.from_bytes(hashlib.blake2b(repr((name, value)).encode(), digest_size=KEY_BYTES).digest(), "big")


def key_of(facts: Facts) -> int:
    """A number for a state: the same for the same facts, and for other ones as good as never."""
    return functools.reduce(operator.xor, itertools.starmap(digest, facts.items()), 0)
