"""All facts that can come to be where none is lost, and all steps by which."""
import functools
import itertools
from collections import defaultdict
from typing import Any, Callable, DefaultDict, Dict, Iterable, Iterator, List, Mapping, Optional, Set, Tuple

from labask.kernel import rules
from labask.kernel.state import NO_CAPS, Cap, Caps, Kind, Label, State, Thing
from labask.search.facts import (ACTS, AS, AT, CAN, CAPS, CWD, DONE, ENTRY, EXECUTE, FITS, FREE, GOAL, GOT, GROUP, HEARD, HOLDS, IN, LABEL,
                                 MANY, MARK, MODE, ON_PATH, OPENED, OWN, OWNER, RAN, READ, SEARCH,
                                 SEE, SOME, TAINT, TRUE, UMASK, WRITE, Credentials, Fact, Right, Step,
                                 Values, View, one)
from labask.search.problem import Cast, Grain, Made, Problem
from labask.search.wanted import Wanted

ATTRIBUTES = (LABEL, OWNER, GROUP, MODE, CAPS)
OPEN_MODE = 0o777
NEW_MODE = 0o755  # of what is made with the umask that a process begins with
RIGHTS = {right.name: right for right in (READ, SEARCH, WRITE, EXECUTE, SEE, MARK, OWN)}
MOST_CREDENTIALS = 4_000


# How many calls follow at least after a call: where TO is a process that does not make it, where TO is an object, where TO is the process
# that makes it, and where a program is to be executed.
LEAST: Dict[str, Tuple[int, int, int, int]] = {
    "read": (2, 1, 0, 2), "write": (1, 0, 1, 2), "become": (2, 1, 1, 1), "open": (2, 1, 1, 2), "make": (2, 1, 2, 2), "chmod": (2, 1, 2, 1),
    "chown": (2, 1, 2, 1), "label": (1, 1, 1, 1), "caps": (2, 2, 2, 2), "move": (2, 0, 2, 1), "chdir": (2, 1, 2, 1),
    "umask": (3, 2, 3, 3), "fork": (1, 1, 1, 1), "pipe": (2, 2, 2, 2), "mkfifo": (4, 3, 4, 3), "mkdir": (3, 1, 3, 2),
    "free": (2, 1, 2, 1),
}


def most_of(caps: Caps) -> Caps:
    """All that is permitted, effective and inheritable."""
    return Caps(caps.permitted, caps.permitted, caps.permitted | caps.inheritable)


def is_less(caps: Caps, other: Caps) -> bool:
    """Whether sets are within others."""
    return not any(one & ~two for one, two in zip(caps, other))


class Closure:
    """The closure of a problem: `facts` that can be, `steps` by which, and whether it was collected to its end.

    With a bound it has the steps that a script of so many calls can have, and those alone that are wanted where that is said.
    Without one it has facts and no steps: what is no fact then, can't be. Where the grain is not fine, or there is no bound, it is a
    rough one: who acts has all that any of a family gets by so many calls.
    """

    def __init__(self, problem: Problem, bound: Optional[int] = None, grain: Grain = Grain.FINE, wanted: Optional[Wanted] = None):
        self.problem, self.state, self.whole = problem, problem.state, True
        self.merged, self.bound, self.rounds = bound is None, bound, 0
        self.rough = self.merged or grain is not Grain.FINE
        self.wanted = wanted
        self.first: Dict[Fact, None] = {}  # without values, as the facts: in the order in which they come to be
        self.reserved: Dict[int, int] = {}
        self.exact_views: Set[int] = set()
        self.cast = Cast(problem, grain)
        self.facts: Dict[Fact, None] = {}
        self.steps: Dict[Any, Step] = {}
        self.values: DefaultDict[Tuple[str, int], List[Any]] = defaultdict(list)
        self.children: DefaultDict[int, List[int]] = defaultdict(list)
        self.opened: DefaultDict[int, List[Tuple[int, str]]] = defaultdict(list)
        self.names: DefaultDict[int, List[bytes]] = defaultdict(list)
        self.at: DefaultDict[Tuple[int, bytes], List[int]] = defaultdict(list)
        self.credentials: List[Credentials] = []
        self.views: List[View] = []
        self.numbers: Dict[Any, int] = {}
        self.view_of: List[int] = []
        self.acting: DefaultDict[int, List[int]] = defaultdict(list)
        self.allowed: Set[Tuple[int, int, str]] = set()
        self.searched: Dict[Tuple[int, int], Set[int]] = {}
        self.becomes: DefaultDict[Tuple[int, int], List[int]] = defaultdict(list)
        self.births: DefaultDict[int, Set[int]] = defaultdict(set)
        self.enterers: DefaultDict[int, Set[int]] = defaultdict(set)
        self.starts: Dict[int, Set[int]] = {}
        self.denied: Dict[Tuple[int, int, str], int] = {}
        self.versions: DefaultDict[int, int] = defaultdict(int)
        self.changed: Set[int] = set()
        self.renew: Set[int] = set()
        self.asked: Dict[Fact, None] = {}
        self.last_entered: Dict[Tuple[int, int], Set[int]] = {}
        self.inside_at_start: DefaultDict[int, Set[int]] = defaultdict(set)
        self.users, self.groups, self.labels = self.choices()

    @functools.cached_property
    def relabels(self) -> bool:
        """Whether a process has or a program gives a capability by which the labels of objects are changed."""
        sets = [process.caps for process in self.state.processes.values()] + [thing.caps for thing in self.state.things.values()]
        return any(bits & (Cap.MAC_UPGRADE | Cap.MAC_DOWNGRADE) for caps in sets for bits in caps)

    def choices(self) -> Tuple[List[int], List[int], List[Label]]:
        """The users, groups and labels that are asked for: those of the world, and the highest label."""
        things, processes = self.state.things.values(), self.state.processes.values()
        users = {each.owner for each in things} | {each.ids.ruid for each in processes}
        groups = {each.group for each in things} | {group for each in processes for group in (each.ids.rgid, *each.ids.groups)}
        labels = {each.label for each in things} | {each.label for each in processes} | {self.state.top}
        also = self.problem.choices
        return sorted(users | also.users), sorted(groups | also.groups), sorted(labels | also.labels)

    # ---- collecting

    def begin(self) -> "Closure":
        """Adds the facts of the first state."""
        for fact in self.first_facts(self.state):
            self.add(fact)
        self.first.update(self.facts)
        return self

    @property
    def ended(self) -> bool:
        """Whether nothing more comes to be."""
        return not (self.changed or self.renew)

    def collect(self, over: Callable[[], bool]) -> "Closure":
        """Collects until nothing comes to be any more."""
        while not self.ended:
            if not self.advance(over):
                self.whole = False
                break
        self.derive_goal()
        return self

    def advance(self, over: Callable[[], bool]) -> bool:
        """Adds what comes to be by one more call; gives whether it did so to its end."""
        self.rounds += 1
        focus, renew, pending = self.changed, self.renew, []
        self.changed, self.renew = set(), set()
        for family in range(len(self.cast.families)):
            seen: Set[int] = set()
            for one in list(self.acting[family])[-1 if self.merged else 0:]:
                if over():
                    return False
                pending += self.collect_of(family, one, focus, family in renew, seen)
        self.settle()
        for fact in pending:
            self.add(fact)
        return True

    def version(self, family: int, old: int, new: Credentials) -> int:
        """The number of the first credentials of a family, from some on, that have all that these have; the next ones where none have."""
        versions = self.acting[family]
        for number in versions[versions.index(old):]:
            if self.credentials[number].joined(new) == self.credentials[number]:
                return number
        if family not in self.reserved:
            self.reserved[family] = len(self.credentials)
            self.credentials.append(self.credentials[versions[-1]])
            self.view_of.append(-1)
        number = self.reserved[family]
        self.credentials[number] = self.credentials[number].joined(new)
        return number

    def settle(self) -> None:
        """Gives the credentials that families get in this round their views."""
        for number in self.reserved.values():
            self.view_of[number] = len(self.views)
            self.views.append(self.credentials[number].view)
        self.reserved = {}

    def due(self, family: int, what: str, *items: int) -> bool:
        """Whether such a call is wanted, and calls are left after it."""
        if self.wanted is not None and not self.wanted.has(self.cast, family, what, items):
            return False
        return self.has_left(what, family)

    def has_left(self, what: str, family: int) -> bool:
        """Whether so many calls are left after such a call of the present round as have to follow it at least."""
        if self.bound is None:
            return True
        goal = self.problem.process
        column = 3 if self.problem.program is not None else 1 if goal is None else 2 if self.cast.family_of[goal] == family else 0
        return self.bound - self.rounds >= LEAST[what][column]

    def collect_of(self, family: int, one: int, focus: Set[int], renew: bool, seen: Set[int]) -> List[Fact]:
        """Collects the steps of one who acts: all of them, or where only objects changed those on them."""
        view = self.view_of[one]
        entered = self.entered(family, view)
        whole = renew or self.searched.get((family, one)) != entered
        self.searched[family, one] = entered
        actor = Actor(self, family, one, entered, None if whole else focus)
        found: List[Fact] = []
        for step in itertools.chain(actor.own_steps(), actor.steps() if view not in seen else ()):
            if self.merged:
                found += [fact for fact in step.makes if not self.add_now(fact)]
                continue
            key = (step.family, step.actor, step.words)
            if key not in self.steps:
                self.steps[key] = step
                found += step.makes
        seen.add(view)
        return found

    def add_now(self, fact: Fact) -> bool:
        """Adds a fact at once, if it is not one of credentials, which are settled at the end of a round."""
        if fact[0] not in (ACTS, DONE):
            self.add(fact)
        return fact[0] not in (ACTS, DONE)

    def first_facts(self, state: State) -> Iterator[Fact]:
        """The facts of the first state."""
        yield TRUE
        cast = self.cast
        for family, members in enumerate(cast.families):
            yield (ACTS, family, self.number(cast.first_credentials(family)))
            if len(members) > 1:
                yield (MANY, family)
        for item, numbers in enumerate(cast.items):
            for number in numbers:
                yield from self.thing_facts(item, state.things[number])
                for directory, _ in state.spots.get(number, ()):
                    self.births[item].add(cast.item_of[directory])
                    self.inside_at_start[cast.item_of[directory]].add(item)
                    yield (ENTRY, cast.item_of[directory], item)
        for source in (self.problem.source, *self.problem.others):
            if source in cast.item_of:
                yield (TAINT, cast.item_of[source])
        if self.problem.knows is not None:
            family = cast.family_of[self.problem.knows]
            yield (HOLDS, family, self.number(cast.first_credentials(family)))
        if self.problem.thing is not None:
            yield (ON_PATH, 0, cast.item_of[state.root])

    def thing_facts(self, item: int, thing: Any) -> List[Fact]:
        """The facts of the attributes of an object."""
        return [(LABEL, item, thing.label), (OWNER, item, thing.owner), (GROUP, item, thing.group), (MODE, item, thing.mode),
                (CAPS, item, thing.caps)]

    def number(self, credentials: Credentials) -> int:
        """The number of credentials."""
        if credentials not in self.numbers:
            self.numbers[credentials] = len(self.credentials)
            self.credentials.append(credentials)
            view = credentials.view
            if view not in self.numbers:
                self.numbers[view] = len(self.views)
                self.exact_views.add(len(self.views))
                self.views.append(view)
            self.view_of.append(self.numbers[view])
        return self.numbers[credentials]

    def add(self, fact: Fact) -> None:
        """Adds a fact, and notes what has to be looked at again."""
        if fact in self.facts:
            return
        self.facts[fact] = None
        kind = fact[0]
        if kind in ATTRIBUTES:
            self.values[kind, fact[1]].append(fact[2])
            self.versions[fact[1]] += 1
            self.changed |= {fact[1], *self.children[fact[1]]}
        elif kind == ENTRY:
            self.children[fact[1]].append(fact[2])
            self.values[ENTRY, fact[2]].append(fact[1])
            self.changed |= {fact[1], fact[2]}
        elif kind in (TAINT, HEARD):
            self.changed |= {fact[1], *self.values[ENTRY, fact[1]]}
        else:
            self.add_other(fact)

    def add_other(self, fact: Fact) -> None:
        """Adds a fact of a family, or of the path TO."""
        kind = fact[0]
        if kind == ACTS:
            self.acting[fact[1]].append(fact[2])
            seen = (AS, fact[1], self.view_of[fact[2]])
            self.steps[seen, fact[2]] = Step(0, (fact,), (seen,))
        if kind == CWD:
            self.values[CWD, fact[1]].append(fact[2])
        if kind == OPENED:
            self.opened[fact[1]].append((fact[2], fact[3]))
            self.changed.add(fact[2])
        if kind == AT:
            self.at[fact[1], fact[2]].append(fact[3])
            self.changed |= {fact[1], fact[3]}
            self.reach_on_path(fact)
        if kind == ON_PATH:
            self.put_on_path(fact[1], fact[2])
        if kind in (ACTS, HOLDS, CWD, UMASK, MANY):
            self.renew.add(fact[1])
        if kind == DONE:
            self.follow(fact)
        if kind == HOLDS:
            for new in self.becomes[fact[1], fact[2]]:
                self.add((HOLDS, fact[1], new))

    def follow(self, fact: Fact) -> None:
        """What a change of credentials makes: it keeps what was read."""
        _, family, old, new = fact
        self.add((ACTS, family, new))
        self.becomes[family, old].append(new)
        step = Step(0, ((HOLDS, family, old), fact), ((HOLDS, family, new),))
        self.steps[fact] = step
        if (HOLDS, family, old) in self.facts:
            self.add((HOLDS, family, new))

    # ---- the path TO

    def put_on_path(self, count: int, directory: int) -> None:
        """Notes that the first names of the path TO lead to a directory, whose entry of the next name counts then."""
        if count == len(self.problem.names) or self.cast.kinds[directory] is not Kind.DIRECTORY:
            return
        name = self.problem.names[count]
        if name not in self.names[directory]:
            self.names[directory].append(name)
            for fact in self.entry_facts(directory, name):
                self.first[fact] = None
                self.add(fact)
            self.renew |= set(range(len(self.cast.families)))
        for item in list(self.at[directory, name]):
            self.add((ON_PATH, count + 1, item))

    def taken_names(self, directory: int, item: int) -> List[bytes]:
        """The names of the path TO in a directory that are given to an object: to one with the bytes the last, to a directory others."""
        last = (ON_PATH, len(self.problem.names) - 1, directory) in self.facts
        if self.cast.kinds[item] is Kind.DIRECTORY:
            return [name for name in self.names[directory] if not last or len(self.names[directory]) > 1]
        return [self.problem.names[-1]] if last and (TAINT, item) in self.facts else []

    def is_replaced(self, target: int) -> bool:
        """Whether an object can be replaced by one call; a directory with entries is moved away instead."""
        numbers = self.cast.items[target]
        return not numbers or any(not self.state.names.get(number) for number in numbers)

    def entry_facts(self, directory: int, name: bytes) -> List[Fact]:
        """What a name of the path TO leads to in directories of the first state."""
        found = [self.state.names.get(number, {}).get(name) for number in self.cast.items[directory]] or [None]
        return [(FREE, directory, name) if each is None else (AT, directory, name, self.cast.item_of[each]) for each in found]

    def reach_on_path(self, fact: Fact) -> None:
        """Goes on along the path TO from a new entry."""
        _, directory, name, item = fact
        for count, due in enumerate(self.problem.names):
            if due == name and (ON_PATH, count, directory) in self.facts:
                self.add((ON_PATH, count + 1, item))

    # ---- rights

    def can(self, view: int, item: int, right: Right) -> bool:
        """Whether a right to an object can come to be."""
        key = (view, item, right.name)
        if key in self.allowed:
            return True
        if self.denied.get(key) == self.versions[item]:
            return False
        found = bool(self.views[view].effective & right.cap) or next(self.ways(view, item, right), None) is not None
        if found:
            self.allowed.add(key)
        else:
            self.denied[key] = self.versions[item]
        return found

    def ways(self, view: int, item: int, right: Right) -> Iterator[Tuple[Fact, ...]]:
        """The facts of an object by which there is a right to it."""
        one = self.views[view]
        if self.rough:
            yield from self.rough_ways(one, item, right)
        elif right.bit:
            for mode, owner, group in itertools.product(*(self.values[kind, item] for kind in (MODE, OWNER, GROUP))):
                if one.allows(mode, owner, group, right.bit):
                    yield ((MODE, item, mode), (OWNER, item, owner), (GROUP, item, group))
        elif right is OWN:
            yield from (((OWNER, item, user),) for user in self.values[OWNER, item] if user in one.users)
        else:
            yield from (((LABEL, item, label),) for label in self.values[LABEL, item] if one.fits(label, right is SEE))

    def rough_ways(self, one: View, item: int, right: Right) -> Iterator[Tuple[Fact, ...]]:
        """As above, where values that do the same count as one."""
        if right is SEE or right is MARK:
            yield from self.some(LABEL, item, lambda label: one.fits(label, right is SEE))
            return
        own = self.some(OWNER, item, lambda owner: owner in one.users)
        if right is OWN:
            yield from own
            return
        other = self.some(OWNER, item, lambda owner: bool(one.users - {owner}))
        member = self.some(GROUP, item, lambda group: group in one.groups or group in one.others)
        outside = self.some(GROUP, item, lambda group: group not in one.others and bool(one.groups - {group}))
        for mode in self.values[MODE, item]:
            for shift, needs in ((6, [own]), (3, [other, member]), (0, [other, outside])):
                if mode >> shift & right.bit and all(needs):
                    yield ((MODE, item, mode), *(fact for each in needs for (fact,) in each))

    def some(self, kind: str, item: int, fits: Callable[[Any], bool]) -> List[Tuple[Fact, ...]]:
        """The fact that an object has one of the values that fit; none where none does."""
        found = frozenset(filter(fits, self.values[kind, item]))
        return [((SOME, kind, item, found),)] if found else []

    def entered(self, family: int, view: int) -> Set[int]:
        """The directories that can be searched."""
        found: Set[int] = set()
        waiting = [self.cast.item_of[self.state.root], *(fact[2] for fact in self.cwds(family))]
        while waiting:
            directory = waiting.pop()
            if directory in found or not (self.can(view, directory, SEE) and self.can(view, directory, SEARCH)):
                continue
            found.add(directory)
            if view not in self.enterers[directory]:
                self.enterers[directory].add(view)
                self.changed.add(directory)
            waiting += [item for item in self.children[directory] if self.cast.kinds[item] is Kind.DIRECTORY]
        return found

    def at_start(self, view: int) -> Set[int]:
        """The objects to which paths lead by the attributes and names that objects begin with."""
        if view not in self.starts:
            found: Set[int] = set()
            waiting = [self.cast.item_of[self.state.root]]
            while waiting:
                directory = waiting.pop()
                if self.enters_at_start(self.views[view], self.state.things[self.cast.items[directory][0]]):
                    inside = self.inside_at_start[directory]
                    waiting += [item for item in inside if self.cast.kinds[item] is Kind.DIRECTORY]
                    found |= inside
            self.starts[view] = found
        return self.starts[view]

    def enters_at_start(self, view: View, thing: Thing) -> bool:
        """Whether a directory may be searched as it begins."""
        sees = bool(view.effective & SEE.cap) or view.dominates(thing.label)
        return sees and (bool(view.effective & SEARCH.cap) or view.allows(thing.mode, thing.owner, thing.group, SEARCH.bit))

    def is_moved(self, item: int, directory: int) -> bool:
        """Whether a move of an object into a directory can be of use: one who searches it has no path to the object at the start."""
        if self.merged:
            return True
        if not self.cast.items[item]:
            return self.is_made_moved(item)
        return any(not self.is_exact(view) or item not in self.at_start(view) for view in self.enterers[directory])

    def is_exact(self, view: int) -> bool:
        """Whether a view is that of one process, and not of several that count as one."""
        return self.cast.grain is not Grain.CLASSES and view in self.exact_views

    def is_made_moved(self, item: int) -> bool:
        """Whether an object that a script makes is moved: a FIFO, a file with the bytes or more modes, a directory that holds the bytes."""
        if self.cast.kinds[item] is Kind.DIRECTORY:
            return any((TAINT, child) in self.facts for child in self.children[item])
        first_modes = 1 if self.rough else 2
        return self.cast.kinds[item] is not Kind.FILE or (TAINT, item) in self.facts or len(self.values[MODE, item]) > first_modes

    def cwds(self, family: int) -> List[Fact]:
        """The facts of the current directories of a family."""
        return [(CWD, family, directory) for directory in self.values[CWD, family]]

    # ---- what follows without a call

    def derive(self) -> None:
        """Adds the steps of what follows without a call."""
        self.last_entered = {}
        done: Set[Fact] = set()
        while len(done) < len(self.asked):
            for fact in [each for each in self.asked if each not in done]:
                done.add(fact)
                how = {CAN: self.can_steps, GOT: self.got_steps, IN: self.in_steps, SOME: self.some_steps, FITS: self.fits_steps}[fact[0]](fact)
                for count, needs in enumerate(how):
                    self.steps[fact, count] = Step(0, needs, (fact,))
        self.derive_goal()

    def need(self, fact: Fact) -> Fact:
        """Notes a fact that follows without a call, and is needed."""
        if not self.merged:
            self.asked[fact] = None
        return fact

    def entered_at_last(self, family: int, view: int) -> Set[int]:
        """The directories that can be searched, when all was collected."""
        if (family, view) not in self.last_entered:
            self.last_entered[family, view] = self.entered(family, view)
        return self.last_entered[family, view]

    def can_steps(self, fact: Fact) -> Iterator[Tuple[Fact, ...]]:
        """How a right to an object follows."""
        _, view, item, right = fact
        by_cap: List[Tuple[Fact, ...]] = [(TRUE,)] if self.views[view].effective & RIGHTS[right].cap else []
        return itertools.chain(by_cap, (tuple(map(self.noted, way)) for way in self.ways(view, item, RIGHTS[right])))

    def noted(self, fact: Fact) -> Fact:
        """A fact, which is noted where it follows without a call."""
        return self.need(fact) if fact[0] == SOME else fact

    def some_steps(self, fact: Fact) -> List[Tuple[Fact, ...]]:
        """How an object has one of some values."""
        _, kind, item, values = fact
        return [((kind, item, value),) for value in self.values[kind, item] if value in values]

    def fits_steps(self, fact: Fact) -> List[Tuple[Fact, ...]]:
        """How the label of an object dominates that of a directory."""
        _, item, directory = fact
        pairs = itertools.product(self.values[LABEL, item], self.values[LABEL, directory])
        return [((LABEL, item, one), (LABEL, directory, other)) for one, other in pairs if one.dominates(other)]

    def got_steps(self, fact: Fact) -> List[Tuple[Fact, ...]]:
        """How a path to an object follows."""
        _, family, view, item = fact
        entered = self.entered_at_last(family, view)
        if item == self.cast.item_of[self.state.root]:
            return [(TRUE,)]
        return [((ENTRY, directory, item), self.need((IN, family, view, directory))) for directory in self.values[ENTRY, item]
                if directory in entered]

    def in_steps(self, fact: Fact) -> List[Tuple[Fact, ...]]:
        """How a directory comes to be searched."""
        _, family, view, item = fact
        rights = tuple(self.conditions(view, item, SEE, SEARCH))
        if item == self.cast.item_of[self.state.root]:
            return [rights or (TRUE,)]
        entered = self.entered_at_last(family, view)
        found = [(*rights, (ENTRY, directory, item), self.need((IN, family, view, directory)))
                 for directory in self.values[ENTRY, item] if directory in entered and directory != item]
        return found + [(*rights, cwd) for cwd in self.cwds(family) if cwd[2] == item]

    def conditions(self, view: int, item: int, *rights: Right) -> Iterator[Fact]:
        """The facts that rights to an object need."""
        for right in rights:
            if self.rough or not self.views[view].effective & right.cap:
                yield self.need((CAN, view, item, right.name))

    def derive_goal(self) -> None:
        """Adds the steps to the goal."""
        problem, cast = self.problem, self.cast
        goals: List[Tuple[Fact, ...]] = []
        if problem.program is not None:
            goals = [((RAN,),)]
        elif problem.process is not None:
            family = cast.family_of[problem.process]
            goals = [(fact,) for fact in self.facts if fact[:2] == (HOLDS, family)]
        else:
            assert problem.thing is not None
            goals = [((TAINT, cast.item_of[problem.thing]),)]
            goals += [(fact, (TAINT, fact[2])) for fact in self.facts if fact[:2] == (ON_PATH, len(problem.names))]
            self.derive_path()
        for count, needs in enumerate(goals):
            if all(fact in self.facts for fact in needs):
                self.steps[GOAL, count] = Step(0, needs, (GOAL,))
                self.facts[GOAL] = None

    def derive_path(self) -> None:
        """Adds the steps along the path TO."""
        for fact in [each for each in self.facts if each[0] == ON_PATH and each[1] < len(self.problem.names)]:
            _, count, directory = fact
            name = self.problem.names[count]
            for item in self.at[directory, name]:
                self.steps[fact, item] = Step(0, (fact, (AT, directory, name, item)), ((ON_PATH, count + 1, item),))


class Actor:
    """The steps of one who acts: of a family with some credentials. Where `focus` is given, those on these objects alone."""

    def __init__(self, closure: Closure, family: int, one: int, entered: Set[int], focus: Optional[Set[int]]):
        self.all, self.family, self.one, self.entered, self.focus = closure, family, one, entered, focus
        self.credentials = closure.credentials[one]
        self.view = closure.view_of[one]
        self.acts: Fact = (ACTS, family, one)
        self.seen: Fact = (AS, family, self.view)
        self.kinds = closure.cast.kinds
        self.needs_of: Dict[Tuple[int, bool], List[Fact]] = {}

    def step(self, words: Tuple[Any, ...], needs: Any, makes: Any) -> Step:
        """A call of one who is judged so."""
        return Step(1, (self.seen, *needs), tuple(makes), self.family, (True, self.view), words)

    def own_step(self, words: Tuple[Any, ...], needs: Any, makes: Any) -> Step:
        """A call of one with these very credentials."""
        return Step(1, (self.acts, *needs), tuple(makes), self.family, (False, self.one), words)

    def has(self, cap: int) -> bool:
        """Whether a capability is effective."""
        return bool(self.credentials.caps.effective & cap)

    def can(self, item: int, *rights: Right) -> bool:
        """Whether rights to an object can come to be."""
        return all(self.all.can(self.view, item, right) for right in rights)

    def conditions(self, item: int, *rights: Right) -> List[Fact]:
        """The facts that rights to an object need."""
        return list(self.all.conditions(self.view, item, *rights))

    def got(self, item: int) -> Fact:
        """The fact that a path leads to an object."""
        return self.all.need((GOT, self.family, self.view, item))

    def inside(self, directory: int) -> Fact:
        """The fact that a directory may be searched."""
        return self.all.need((IN, self.family, self.view, directory))

    def in_focus(self, item: int) -> bool:
        """Whether steps on an object are asked for."""
        return self.focus is None or item in self.focus

    def is_near_focus(self, directory: int) -> bool:
        """Whether steps on entries of a directory are asked for: on itself, or on what a name of the path TO leads to in it."""
        there = (item for name in self.all.names[directory] for item in self.all.at[directory, name])
        return self.in_focus(directory) or any(map(self.in_focus, there))

    def due(self, what: str, *items: int) -> bool:
        """Whether such a call is wanted, and calls are left after it."""
        return self.all.due(self.family, what, *items)

    def named(self) -> List[int]:
        """The objects to which paths lead."""
        children = {item for directory in self.entered for item in self.all.children[directory]}
        return sorted(children | {self.all.cast.item_of[self.all.state.root]})

    def own_steps(self) -> Iterator[Step]:
        """The steps that other credentials of the same view do not have."""
        if self.focus is None and self.due("become"):
            yield from self.becoming()
        for item in self.named():
            if self.in_focus(item) and self.kinds[item] is Kind.FILE and self.due("become", item) and self.can(item, SEE, EXECUTE):
                yield from self.executing(item)
        for item, how in self.all.opened[self.family]:
            if self.in_focus(item):
                yield from self.handing(item, how)

    def steps(self) -> Iterator[Step]:
        """The steps of one who is judged so."""
        named = self.named()
        if self.focus is None:
            yield from self.own()
        for item in named:
            if self.in_focus(item):
                yield from self.on_item(item)
        for item, _ in self.all.opened[self.family]:
            if self.in_focus(item) and self.can(item, MARK, OWN):
                yield from self.on_descriptor(item)
        for directory in [each for each in sorted(self.entered) if self.can(each, MARK, WRITE)]:
            if self.is_near_focus(directory):
                yield from self.making(directory)
            yield from self.moving(directory, named)

    # ---- what a process makes of itself

    def becomes(self, words: Tuple[Any, ...], needs: List[Fact], **values: Any) -> Iterator[Step]:
        """A change of credentials."""
        mine, new = self.credentials, self.credentials._replace(**values)
        known = Caps(0, 0, mine.caps.inheritable) if self.all.rough else mine.caps
        if self.is_unchanged(values) and is_less(new.caps, known):
            return
        if self.all.rough:
            number = self.all.version(self.family, self.one, new)
            if self.all.merged and number == self.one:
                return
        elif new not in self.all.numbers and len(self.all.credentials) >= MOST_CREDENTIALS:
            self.all.whole = False
            return
        else:
            number = self.all.number(new)
        yield self.own_step((*words, number), needs, [(DONE, self.family, self.one, number), (ACTS, self.family, number)])

    def is_unchanged(self, values: Mapping[str, Any]) -> bool:
        """Whether these values but capability sets are the own ones; roughly, equal ones may be others of one who counts as this one."""
        own = ((getattr(self.credentials, name), value) for name, value in values.items() if name != "caps")
        return all(one is other or (one == other and not self.all.rough) for one, other in own)

    def becoming(self) -> Iterator[Step]:
        """The changes of credentials without a program."""
        users, groups = self.credentials.users, self.credentials.groups
        yield from self.becomes(("cap_set_proc",), [], caps=most_of(self.credentials.caps))
        for user in self.all.users if self.has(Cap.SETUID) else users[0] | users[2]:
            yield from self.becomes(("setuid", user), [], users=changed(users, user, self.has(Cap.SETUID)))
        for group in self.all.groups if self.has(Cap.SETGID) else groups[0] | groups[2]:
            yield from self.becomes(("setgid", group), [], groups=changed(groups, group, self.has(Cap.SETGID)))
        for label in self.all.labels if self.has(Cap.MAC_RELABEL_SUBJ) else []:
            yield from self.becomes(("mac_set_proc", label), [], labels=frozenset((label,)))

    def own(self) -> Iterator[Step]:
        """The other calls that name no object."""
        if self.due("fork"):
            yield self.step(("fork",), [], [(MANY, self.family)])
        if self.due("umask"):
            yield self.step(("umask",), [], [(UMASK, self.family)])
        if self.due("pipe"):
            item = self.made(Kind.PIPE)
            yield self.step(("pipe", item), [], [*self.made_facts(item, 0o600), *self.open_facts(item)])

    def made(self, kind: Kind) -> int:
        """What this one makes, of a kind."""
        mine = self.credentials
        if self.all.rough:
            return self.all.cast.made_item(Made(kind, frozenset(), frozenset(), frozenset(), self.family))
        family = self.family if kind is Kind.PIPE else -1
        return self.all.cast.made_item(Made(kind, mine.labels, mine.users[1], mine.groups[1], family))

    def made_facts(self, item: int, mode: int) -> List[Fact]:
        """The facts of an object that is made."""
        mine = self.credentials
        return [*((LABEL, item, label) for label in mine.labels), *((OWNER, item, user) for user in mine.users[1]),
                *((GROUP, item, group) for group in mine.groups[1]), (MODE, item, mode), (CAPS, item, NO_CAPS)]

    def open_facts(self, item: int) -> List[Fact]:
        """The facts of an object that is open for reading and writing."""
        return [(OPENED, self.family, item, "r"), (OPENED, self.family, item, "w"), (HEARD, item)]

    # ---- on an object that a path leads to

    def on_item(self, item: int) -> Iterator[Step]:
        """The steps on an object."""
        if self.kinds[item] is Kind.DIRECTORY:
            if item in self.entered and self.due("chdir", item):
                yield self.step(("chdir", item), [self.got(item), self.inside(item)], [(CWD, self.family, item)])
        elif self.due("open", item):
            yield from self.opening(item)
        if self.is_program(item) and self.can(item, SEE, EXECUTE):
            yield self.step(("run", item), [self.got(item), *self.conditions(item, SEE, EXECUTE)], [(RAN,)])
        if self.can(item, MARK):
            yield from self.changing(item)

    def is_program(self, item: int) -> bool:
        """Whether an object is the program that this one is to execute."""
        cast, problem = self.all.cast, self.all.problem
        if problem.program is None or problem.process is None:
            return False
        return cast.item_of[problem.program] == item and cast.family_of[problem.process] == self.family

    def opening(self, item: int) -> Iterator[Step]:
        """Opening a file or FIFO."""
        reading = [SEE, READ, MARK] if self.kinds[item] is Kind.FIFO else [SEE, READ]
        if self.can(item, *reading):
            makes = [(OPENED, self.family, item, "r"), (HEARD, item)]
            yield self.step(("open", item, "r"), [self.got(item), *self.conditions(item, *reading)], makes)
        if self.can(item, MARK, WRITE):
            needs = [self.got(item), *self.conditions(item, MARK, WRITE)]
            yield self.step(("open", item, "w"), needs, [(OPENED, self.family, item, "w")])

    def executing(self, item: int) -> Iterator[Step]:
        """Executing a program."""
        mine, needs = self.credentials, [self.got(item), *self.conditions(item, SEE, EXECUTE)]
        for mode, caps in itertools.product(self.all.values[MODE, item], self.all.values[CAPS, item]):
            users = self.taken_ids(OWNER, item) if mode & rules.SET_USER else [(None, [])]
            groups = self.taken_ids(GROUP, item) if mode & rules.SET_GROUP else [(None, [])]
            for (user, owned), (group, shared) in itertools.product(users, groups):
                yield from self.becomes(("exec", item, mode, user, group, caps),
                                        [*needs, (MODE, item, mode), (CAPS, item, caps), *owned, *shared],
                                        users=mine.users if user is None else (mine.users[0], user, user),
                                        groups=mine.groups if group is None else (mine.groups[0], group, group),
                                        caps=rules.executed_caps(mine.caps, caps, self.all.state.bound))

    def taken_ids(self, kind: str, item: int) -> List[Tuple[Optional[Values], List[Fact]]]:
        """The owners or groups of a program that one who executes it gets, each with its need; roughly all are one."""
        values = self.all.values[kind, item]
        if self.all.rough:
            return [(frozenset(values), [self.all.need((SOME, kind, item, frozenset(values)))])]
        return [(one(value), [(kind, item, value)]) for value in values]

    def changing(self, item: int) -> Iterator[Step]:
        """Changing the attributes of an object."""
        owned = self.can(item, OWN)
        needs = [self.got(item), *self.conditions(item, MARK)]
        if owned and self.due("chmod", item):
            yield from self.chmod(item, needs)
        if owned:
            yield from self.labelling(("mac_set_file",), item, [*needs, *self.conditions(item, OWN)])
            yield from self.capping(("cap_set_file",), item, [*needs, *self.conditions(item, OWN)])
        if not self.due("chown", item):
            return
        if self.has(Cap.CHOWN):
            makes = [(OWNER, item, user) for user in self.all.users] + [(GROUP, item, group) for group in self.all.groups]
            yield self.step(("chown", item), needs, [*makes, *self.cleared(item)])
        elif self.can_own(item):
            makes = [(GROUP, item, group) for group in self.credentials.groups[1] | set(self.credentials.others)]
            yield self.step(("chown", item), [*needs, *self.owner(item)], [*makes, *self.cleared(item)])

    def cleared(self, item: int) -> List[Fact]:
        """The modes of an object without the set-ID bits, which a new owner, a new group and new content clear."""
        return [(MODE, item, mode & ~rules.SET_ID) for mode in self.all.values[MODE, item] if mode & rules.SET_ID]

    def can_own(self, item: int) -> bool:
        """Whether an object can be this one's own."""
        return not self.credentials.users[1].isdisjoint(self.all.values[OWNER, item])

    def owner(self, item: int) -> List[Fact]:
        """The fact that an object is this one's own."""
        return [self.all.need((CAN, self.view, item, OWN.name))]

    def chmod(self, item: int, needs: List[Fact]) -> Iterator[Step]:
        """Changing the mode."""
        owner = [] if self.has(Cap.FOWNER) else self.owner(item)
        yield self.step(("chmod", item, OPEN_MODE), [*needs, *owner], [(MODE, item, OPEN_MODE)])
        if self.kinds[item] is Kind.FILE and (self.can_own(item) or self.has(Cap.FSETID)):
            keeps = owner if self.has(Cap.FSETID) else self.owner(item)
            for bits in (rules.SET_USER, rules.SET_GROUP, rules.SET_ID):
                yield self.step(("chmod", item, OPEN_MODE | bits), [*needs, *keeps], [(MODE, item, OPEN_MODE | bits)])

    def labelling(self, words: Tuple[str, ...], item: int, needs: List[Fact]) -> Iterator[Step]:
        """Giving an object another label; the words are the call, and of a descriptor how it is open."""
        if not self.due("label", item):
            return
        holders = [label for directory in self.all.values[ENTRY, item] for label in self.all.values[LABEL, directory]]
        if not self.has(Cap.MAC_UPGRADE | Cap.MAC_DOWNGRADE) or item == self.all.cast.item_of[self.all.state.root]:
            return
        for new in self.all.labels:
            caps = [Cap.MAC_UPGRADE if new.dominates(old) else Cap.MAC_DOWNGRADE for old in self.all.values[LABEL, item] if old != new]
            if any(map(self.has, caps)) and (not holders or any(map(new.dominates, holders))):
                more = [*self.relabelled(item, new), *self.holding(item, new)]
                yield self.step((words[0], item, new, *words[1:]), [*needs, *more], [(LABEL, item, new)])

    def relabelled(self, item: int, new: Label) -> List[Fact]:
        """The fact that an object has a label which this one may take for another."""
        return self.labelled(item, lambda old: old == new or self.has(Cap.MAC_UPGRADE if new.dominates(old) else Cap.MAC_DOWNGRADE))

    def holding(self, item: int, new: Label) -> List[Fact]:
        """The fact that a new label of an object dominates that of the directory which has it; none where several may."""
        holders = self.all.values[ENTRY, item]
        return self.labelled(holders[0], new.dominates) if len(holders) == 1 else []

    def capping(self, words: Tuple[str, ...], item: int, needs: List[Fact]) -> Iterator[Step]:
        """Giving a file capability sets; the words are as above."""
        permitted = self.credentials.caps.permitted
        if self.kinds[item] is Kind.FILE and self.has(Cap.SETFCAP) and permitted and self.due("caps", item):
            caps = Caps(permitted, permitted, permitted)
            yield self.step((words[0], item, caps, *words[1:]), needs, [(CAPS, item, caps)])

    # ---- on a descriptor

    def handing(self, item: int, how: str) -> Iterator[Step]:
        """Reading the bytes, and writing them."""
        opened, stream = (OPENED, self.family, item, how), self.kinds[item].stream
        if how == "r" and self.due("read", item) and (TAINT, item) in self.all.facts and self.can(item, SEE, *([MARK] if stream else [])):
            needs = [opened, (TAINT, item), *self.conditions(item, SEE, *([MARK] if stream else []))]
            needs += [(MANY, self.family)] if self.kinds[item] is Kind.PIPE else []
            yield self.own_step(("read", item), needs, [(HOLDS, self.family, self.one)])
        holds = (HOLDS, self.family, self.one)
        heard = not stream or (HEARD, item) in self.all.facts
        if how == "w" and self.due("write", item) and holds in self.all.facts and heard and self.can(item, MARK):
            needs = [holds, opened, *self.conditions(item, MARK), *([(HEARD, item)] if stream else [])]
            yield self.own_step(("write", item), needs, [(TAINT, item), *self.cleared(item)])

    def on_descriptor(self, item: int) -> Iterator[Step]:
        """Changing an object that is open."""
        for how in [how for other, how in self.all.opened[self.family] if other == item]:
            needs = [(OPENED, self.family, item, how), *self.conditions(item, MARK, OWN)]
            yield from self.labelling(("mac_set_fd", how), item, needs)
            yield from self.capping(("cap_set_fd", how), item, needs)

    # ---- in a directory that is written

    def written(self, directory: int) -> List[Fact]:
        """The facts that writing a directory needs."""
        if (directory, True) not in self.needs_of:
            self.needs_of[directory, True] = [self.inside(directory), *self.conditions(directory, MARK, WRITE)]
        return self.needs_of[directory, True]

    def marked(self, item: int) -> List[Fact]:
        """The facts that changing an object needs."""
        if (item, False) not in self.needs_of:
            self.needs_of[item, False] = self.conditions(item, MARK)
        return self.needs_of[item, False]

    def making(self, directory: int) -> Iterator[Step]:
        """Making an object in a directory, and taking names of the path TO away."""
        if any(map(self.all.views[self.view].dominates, self.all.values[LABEL, directory])):
            for kind, call, what in ((Kind.FILE, "open", "make"), (Kind.FIFO, "mkfifo", "mkfifo"), (Kind.DIRECTORY, "mkdir", "mkdir")):
                if self.due(what, directory):
                    yield from self.making_kind(directory, kind, call)
        for name in self.all.names[directory] if self.due("free", directory) else ():
            for item in self.all.at[directory, name]:
                yield from self.freeing(directory, name, item)

    def making_kind(self, directory: int, kind: Kind, call: str) -> Iterator[Step]:
        """Making an object of a kind, under a new name or one of the path TO."""
        item = self.made(kind)
        umask: Fact = (UMASK, self.family)
        labelled = self.labelled(directory, self.all.views[self.view].dominates)
        ways: List[Tuple[List[Fact], int]] = [([], NEW_MODE)]
        if umask in self.all.facts:
            ways.append(([umask], OPEN_MODE))
        for (more, mode), name in itertools.product(ways, [None, *self.all.names[directory]]):
            makes = [*self.made_facts(item, mode), (ENTRY, directory, item)]
            self.all.births[item].add(directory)
            makes += self.open_facts(item) if kind is Kind.FILE else []
            makes += [(AT, directory, name, item)] if name is not None else []
            makes += [(FREE, item, each) for each in self.all.problem.names] if kind is Kind.DIRECTORY else []
            needs = [*self.written(directory), *labelled, *more, *([(FREE, directory, name)] if name is not None else [])]
            yield self.step((call, directory, item, mode, name), needs, makes)

    def freeing(self, directory: int, name: bytes, item: int) -> Iterator[Step]:
        """Taking a name of the path TO away."""
        if self.can(item, MARK):
            call = "rename away" if self.kinds[item] is Kind.DIRECTORY else "unlink"
            needs = [*self.written(directory), *self.conditions(item, MARK), (AT, directory, name, item)]
            yield self.step((call, directory, name, item), needs, [(FREE, directory, name)])

    def moving(self, directory: int, named: List[int]) -> Iterator[Step]:
        """Giving an object another name, in a directory."""
        for item in self.movable(directory, named):
            if not self.due("move", item, directory) or not self.can(item, MARK) or not self.fits(item, directory):
                continue
            if self.kinds[item] is not Kind.DIRECTORY:
                yield from self.linking(item, directory)
            if self.kinds[item] is Kind.DIRECTORY or self.all.taken_names(directory, item) or self.frees_label(item, directory):
                yield from self.renaming(item, directory)

    def movable(self, directory: int, named: List[int]) -> List[int]:
        """The objects whose moves into a directory are asked for; where facts alone are, and no steps, those that bring new ones."""
        if self.all.merged and not self.all.names[directory]:
            named = [item for item in named if (ENTRY, directory, item) not in self.all.facts]
        if not self.is_near_focus(directory):
            named = [item for item in named if self.in_focus(item)]
        return named

    def fits(self, item: int, directory: int) -> bool:
        """Whether some label of an object dominates one of a directory."""
        labels = self.all.values[LABEL, directory]
        other = item != directory or len(self.all.cast.items[item]) > 1
        return other and any(one.dominates(other) for one in self.all.values[LABEL, item] for other in labels)

    def fitting(self, item: int, directory: int) -> List[Fact]:
        """The fact that the label of an object dominates that of a directory, where some of their labels do not."""
        labels = self.all.values[LABEL, directory]
        all_fit = all(one.dominates(other) for one in self.all.values[LABEL, item] for other in labels)
        return [] if all_fit else [self.all.need((FITS, item, directory))]

    def labelled(self, item: int, fits: Callable[[Label], bool]) -> List[Fact]:
        """The fact that the label of an object is one that fits, where some of its labels do not."""
        labels = self.all.values[LABEL, item]
        fitting = frozenset(filter(fits, labels))
        return [] if len(fitting) == len(labels) else [self.all.need((SOME, LABEL, item, fitting))]

    def frees_label(self, item: int, directory: int) -> bool:
        """Whether an object may take a label in a directory that it can't have where it lies: a link would leave it there."""
        return any(self.frees_label_of(old, directory) for old in self.all.births[item])

    def frees_label_of(self, old: int, directory: int) -> bool:
        """Whether an object may take a label in a directory that it can't have in another one. Rough closures need the link alone."""
        if self.all.rough or not self.all.relabels:
            return False
        here, there = self.all.values[LABEL, directory], self.all.values[LABEL, old]
        return any(any(map(new.dominates, here)) and not all(map(new.dominates, there)) for new in self.all.labels)

    def linking(self, item: int, directory: int) -> Iterator[Step]:
        """Linking an object into a directory."""
        names, moved = self.all.taken_names(directory, item), self.all.has_left("free", self.family) and self.all.is_moved(item, directory)
        if not names and not moved:
            return
        needs = [self.got(item), *self.marked(item), *self.written(directory), *self.fitting(item, directory)]
        if moved:
            yield self.step(("link", item, directory, None), needs, [(ENTRY, directory, item)])
        for name in names:
            makes = [(ENTRY, directory, item), (AT, directory, name, item)]
            yield self.step(("link", item, directory, name), [*needs, (FREE, directory, name)], makes)

    def renaming(self, item: int, directory: int) -> Iterator[Step]:
        """Moving an object into a directory."""
        names, moved = self.all.taken_names(directory, item), self.all.has_left("free", self.family) and self.all.is_moved(item, directory)
        if not names and not moved:
            return
        olds = self.all.values[ENTRY, item] if self.kinds[item] is Kind.DIRECTORY else sorted(self.all.births[item])
        for old in olds:
            if old not in self.entered or not self.can(old, MARK, WRITE):
                continue
            needs = [*self.written(old), (ENTRY, old, item), *self.marked(item), *self.written(directory), *self.fitting(item, directory)]
            alone = self.kinds[item] is Kind.DIRECTORY or self.frees_label_of(old, directory)
            if alone and old != directory and moved:
                yield self.step(("rename", old, item, directory, None), needs, [(ENTRY, directory, item)])
            for name in names:
                yield from self.replacing(item, old, directory, name, needs)

    def replacing(self, item: int, old: int, directory: int, name: bytes, needs: List[Fact]) -> Iterator[Step]:
        """Moving an object to a name of the path TO, which nothing has or the object that has it at the start."""
        makes = [(ENTRY, directory, item), (AT, directory, name, item)]
        if self.kinds[item] is Kind.DIRECTORY:
            yield self.step(("rename", old, item, directory, name), [*needs, (FREE, directory, name)], makes)
        for target in self.all.at[directory, name][:None if self.all.rough else 1]:
            alike = (self.kinds[target] is Kind.DIRECTORY) == (self.kinds[item] is Kind.DIRECTORY)
            if target != item and alike and self.all.is_replaced(target) and self.can(target, MARK):
                more = [(AT, directory, name, target), *self.marked(target)]
                yield self.step(("rename over", old, item, directory, name, target), [*needs, *more], makes)


def changed(ids: Tuple[Values, Values, Values], value: int, every: bool) -> Tuple[Values, Values, Values]:
    """The real, effective and saved ones where every one, or the effective one alone, gets another value."""
    return (one(value), one(value), one(value)) if every else (ids[0], one(value), ids[2])
