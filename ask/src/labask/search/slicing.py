"""Leaves out of a problem what no script of so many calls has to do with."""
import dataclasses
import random
from collections import defaultdict
from typing import Any, DefaultDict, Dict, Iterable, Iterator, List, NamedTuple, Optional, Sequence, Set, Tuple

from labask.kernel.state import Number
from labask.search.costs import Task
from labask.search.facts import (AT, CAN, CAPS, CWD, ENTRY, FITS, FREE, GOT, GROUP, HEARD, IN, LABEL, MODE, ON_PATH, OPENED, OWNER,
                                 SOME, TAINT, Fact, Step)
from labask.search.problem import MOST_ALIKE, Cast, Choices, Grain, Problem
from labask.search.wanted import purpose

# The places of objects in facts.
PLACES: Dict[str, Tuple[int, ...]] = {
    LABEL: (1,), OWNER: (1,), GROUP: (1,), MODE: (1,), CAPS: (1,), ENTRY: (1, 2), AT: (1, 3), FREE: (1,), TAINT: (1,), HEARD: (1,),
    CWD: (2,), OPENED: (2,), ON_PATH: (2,), IN: (3,), GOT: (3,), CAN: (2,), SOME: (2,), FITS: (1, 2),
}
ORDERS = 8  # of the facts, in which the better bound is asked


class Simple(NamedTuple):
    """The simple bounds of steps: how many calls there are at least from each step on, and in a script that has it."""
    due: List[int]
    least: List[int]


def simple(task: Task, start: List[int]) -> Simple:
    """The simple bounds of the steps of a task, where the facts with these numbers are the first."""
    left = task.left(task.costs)
    before = task.reach(start, task.costs).steps
    due = [step.cost + min(map(left.__getitem__, makes)) for step, makes in zip(task.given, task.makes)]
    return Simple(due, [one + rest for one, rest in zip(before, due)])


def kept_steps(steps: Iterable[Step], first: Iterable[Fact], bound: int) -> List[Tuple[int, Step]]:
    """The steps that a script of so many calls can have, each with how many calls there are at least from it on; none without one.

    The better bound takes longer, so that it is asked of what the simple one leaves. It depends on the order of the facts, so that it
    is asked several times.
    """
    task = Task(list(steps))
    start = sorted(set(task.known(first)))
    asked: Optional[Simple] = None
    due: List[int] = []
    for turn in range(ORDERS + 1):
        asked = asked or simple(task, start)
        least, due = asked.least, asked.due
        if turn:
            ordered = random.Random(turn).sample(start, len(start))
            least = [max(both) for both in zip(least, task.through(ordered, bound))]
        kept = [at for at, count in enumerate(least) if count <= bound]
        if len(kept) < len(due):
            task, start = task.part(kept, start)
            due, asked = [due[at] for at in kept], None
        if not kept:
            break
    return list(zip(due, task.given))


def items_of(steps: Iterable[Step]) -> Set[int]:
    """The items of the facts of steps, and those that their calls name."""
    given = list(steps)
    facts = {fact for step in given for fact in (*step.needs, *step.makes)}
    named = {item for step in given if step.cost for item in purpose(step.words)[1]}
    return named | {fact[place] for fact in facts for place in PLACES.get(fact[0], ())}


def sliced(problem: Problem, cast: Cast, steps: Sequence[Step], choices: Choices) -> Problem:
    """The problem with these choices, and with the objects and processes alone of which steps are; of objects that are alike some."""
    state = problem.state.copy()
    families = {step.family for step in steps if step.cost}
    kept = Kept(problem, cast, items_of(steps)).numbers()
    state.things = {number: thing for number, thing in state.things.items() if number in kept}
    state.spots = {number: spots for number, spots in state.spots.items() if number in kept}
    state.names = {number: names for number, names in state.names.items() if number in kept}
    state.processes = {number: process for number, process in state.processes.items()
                       if number in problem.asked or cast.family_of[number] in families}
    return dataclasses.replace(problem, state=state, choices=choices)


class Kept:
    """The objects that a problem keeps: of some items, and those that they lie in."""

    def __init__(self, problem: Problem, cast: Cast, items: Set[int]):
        self.problem, self.state, self.cast, self.items = problem, problem.state, cast, items
        self.asked = problem.kept
        self.most = len(problem.state.things) if cast.grain is Grain.CLASSES else MOST_ALIKE
        self.forms: Dict[Any, int] = {}
        self.form_of: Dict[Number, int] = {}
        for number in reversed(list(self.state.things)):
            self.note(number)

    def note(self, number: Number) -> None:
        """Notes the form of an object: objects of one form are alike with all that lies in them. What lies in it was noted before."""
        inside: DefaultDict[Tuple[bytes, int], int] = defaultdict(int)
        for name, child in self.entries(number):
            inside[self.own_name(name), self.form_of[child]] += 1
            if self.cast.item_of[child] in self.items:
                self.items.add(self.cast.item_of[number])
        counts = frozenset((each, min(count, self.most)) for each, count in inside.items())
        key = (number if number in self.asked else None, self.cast.item_of[number], counts)
        self.form_of[number] = self.forms.setdefault(key, len(self.forms))

    def entries(self, directory: Number) -> List[Tuple[bytes, Number]]:
        """The entries of a directory that are there; of those that were left out it has the names alone."""
        return [(name, number) for name, number in self.state.names.get(directory, {}).items() if number in self.state.things]

    def own_name(self, name: bytes) -> bytes:
        """A name, where it matters because the path TO has it."""
        return name if name in self.problem.names else b""

    def numbers(self) -> Set[Number]:
        """The objects."""
        found, waiting = set(self.asked), list(self.asked)
        while waiting:
            new = [number for number in self.inside(waiting.pop()) if number not in found]
            found.update(new)
            waiting += new
        return found

    def inside(self, directory: Number) -> Iterator[Number]:
        """What is kept of the entries of a directory."""
        alike: DefaultDict[int, int] = defaultdict(int)
        for name, number in self.entries(directory):
            form = self.form_of[number]
            alike[form] += self.cast.item_of[number] in self.items
            if name in self.problem.names or (self.cast.item_of[number] in self.items and alike[form] <= self.most):
                yield number
