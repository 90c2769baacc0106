"""How many calls are left at least: a lower bound, from steps whose facts are never lost.

The bound is that of landmark cuts: again and again, a set of steps is found of which every script needs one.
"""
from collections import deque
from typing import Deque, Dict, Iterable, List, NamedTuple, Sequence, Set, Tuple

from labask.search.facts import GOAL, TRUE, Fact, Step

NEVER = 1 << 30


class Reached(NamedTuple):
    """What each fact and each step costs, and the dearest need of each step."""
    facts: List[int]
    steps: List[int]
    dearest: List[int]


def by_fact(facts_of: Sequence[Sequence[int]], size: int) -> List[List[int]]:
    """For each fact the steps that have it among these facts of theirs."""
    found: List[List[int]] = [[] for _ in range(size)]
    for at, facts in enumerate(facts_of):
        for fact in facts:
            found[fact].append(at)
    return found


class Task:
    """Steps with numbers in place of facts."""

    def __init__(self, steps: Sequence[Step]):
        self.numbers: Dict[Fact, int] = {TRUE: 0, GOAL: 1}
        number = self.numbers.setdefault
        needs = [[number(fact, len(self.numbers)) for fact in step.needs] or [0] for step in steps]
        makes = [[number(fact, len(self.numbers)) for fact in step.makes] for step in steps]
        self.put(steps, needs, makes, len(self.numbers))

    def put(self, steps: Sequence[Step], needs: Sequence[Sequence[int]], makes: Sequence[Sequence[int]], size: int) -> None:
        """Puts steps in, with the numbers of what they need and make in their order, which are below a size."""
        self.given, self.needs_in_order, self.makes_in_order, self.size = steps, needs, makes, size
        self.needs, self.makes = [tuple(set(each)) for each in needs], [tuple(set(each)) for each in makes]
        self.costs = [step.cost for step in steps]
        self.needed, self.made = by_fact(self.needs, size), by_fact(self.makes, size)

    def part(self, kept: Sequence[int], first: Sequence[int]) -> Tuple["Task", List[int]]:
        """The task of some of the steps alone, and the numbers that facts with these numbers have in it.

        It is the one that is made of these steps, but for the facts: the numbers stand for them.
        """
        numbers = {0: 0, 1: 1}
        number = numbers.setdefault
        needs = [[number(fact, len(numbers)) for fact in self.needs_in_order[at]] for at in kept]
        makes = [[number(fact, len(numbers)) for fact in self.makes_in_order[at]] for at in kept]
        task = Task(())
        task.put([self.given[at] for at in kept], needs, makes, len(numbers))
        return task, sorted(numbers[fact] for fact in first if fact in numbers)

    def known(self, facts: Iterable[Fact]) -> List[int]:
        """The numbers of the facts that some step needs."""
        numbers = self.numbers
        return [numbers[fact] for fact in facts if fact in numbers]

    def reach(self, first: Iterable[int], costs: Sequence[int]) -> Reached:
        """What all costs from these facts, where a step costs as much as its dearest need and itself."""
        facts = [NEVER] * self.size
        steps, dearest = [NEVER] * len(costs), [-1] * len(costs)
        left = list(map(len, self.needs))
        now, cost = list(first), 0  # what costs so much, the next one last
        later: List[int] = []  # what costs one more
        for fact in now:
            facts[fact] = 0
        now.reverse()
        while now:
            fact = now.pop()
            for step in self.needed[fact] if facts[fact] >= cost else ():
                left[step] -= 1
                if left[step] == 0:
                    steps[step], dearest[step] = cost, fact
                    whole, note = (cost + 1, later) if costs[step] else (cost, now)
                    for made in self.makes[step]:
                        if whole < facts[made]:
                            facts[made] = whole
                            note.append(made)
            if not now:
                now, later, cost = later[::-1], [], cost + 1
        return Reached(facts, steps, dearest)

    def left(self, costs: Sequence[int]) -> List[int]:
        """What is left at least to the goal where a fact is used, for each fact."""
        found = [NEVER] * self.size
        found[1] = 0
        waiting: Deque[int] = deque([1])
        while waiting:
            fact = waiting.popleft()
            for step in self.made[fact]:
                cost = found[fact] + costs[step]
                for need in self.needs[step]:
                    if cost < found[need]:
                        found[need] = cost
                        if costs[step]:
                            waiting.append(need)
                        else:
                            waiting.appendleft(need)
        return found

    # ---- the bound

    def bound(self, first: Sequence[int], reached: Reached, most: int) -> int:
        """The bound from these facts, or any number above `most` where it is higher."""
        return self.cuts(first, reached, list(self.costs), most)[0]

    def cuts(self, first: Sequence[int], reached: Reached, costs: List[int], most: int) -> Tuple[int, Reached]:
        """The bound as above, and what all costs beside it; it takes what it counts off these costs."""
        value = 0
        while reached.facts[1]:
            if reached.facts[1] >= NEVER or value + reached.facts[1] > most:
                return value + reached.facts[1], reached
            cut = self.cut(first, reached, costs)
            value += 1
            for step in cut:
                costs[step] -= 1
            reached = self.reach(first, costs)
        return value, reached

    def through(self, first: Sequence[int], most: int) -> List[int]:
        """For each step, how many calls a script has at least that has the step, or any number above `most` where it is more.

        The bound counts some calls once for every script; what the step costs beside them comes to it.
        """
        costs = list(self.costs)
        value, reached = self.cuts(first, self.reach(first, costs), costs, most)
        if value > most:
            return [value] * len(costs)
        left = self.left(costs)
        return [value + before + cost + min(left[made] for made in makes)
                for before, cost, makes in zip(reached.steps, costs, self.makes)]

    def cut(self, first: Sequence[int], reached: Reached, costs: Sequence[int]) -> List[int]:
        """Steps of which one is needed: those that lead into what is next to the goal without cost."""
        near = self.near_goal(reached, costs)
        seen = [False] * self.size
        waiting = list(first)
        for fact in first:
            seen[fact] = True
        found: List[int] = []
        while waiting:
            fact = waiting.pop()
            for step in self.needed[fact]:
                if reached.dearest[step] != fact:
                    continue
                if not near.isdisjoint(self.makes[step]):
                    found.append(step)
                    continue
                for made in self.makes[step]:
                    if not seen[made]:
                        seen[made] = True
                        waiting.append(made)
        return found

    def near_goal(self, reached: Reached, costs: Sequence[int]) -> Set[int]:
        """The facts from which dearest needs lead to the goal without cost."""
        near, waiting = {1}, [1]
        while waiting:
            for step in self.made[waiting.pop()]:
                need = reached.dearest[step]
                if costs[step] == 0 and need >= 0 and need not in near:
                    near.add(need)
                    waiting.append(need)
        return near

    def plan(self, reached: Reached) -> List[int]:
        """Steps that lead to the goal where nothing is lost."""
        found: Dict[int, None] = {}
        waiting, seen = [1], {1}
        while waiting:
            fact = waiting.pop()
            if reached.facts[fact] == 0 and not any(reached.steps[step] == 0 for step in self.made[fact]):
                continue
            step = min((each for each in self.made[fact] if reached.steps[each] < NEVER),
                       key=lambda each: reached.steps[each] + self.costs[each], default=None)
            if step is None or reached.steps[step] + self.costs[step] > reached.facts[fact]:
                continue
            found[step] = None
            new = [need for need in self.needs[step] if need not in seen]
            seen.update(new)
            waiting += new
        return list(found)
