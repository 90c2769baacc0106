"""Tests that the search of a rule from several files to one TO finds a script as short as those of the pairs."""
import pytest

from exhaustive.random_worlds import random_world
from labask.effort import Effort
from labask.flow import Flow, Goal
from labask.playing import Player
from labask.rule_answers import Case, FlowsTo, Subject
from labask.rule_texts import read_groups
from labask.worlds import Kind, read_world

MOST = 4  # calls of a script


def case_of(seed: int, player: Player) -> Case:
    """A case about a random world."""
    [group] = read_groups("rules", b"world random\nconfined\n")
    return Case("rules", group.rules[0], Subject("random", read_world(random_world(seed).head.encode("ascii")), player))


@pytest.mark.parametrize("seed", [1, 4, 9, 15])
def test_a_search_of_all_files_finds_what_those_of_the_pairs_do(seed: int, player: Player) -> None:
    case = case_of(seed, player)
    world = case.subject.world
    files = [each.path for each in world.objects if each.kind is Kind.FILE]
    goals: "list[Goal]" = [*(each.tag for each in world.processes), *(files[:1] if len(files) > 1 else [])]
    for goal in goals:
        sources = [each for each in files if each != goal]
        pairs = [Flow(world, player, each, goal, (), Effort()).find(MOST) for each in sources]
        flows = FlowsTo(case, sources, goal, (), Effort())
        flows.find(lambda: MOST, 0, 2_000)
        due = min((len(each.calls) for each in pairs if each is not None), default=None)
        assert (len(flows.found[1].calls) if flows.found is not None else None) == due
        if flows.found is not None:
            assert pairs[sources.index(flows.found[0])] is not None
