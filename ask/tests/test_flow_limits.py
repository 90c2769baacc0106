"""Tests what `flow` says where its search was cut at a limit: no number of calls counts as tried then."""
import gc

import pytest
from support import TOP

from labask import flow
from labask.effort import default_effort
from labask.playing import Player
from labask.search import closure
from labask.search.finding import Ending
from labask.worlds import read_world

WORLD = read_world((TOP / "examples" / "backup_for_all.txt").read_bytes())
PAIR = (b"/pay/list of may", "1@internal:eng")
CALLS = 3  # of a shortest script, whose first one is an exec


def answer_of(player: Player, depth: int) -> flow.Answer:
    return flow.ask(WORLD, player, PAIR, (), flow.Limits(depth), default_effort())


def test_a_whole_search_excludes_shorter_scripts(player: Player) -> None:
    answer = answer_of(player, CALLS - 1)
    assert answer.result.ending is Ending.DEPTH and answer.result.excluded == CALLS - 1
    answer = answer_of(player, CALLS)
    assert answer.found is not None and flow.shortest(answer).startswith("No script of fewer calls")


def test_a_search_leaves_the_garbage_collector_as_it_was(player: Player) -> None:
    before = gc.get_threshold()
    answer_of(player, CALLS)
    assert gc.get_threshold() == before


def test_a_search_that_was_cut_does_not_exclude_what_it_left_out(player: Player, monkeypatch: pytest.MonkeyPatch) -> None:
    monkeypatch.setattr(closure, "MOST_CREDENTIALS", 1)
    answer = answer_of(player, CALLS)
    assert answer.found is None and answer.result.ending is Ending.STATES and answer.result.excluded < CALLS
    assert f"at most {CALLS} calls" not in flow.why_stopped(answer, flow.Limits(CALLS))
