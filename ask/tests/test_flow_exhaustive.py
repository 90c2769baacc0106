"""Compares `labask flow` with an exhaustive search of random worlds by scripts of up to four calls (see the package `exhaustive`).

A few small worlds are searched by default, and 200 worlds where the variable LABASK_EXHAUSTIVE is set, on two processors.
"""
import concurrent.futures
import functools
import os
from typing import Any, Dict, List, Tuple

import pytest

from exhaustive.calls import Call, calls_of
from exhaustive.copies import Job
from exhaustive.flows import DEPTH, found_by_flow, gives, lines_of, missed_by_flow, name_of
from exhaustive.random_worlds import Actor, RandomWorld, Thing, random_world
from exhaustive.search import Node, Search, done
from labask.playing import Player
from labask.signatures import CALLS

WORLDS = 200
SHORT = (0, 1, 4, 5, 7, 9, 10)  # seeds of worlds that are searched within about a second
PROCESSORS = 2
SMALL = (10, 17, 21)  # seeds of worlds that are searched without pruning too
TRIED = ("chmod", "chown", "mac_set_file", "cap_set_file", "exec", "chdir", "unlink", "rmdir", "open", "rename", "link", "mkdir", "setuid",
         "setgid", "mac_set_proc", "cap_set_proc", "fork", "mac_set_fd", "cap_set_fd", "write")
# the other calls: each with arguments by which it is done or refused at the start of a world
ANSWERING = ("stat /", "readdir /", "mac_get_file /", "cap_get_file /", "fstat 0", "mac_get_fd 0", "cap_get_fd 0", "lseek 0 set 0",
             "read 0 9", "getpid", "getppid", "getids", "cap_get_proc", "mac_get_proc", "wait", "aud_write x", "aud_switch off",
             "close 0", "dup 0", "umask 0000", "pipe")


def made_world(objects: Tuple[Thing, ...], processes: Tuple[Actor, ...]) -> RandomWorld:
    """A world with the labels lo and hi."""
    root = Thing("dir", "/", 0o755, 0, 0, "lo")
    return RandomWorld(("world 2", "levels lo hi", "categories", "bound all"), (root, *objects), processes, ("lo", "hi"))


# worlds with a flow that takes four calls: FROM, TO, and the calls of a script
WAYS = {
    "a mode is changed before the user is": (made_world(
        (Thing("dir", "/d", 0o700, 10, 10, "lo"), Thing("file", "/d/f", 0o600, 10, 10, "lo", "bytes of f"),
         Thing("dir", "/e", 0o700, 20, 20, "lo"), Thing("file", "/e/g", 0o600, 20, 20, "lo", "bytes of g")),
        (Actor("lo", 20, 20, (), "cap_setuid=p"),)), "/d/f", "/e/g", ["chmod", "cap_set_proc", "setuid", "rename"]),
    "a file is opened before its directory is closed": (made_world(
        (Thing("dir", "/d", 0o730, 30, 10, "lo"), Thing("file", "/d/f", 0o600, 10, 10, "lo", "bytes of f"),
         Thing("dir", "/h", 0o700, 10, 10, "hi"), Thing("file", "/h/g", 0o400, 30, 30, "hi", "bytes of g"),
         Thing("file", "/x", 0o6755, 20, 20, "lo", "bytes of x", "cap_fowner,cap_mac_upgrade=ep")),
        (Actor("lo", 10, 10, (), "="), Actor("hi", 10, 10, (), "cap_mac_write=ep"))), "/d/f", "/h/g",
        ["open", "exec", "mac_set_fd", "rename"]),
    "a directory is entered before the way to it is closed": (made_world(
        (Thing("dir", "/d", 0o710, 30, 10, "lo"), Thing("dir", "/d/e", 0o755, 30, 30, "lo"),
         Thing("file", "/d/e/f", 0o600, 20, 20, "lo", "bytes of f"), Thing("file", "/x", 0o6755, 20, 20, "lo", "bytes of x")),
        (Actor("lo", 10, 10, (), "="),)), "/d/e/f", "1@lo", ["chdir", "exec", "open", "read"]),
    "a child executes a program and its parent does not": (made_world(
        (Thing("dir", "/d", 0o700, 10, 10, "lo"), Thing("file", "/d/f", 0o600, 10, 10, "lo", "bytes of f"),
         Thing("dir", "/e", 0o700, 20, 20, "lo"), Thing("file", "/e/g", 0o600, 20, 20, "hi", "bytes of g"),
         Thing("file", "/x", 0o4755, 20, 20, "lo", "bytes of x")),
        (Actor("lo", 10, 10, (), "cap_mac_write=ep"),)), "/d/f", "/e/g", ["fork", "exec", "chmod", "rename"]),
}


@pytest.mark.parametrize("name", WAYS)
def test_ways_that_need_their_order(name: str, player: Player) -> None:
    """The search and `flow` find a way by four calls, and no shorter one."""
    world, source, goal, _ = WAYS[name]
    search = Search(world, player.program[0])
    search.run()
    scripts = {(world.objects[number].path, name_of(world, to)): (number, to, script) for (number, to), script in search.found.items()}
    number, to, script = scripts[source, goal]
    assert len(script) == DEPTH
    assert gives(world, lines_of(world, script), number, to, player)
    assert len(found_by_flow(world, number, to, player)) == DEPTH


def missed(seed: int, program: str) -> List[Dict[str, Any]]:
    """The flows of a world that `labask flow` misses."""
    return list(missed_by_flow(seed, program))


def test_flow_misses_no_flow_of_random_worlds(program: str) -> None:
    """`flow` finds a script as short for each flow that the exhaustive search finds, and that is so in the world itself."""
    seeds = range(WORLDS) if os.environ.get("LABASK_EXHAUSTIVE") else SHORT
    with concurrent.futures.ProcessPoolExecutor(PROCESSORS) as pool:
        faults = [fault for found in pool.map(functools.partial(missed, program=program), seeds) for fault in found]
    assert not faults, "\n".join(f"seed {each['seed']}: {each['from']} to {each['to']} by {each['script']}; flow: {each['flow']}"
                                 for each in faults)


@pytest.mark.parametrize("world", [*map(random_world, SMALL), WAYS["a directory is entered before the way to it is closed"][0]])
def test_pruning_loses_no_flow(world: RandomWorld, program: str) -> None:
    """A search that asks each call after each script finds the same flows by scripts as short."""
    found = []
    for pruned in (True, False):
        search = Search(world, program, pruned)
        search.run()
        found.append({pair: len(script) for pair, script in search.found.items()})
    assert found[0] == found[1]


def test_each_call_of_the_profile_is_tried_or_answers() -> None:
    """The calls that are tried, those that only answer, and those that are left out are all of the profile."""
    left_out = {"mkfifo", "kill", "exit"}
    assert {*TRIED, *(each.split()[0] for each in ANSWERING), *left_out} == set(CALLS)


def test_the_calls_that_are_tried_are_tried() -> None:
    """Each call that is said to be tried is among those of some state."""
    worlds = [random_world(seed) for seed in range(WORLDS)]
    names = set()
    for world in worlds:
        search = Search(world, "")
        state = search.copies.first.with_actor(0, descriptors=(search.files[0],))
        names |= {call.name for actor in range(len(world.processes)) for call in calls_of(actor, state, search.arguments)}
    assert names == set(TRIED)


@pytest.mark.parametrize("seed", SMALL)
def test_the_other_calls_leave_the_state_as_it_was(seed: int, program: str) -> None:
    """After a call that is not tried, objects and processes answer as before."""
    search = Search(random_world(seed), program)
    root = Node((), search.copies.first)
    search.tell([root])
    asked = [Call(actor, name, tuple(words[:1]) if words[:1] == ["/"] else (), " ".join(words if words[:1] != ["/"] else ()))
             for actor in range(len(root.state.labels)) for name, *words in map(str.split, ANSWERING)]
    job = Job((), asked)
    search.copies.play([job])
    after = [Node((call,), root.state) for call in asked if done(job.replies[call])]
    search.tell(after)
    assert after and all(node.facts == root.facts for node in after)
