"""The scripts of a search as scripts of the world itself, whether they give the flow there, and what `labask flow` finds."""
from typing import Any, Dict, Iterator, List, Sequence, Tuple

from exhaustive.calls import Call, after
from exhaustive.names import first_state
from exhaustive.random_worlds import RandomWorld, random_world
from exhaustive.search import Goal, Script, Search
from labask.flow import Flow
from labask.observing import with_observer
from labask.playing import Outcome, Player
from labask.worlds import read_world

DEPTH = 4
STATES = 100_000  # more than `flow` looks at in these worlds, so that it stops at the depth alone


def lines_of(world: RandomWorld, script: Sequence[Call]) -> List[str]:
    """The lines of a script in the world itself."""
    state = first_state(world)
    tags = list(world.tags)
    drawn = {label: sum(each.label == label for each in world.processes) for label in world.labels}
    lines = []
    for call in script:
        lines.append(f"{tags[call.actor]} {call.text('')}")
        if call.name == "fork":
            label = state.labels[call.actor]
            drawn[label] += 1
            tags.append(f"{drawn[label]}@{label}")
        if call.name != "read":
            state = after(call, state)
    return lines


def name_of(world: RandomWorld, goal: Goal) -> str:
    """The word for TO: the tag of a process, or a path."""
    return world.tags[goal[1]] if goal[0] == "process" else world.objects[goal[1]].path


def gives(world: RandomWorld, lines: Sequence[str], source: int, goal: Goal, player: Player) -> bool:
    """Whether a script gives the flow: its last read gives the bytes, or an observer reads them at the path then."""
    head, observer = with_observer(read_world(world.head.encode()))
    look = [] if goal[0] == "process" else [f"{observer} open {name_of(world, goal)} r", f"{observer} read 0 64"]
    replies = player.play_accepted(head + "".join(line + "\n" for line in [*lines, *look]).encode()).replies
    last = replies[-1]
    content = world.objects[source].content.encode()
    return all(each.outcome is Outcome.DONE for each in replies) and last.call == "read" and content in last.words[0].value


def found_by_flow(world: RandomWorld, source: int, goal: Goal, player: Player) -> List[str]:
    """The calls that `labask flow` finds, none where it finds no script."""
    name = name_of(world, goal)
    asked = name if goal[0] == "process" else name.encode()
    found = Flow(read_world(world.head.encode()), player, world.objects[source].path.encode(), asked).find(DEPTH, STATES)
    return [call.text for call in found.calls] if found else []


def pairs_of(seed: int, program: str) -> Tuple[RandomWorld, Dict[Tuple[int, Goal], Script]]:
    """The random world of a seed and the shortest script of each of its flows."""
    world = random_world(seed)
    search = Search(world, program)
    search.run()
    return world, search.found


def played_flows(seed: int, player: Player) -> Iterator[Tuple[RandomWorld, int, Goal, List[str]]]:
    """The flows of a random world, each with a shortest script that was played in the world itself."""
    world, found = pairs_of(seed, player.program[0])
    for (source, goal), script in sorted(found.items()):
        lines = lines_of(world, script)
        if not gives(world, lines, source, goal, player):
            raise AssertionError(f"seed {seed}: the script does not give the flow in the world itself: {lines}")
        yield world, source, goal, lines


def as_json(seed: int, world: RandomWorld, source: int, goal: Goal, lines: Sequence[str]) -> Dict[str, Any]:
    """A pair with its script, as JSON has it."""
    return {"seed": seed, "world": world.head, "from": world.objects[source].path, "to": name_of(world, goal), "script": list(lines)}


def missed_by_flow(seed: int, program: str) -> Iterator[Dict[str, Any]]:
    """The flows of a random world for which `labask flow` finds no script as short."""
    player = Player([program])
    for world, source, goal, lines in played_flows(seed, player):
        other = found_by_flow(world, source, goal, player)
        if not 0 < len(other) <= len(lines):
            yield {**as_json(seed, world, source, goal, lines), "flow": other}
