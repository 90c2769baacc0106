"""The question `cuts --flow`: the fewest changes of the world after which no bytes of FROM get to TO."""
import argparse
from dataclasses import dataclass
from typing import Any, Dict, FrozenSet, Iterator, List, Optional, Sequence, Set, Tuple

from labask.answers import Status, WrongWords, table, write_json
from labask.cuts import Change, changes_of, differing, touched
from labask.effort import Effort, effort_of
from labask.flow import LOOKED_FOR, Flow, Found, Goal, goals_of, sources_of
from labask.flow import Answer as FlowAnswer
from labask.flow import report as flow_report
from labask.kernel.calls import Call, Path, play
from labask.kernel.rules import mode_allows
from labask.kernel.state import Kind, Labels, Number, first_state
from labask.playing import Player, Reply
from labask.search.finding import Ending, Line, Search
from labask.search.limits import Limits, limits_of
from labask.search.side_by_side import results
from labask.worlds import World, read_file, read_world

Changes = Tuple[Change, ...]
Script = Tuple[Line, ...]
MOST_PAIRS = 2_000
AT_ONCE = 4  # searches that do not wait for what the others find; not the number of jobs, so that the answer does not depend on it


def renumbered(script: Script, numbers: Dict[Number, Number]) -> Script:
    """A script whose processes have other numbers."""
    return tuple(line._replace(who=numbers.get(line.who, line.who)) for line in script)


@dataclass(frozen=True)
class Cut:
    """Changes after which no flow is found, and how many rights to read are lost by them at the start."""
    changes: Changes
    lost: int

    @property
    def words(self) -> str:
        """The changes in words."""
        return "; ".join(change.words for change in self.changes)


@dataclass(frozen=True)
class Tried:
    """What came of changes: how the search ended, the script that is left, and whether the script to keep is kept.

    Where a script that other changes left does it too, there was no search, and no script is given. `open` are those of which a
    search has to say it.
    """
    ending: Optional[Ending]
    script: Script = ()
    found: Optional[Found] = None
    kept: bool = True
    open: bool = False


class FlowCutter:
    """Looks for changes of a world after which no flow is found."""

    def __init__(self, world: World, player: Player, source: bytes, goal: Goal, keep: bytes, limits: Limits, effort: Effort):
        self.world, self.player, self.source, self.goal, self.limits, self.effort = world, player, source, goal, limits, effort
        self.keep = keep
        self.due: List[Reply] = player.play_accepted(world.head() + keep).replies
        self.known: List[Script] = []
        self.learned: List[Script] = []  # what other changes left
        self.rights = self.readable(world)
        self.tried = self.undecided = self.lost_replies = 0

    # ---- what comes of changes

    def changed(self, changes: Changes) -> World:
        """The world after changes."""
        return read_world(self.world.head({change.line: change.text for change in changes}))

    def goal_in(self, world: World) -> Goal:
        """TO in a changed world, where a process may have another number."""
        if isinstance(self.goal, bytes):
            return self.goal
        at = [each.tag for each in self.world.processes].index(self.goal)
        return world.processes[at].tag

    def flow(self, world: World) -> Flow:
        """The search in a changed world."""
        return Flow(world, self.player, self.source, self.goal_in(world), (), self.effort)

    def try_changes(self, changes: Changes) -> Tried:
        """What comes of changes without a search: nothing where the world is refused then, or a known script still does it."""
        world = self.changed(changes)
        if self.player.play(world.head()).status != 0:
            return Tried(None)
        same = all(one == other for one, other in self.numbers(world).items())
        if same and self.is_left(world, self.known):
            return Tried(None)
        if not self.keeps(world, changes, same):
            return Tried(None, kept=False)
        return Tried(Ending.FOUND) if self.is_left(world, (*self.known, *self.learned)) else Tried(None, open=True)

    def is_left(self, world: World, scripts: Sequence[Script]) -> bool:
        """Whether one of these scripts leads to TO in a changed world, by the model."""
        replayed, numbers = Search(self.flow(world).problem(), lambda _: True, lambda: False, 1), self.numbers(world)
        return any(replayed.replay(renumbered(script, numbers)) is not None for script in scripts)

    def search(self, changes: Changes) -> Tried:
        """What a search finds after changes, or a script that was learned."""
        world = self.changed(changes)
        return Tried(Ending.FOUND) if self.learned and self.is_left(world, self.learned) else self.look_in(world)

    def look(self, changes: Changes) -> Tried:
        """What a search finds after changes."""
        return self.look_in(self.changed(changes))

    def look_in(self, world: World) -> Tried:
        """What a search finds in a changed world."""
        flow = self.flow(world)
        found = flow.find(self.limits.depth, self.limits.states)
        return Tried(flow.result.ending, flow.result.script, found)

    def numbers(self, world: World) -> Dict[Number, Number]:
        """The numbers that processes have in a changed world."""
        number = Labels(world.policy).number
        return {number(one.tag): number(other.tag) for one, other in zip(self.world.processes, world.processes)}

    def keeps(self, world: World, changes: Changes, same: bool) -> bool:
        """Whether the script to keep has the same replies."""
        if not self.due:
            return True
        played = self.player.play(world.head() + self.keep)
        relabels = any(change.relabels for change in changes)
        return same and played.status == 0 and not differing(played.replies, self.due, relabels)

    def readable(self, world: World) -> Set[Tuple[int, bytes]]:
        """Which process may read which object at the start, by the model; processes count from 0."""
        labels = Labels(world.policy)
        state = first_state(world, labels)
        found = set()
        for at, process in enumerate(state.processes.values()):
            for line in world.objects:
                names = tuple(name for name in line.path.split(b"/") if name)
                done = play(state, labels.number(world.processes[at].tag), Call("stat", (Path(True, names),)))[1].done
                thing = state.things[labels.number(line.number)]
                if done and (thing.kind is Kind.DIRECTORY or mode_allows(thing, process, 4)):
                    found.add((at, line.path))
        return found

    # ---- the search for changes

    def candidates(self, script: Sequence[Line], found: Found) -> List[Change]:
        """The single changes of what a script names or passes, and of those who act in it."""
        world = read_world(found.world)
        acting = {line.text.split(" ")[0] for line in world.script}
        lines = {process.line for process in self.world.processes if process.tag not in acting}
        return [each for each in changes_of(self.world, touched(world, len(script))) if each.line not in lines]

    def cuts(self) -> Optional[List[Cut]]:
        """The fewest changes, those that lose the fewest rights first; None where there is no flow to cut."""
        flow = self.flow(self.world)
        found = flow.find(self.limits.depth, self.limits.states)
        self.first = FlowAnswer(self.source, self.goal, found, flow.result)
        if found is None:
            return None
        self.known.append(flow.result.script)
        singles = [(change,) for change in self.candidates(flow.result.script, found)]
        cuts, left = self.try_all(singles, "single changes")
        return cuts or self.pairs(self.searched(left))

    def searched(self, left: Sequence[Tuple[Changes, Tried]]) -> List[Tuple[Changes, Tried]]:
        """Those that leave another flow, each with its script."""
        without = [changes for changes, tried in left if tried.found is None]
        found = dict(results(self.effort, self.look, without))
        whole = [(changes, found.get(changes, tried)) for changes, tried in left]
        there = [(changes, tried) for changes, tried in whole if tried.found is not None]
        self.undecided += len(whole) - len(there)
        return there

    def try_all(self, all_changes: Sequence[Changes], what: str) -> Tuple[List[Cut], List[Tuple[Changes, Tried]]]:
        """The cuts among changes, and those that leave another flow."""
        cuts: List[Cut] = []
        left: List[Tuple[Changes, Tried]] = []
        for changes, tried in self.decided(all_changes, what):
            self.tried += 1
            self.lost_replies += not tried.kept
            if tried.ending is Ending.NEVER:
                cuts.append(Cut(changes, len(self.rights - self.readable(self.changed(changes)))))
            elif tried.ending is Ending.FOUND:
                left.append((changes, tried))
            elif tried.ending is not None:
                self.undecided += 1
        self.effort.clear()
        return sorted(cuts, key=lambda cut: cut.lost), left

    def decided(self, all_changes: Sequence[Changes], what: str) -> List[Tuple[Changes, Tried]]:
        """What comes of changes, as far as there is time. The first search is made alone: what it finds may spare the others."""
        found: Dict[Changes, Tried] = {}
        for changes, tried in results(self.effort, self.try_changes, all_changes):
            found[changes] = tried
            self.effort.progress(f"cuts: {len(found)} of {len(all_changes)} {what}")
        waiting, most = [changes for changes, tried in found.items() if tried.open], 1
        while waiting and not self.effort.stopped:
            searched = dict(results(self.effort, self.search, waiting[:most]))
            found.update(searched)
            self.learn(searched)
            waiting, most = waiting[most:], min(2 * most, AT_ONCE)
            self.effort.progress(f"cuts: {len(waiting)} of {len(all_changes)} {what} are left to be searched")
        return [(changes, found[changes]) for changes in all_changes if changes in found and not found[changes].open]

    def learn(self, searched: Dict[Changes, Tried]) -> None:
        """Notes the scripts that were found after changes which leave the processes their numbers."""
        for changes, tried in searched.items():
            numbers = self.numbers(self.changed(changes))
            if tried.script and all(one == other for one, other in numbers.items()):
                self.learned.append(tried.script)

    def pairs(self, left: Sequence[Tuple[Changes, Tried]]) -> List[Cut]:
        """The cuts of two changes: each of those that leave another flow, with a change of what that flow has."""
        found: Dict[FrozenSet[Change], Changes] = {}
        for changes, tried in left:
            assert tried.found is not None
            for other in self.candidates(tried.script, tried.found):
                if other.line != changes[0].line:
                    found.setdefault(frozenset((changes[0], other)), (changes[0], other))
        self.known += [tried.script for _, tried in left][:20]
        if len(found) > MOST_PAIRS:
            self.effort.stopped = True
        return self.try_all(list(found.values())[:MOST_PAIRS], "pairs of changes")[0]


def kept_script(world: World, name: Optional[str]) -> bytes:
    """The script whose replies are kept: that of a file, after its line `script` if it has one, or the world's own."""
    if name is None:
        return b"".join(line.text + b"\n" for line in world.lines[world.script_line:])
    text = read_file(name)
    _, found, script = text.partition(b"\nscript\n")
    return script if found else text


def report(cutter: FlowCutter, cuts: Sequence[Cut]) -> Iterator[str]:
    """The lines of the answer."""
    if cuts:
        rows = [["ROW", "LOST", "LINE", "CHANGE"]]
        rows += [[str(row), str(cut.lost), ",".join(str(change.line) for change in cut.changes), cut.words]
                 for row, cut in enumerate(cuts, 1)]
        yield from table(rows)
        yield "LOST is how many objects processes may no longer read at the start."
    what = "single changes" if all(len(cut.changes) == 1 for cut in cuts) else "changes, single and in pairs"
    yield f"{cutter.tried} {what} were tried; after {len(cuts)} of them no script of any length is left, by the rules of labask's model."
    if cutter.lost_replies:
        yield f"{cutter.lost_replies} more were left out since they change replies of the script that is kept."
    if cutter.undecided or cutter.effort.stopped:
        untried = " Other changes were not tried." if cutter.effort.stopped else ""
        yield f"{cutter.undecided} were not decided, since their search stopped early.{untried}"
    yield f"The flows that are cut were played by labsys. {LOOKED_FOR}"


def as_json(cutter: FlowCutter, cuts: Sequence[Cut]) -> Dict[str, Any]:
    """The answer as JSON has it."""
    return {"played": True, "flow": cutter.first.as_json(), "tried": cutter.tried, "undecided": cutter.undecided,
            "whole": not cutter.effort.stopped, "changed_replies": cutter.lost_replies,
            "cuts": [{"lost": cut.lost, "changes": [{"line": change.line, "change": change.words, "text": change.text.decode("latin-1")}
                                                    for change in cut.changes]} for cut in cuts]}


def status_of(cutter: FlowCutter, cuts: Sequence[Cut]) -> Status:
    """The exit status: yes where there are cuts."""
    if cuts:
        return Status.YES
    return Status.STOPPED if cutter.undecided or cutter.effort.stopped else Status.NO


def answer_flow(arguments: argparse.Namespace, player: Player) -> int:
    """Answers the question."""
    text = read_file(arguments.file)
    player.check(text)
    world, limits = read_world(text), limits_of(arguments)
    sources, goals = sources_of(world, arguments.flow[0]), goals_of(world, arguments.flow[1])
    if len(sources) != 1 or len(goals) != 1 or sources[0] == goals[0]:
        raise WrongWords("--flow takes one file FROM and another TO, each a single one")
    cutter = FlowCutter(world, player, sources[0], goals[0], kept_script(world, arguments.keep), limits, effort_of(arguments))
    cuts = cutter.cuts()
    if cuts is None:
        print("\n".join(flow_report(cutter.first, limits, ())))
        return int(cutter.first.status)
    if arguments.apply is not None:
        if not 1 <= arguments.apply <= len(cuts):
            raise WrongWords(f"there are {len(cuts)} rows; there is no row {arguments.apply}")
        changes = cuts[arguments.apply - 1].changes
        print((world.head({change.line: change.text for change in changes}) + kept_script(world, None)).decode("latin-1"), end="")
        return Status.DONE
    if arguments.json:
        write_json(as_json(cutter, cuts))
    else:
        print("\n".join(report(cutter, cuts)))
    return int(status_of(cutter, cuts))
