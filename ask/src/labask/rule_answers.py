"""Whether rules hold of worlds: by a proof of `labsys`, by plays, or by the search of `flow`, whatever answers first."""
import dataclasses
import enum
import functools
import multiprocessing
from dataclasses import dataclass, field
from typing import Any, Callable, Dict, List, Optional, Sequence, Tuple, Union

from labask.answers import WrongWords
from labask.capability_texts import read_sets
from labask.effort import Effort
from labask.exercising import Exercised, Exercising, Record, calls_of, is_asked_for
from labask.flow import Call, Flow, Found, Goal, collecting_seldom, goal_text, goals_of, sources_of
from labask.kernel.state import Labels
from labask.playing import Played, Player
from labask.proved import LABEL_CAPABILITIES, Proved, proved
from labask.rule_texts import Access, Answered, Confined, NeverExercise, NeverFlow, Rule, RuleFault, Uncrossed
from labask.search.finding import Ending, Line, Result, Search
from labask.search.limits import Limits
from labask.search.problem import MARK, Problem
from labask.search.side_by_side import results
from labask.sets import objects_named, processes_named
from labask.who import CHILD, PROCESS, Answer as Cell
from labask.who import Access as Allowed
from labask.who import Namer, Right, ask, forms_of
from labask.worlds import Kind, Word, World, WorldObject, WorldProcess, parent_path, path_word

RIGHTS = {
    Kind.DIRECTORY: {"read": Right.LIST, "write": Right.WRITE, "execute": Right.SEARCH},
    Kind.FILE: {"read": Right.READ, "write": Right.WRITE, "execute": Right.EXECUTE},
    Kind.FIFO: {"read": Right.READ, "write": Right.WRITE},
}


class Holding(enum.Enum):
    """Whether a rule holds of a world."""
    HOLDS = "holds"
    BROKEN = "broken"
    UNDECIDED = "undecided"


class Basis(enum.Enum):
    """What says so: a proof of labsys, plays of single calls or of a script, or labask's model of labsys."""
    PROOF = "proof"
    PLAY = "play"
    MODEL = "model"
    NONE = "-"


@dataclass(frozen=True)
class Verdict:
    """Whether a rule holds, what says so, and why; of a broken one a script that was played, and the world to play it in;
    of one that a search left undecided, up to how many calls all scripts were tried."""
    holding: Holding
    basis: Basis
    why: str
    calls: Tuple[Call, ...] = ()
    world: bytes = b""
    tried: int = 0


STOPPED = Verdict(Holding.UNDECIDED, Basis.NONE, "it was stopped before this was answered")


class Subject:
    """A world that rules are asked about."""

    def __init__(self, file: str, world: World, player: Player):
        self.file, self.world, self.player = file, world, player

    @functools.cached_property
    def played(self) -> Played:
        """The run of its own script."""
        return self.player.play_accepted(self.world.text)

    @functools.cached_property
    def proved(self) -> Proved:
        """What is proved of it for every script."""
        return proved(self.player, self.world.text)

    @functools.cached_property
    def labels(self) -> Labels:
        """The labels of its policy."""
        return Labels(self.world.policy)

    def dominates(self, label: str, other: str) -> bool:
        """Whether a label dominates another one."""
        return self.labels.read(label).dominates(self.labels.read(other))


@dataclass
class Case:
    """A rule of a file that is asked about a world, and the verdict, once there is one."""
    file: str
    rule: Rule
    subject: Subject
    verdict: Verdict = field(default=STOPPED)

    def fault(self, message: str, word: Optional[Word] = None) -> RuleFault:
        """The fault of a rule that names what the world does not have."""
        return RuleFault(self.file, self.rule.line, f"{self.subject.file}: {message}", word or self.rule.line.words[0])


FEW_CALLS = 4  # by which it is asked first whether there is a flow
Thing = Union[WorldObject, WorldProcess]
Task = Callable[[], Verdict]


# ---- never flow

def likeness(thing: Thing) -> Any:
    """What objects and processes are equal in of which a script may use one in place of the other."""
    caps = read_sets(thing.caps or "=").written
    if isinstance(thing, WorldProcess):
        return thing.label, thing.user, thing.group, thing.groups, caps
    return parent_path(thing.path), thing.kind, thing.mode, thing.owner, thing.group, thing.label, caps


def unlike_pairs(world: World, pairs: Sequence[Tuple[bytes, Goal]]) -> List[Tuple[bytes, Goal]]:
    """Of pairs that are alike, the first one."""
    found: Dict[Any, Tuple[bytes, Goal]] = {}
    for source, goal in pairs:
        found.setdefault((likeness(world.objects_by_path[source]), likeness(thing_of(world, goal))), (source, goal))
    return list(found.values())


def thing_of(world: World, goal: Goal) -> Thing:
    """The process or object TO."""
    return world.processes_by_tag[goal] if isinstance(goal, str) else world.objects_by_path[goal]


def is_kept_apart(subject: Subject, source: bytes, goal: Goal) -> bool:
    """Whether no flow is there by a proof: no script crosses the label of TO, and it does not dominate that of FROM."""
    label = thing_of(subject.world, goal).label
    return label in subject.proved.uncrossed and not subject.dominates(label, subject.world.objects_by_path[source].label)


class Shortest:
    """The calls of the shortest script so far and the place of its pair, for all processes of this machine.

    A worker of a cluster has a copy of its own.
    """

    def __init__(self, calls: int, place: int):
        self.shared: Any = multiprocessing.get_context("fork").Array("i", (calls, place))

    def __reduce__(self) -> Tuple[Any, ...]:
        return Shortest, self.known

    @property
    def known(self) -> Tuple[int, int]:
        """The calls and the place by now."""
        with self.shared.get_lock():
            calls, place = map(int, self.shared)
        return calls, place

    def found(self, calls: int, place: int) -> None:
        """A script of so many calls was found for the pair at a place."""
        with self.shared.get_lock():
            self.shared[:] = min(tuple(self.shared), (calls, place))

    def most_calls(self, place: int, depth: int) -> int:
        """How many calls a script of a pair may have to be shown, where it may have so many at most."""
        calls, best_place = self.known
        return min(depth, calls if place < best_place else calls - 1)


class FlowsTo:
    """The search for a flow from any of several files to one TO; `found` is the script with the file whose bytes it brings there."""

    def __init__(self, case: Case, sources: Sequence[bytes], goal: Goal, without: Sequence[str], effort: Effort):
        self.case, self.sources, self.goal, self.without, self.effort = case, sources, goal, without, effort
        self.found: Optional[Tuple[bytes, Found]] = None

    def flow(self, source: bytes) -> Flow:
        """The search from one of the files alone."""
        return Flow(self.case.subject.world, self.case.subject.player, source, self.goal, self.without, self.effort)

    def problem(self) -> Problem:
        """What the search is asked: the mark is in each of the files."""
        flow = self.flow(self.sources[0])
        problem, world = flow.problem(), flow.world
        others = tuple(flow.labels.number(world.objects_by_path[each].number) for each in self.sources[1:])
        for number in others:
            problem.state.put(number, problem.state.things[number]._replace(content=MARK))
        return dataclasses.replace(problem, others=others)

    def accepts(self, script: Tuple[Line, ...]) -> bool:
        """Whether a script brings the bytes of one of the files there when it is played; the first one is kept."""
        flows = ((source, self.flow(source)) for source in self.sources)
        self.found = next(((source, flow.found) for source, flow in flows if flow.shows(script) and flow.found is not None), None)
        return self.found is not None

    def find(self, most_calls: Callable[[], int], excluded: int, states: int) -> Result:
        """Looks for a shortest script, of more calls than are excluded and of as many as are asked for, which may become fewer."""
        search = Search(self.problem(), self.accepts, lambda: self.effort.over() or search.bound > most_calls(), states)
        with collecting_seldom():
            return search.find(most_calls(), excluded)


class FlowDecider:
    """Decides a rule on flows in rounds: each TO is asked for bytes of any FROM up to a few calls, and then one by one up to all.

    Processes are asked before objects. Where a TO gets some, the others are asked for shorter scripts alone: the shortest is shown, and
    of the first TO that has one.
    """

    def __init__(self, case: Case, rule: NeverFlow, limits: Limits, effort: Effort):
        self.case, self.rule, self.limits, self.effort = case, rule, limits, effort
        world = case.subject.world
        pairs = [(source, goal) for source in sources_of(world, rule.source) for goal in goals_of(world, rule.goal) if source != goal]
        if not pairs:
            raise WrongWords("FROM and TO are the same object")
        self.count = len(pairs)
        left = [pair for pair in pairs if not is_kept_apart(case.subject, *pair)]
        self.proved, self.sources = len(pairs) - len(left), by_goal(unlike_pairs(world, left))
        self.tried = dict.fromkeys(self.sources, 0)  # of each TO that is asked, up to how many calls no script does it
        self.places = {goal: place for place, goal in enumerate(self.sources)}
        self.few, self.asked, self.depth = min(FEW_CALLS, limits.depth), self.open_goals(), 0
        self.shortest = Shortest(limits.depth + 1, len(left))
        self.broken: Dict[int, Verdict] = {}  # by the place of TO
        self.undecided: List[Verdict] = []
        if not self.sources:
            case.verdict = Verdict(Holding.HOLDS, Basis.PROOF, f"no script crosses the labels of TO; {counted(self.count, 'pair')}")

    def open_goals(self) -> List[Goal]:
        """Each TO that is asked by now: the processes, and where none is left the objects."""
        return [goal for goal in self.tried if isinstance(goal, str)] or list(self.tried)

    def tasks(self) -> List[Task]:
        """What is to be done in the next round."""
        goals = self.open_goals()
        near = [goal for goal in goals if self.tried[goal] < self.few]
        self.asked, self.depth = (near, self.few) if near else (goals[:1], self.limits.depth)
        return [functools.partial(self.decide_goal, self.places[goal], goal, self.depth) for goal in self.asked]

    def decide_goal(self, place: int, goal: Goal, depth: int) -> Verdict:
        """The verdict about a TO by scripts of so many calls, or fewer where a script is known."""
        most_calls, tried = functools.partial(self.shortest.most_calls, place, depth), self.tried[goal]
        if most_calls() <= tried:
            return STOPPED
        flows = FlowsTo(self.case, self.sources[goal], goal, self.rule.exceptions, self.effort)
        result = flows.find(most_calls, tried, self.limits.states)
        if flows.found is not None:
            source, found = flows.found
            self.shortest.found(len(found.calls), place)
            why = f"bytes get from {path_word(source)} to {goal_text(goal)} by {counted(len(found.calls), 'call')}"
            return Verdict(Holding.BROKEN, Basis.PLAY, why, found.calls, found.world)
        if result.ending is Ending.NEVER:
            return Verdict(Holding.HOLDS, Basis.MODEL, "")
        why = f"the search from {files_text(self.sources[goal])} to {goal_text(goal)} stopped at the {result.ending.value}"
        return Verdict(Holding.UNDECIDED, Basis.NONE, why, tried=result.excluded)

    def take(self, found: Sequence[Verdict]) -> None:
        """Takes the verdicts of a round, in the order of its tasks; fewer where it was stopped."""
        for goal, verdict in zip(self.asked, found):
            self.take_one(goal, verdict)
        if self.broken:
            self.tried = {goal: tried for goal, tried in self.tried.items()
                          if self.shortest.most_calls(self.places[goal], self.limits.depth) > tried}
        if len(found) < len(self.asked) or not self.tried:
            self.conclude(len(found) < len(self.asked))

    def take_one(self, goal: Goal, verdict: Verdict) -> None:
        """Takes the verdict about a TO, which is asked again where all scripts of a few calls were tried."""
        if verdict.holding is Holding.UNDECIDED and verdict.tried == self.depth < self.limits.depth:
            self.tried[goal] = verdict.tried
            return
        del self.tried[goal]
        if verdict.holding is Holding.BROKEN:
            self.shortest.found(len(verdict.calls), self.places[goal])
            self.broken[self.places[goal]] = verdict
        elif verdict.holding is Holding.UNDECIDED:
            self.undecided.append(verdict)

    def conclude(self, stopped: bool) -> None:
        """Gives the case its verdict by what is known."""
        self.tried = {}
        if self.broken:
            self.case.verdict = self.broken[min(self.broken, key=lambda place: (len(self.broken[place].calls), place))]
        elif stopped or self.undecided:
            self.case.verdict = self.undecided[0] if self.undecided else STOPPED
        else:
            proved = f", {self.proved} by a proof" if self.proved else ""
            why = f"no script of any length does it; {counted(self.count, 'pair')}{proved}"
            self.case.verdict = Verdict(Holding.HOLDS, Basis.MODEL, why)


def by_goal(pairs: Sequence[Tuple[bytes, Goal]]) -> Dict[Goal, List[bytes]]:
    """For each TO of pairs the files FROM."""
    found: Dict[Goal, List[bytes]] = {}
    for source, goal in pairs:
        found.setdefault(goal, []).append(source)
    return found


def files_text(sources: Sequence[bytes]) -> str:
    """The files FROM in words."""
    return path_word(sources[0]) + (f" and {len(sources) - 1} more" if len(sources) > 1 else "")


# ---- never exercise, uncrossed and confined

def counted(count: int, word: str) -> str:
    """A number with a word for what is counted."""
    return f"{count} {word}{'' if count == 1 else 's'}"


def broken_by(found: Exercised, what: str) -> Verdict:
    """The verdict where a script was found."""
    who = found.calls[-1].text.partition(" ")[0]
    return Verdict(Holding.BROKEN, Basis.PLAY, f"{who} {what} by {counted(len(found.calls), 'call')}", found.calls, found.world)


def decide_exercise(case: Case, rule: NeverExercise, limits: Limits, effort: Effort) -> Verdict:
    """The verdict about a capability that is never exercised."""
    world = case.subject.world
    if rule.capability in case.subject.proved.never:
        return Verdict(Holding.HOLDS, Basis.PROOF, "no process may ever have it")
    if not is_asked_for(rule.capability):
        return Verdict(Holding.HOLDS, Basis.MODEL, "no check of the call table asks for it")
    spared = {each.tag for word in rule.exceptions for each in processes_named(world, word)}
    exercising = Exercising(world, case.subject.player, limits, effort, spared)
    if not exercising.having(rule.capability):
        return Verdict(Holding.HOLDS, Basis.MODEL, "no other process may ever have it" if spared else "no process may ever have it")
    found = exercising.find(rule.capability, lambda _: True)
    if found is not None:
        return broken_by(found, f"exercises {rule.capability}")
    return STOPPED if effort.over() else Verdict(Holding.UNDECIDED, Basis.NONE, "no script was found, and none is excluded")


def crosses(subject: Subject, label: str, record: Record) -> bool:
    """Whether an exercise of a capability over labels crosses a label."""
    labels = [record[name] for name in ("label", "thing_label", "new") if record[name] is not None]
    return len({subject.dominates(label, each) for each in labels}) > 1


def decide_crossing(case: Case, label: Optional[str], limits: Limits, effort: Effort) -> Verdict:
    """The verdict about a label that no script crosses, or about all of them."""
    subject = case.subject
    if subject.proved.confined or label in subject.proved.uncrossed:
        return Verdict(Holding.HOLDS, Basis.PROOF, "no script crosses a label" if label is None else "no script crosses it")
    exercising, found = Exercising(subject.world, subject.player, limits, effort), []
    for capability in (name for name in LABEL_CAPABILITIES if name not in subject.proved.never):
        one = exercising.find(capability, lambda record: label is None or crosses(subject, label, record))
        if one is not None and (label is None or subject.player.view(label, one.world).crossed):
            found.append((capability, one))
    if found:
        capability, shortest = min(found, key=lambda each: len(each[1].calls))
        return broken_by(shortest, f"crosses {'a label' if label is None else label} with {capability}")
    return STOPPED if effort.over() else Verdict(Holding.UNDECIDED, Basis.NONE, "no script was found, and none is excluded")


# ---- may, deny and call

def single_call(world: World, cell: Cell) -> str:
    """The call that uses a right."""
    form = next(form for form in forms_of(world.objects_by_path[cell.path], Namer(world)) if form.right is cell.right)
    return form.lines[form.answering].replace(PROCESS, cell.process).replace(CHILD, cell.process)


def cells_of(case: Case, rule: Access, effort: Effort) -> List[Cell]:
    """What is answered of each process and object that a rule names."""
    world = case.subject.world
    objects = [each for each in objects_named(world, rule.path) if rule.right in RIGHTS[each.kind]]
    answers = ask(world, processes_named(world, rule.process), objects, case.subject.player, effort)
    return [each for each in answers if each.right is RIGHTS[world.objects_by_path[each.path].kind].get(rule.right)]


def is_as_due(rule: Access, cell: Cell) -> bool:
    """Whether an answer is as a rule says."""
    return cell.allowed if rule.allowed else cell.access is Allowed.DENIED and rule.check in (None, cell.check)


def decide_access(case: Case, rule: Access, effort: Effort) -> Verdict:
    """The verdict about what processes may do with objects at the start."""
    cells = cells_of(case, rule, effort)
    others = [each for each in cells if not is_as_due(rule, each) and each.access is not Allowed.NOT_ASKED]
    if others:
        cell, world = others[0], case.subject.world
        script = (single_call(world, cell),)
        text = world.with_script(script)
        means = "may" if cell.allowed else "is denied to"
        why = f"{cell.process} {means} {rule.right} {path_word(cell.path)}" + (f": {cell.text}" if cell.text != "yes" else "")
        why += f"; {len(others)} of {len(cells)} answers are otherwise" if len(cells) > 1 else ""
        played = case.subject.player.play_accepted(text)
        return Verdict(Holding.BROKEN, Basis.PLAY, why, calls_of(script, played, case.subject.player), text)
    if effort.stopped:
        return STOPPED
    unasked = sum(each.access is Allowed.NOT_ASKED for each in cells)
    if unasked:
        return Verdict(Holding.UNDECIDED, Basis.NONE, f"{unasked} of {len(cells)} answers could not be asked for")
    return Verdict(Holding.HOLDS, Basis.PLAY, counted(len(cells), "answer"))


def decide_reply(case: Case, rule: Answered) -> Verdict:
    """The verdict about the reply to a call of the script."""
    subject = case.subject
    reply, line = subject.played.replies[rule.call - 1], subject.world.lines_by_call[rule.call]
    given = [reply.outcome.value] if reply.outcome.value == "ok" else [reply.error or "", reply.check or "", reply.place or ""]
    words = [*(word.encode("ascii") for word in given), *(word.value for word in reply.words)]
    if [word.value for word in rule.reply] == words[:len(rule.reply)]:
        return Verdict(Holding.HOLDS, Basis.PLAY, "1 reply")
    call = Call(line.single(rule.call).strip(), reply.text, (), None)
    return Verdict(Holding.BROKEN, Basis.PLAY, f"the reply is {reply.text}", (call,), subject.world.text)


# ---- all rules

def require_names(case: Case) -> None:
    """Raises `RuleFault` where a rule names what the world does not have."""
    rule, world = case.rule, case.subject.world
    try:
        if isinstance(rule, Access):
            processes_named(world, rule.process)
            if not any(rule.right in RIGHTS[each.kind] for each in objects_named(world, rule.path)):
                raise WrongWords(f"nothing is executed at {rule.path}")
        elif isinstance(rule, NeverExercise):
            for word in rule.exceptions:
                processes_named(world, word)
        elif isinstance(rule, Uncrossed):
            processes_named(world, f"label:{rule.label}")
        elif isinstance(rule, Answered) and not 1 <= rule.call <= len(case.subject.world.lines_by_call):
            raise WrongWords(f"the script has {counted(len(world.lines_by_call), 'call')}; there is no call {rule.call}")
    except WrongWords as fault:
        raise case.fault(str(fault)) from fault


def decide(case: Case, limits: Limits, effort: Effort) -> Verdict:
    """The verdict about a rule that is answered at once."""
    rule = case.rule
    if isinstance(rule, NeverExercise):
        return decide_exercise(case, rule, limits, effort)
    if isinstance(rule, Access):
        return decide_access(case, rule, effort)
    if isinstance(rule, Answered):
        return decide_reply(case, rule)
    label = case.subject.world.policy.canonical(rule.label) if isinstance(rule, Uncrossed) else None
    return decide_crossing(case, label, limits, effort)


class SingleDecider:
    """Decides a rule by one task."""

    def __init__(self, case: Case, limits: Limits, effort: Effort):
        self.case, self.left = case, [functools.partial(decide, case, limits, Effort(1, effort.until))]

    def tasks(self) -> List[Task]:
        """What is to be done in the next round."""
        return list(self.left)

    def take(self, found: Sequence[Verdict]) -> None:
        """Takes the verdict of the round, if there is one."""
        self.left = []
        for verdict in found:
            self.case.verdict = verdict


def decider_of(case: Case, limits: Limits, effort: Effort) -> Union[FlowDecider, SingleDecider]:
    """What decides a case. What many of them ask of a world is asked here, before work is done side by side."""
    if isinstance(case.rule, NeverFlow):
        try:
            return FlowDecider(case, case.rule, limits, effort)
        except WrongWords as fault:
            raise case.fault(str(fault)) from fault
    if isinstance(case.rule, (NeverExercise, Uncrossed, Confined)):
        case.subject.proved
    elif isinstance(case.rule, Answered):
        case.subject.played
    return SingleDecider(case, limits, effort)


def decide_all(cases: Sequence[Case], limits: Limits, effort: Effort) -> None:
    """Gives each case its verdict, as far as there is time."""
    for case in cases:
        require_names(case)
    deciders = sorted((decider_of(case, limits, effort) for case in cases), key=lambda each: isinstance(each, FlowDecider))  # plays first
    while not effort.stopped:
        todo = [(decider, decider.tasks()) for decider in deciders]
        tasks = [task for _, tasks in todo for task in tasks]
        if not tasks:
            break
        found: List[Verdict] = []
        for place, verdict in results(effort, lambda place: tasks[place](), range(len(tasks))):
            found.append(verdict)
            effort.progress(f"test: {place + 1} of {len(tasks)} questions")
        for decider, own in todo:
            if own:
                decider.take(found[:len(own)])
                del found[:len(own)]
    effort.clear()
