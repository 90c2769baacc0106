"""Explains calls of a run: while it is played again, the facts are asked for; then what was denied is tried again."""
import threading
from collections import deque
from dataclasses import dataclass, field
from typing import Dict, FrozenSet, Iterator, List, Optional, Sequence, Set, Tuple

from labask.aftermath import Later, afterwards
from labask.capability_texts import named
from labask.check import NoProcess, without_process
from labask.effort import Effort
from labask.exec_formula import ExecFormula
from labask.explained import Call, Explained, Follower
from labask.granting import Passing, Run, Trials
from labask.histories import History
from labask.observing import Observed, ProcessFacts, prefixes, process_facts
from labask.playing import Outcome, Played, Player, PlayingFault, Reply
from labask.reasons import check_in_words, error_in_words
from labask.signatures import CALLS, UTILITIES
from labask.worlds import ScriptLine, World, path_word


@dataclass(frozen=True)
class Asked:
    """Which calls are asked about: those of some numbers, or else those that were not done, and of them those of some processes.
    Of an `exec` the formula is shown where `formulas` says so."""
    numbers: Optional[FrozenSet[int]] = None
    tags: Optional[FrozenSet[str]] = None
    formulas: bool = False

    def wants(self, reply: Reply) -> bool:
        """Whether a call is asked about."""
        if self.tags is not None and reply.tag not in self.tags:
            return False
        if self.numbers is None:
            return reply.outcome is not Outcome.DONE
        return reply.number in self.numbers


@dataclass(frozen=True)
class Tried:
    """A denied call that was tried again: with what it passes, the caller then, and the calls that are done then by their numbers."""
    call: Call
    passing: Optional[Passing] = None
    after: Optional[ProcessFacts] = None
    later: Dict[int, Later] = field(default_factory=dict)


class Workers:
    """Tries calls again, in several threads: each has trials of its own. Used as a context, at whose end the trials end."""

    def __init__(self, run: Run):
        self.run = run
        self.last = run.not_done[-1].number if run.not_done else 0
        self.own = threading.local()
        self.all: "deque[Trials]" = deque()

    def __enter__(self) -> "Workers":
        return self

    def __exit__(self, *_: object) -> None:
        for each in self.all:
            each.close()

    def trials(self) -> Trials:
        """The trials of this thread."""
        if not hasattr(self.own, "trials"):
            self.own.trials = Trials(self.run)
            self.all.append(self.own.trials)
        found: Trials = self.own.trials
        return found

    def try_call(self, call: Call) -> Tried:
        """Tries a denied call again, and plays what comes after it where it passes."""
        trials = self.trials()
        passing = trials.passing(call.line, call.reply)
        trial = trials.passed(call.line, passing) if passing is not None else None
        if trial is None or passing is None:
            return Tried(call, passing)
        after = process_facts(trial.session, call.reply.tag)
        return Tried(call, passing, after, afterwards(trial, call.line, call.reply, passing, self.last))


class Asker:
    """Explains calls of a run: while it is played again, the facts are asked for; then what was denied is tried again."""

    def __init__(self, world: World, played: Played, player: Player, effort: Optional[Effort] = None, in_step: bool = False):
        self.world, self.played, self.effort = world, played, effort or Effort()
        self.history = History(player.select("all", played.trail))
        self.programs: Dict[int, Optional[bytes]] = {}
        self.run = Run(world, player, played.replies, self.history, self.programs, in_step)
        self.missing: Dict[int, NoProcess] = {each.reply.number: each for each in without_process(world, played, player)}

    def calls(self, last: int) -> Iterator[Call]:
        """The calls of the script up to the last, with their replies in the run."""
        lines = self.world.lines_by_call
        return (Call(lines[reply.number], reply) for reply in self.played.replies[:last])

    # ---- facts

    def observe(self, asked: Asked) -> List[Explained]:
        """The calls that are asked about, each with what is asked for right after it, or before an `exec`."""
        wanted = {reply.number for reply in self.played.replies if asked.wants(reply)}
        last = max(wanted, default=0)
        found: List[Explained] = []
        with Observed(self.world, self.run.player) as observed:
            for line in self.world.script:
                if line.first_call > last or self.effort.stops():
                    break
                found += self.observe_line(observed, line, wanted, asked.formulas)
                self.effort.progress(f"why: call {line.first_call} of {last}")
        return found

    def observe_line(self, observed: Observed, line: ScriptLine, wanted: Set[int], formulas: bool) -> Iterator[Explained]:
        """The calls of a line that are asked about."""
        formula = self.formula(observed, line) if formulas and line.call == "exec" and line.first_call in wanted else None
        for reply in observed.play(line):
            due = self.played.replies[reply.number - 1]
            if reply.text != due.text:
                raise PlayingFault(f"call {due.number} is answered otherwise where an observer looks on: {reply.text}, not {due.text}")
            if reply.number in self.history.executions:
                self.programs[reply.number] = observed.absolute(line.tag, line.arguments[0].value)
            if reply.number in wanted:
                found = self.explain(observed, line, due)
                if formula is not None:
                    self.add_formula(observed, formula, found)
                self.add_origin(observed, found)
                yield found

    def formula(self, observed: Observed, line: ScriptLine) -> Optional[ExecFormula]:
        """The formula of an `exec` right before the call; None where no file is at its path."""
        path, before = observed.absolute(line.tag, line.arguments[0].value), observed.process(line.tag)
        program = observed.stat(path) if path else None
        if before is None or program is None or program.kind != "file":
            return None
        caps = observed.session.call(f"{observed.observer} cap_get_file {path_word(path or b'/')}").words[0].text
        return ExecFormula(before, program, caps, named(self.world.bound))

    def add_formula(self, observed: Observed, formula: ExecFormula, found: Explained) -> None:
        """Adds the formula, where the call was done with the process as it is after it."""
        found.formula = formula
        if found.reply.outcome is Outcome.DONE:
            found.formula = formula.after_call(observed.process(found.reply.tag))
            found.target, found.caller = formula.program, formula.before

    def add_origin(self, observed: Observed, found: Explained) -> None:
        """Adds where the object comes from: a line of the world, or a call."""
        if found.target:
            target = self.world.objects_by_number.get(found.target.number)
            found.target_line = target.line if target else None
            found.made_by = observed.made.get(found.target.number)

    def explain(self, observed: Observed, line: ScriptLine, reply: Reply) -> Explained:
        """What is said of a call right after it: one that is denied or refused left everything as it was."""
        call = Call(line, reply)
        if reply.outcome is Outcome.DONE:
            return Explained(call, "the call was done")
        words = check_in_words(reply.check) if reply.check else error_in_words(reply.call, reply.error or "")
        found = Explained(call, words, caller=observed.process(line.tag))
        if reply.outcome is Outcome.DENIED:
            found.target = observed.at_place(line, reply)
            if reply.place == "pid":
                found.process = observed.process(self.world.policy.canonical_tag(line.arguments[0].text))
        elif reply.error == "ESRCH" and reply.number in self.missing:
            one = self.missing[reply.number]
            found.notes.append(f"those that live of {one.missing.partition('@')[2]}: {', '.join(one.living) or 'none'}")
        elif found.caller:
            self.refused(observed, line, reply, found)
        return found

    def refused(self, observed: Observed, line: ScriptLine, reply: Reply, found: Explained) -> None:
        """Adds to a refusal the object that the call is about, and the first name that is absent."""
        form = "PATH" if line.call in UTILITIES else CALLS[line.call]
        if form.startswith("FD"):
            descriptors = observed.followed[line.tag].descriptors
            opened = descriptors.get(int(line.arguments[0].value))
            found.target = observed.descriptor(line, opened) if opened else None
            if opened is None:
                found.notes.append("descriptors of the caller: " + (", ".join(map(str, sorted(descriptors))) or "none"))
        elif form.startswith("PATH"):
            given = reply.path if reply.path is not None else line.arguments[0].value
            self.on_paths(observed, line.tag, [given, *(word.value for word in line.arguments[1:2] if form == "PATH PATH")], found)

    def on_paths(self, observed: Observed, tag: str, given: Sequence[bytes], found: Explained) -> None:
        """Adds the object that the first path leads to, and the first absent name of each path."""
        for index, each in enumerate(given):
            path = observed.absolute(tag, each)
            walked = [(prefix, observed.stat(prefix)) for prefix in prefixes(path)] if path else []
            absent = next((prefix for prefix, facts in walked if facts is None), None)
            there = [facts for _, facts in walked if facts is not None]
            if absent is not None:
                found.notes.append(f"the first name that leads nowhere is that of {path_word(absent)}")
            if there and index == 0:
                found.target = there[-1]

    # ---- trials

    def try_again(self, found: Sequence[Explained], most: Optional[int] = None) -> None:
        """Tries the denied calls again, and adds with which capabilities each passes, and which calls come from it.

        With `most` only so many are tried, and none that comes from an earlier one.
        """
        asked = {each.reply.number: each for each in found}
        last_asked = max((number for number, each in asked.items() if each.reply.outcome is not Outcome.DONE), default=0)
        causes: Dict[int, Tuple[int, Later]] = {}

        def needless(call: Call) -> bool:
            """Whether nothing is to be learnt from a call: it comes from an earlier one, and is not explained itself."""
            return call.reply.number in causes and (most is not None or call.reply.number not in asked)

        denied = (call for call in self.calls(last_asked) if call.reply.outcome is Outcome.DENIED)
        with Workers(self.run) as workers:
            for tried in self.effort.results(workers.try_call, (call for call in denied if not needless(call))):
                if most == 0:
                    break
                if not needless(tried.call):
                    most = most if most is None else most - 1
                    self.note(tried, asked.get(tried.call.reply.number), causes)
                self.effort.progress(f"why: call {tried.call.reply.number} of {last_asked} is tried again")
        self.note_causes(asked, causes)

    def note(self, tried: Tried, found: Optional[Explained], causes: Dict[int, Tuple[int, Later]]) -> None:
        """Adds to a call what was found by trying it, and to the causes the calls that are done where it is done."""
        number = tried.call.reply.number
        if found is not None:
            found.tried, found.passing = True, tried.passing
            if found.formula is not None and tried.passing is not None and tried.after is not None:
                found.formula = found.formula.after_call(tried.after, tried.passing.names)
        for later, then in tried.later.items() if number not in causes else ():
            if later not in causes or causes[later][1].held and not then.held:
                causes[later] = number, then

    def note_causes(self, asked: Dict[int, Explained], causes: Dict[int, Tuple[int, Later]]) -> None:
        """Adds to calls what they come from, and what comes from them."""
        followers: Dict[int, List[Follower]] = {}
        lines = self.world.lines_by_call
        for number, (cause, then) in sorted(causes.items()):
            call = Call(lines[number], self.played.replies[number - 1])
            followers.setdefault(cause, []).append(Follower(call, then))
            if number in asked:
                asked[number].cause = cause
        for number, each in asked.items():
            each.followers = followers.get(number, ())


def with_exercises(found: Sequence[Explained], played: Played, player: Player) -> None:
    """Adds to calls that were done the capabilities that they exercised."""
    done = {each.reply.number: each for each in found if each.reply.outcome is Outcome.DONE}
    used: Dict[int, Dict[str, None]] = {number: {} for number in done}
    for record in player.select("event=exercise", played.trail) if done else ():
        used.get(record["call"], {})[record["cap"]] = None
    for number, each in done.items():
        each.used = list(used[number])
        each.words = "by " + " and ".join(each.used) if each.used else "by the rules alone"


def explain_all(world: World, played: Played, player: Player, asked: Optional[Asked] = None,
                effort: Optional[Effort] = None) -> List[Explained]:
    """The calls that are asked about, each with what is said of it; by default those that were denied or refused."""
    asker = Asker(world, played, player, effort)
    found = asker.observe(asked or Asked())
    asker.try_again(found)
    with_exercises(found, played, player)
    return found
