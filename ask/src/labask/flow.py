"""The question `flow`: whether bytes of a file get to a process or to another object, and by which calls.

The script is looked for in the model of the kernel, and what is found is played by `labsys` in the world itself.
"""
import argparse
import dataclasses
import gc
from contextlib import contextmanager
from dataclasses import dataclass
from typing import Any, Callable, Dict, Iterator, List, Optional, Sequence, Tuple, Union

from labask.answers import PLAYED, Status, WrongWords, table, write_json
from labask.effort import Effort, add_dask_argument, add_effort_arguments, effort_of
from labask.flow_proof import Proof, Proofs, in_the_way
from labask.kernel.calls import MOST_FILE_BYTES, Call as KernelCall
from labask.kernel.state import Labels, first_state
from labask.kernel.texts import call_text
from labask.observing import with_observer
from labask.playing import Outcome, Played, Player, PlayingFault
from labask.proved import proved
from labask.search.finding import Ending, Line, Result, Search
from labask.search.limits import DEPTH, STATES, Limits, add_limit_arguments, limits_of
from labask.search.problem import MARK, Problem
from labask.search.side_by_side import results
from labask.sets import objects_named, processes_named
from labask.signatures import CAPABILITIES
from labask.worlds import Kind, World, WorldObject, WorldProcess, path_word, quoted, read_file, read_world

MOST_BYTES = 64
COLLECTED_AFTER = 100_000  # new objects, after which Python looks for cycles: a search makes many objects and no cycles to speak of
STAND_IN = b"bytes of an empty file"
Goal = Union[str, bytes]  # the tag of a process, or the path of an object
LOOKED_FOR = """\
Looked for are scripts of these calls by all processes and their children:
  open, read, write, pipe, mkfifo, mkdir, link, unlink, rename, chdir, chmod, chown, cap_set_file, cap_set_fd, mac_set_file,
  mac_set_fd, fork, exec, setuid, setgid, umask, cap_set_proc and mac_set_proc.
Modes are 0777, for files with set-id bits too, and the umask is 0: more bits of a mode deny nothing. Capability sets are all that
is permitted. Users, groups and labels are those of the world, and the highest label. Other calls only take away or answer."""


def add_arguments(parser: argparse.ArgumentParser) -> None:
    """Adds the arguments of the question."""
    parser.add_argument("file", metavar="FILE", help="the world; its script is not played")
    parser.add_argument("source", metavar="FROM", help="the file whose bytes are followed: a path, a pattern, or label:LABEL")
    parser.add_argument("goal", metavar="TO", help="a process n@label, the path of a file or FIFO, a pattern, or label:LABEL")
    parser.add_argument("--without", metavar="CAP", action="append", default=[], choices=CAPABILITIES,
                        help="look only for calls that do not use this capability; may be given several times")
    parser.add_argument("--scripts", action="store_true", help="where there are several pairs, write the script of each")
    add_limit_arguments(parser)
    add_effort_arguments(parser)
    add_dask_argument(parser)


@dataclass(frozen=True)
class Call:
    """A call of a script that was found: its reply, the capabilities that it exercised, and the sets that it gave."""
    text: str
    reply: str
    used: Tuple[str, ...]
    gave: Optional[str]

    @property
    def means(self) -> str:
        """What the call used."""
        parts = ["by " + ",".join(self.used)] if self.used else []
        gave = [] if self.gave is None or self.gave == "=" else [f"it gives {quoted(self.gave.encode())}"]
        return "; ".join(parts + gave)


@dataclass(frozen=True)
class Found:
    """A script that was found and played, in a world to play it in."""
    world: bytes
    calls: Tuple[Call, ...]


@contextmanager
def collecting_seldom() -> Iterator[None]:
    """Has Python look for cycles less often, for a search."""
    before = gc.get_threshold()
    gc.set_threshold(COLLECTED_AFTER)
    try:
        yield
    finally:
        gc.set_threshold(*before)


class ModelFault(PlayingFault):
    """`labsys` answers a script otherwise than the model."""


class Flow:
    """The search for a script in a world, whose file FROM has bytes; `goal` is the tag of a process or the path of an object."""

    def __init__(self, world: World, player: Player, source: Optional[bytes], goal: Goal, without: Sequence[str] = (),
                 effort: Optional[Effort] = None):
        self.player, self.source, self.goal, self.without = player, source, goal, without
        self.world = with_bytes(world, source) if source is not None else world
        self.mark = self.world.objects_by_path[source].content[:MOST_BYTES] if source is not None else MARK
        self.labels = Labels(world.policy)
        self.effort = effort or Effort()
        self.result = Result(Ending.NEVER)
        self.found: Optional[Found] = None
        self.search: Optional[Search] = None

    def problem(self) -> Problem:
        """What the search is asked."""
        assert self.source is not None
        world = without_capabilities(self.world, self.without) if self.without else self.world
        state = first_state(world, self.labels)
        source = self.labels.number(world.objects_by_path[self.source].number)
        state.put(source, state.things[source]._replace(content=MARK))
        if isinstance(self.goal, str):
            return Problem(state, source, process=self.labels.number(self.goal))
        thing = self.labels.number(world.objects_by_path[self.goal].number)
        return Problem(state, source, thing=thing, names=tuple(self.goal.strip(b"/").split(b"/")))

    def find(self, depth: int = DEPTH, states: int = STATES) -> Optional[Found]:
        """A shortest script, with at most so many calls."""
        with collecting_seldom():
            self.search = Search(self.problem(), self.accepts, self.effort.over, states)
            self.result = self.search.find(depth)
        return self.found

    # ---- what is found

    def shows(self, script: Tuple[Line, ...]) -> bool:
        """Whether a script of another search gives the bytes."""
        self.search = Search(self.problem(), self.accepts, self.effort.over, 1)
        return self.search.replay(script) is not None and self.accepts(script)

    def accepts(self, script: Tuple[Line, ...]) -> bool:
        """Whether a script of the model gives the bytes in the world, and uses no capability that it may not."""
        tidied = self.tidied(script)
        played = self.played(self.lines(tidied))
        if played is None:
            return False
        self.found = played
        return True

    def tidied(self, script: Tuple[Line, ...]) -> Tuple[Line, ...]:
        """The script with calls that ask for less, where it leads to the goal all the same."""
        assert self.search is not None
        for at, line in enumerate(script):
            for call in less_than(line.call):
                other = (*script[:at], Line(line.who, call), *script[at + 1:])
                if self.search.replay(other) is not None:
                    script = other
                    break
        return script

    def lines(self, script: Sequence[Line]) -> List[str]:
        """The lines of a script, with the bytes in place of the mark."""
        return [f"{self.labels.number_text(line.who)} {call_text(self.with_bytes(line.call), self.labels)}" for line in script]

    def with_bytes(self, call: KernelCall) -> KernelCall:
        """A call that reads or writes, with the bytes in place of the mark."""
        if call.name == "read" and call.arguments[1] == MOST_FILE_BYTES:
            return KernelCall("read", (call.arguments[0], len(self.mark)))
        return KernelCall("write", (call.arguments[0], self.mark)) if call.name == "write" else call

    def played(self, lines: Sequence[str]) -> Optional[Found]:
        """The script, played in the world; None where it uses a capability that it may not."""
        played = self.player.play_accepted(self.world.with_script(lines))
        undone = next((reply for reply in played.replies if reply.outcome is not Outcome.DONE), None)
        if not self.without and (undone is not None or not self.gives(lines, played)):
            what = f"{lines[undone.number - 1]}: {undone.text}" if undone is not None else "the bytes do not arrive"
            raise ModelFault(f"labsys answers otherwise than labask's model: {what}")
        records = self.player.select("all", played.trail)
        calls = tuple(self.call(number, line, played, records) for number, line in enumerate(lines, 1))
        if any(set(call.used) & set(self.without) for call in calls) or undone is not None or not self.gives(lines, played):
            return None
        return Found(self.world.with_script(lines), calls)

    def call(self, number: int, line: str, played: Played, records: Sequence[Dict[str, Any]]) -> Call:
        """A call of the script with what the records say of it."""
        own = [record for record in records if record["call"] == number]
        used = tuple(dict.fromkeys(record["cap"] for record in own if record["event"] == "exercise"))
        gave = next((record["caps"] for record in own if record["event"] == "exec"), None)
        return Call(line, played.replies[number - 1].text, used, gave)

    def gives(self, lines: Sequence[str], played: Played) -> bool:
        """Whether the bytes are where they should be: the last read gave them, or an observer reads them there.

        Of a FIFO it is enough that they were written: to read them takes them away.
        """
        last = played.replies[-1]
        if isinstance(self.goal, str):
            return last.call == "read" and last.words[0].value == self.mark
        if self.world.objects_by_path[self.goal].kind is Kind.FIFO and last.call == "write":
            return True
        head, observer = with_observer(self.world)
        asked = [*lines, f"{observer} open {path_word(self.there())} r", f"{observer} read 0 {len(self.mark)}"]
        replies = self.player.play_accepted(head + "".join(line + "\n" for line in asked).encode("latin-1")).replies
        return replies[-1].outcome is Outcome.DONE and replies[-1].words[0].value == self.mark

    def there(self) -> bytes:
        """The path of TO."""
        assert isinstance(self.goal, bytes)
        return self.goal


def less_than(call: KernelCall) -> Iterator[KernelCall]:
    """Calls that ask for less than a call of the search."""
    arguments = call.arguments
    if call.name == "open" and arguments[1] == "rwcx":
        for flags, mode in (("wcx", 0o666), ("rwcx", 0o666), ("wcx", 0o777)):
            yield KernelCall("open", (arguments[0], flags, mode))
    if call.name == "mkfifo":
        yield KernelCall("mkfifo", (arguments[0], 0o666))
    if call.name == "cap_set_proc":
        yield KernelCall("cap_set_proc", (arguments[0]._replace(inheritable=0),))
    if call.name == "chmod" and arguments[1] == 0o777:
        yield from (KernelCall("chmod", (arguments[0], mode)) for mode in (0o644, 0o666, 0o755))


def with_bytes(world: World, path: bytes) -> World:
    """The world, where an empty file gets some bytes to follow."""
    target = world.objects_by_path[path]
    if target.content:
        return world
    changed = dataclasses.replace(target, content=STAND_IN)
    return read_world(world.head({target.line: changed.written}))


def without_capabilities(world: World, names: Sequence[str]) -> World:
    """The world, where no process and no file has these capabilities."""
    changed: Dict[int, Optional[bytes]] = {}
    things: List[Union[WorldObject, WorldProcess]] = [*world.objects, *world.processes]
    for each in things:
        if each.caps is not None:
            changed[each.line] = dataclasses.replace(each, caps=f"{each.caps} {','.join(names)}-eip").written
    return read_world(world.head(changed))


# ---- what is asked

def sources_of(world: World, text: str) -> List[bytes]:
    """The paths of the files that FROM names."""
    found = [each.path for each in objects_named(world, text) if each.kind is Kind.FILE]
    if not found:
        raise WrongWords(f"the world has no file {text}")
    return found


def goals_of(world: World, text: str) -> List[Goal]:
    """The processes and objects that TO names."""
    found: List[Goal] = []
    if text.startswith("label:"):
        label = world.policy.canonical(text[len("label:"):])
        found += [each.tag for each in world.processes if each.label == label]
        found += [each.path for each in world.objects if each.label == label and each.kind is not Kind.DIRECTORY]
    elif text in world.processes_by_name or "@" in text and not text.startswith("/"):
        found += [each.tag for each in processes_named(world, text)]
    else:
        found += goal_objects(text, objects_named(world, text) if text.startswith("/") else [])
    if not found:
        raise WrongWords(f"the world has no process and no object {text}")
    return found


def goal_objects(text: str, objects: Sequence[WorldObject]) -> List[Goal]:
    """The files and FIFOs among objects."""
    if len(objects) == 1 and objects[0].kind is Kind.DIRECTORY:
        raise WrongWords(f"{text} is a directory; bytes get to a file, a FIFO or a process")
    return [each.path for each in objects if each.kind is not Kind.DIRECTORY]


def goal_text(goal: Goal) -> str:
    """TO as a word."""
    return goal if isinstance(goal, str) else path_word(goal)


# ---- the answer

@dataclass(frozen=True)
class Answer:
    """The answer for a pair: the script if one was found, how the search ended, and what is proved; then there was no search."""
    source: bytes
    goal: Goal
    found: Optional[Found]
    result: Result
    proof: Proof = Proof()

    @property
    def status(self) -> Status:
        """The exit status of the answer alone."""
        if self.found is not None:
            return Status.YES
        return Status.NO if self.result.ending is Ending.NEVER else Status.STOPPED

    @property
    def short(self) -> str:
        """The answer as a cell of a table."""
        if self.proof.label is not None:
            return "never, proved"
        return f"{len(self.found.calls)} calls" if self.found is not None else SHORT[self.result.ending]

    def as_json(self) -> Dict[str, Any]:
        """The answer as JSON has it."""
        found = self.found
        return {"played": self.proof.label is None, "proved": self.proof.label is not None, "in_the_way": list(self.proof.obstacles),
                "found": found is not None, "ending": self.result.ending.value, "from": self.source.decode("latin-1"),
                "to": self.goal if isinstance(self.goal, str) else self.goal.decode("latin-1"),
                "calls": [dataclasses.asdict(call) for call in found.calls] if found else [],
                "world": found.world.decode("latin-1") if found else None, "excluded_calls": self.result.excluded,
                "states": self.result.seen, "not_shown_to_be_absent": self.status is Status.STOPPED}


SHORT = {Ending.NEVER: "never", Ending.DEPTH: "not found, the depth was reached", Ending.STATES: "stopped at the states",
         Ending.TIME: "stopped at the time", Ending.FOUND: "not found"}


def shortest(answer: Answer) -> str:
    """Whether the script that was found is a shortest one."""
    if answer.found is not None and answer.result.excluded >= len(answer.found.calls) - 1:
        return "No script of fewer calls of the kinds that are looked for does it, by labask's model."
    return "Scripts of fewer calls were not all tried."


def why_stopped(answer: Answer, limits: Limits) -> str:
    """How a search ended that found nothing."""
    result = answer.result
    excluded = f"No script has at most {result.excluded} calls; longer ones were not all tried." if result.excluded else "Not all were tried."
    if result.ending is Ending.NEVER:
        return "No script of any length of the calls below does it, by the rules of labask's model of labsys."
    if result.ending is Ending.DEPTH:
        return f"Stopped at the depth: no script has at most {limits.depth} calls, and longer ones were not tried (--depth)."
    if result.ending is Ending.TIME:
        return f"Stopped at the time (--time). {excluded}"
    return f"Stopped at the limits of the search, after {result.seen} states (--states {limits.states}). {excluded}"


def report(answer: Answer, limits: Limits, without: Sequence[str]) -> Iterator[str]:
    """The lines of the answer; those before the world are comments of it."""
    source, goal, found = path_word(answer.source), goal_text(answer.goal), answer.found
    if answer.proof.label is not None:
        yield f"No script at all: no bytes of {source} get to {goal}, whatever is called, proved by `labsys never`."
        yield f"What {answer.proof.label} and the labels below it see is the same whatever else is in the world, and FROM is no part of that."
        return
    if found is None:
        unused = f" that do not use {' and '.join(without)}" if without else ""
        yield f"No calls{unused} were found by which the bytes of {source} get to {goal}."
        yield from in_the_way([answer.proof])
        yield why_stopped(answer, limits)
        yield f"{answer.result.seen} states were looked at."
        yield LOOKED_FOR
        return
    yield f"# The bytes of {source} get to {goal} by {len(found.calls)} calls:"
    yield from table([[call.text, call.reply, call.means] for call in found.calls], "#   ")
    yield f"# {shortest(answer)} {PLAYED}"
    yield from (f"# {line}" for line in in_the_way([answer.proof]))
    yield "# This is a world to play it in:"
    yield found.world.decode("latin-1").rstrip("\n")


def report_all(answers: Sequence[Answer], pairs: int, scripts: bool) -> Iterator[str]:
    """The lines of the answer for several pairs."""
    rows = [["FROM", "TO", "ANSWER"]]
    rows += [[path_word(each.source), goal_text(each.goal), each.short] for each in answers]
    yield from table(rows)
    for each in answers if scripts else ():
        if each.found is not None:
            yield f"# {path_word(each.source)} to {goal_text(each.goal)}:"
            yield from table([[call.text, call.reply, call.means] for call in each.found.calls])
    found = sum(each.found is not None for each in answers)
    shown = sum(each.proof.label is not None for each in answers)
    yield f"{pairs} pairs were asked, {len(answers) - shown} were looked at, and {found} have a script. {PLAYED}"
    if shown:
        yield f"Of {shown} pairs no script at all does it, proved by `labsys never`."
    yield from in_the_way([each.proof for each in answers if each.found is None])
    yield LOOKED_FOR


def ask(world: World, player: Player, pair: Tuple[bytes, Goal], without: Sequence[str], limits: Limits, effort: Effort) -> Answer:
    """The answer for a pair that is not proved."""
    flow = Flow(world, player, *pair, without, effort)
    found = flow.find(limits.depth, limits.states)
    return Answer(*pair, found, flow.result)


def answers_of(world: World, player: Player, pairs: Sequence[Tuple[bytes, Goal]], without: Sequence[str], limits: Limits,
               effort: Effort) -> List[Answer]:
    """The answers for pairs that are not proved, as far as there is time; a single pair is always answered."""
    if len(pairs) == 1:
        return [ask(world, player, pairs[0], without, limits, effort)]
    return [each for _, each in results(effort, lambda pair: ask(world, player, pair, without, limits, effort), pairs)]


def answers_by_proof(pairs: Sequence[Tuple[bytes, Goal]], proofs: Proofs,
                     search: Callable[[List[Tuple[bytes, Goal]]], List[Answer]]) -> List[Answer]:
    """The answers for pairs in their order; only those that are not proved are searched."""
    proof = {pair: proofs.of(*pair) for pair in pairs}
    left = [pair for pair in pairs if proof[pair].label is None]
    found = {(each.source, each.goal): dataclasses.replace(each, proof=proof[each.source, each.goal]) for each in search(left)}
    found.update({pair: Answer(*pair, None, Result(Ending.NEVER), proof[pair]) for pair in pairs if proof[pair].label is not None})
    return [found[pair] for pair in pairs if pair in found]


def status_of(answers: Sequence[Answer], pairs: int) -> Status:
    """The exit status of all answers."""
    statuses = {each.status for each in answers}
    if Status.YES in statuses:
        return Status.YES
    return Status.STOPPED if Status.STOPPED in statuses or len(answers) < pairs else Status.NO


def answer(arguments: argparse.Namespace, player: Player) -> int:
    """Answers the question."""
    text = read_file(arguments.file)
    shown = proved(player, text)
    world, limits, effort = read_world(text), limits_of(arguments), effort_of(arguments)
    sources, goals = sources_of(world, arguments.source), goals_of(world, arguments.goal)
    pairs = [(source, goal) for source in sources for goal in goals if source != goal]
    if not pairs:
        raise WrongWords("FROM and TO are the same object")
    answers = answers_by_proof(pairs, Proofs(world, shown), lambda left: answers_of(world, player, left, arguments.without, limits, effort))
    if arguments.json:
        write_json(answers[0].as_json() if len(pairs) == 1 else {"pairs": [each.as_json() for each in answers], "asked": len(pairs)})
    elif len(pairs) == 1:
        print("\n".join(report(answers[0], limits, arguments.without)))
    else:
        print("\n".join(report_all(answers, len(pairs), arguments.scripts)))
    return status_of(answers, len(pairs))
