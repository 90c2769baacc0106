"""Tries a denied call again with capabilities that the caller has not: in runs in which the caller is permitted them.

The process of the world from which the caller comes is permitted them from the beginning. A program that the caller or an ancestor
executes hands them on: for that one call they are inheritable in the file and in the process. What is effective stays as it was, but
for the call that is tried. So each call before that one is answered as in the run itself, which is compared.

One run serves all callers, and goes on from one denied call to the next as long as none is done that changes something.
"""
from dataclasses import dataclass, replace
from functools import cached_property
from typing import Callable, Dict, Iterable, Iterator, List, Mapping, Optional, Sequence, Set, Tuple

from labask.capability_texts import Sets, read_sets
from labask.histories import Execution, History
from labask.kernel_profile import MAX_INPUT
from labask.observing import with_observer
from labask.playing import Outcome, Player, Refused, Reply, Session
from labask.signatures import CALLS, CAPABILITIES, arguments_of
from labask.worlds import ScriptLine, World, path_word, quoted

# calls and utilities that change nothing
LOOKING = ("stat", "fstat", "readdir", "cap_get_file", "cap_get_fd", "cap_get_proc", "mac_get_file", "mac_get_fd", "mac_get_proc", "getids",
           "getpid", "getppid", "getfcap", "getfmac")
SPARE_BYTES = MAX_INPUT // 8  # of the input of a trial that goes on


@dataclass(frozen=True)
class Passing:
    """The capabilities that are made effective for a call, its reply then, and those that the caller is only permitted besides."""
    capabilities: Tuple[str, ...]
    reply: Reply
    permitted: Tuple[str, ...] = ()

    @property
    def complete(self) -> bool:
        """Whether no check denies the call with these capabilities."""
        return self.reply.outcome is not Outcome.DENIED

    @property
    def names(self) -> str:
        """The capabilities in words."""
        permitted = [f"{name} permitted" for name in self.permitted]
        return " and ".join([*self.capabilities, *permitted])


@dataclass(frozen=True)
class Run:
    """A run that is tried anew: its world, the replies, what its records say, and where the programs that were executed are.

    `programs` has the absolute paths of programs by the numbers of the calls that execute them. In step, descriptors that the run
    did not get are closed where a trial gets them, so that later ones have the numbers that they have in the run.
    """
    world: World
    player: Player
    replies: Sequence[Reply]
    history: History
    programs: Mapping[int, Optional[bytes]]
    in_step: bool = False

    @cached_property
    def not_done(self) -> List[Reply]:
        """The replies to the calls that were not done."""
        return [reply for reply in self.replies if reply.outcome is not Outcome.DONE]

    @cached_property
    def last_on_descriptor(self) -> int:
        """The number of the last call on a descriptor that was not done; 0 where there is none."""
        return max((reply.number for reply in self.not_done if CALLS.get(reply.call, "").startswith("FD")), default=0)

    @cached_property
    def denied_tags(self) -> Tuple[str, ...]:
        """The processes with a call that a check denied."""
        return tuple(dict.fromkeys(reply.tag for reply in self.not_done if reply.outcome is Outcome.DENIED))

    def leads_on(self, line: ScriptLine, number: int) -> bool:
        """Whether a later call may be done that was not, were this one done: not after one that changes nothing, and after one that
        only opens an object no call but one on a descriptor."""
        return not (line.call in LOOKING or only_opens(line) and number >= self.last_on_descriptor)


def listed(names: Sequence[str]) -> str:
    """The list of capabilities of a clause."""
    return "all" if len(names) == len(CAPABILITIES) else ",".join(names)


def caps_word(text: str) -> str:
    """The word of a capability text."""
    return quoted(text.encode("latin-1"))


def only_opens(line: ScriptLine) -> bool:
    """Whether the call of a line opens an object that is there, and does not change it."""
    return line.call == "open" and not set("ct") & set(line.arguments[1].text)


def trial_head(world: World, ancestors: Iterable[str], names: Sequence[str]) -> Tuple[bytes, str]:
    """The lines of the world up to `script`, in which the ancestors are permitted these capabilities, and the tag of a helper.

    The helper is a process with all capabilities and a label of its own, so that it draws no number that the script would draw.
    """
    head, observer = with_observer(world)
    lines = head.split(b"\n")
    for process in map(world.processes_by_tag.__getitem__, ancestors):
        line = world.lines[process.line - 1]
        lines[line.number - 1] = with_last_word(line.text, line.words[5].column, f"{process.caps} {listed(names)}+p")
    number, _, label = observer.partition("@")
    lines.insert(lines.index(b"script", world.script_line or 0), f'proc {label} 0 0 - "all=ep"'.encode("ascii"))
    return b"\n".join(lines), f"{int(number) + 1}@{label}"


def with_last_word(text: bytes, column: int, word: str) -> bytes:
    """A line whose last word, which begins at a column, is another one between quotes."""
    return text[:column].rstrip(b" ") + b" " + caps_word(word).encode("ascii")


def same(one: Reply, other: Reply) -> bool:
    """Whether two replies have the same outcome."""
    return (one.outcome, one.error, one.check, one.place) == (other.outcome, other.error, other.check, other.place)


class Trial:
    """A run in which some processes are permitted some capabilities besides, up to a call that is then tried."""

    def __init__(self, run: Run, tags: Sequence[str], names: Sequence[str]):
        self.run, self.tags, self.names = run, tags, names
        self.lineage: Set[str] = {each for tag in tags for each in run.history.ancestors(tag)}
        head, self.helper = trial_head(run.world, (each for each in self.lineage if each not in run.history.parents), names)
        self.session = Session(run.player, head)
        self.session.__enter__()
        self.reached = 0  # calls of the script that were played, or left out since they were not done
        self.spent = self.departed = False

    def close(self) -> None:
        """Ends the run."""
        self.session.__exit__(None, None, None)

    def lines_of(self, line: ScriptLine, call: int) -> Iterator[Tuple[str, Optional[Reply]]]:
        """The lines that play a call that was done, each with the reply that is due; None where it is only to be done."""
        text, reply = line.single(call), self.run.replies[call - 1]
        done = self.run.history.executions.get(call)
        if line.tag not in self.lineage:
            yield text, reply
        elif line.call == "cap_set_proc":
            yield f"{line.tag} cap_set_proc {caps_word(f'{line.arguments[0].text} {listed(self.names)}+p')}", reply
        elif done is not None:
            yield from self.handed_on(done, text, reply)
        else:
            yield text, reply

    def handed_on(self, done: Execution, text: str, reply: Reply) -> Iterator[Tuple[str, Optional[Reply]]]:
        """The lines that execute a program which hands on what is permitted besides; all else is as it was after them."""
        names, path = listed(self.names), path_word(self.run.programs.get(done.call) or b"/")
        before = self.run.history.caps_before(done.process, done.call)
        flags = "ei" if read_sets(done.file_caps).effective else "i"
        yield f"{self.helper} cap_set_file {path} {caps_word(f'{done.file_caps} {names}+{flags}')}", None
        yield f"{done.process} cap_set_proc {caps_word(f'{before} {names}+ip')}", None
        yield text, reply
        yield f"{self.helper} cap_set_file {path} {caps_word(done.file_caps)}", None
        yield f"{done.process} cap_set_proc {caps_word(f'{done.caps} {names}+p')}", None

    def advance(self, call: int) -> bool:
        """Plays what was done before a call; says whether it is answered as in the run itself. What was not done left no change."""
        lines, done = self.run.world.lines_by_call, self.run.replies[self.reached:call - 1]
        waiting = [each for reply in done if reply.outcome is Outcome.DONE for each in self.lines_of(lines[reply.number], reply.number)]
        self.reached = call - 1
        given = self.session.calls([text for text, _ in waiting])
        return all(one.outcome is Outcome.DONE if due is None else same(one, due) for one, (_, due) in zip(given, waiting))

    def raised(self, tag: str, sets: Sets, names: Iterable[str]) -> bool:
        """Makes these capabilities of a process effective besides those of the sets; says whether that was done."""
        asked = Sets(sets.effective | frozenset(names), sets.inheritable, sets.permitted)
        return self.session.call(f"{tag} cap_set_proc {caps_word(asked.written)}").outcome is Outcome.DONE

    def passing(self, line: ScriptLine, denied: Reply) -> Optional[Passing]:
        """Capabilities with which the call passes the check, and then as many of the checks after it as any capability does.

        The run is spent where the call was done and a later one may depend on it.
        """
        asked = self.session.call(f"{line.tag} cap_get_proc")
        if asked.outcome is not Outcome.DONE:
            return None
        sets = read_sets(asked.words[0].text)
        found = self.best(line.single(denied.number), denied, sets, self.names)
        if found is not None and found.reply.outcome is Outcome.DONE:
            self.spent = self.run.leads_on(line, denied.number)
            if not self.spent and line.call == "open":
                self.session.call(f"{line.tag} close {found.reply.words[0].text}")
        if not self.spent:
            self.raised(line.tag, sets, ())
        return found

    def child(self, tag: str) -> Optional[str]:
        """The tag of a new child of a process; None where there can't be one more."""
        reply = self.session.call(f"{tag} fork")
        return reply.words[0].text if reply.outcome is Outcome.DONE else None

    def by_child(self, child: str, line: ScriptLine, denied: Reply, names: Sequence[str]) -> Optional[Passing]:
        """As `passing`, where a child of the caller that is permitted only these capabilities besides makes the call."""
        sets = read_sets(f"{self.run.history.caps_before(line.tag, denied.number)} {listed(names)}+p")
        self.session.call(f"{child} cap_set_proc {caps_word(sets.written)}")
        return self.best(f"{child} {line.single(denied.number).partition(' ')[2]}", denied, sets, names)

    def best(self, text: str, denied: Reply, sets: Sets, names: Sequence[str]) -> Optional[Passing]:
        """As `passing`, by some capabilities, for a caller with these sets, who does not get them back."""
        last = self.session.call(text)
        held: Tuple[str, ...] = ()
        found = None if same(last, denied) else Passing((), last)
        while found is None or not found.complete:
            step = self.step(text, sets, [name for name in names if name not in held], held, last)
            if step is None:
                break
            found, held, last = step, step.capabilities, step.reply
        return found

    def step(self, text: str, sets: Sets, names: Iterable[str], held: Tuple[str, ...], last: Reply) -> Optional[Passing]:
        """One more capability with which the call is answered otherwise than last; None where there is none."""
        for name in names:
            if name in sets.permitted - sets.effective and self.raised(text.partition(" ")[0], sets, (*held, name)):
                reply = self.session.call(text)
                if not same(reply, last):
                    return Passing((*held, name), reply)
        return None


class Trials:
    """The trials of a run: one for all callers, or one for each where that departs from the run. They are made anew where spent."""
    MOST = 6

    def __init__(self, run: Run):
        self.run = run
        self.together = len(run.denied_tags) > 1
        self.open: Dict[Optional[str], Trial] = {}

    def close(self) -> None:
        """Ends all trials."""
        for each in self.open.values():
            each.close()
        self.open.clear()

    def trial(self, line: ScriptLine) -> Trial:
        """A trial for the caller of a line that has not gone past it."""
        key = None if self.together else line.tag
        found = self.open.pop(key, None)
        if found is not None and (found.spent or not found.session.has_room(SPARE_BYTES)):
            found.close()
            found = None
        if found is None:
            found = Trial(self.run, self.run.denied_tags if self.together else (line.tag,), CAPABILITIES)
        while len(self.open) >= self.MOST:
            self.open.pop(next(iter(self.open))).close()
        self.open[key] = found
        return found

    def passing(self, line: ScriptLine, denied: Reply) -> Optional[Passing]:
        """The capabilities that would have let a denied call pass, found by trying; None where none was found."""
        trial = self.trial(line)
        found = self.tried(trial, line, denied)
        if trial.departed and self.together:
            self.together = False
            return self.passing(line, denied)
        if trial.departed:
            alone = (self.alone(line, denied, (name,)) for name in CAPABILITIES)
            found = next((each for each in alone if each is not None), None)
        elif found is not None and "CAPS" in arguments_of(line.call, len(line.arguments)):
            return self.reduced(line, denied, found)
        return None if found is None or not found.capabilities else found

    def passed(self, line: ScriptLine, found: Passing) -> Optional[Trial]:
        """The trial in which a call was done just now; None where it was not done, nothing may come from it, or the run departed."""
        trial = self.open.get(None if self.together else line.tag)
        return trial if trial is not None and trial.spent and not trial.departed and found.reply.outcome is Outcome.DONE else None

    def tried(self, trial: Trial, line: ScriptLine, denied: Reply) -> Optional[Passing]:
        """What a trial finds that is played up to the call."""
        try:
            if trial.advance(denied.number):
                return trial.passing(line, denied)
        except Refused:  # a line became too long by what it permits
            pass
        trial.departed = trial.spent = True
        return None

    def alone(self, line: ScriptLine, denied: Reply, names: Sequence[str]) -> Optional[Passing]:
        """What a trial of its own finds with some capabilities."""
        trial = Trial(self.run, (line.tag,), names)
        try:
            return self.tried(trial, line, denied)
        finally:
            trial.close()

    def reduced(self, line: ScriptLine, denied: Reply, found: Passing) -> Passing:
        """Of a call that asks for capabilities: the same with as few permitted as it takes. Each try is by a child of the caller."""
        trial = Trial(self.run, (line.tag,), CAPABILITIES)

        def enough(names: Sequence[str]) -> bool:
            """Whether the call passes in the same way where only these capabilities are permitted besides."""
            child = trial.child(line.tag) if names else None
            again = trial.by_child(child, line, denied, names) if child else self.alone(line, denied, names) if names else None
            return again is not None and again.capabilities == found.capabilities and same(again.reply, found.reply)

        try:
            trial.advance(denied.number)
            return fewest_permitted(line, found, enough)
        finally:
            trial.close()


def fewest_permitted(line: ScriptLine, found: Passing, enough: Callable[[Sequence[str]], bool]) -> Passing:
    """What a call passes with, with as few capabilities permitted besides as are enough: of those that it names, or else of all."""
    asked = read_sets(line.arguments[arguments_of(line.call, len(line.arguments)).index("CAPS")].text)
    named = asked.effective | asked.inheritable | asked.permitted | frozenset(found.capabilities)
    few = [name for name in CAPABILITIES if name in named]
    permitted = few if enough(few) else list(CAPABILITIES)
    for name in list(permitted):
        fewer = [each for each in permitted if each != name]
        if name not in found.capabilities and enough(fewer):
            permitted = fewer
    return replace(found, permitted=tuple(name for name in permitted if name not in found.capabilities))
