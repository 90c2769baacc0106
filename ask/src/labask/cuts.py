"""The question `cuts`: which single changes of the world have a call denied, and how many other replies each changes."""
import argparse
import dataclasses
import importlib
import re
from dataclasses import dataclass
from typing import Any, Dict, Iterator, List, Optional, Sequence, Set, Tuple, Union

from labask.answers import NOT_ABSENT, PLAYED, Status, WrongWords, table, write_json
from labask.capability_texts import read_sets
from labask.command_words import number
from labask.effort import Effort, add_dask_argument, add_effort_arguments, effort_of
from labask.observing import prefixes
from labask.playing import Outcome, Played, Player, Reply, Session
from labask.search.limits import add_limit_arguments
from labask.signatures import CALLS, CAPABILITIES, UTILITIES, arguments_of
from labask.worlds import Policy, ScriptLine, World, WorldObject, WorldProcess, canonical_path, path_word, read_file, read_world

Thing = Union[WorldObject, WorldProcess]
NUMBER = re.compile(r"\d+@[A-Za-z][\w:,/-]*")


@dataclass(frozen=True)
class Change:
    """A single change of the world: the number of its line, what it does in words, and the new text of the line."""
    line: int
    words: str
    text: bytes
    relabels: bool = False


@dataclass(frozen=True)
class Cut:
    """A change after which the call is not done: its reply then, and the numbers of the other calls whose replies change."""
    change: Change
    reply: Reply
    others: Tuple[int, ...]


def add_arguments(parser: argparse.ArgumentParser) -> None:
    """Adds the arguments of the question."""
    parser.add_argument("file", metavar="FILE", help="the world with its script")
    parser.add_argument("call", metavar="N", nargs="?", type=number, help="the number of a call that is done, from 1")
    parser.add_argument("--flow", metavar=("FROM", "TO"), nargs=2, help="in place of a call: the changes after which no bytes of the file "
                        "FROM get to TO")
    parser.add_argument("--keep", metavar="SCRIPT", help="with --flow, a file with the script whose replies stay the same; the world's own "
                        "by default")
    parser.add_argument("--apply", metavar="K", type=number, help="write the world with the change in row K of the answer instead")
    add_limit_arguments(parser)
    add_effort_arguments(parser)
    add_dask_argument(parser)


# ---- changes

def mode_changes(target: WorldObject) -> Iterator[Tuple[str, Thing]]:
    """The changes of one bit of the mode."""
    for bit in (1 << place for place in range(12) if place != 9):
        mode = target.mode ^ bit
        yield f"mode {target.mode:04o} becomes {mode:04o}", dataclasses.replace(target, mode=mode)


def capability_changes(thing: Thing) -> Iterator[Tuple[str, Thing]]:
    """The changes that take one capability from the sets."""
    sets = read_sets(thing.caps) if thing.caps is not None else None
    for name in CAPABILITIES if sets is not None else ():
        if sets is not None and name in sets.effective | sets.inheritable | sets.permitted:
            yield f"without {name}", dataclasses.replace(thing, caps=f"{thing.caps} {name}-eip")


def label_steps(label: str, policy: Policy) -> Iterator[str]:
    """The labels one step up or down: another level, another grade, or one category more or less."""
    rest, slash, grade = label.partition("/")
    level, _, names = rest.partition(":")
    held = names.split(",") if names else []
    place = policy.levels.index(level)
    for other in policy.levels[max(0, place - 1):place] + policy.levels[place + 1:place + 2]:
        yield policy.canonical(other + rest[len(level):] + slash + grade)
    for name in policy.categories:
        others = [each for each in held if each != name] if name in held else held + [name]
        yield policy.canonical(level + (":" + ",".join(others) if others else "") + slash + grade)
    place = policy.grades.index(grade) if slash else len(policy.grades) - 1
    for other in policy.grades[max(0, place - 1):max(0, place)] + policy.grades[place + 1:place + 2]:
        yield policy.canonical(f"{rest}/{other}")


def label_changes(thing: Thing, policy: Policy) -> Iterator[Tuple[str, Thing]]:
    """The changes of the label by one step."""
    for label in label_steps(thing.label, policy):
        yield f"label {thing.label} becomes {label}", dataclasses.replace(thing, label=label)


def owner_changes(target: WorldObject, users: Sequence[int]) -> Iterator[Tuple[str, Thing]]:
    """The changes of the owner to another user of the world."""
    for user in users:
        if user != target.owner:
            yield f"owner {target.owner} becomes {user}", dataclasses.replace(target, owner=user)


def changes_of(world: World, objects: Sequence[WorldObject]) -> Iterator[Change]:
    """The single changes of these objects and of all processes: mode bits, capabilities, labels and owners."""
    users = sorted({each.owner for each in world.objects} | {each.user for each in world.processes})
    for target in objects:
        name = f"{target.kind.value} {path_word(target.path)}"
        same_label = [*mode_changes(target), *capability_changes(target), *owner_changes(target, users)]
        yield from (Change(target.line, f"{name}: {words}", changed.written) for words, changed in same_label)
        for words, changed in label_changes(target, world.policy):
            yield Change(target.line, f"{name}: {words}", changed.written, True)
    for process in world.processes:
        name = f"process {process.tag}"
        yield from (Change(process.line, f"{name}: {words}", changed.written) for words, changed in capability_changes(process))
        for words, changed in label_changes(process, world.policy):
            yield Change(process.line, f"{name}: {words}", changed.written, True)


# ---- which objects the script names or passes

def paths_of(line: ScriptLine) -> Iterator[bytes]:
    """The paths among the arguments of a line."""
    if line.call in CALLS or line.call in UTILITIES:
        names = arguments_of(line.call, len(line.arguments))
        yield from (word.value for name, word in zip(names, line.arguments) if name == "PATH")


def touched(world: World, last: int) -> List[WorldObject]:
    """The objects that the calls up to the last one name or pass; a relative path is read below the root and every `chdir`."""
    starts: Set[bytes] = {b"/"}
    found: Dict[bytes, None] = {}
    for line in world.script:
        if line.first_call > last:
            break
        for path in paths_of(line):
            whole = {canonical_path(path if path.startswith(b"/") else start + b"/" + path) for start in starts}
            for each in whole:
                found.update(dict.fromkeys(prefixes(each)))
            if line.call == "chdir":
                starts |= whole
    return [each for each in world.objects if each.path in found]


# ---- playing a change

def plain(text: str) -> str:
    """A reply without the numbers of objects and processes, which a change of a label draws anew."""
    return NUMBER.sub("number", text)


def differing(replies: Sequence[Reply], due: Sequence[Reply], relabels: bool) -> List[int]:
    """The numbers of the calls whose replies differ."""
    if not relabels:
        return [one.number for one, other in zip(due, replies) if one.text != other.text]
    return [one.number for one, other in zip(due, replies) if plain(one.text) != plain(other.text)]


class Renamed:
    """Plays a script in a world where processes have other numbers, and follows which number stands for which."""

    def __init__(self, world: World, changed: World):
        self.world, self.changed = world, changed
        self.numbers = {one.tag: other.tag for one, other in zip(world.processes, changed.processes)}

    def text(self, line: ScriptLine, number: int) -> str:
        """The line of a call with the numbers of the changed world."""
        words = line.single(number).split(" ")
        words[0] = self.numbers.get(line.tag, words[0])
        if line.call == "kill":
            named = self.world.policy.canonical_tag(line.arguments[0].text)
            return f"{words[0]} kill {self.numbers.get(named, named)} {line.arguments[1].text}"
        return f"{words[0]} {line.single(number).split(None, 1)[1]}"

    def replies(self, player: Player, due: Sequence[Reply]) -> List[Reply]:
        """The replies to the calls of the script."""
        found: List[Reply] = []
        with Session(player, self.changed.head()) as session:
            for each in due:
                line = self.world.lines_by_call[each.number]
                reply = session.call(self.text(line, each.number))
                if each.call == "fork" and Outcome.DONE is each.outcome is reply.outcome:
                    self.numbers[each.words[0].text] = reply.words[0].text
                found.append(dataclasses.replace(reply, number=each.number))
        return found


class Cutter:
    """Plays the changes of a world, and finds those after which a call is not done."""

    def __init__(self, world: World, played: Played, player: Player, call: int):
        self.world, self.played, self.player, self.call = world, played, player, call
        self.tried = 0

    def replies(self, change: Change) -> Optional[List[Reply]]:
        """The replies after a change; None where the world is refused then."""
        text = self.world.head({change.line: change.text}) + b"".join(
            line.text + b"\n" for line in self.world.lines[self.world.script_line:])
        if change.relabels:
            changed = read_world(text)
            tags = [(one.tag, other.tag) for one, other in zip(self.world.processes, changed.processes)]
            if any(one != other for one, other in tags):
                accepted = self.player.play(changed.head()).status == 0
                return Renamed(self.world, changed).replies(self.player, self.played.replies) if accepted else None
        played = self.player.play(text)
        return played.replies if played.status == 0 else None

    def cuts(self, effort: Effort) -> List[Cut]:
        """The changes after which the call is not done, those first that change the fewest other replies."""
        changes = list(changes_of(self.world, touched(self.world, self.call)))
        found: List[Cut] = []
        for count, (change, replies) in enumerate(zip(changes, effort.results(self.replies, changes)), 1):
            effort.progress(f"cuts: {count} of {len(changes)} changes")
            self.tried += replies is not None
            if replies is None or replies[self.call - 1].outcome is Outcome.DONE:
                continue
            others = differing(replies, self.played.replies, change.relabels)
            found.append(Cut(change, replies[self.call - 1], tuple(number for number in others if number != self.call)))
        effort.clear()
        return sorted(found, key=lambda cut: (len(cut.others), cut.reply.outcome is not Outcome.DENIED))


def report(cutter: Cutter, found: Sequence[Cut]) -> Iterator[str]:
    """The lines of the answer."""
    line = cutter.world.lines_by_call[cutter.call]
    yield f"call {cutter.call}, line {line.line.number}: {line.text.strip()}: {cutter.played.replies[cutter.call - 1].text}"
    if found:
        rows = [["ROW", "OTHERS", "LINE", "CHANGE", f"CALL {cutter.call} THEN"]]
        rows += [[str(row), str(len(cut.others)), str(cut.change.line), cut.change.words, cut.reply.text]
                 for row, cut in enumerate(found, 1)]
        yield from table(rows)
        yield "OTHERS is how many replies to other calls change."
    yield f"{cutter.tried} single changes were tried, and {len(found)} have this call not done. {PLAYED} {NOT_ABSENT}"


def cut_as_json(cut: Cut) -> Dict[str, Any]:
    """A cut as JSON has it."""
    return {"line": cut.change.line, "change": cut.change.words, "text": cut.change.text.decode("latin-1"), "reply": cut.reply.text,
            "others": list(cut.others)}


def applied(cutter: Cutter, found: Sequence[Cut], row: int) -> str:
    """The world with its script after the change of a row, with the numbers that processes have then."""
    if not 1 <= row <= len(found):
        raise WrongWords(f"there are {len(found)} rows; there is no row {row}")
    world, change = cutter.world, found[row - 1].change
    head = world.head({change.line: change.text})
    renamed = Renamed(world, read_world(head))
    if all(one == other for one, other in renamed.numbers.items()):
        script = [line.text.decode("latin-1") for line in world.lines[world.script_line:]]
    else:
        renamed.replies(cutter.player, cutter.played.replies)
        script = [renamed.text(line, number) for number, line in world.lines_by_call.items()]
    return head.decode("latin-1") + "".join(line + "\n" for line in script)


def answer(arguments: argparse.Namespace, player: Player) -> int:
    """Answers the question."""
    if arguments.flow is not None:
        return int(importlib.import_module("labask.flow_cuts").answer_flow(arguments, player))
    if arguments.call is None:
        raise WrongWords("the number of a call is missing, or --flow FROM TO")
    text = read_file(arguments.file)
    played = player.play_accepted(text)
    world = read_world(text)
    if not 1 <= arguments.call <= len(played.replies):
        raise WrongWords(f"the script has {len(played.replies)} calls; there is no call {arguments.call}")
    reply = played.replies[arguments.call - 1]
    if reply.outcome is not Outcome.DONE:
        raise WrongWords(f"call {arguments.call} is not done as it is: {reply.text}")
    cutter, effort = Cutter(world, played, player, arguments.call), effort_of(arguments)
    found = cutter.cuts(effort)
    if arguments.apply is not None:
        print(applied(cutter, found, arguments.apply), end="")
        return Status.DONE
    if arguments.json:
        write_json({"played": True, "call": arguments.call, "reply": reply.text, "tried": cutter.tried, "whole": not effort.stopped,
                    "cuts": [cut_as_json(cut) for cut in found]})
    else:
        print("\n".join(report(cutter, found)))
        if effort.stopped:
            print("It was stopped early; other changes were not tried.")
    if found:
        return Status.YES
    return Status.STOPPED if effort.stopped else Status.NO
