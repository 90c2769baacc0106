"""The question `diff`: what two worlds allow differently, which flows are new or gone, and which replies of a script differ."""
import argparse
import dataclasses
from dataclasses import dataclass
from typing import Any, Dict, Iterator, List, Optional, Sequence, Tuple

from labask.answers import PLAYED, Status, write_json
from labask.asking import Asked, explain_all
from labask.cuts import Renamed, plain
from labask.effort import Effort, add_dask_argument, add_effort_arguments, effort_of
from labask.flow import Answer as FlowAnswer
from labask.flow import Goal
from labask.flow import ask as ask_flow
from labask.kernel_profile import MAX_PROCESS_NUMBER
from labask.playing import Outcome, Player, Refused, Reply
from labask.rule_answers import likeness, thing_of
from labask.search.limits import Limits, add_limit_arguments, limits_of
from labask.search.side_by_side import results
from labask.who import Access, Answer, ask
from labask.worlds import Kind, World, path_word, read_file, read_world

Signed = Tuple[str, str]  # a sign, + for what B has and - for what A has, and what it is about


@dataclass(frozen=True)
class Pair:
    """Two worlds, and the processes that are matched: of a world by the tag, the name of a process in answers."""
    worlds: Tuple[World, World]
    names: Tuple[Dict[str, str], Dict[str, str]]

    @property
    def tags(self) -> Dict[str, str]:
        """The tags in B of the processes of A that B has too."""
        there = {name: tag for tag, name in self.names[1].items()}
        return {tag: there[name] for tag, name in self.names[0].items() if name in there}


def add_arguments(parser: argparse.ArgumentParser) -> None:
    """Adds the arguments of the question."""
    parser.add_argument("file", metavar="A", help="a world, with or without a script")
    parser.add_argument("other", metavar="B", help="the other world; its script is not played")
    parser.add_argument("--flows", action="store_true", help="ask too which flows from files to processes are new or gone")
    add_limit_arguments(parser)
    add_effort_arguments(parser)
    add_dask_argument(parser)


def names_of(world: World) -> Dict[str, str]:
    """What each process is called in answers: its name, where a comment gives it one, and else its tag."""
    named = {each.tag: name for name, each in world.processes_by_name.items()}
    return {each.tag: named.get(each.tag, each.tag) for each in world.processes}


# ---- what is allowed

def only_of_one(pair: Pair) -> Iterator[Signed]:
    """The objects and processes that one of the worlds has alone."""
    paths = [{each.path: each for each in world.objects} for world in pair.worlds]
    called = [set(names.values()) for names in pair.names]
    for sign, own, other in (("-", 0, 1), ("+", 1, 0)):
        yield from ((sign, f"{each.kind.value} {path_word(path)}") for path, each in paths[own].items() if path not in paths[other])
        yield from ((sign, f"process {name}") for name in pair.names[own].values() if name not in called[other])


def allowed(world: World, names: Dict[str, str], player: Player, effort: Effort) -> Dict[Tuple[str, str, bytes], Answer]:
    """What processes are asked about, by the name of the process, the right and the path."""
    answers = ask(world, world.processes, world.objects, player, effort)
    return {(names[each.process], each.right.value, each.path): each for each in answers}


def allowed_differently(pair: Pair, player: Player, effort: Effort) -> Iterator[Signed]:
    """What one of the worlds allows and the other does not, or by other capabilities."""
    one, other = (allowed(world, names, player, effort) for world, names in zip(pair.worlds, pair.names))
    for key in dict.fromkeys([*one, *other]):
        for sign, own, there in (("-", one.get(key), other.get(key)), ("+", other.get(key), one.get(key))):
            if own is not None and own.allowed and not (there is not None and there.text == own.text):
                by = f" {own.text}" if own.access is Access.CAPABILITY else ""
                yield sign, f"{key[0]} may {key[1]} {path_word(key[2])}{by}"


# ---- flows

def flow_pairs(pair: Pair) -> List[Tuple[bytes, str]]:
    """The files and processes of A that B has too, of those that are alike in both worlds one of each."""
    one, other = pair.worlds
    found: Dict[Any, Tuple[bytes, str]] = {}
    files = [each.path for each in one.objects if each.kind is Kind.FILE and each.path in other.objects_by_path]
    for path in files:
        if other.objects_by_path[path].kind is Kind.FILE:
            for tag, there in pair.tags.items():
                things = (one.objects_by_path[path], other.objects_by_path[path], thing_of(one, tag), thing_of(other, there))
                found.setdefault(tuple(map(likeness, things)), (path, tag))
    return list(found.values())


@dataclass(frozen=True)
class FlowChange:
    """A flow that is new, gone, or not decided in one of the worlds."""
    sign: str
    text: str
    answer: FlowAnswer


def flow_change(pair: Pair, names: Tuple[bytes, str], player: Player, limits: Limits, effort: Effort) -> Optional[FlowChange]:
    """How the flow from a file to a process differs; None where it does not."""
    path, tag = names
    goals: Tuple[Goal, Goal] = (tag, pair.tags[tag])
    one, other = (ask_flow(world, player, (path, goal), (), limits, effort) for world, goal in zip(pair.worlds, goals))
    words = f"bytes of {path_word(path)} get to {pair.names[0][tag]}"
    if Status.STOPPED in (one.status, other.status):
        return FlowChange("?", f"{words}: {one.short} in A, {other.short} in B", other)
    if one.status is other.status:
        return None
    sign, own = ("-", one) if one.status is Status.YES else ("+", other)
    return FlowChange(sign, f"{words} by {own.short}", own)


# ---- replies

@dataclass(frozen=True)
class ReplyChange:
    """A call of the script of A whose reply differs in B."""
    call: str
    here: Reply
    there: Reply

    @property
    def text(self) -> str:
        """The call with both replies."""
        return f"call {self.here.number}: {self.call}: {self.here.text}; in B {self.there.text}"


def reply_changes(pair: Pair, player: Player) -> Tuple[List[ReplyChange], List[str]]:
    """The calls of the script of A whose replies differ in B, without regard to numbers, and what `why` says of the first."""
    one, other = pair.worlds
    if not one.script:
        return [], []
    due, renamed = player.play_accepted(one.text).replies, Renamed(one, other)
    nobody = f"{MAX_PROCESS_NUMBER}@{other.policy.levels[0]}"
    renamed.numbers = {each.tag: pair.tags.get(each.tag, nobody) for each in one.processes}
    try:
        replies = renamed.replies(player, due)
    except Refused as refused:
        return [], [f"the script of A was not compared, since a line of it is refused in B: {refused}"]
    lines = [renamed.text(one.lines_by_call[reply.number], reply.number) for reply in due]
    found = [ReplyChange(one.lines_by_call[here.number].single(here.number).strip(), here, there) for here, there in zip(due, replies)
             if plain(here.text) != plain(there.text)]
    return found, why_first(pair, found[0], lines, player) if found else []


def why_first(pair: Pair, change: ReplyChange, lines: Sequence[str], player: Player) -> List[str]:
    """What `why` says of a call in the world in which it is not done; where it is done in both, nothing."""
    if change.there.outcome is not Outcome.DONE:
        world = read_world(pair.worlds[1].with_script(lines))
    elif change.here.outcome is not Outcome.DONE:
        world = pair.worlds[0]
    else:
        return []
    found = explain_all(world, player.play_accepted(world.text), player, Asked(frozenset((change.here.number,))))
    return [line for each in found for line in each.lines()]


# ---- the answer

@dataclass
class Difference:
    """All that differs."""
    things: List[Signed] = dataclasses.field(default_factory=list)
    rights: List[Signed] = dataclasses.field(default_factory=list)
    flows: List[FlowChange] = dataclasses.field(default_factory=list)
    replies: List[ReplyChange] = dataclasses.field(default_factory=list)
    why: List[str] = dataclasses.field(default_factory=list)
    asked_flows: int = 0

    @property
    def decided(self) -> bool:
        """Whether something differs for sure."""
        return bool(self.things or self.rights or self.replies or any(each.sign != "?" for each in self.flows))


def difference_of(pair: Pair, arguments: argparse.Namespace, player: Player, effort: Effort) -> Difference:
    """What differs, as far as there is time."""
    found = Difference(list(only_of_one(pair)))
    found.rights = list(allowed_differently(pair, player, effort)) if not effort.stops() else []
    if effort.stopped:
        found.rights = []
        return found
    found.replies, found.why = reply_changes(pair, player)
    if arguments.flows:
        pairs, limits = flow_pairs(pair), limits_of(arguments)
        found.asked_flows = len(pairs)
        changes = results(effort, lambda names: flow_change(pair, names, player, limits, effort), pairs)
        found.flows = [each for _, each in changes if each is not None]
    return found


def report(found: Difference, flows: bool, stopped: bool) -> Iterator[str]:
    """The lines of the answer."""
    yield from (f"{sign} {text}" for sign, text in [*found.things, *found.rights])
    for change in found.flows:
        yield f"{change.sign} {change.text}"
        yield from (f"    {call.text}: {call.reply}" for call in (change.answer.found.calls if change.answer.found else ()))
    yield from (change.text for change in found.replies)
    yield from (f"  {line}" for line in found.why)
    asked = f", {len(found.flows)} flows" if flows else ""
    yield f"{len(found.things)} objects and processes, {len(found.rights)} rights{asked} and {len(found.replies)} replies differ. {PLAYED}"
    if flows:
        yield "Flows were found by plays; that there is none in a world is said by labask's model of labsys, as of flow."
    if stopped:
        yield "It was stopped early; the rest was not compared."


def as_json(found: Difference, stopped: bool) -> Dict[str, Any]:
    """The answer as JSON has it."""
    return {"played": True, "whole": not stopped,
            "things": [{"sign": sign, "text": text} for sign, text in found.things],
            "rights": [{"sign": sign, "text": text} for sign, text in found.rights],
            "flows": [{"sign": each.sign, "text": each.text, "flow": each.answer.as_json()} for each in found.flows],
            "replies": [{"call": each.here.number, "text": each.call, "a": each.here.text, "b": each.there.text} for each in found.replies],
            "why": found.why}


def accepted(name: str, arguments: argparse.Namespace, player: Player) -> World:
    """The world of a file; where it is refused, that file is explained."""
    text = read_file(name)
    arguments.file = name
    player.check(text)
    return read_world(text)


def answer(arguments: argparse.Namespace, player: Player) -> int:
    """Answers the question."""
    effort = effort_of(arguments)
    one, other = (accepted(name, arguments, player) for name in (arguments.file, arguments.other))
    pair = Pair((one, other), (names_of(one), names_of(other)))
    found = difference_of(pair, arguments, player, effort)
    effort.clear()
    if arguments.json:
        write_json(as_json(found, effort.stopped))
    else:
        print("\n".join(report(found, arguments.flows, effort.stopped)))
    if found.decided:
        return Status.YES
    return Status.STOPPED if effort.stopped or found.flows else Status.NO
