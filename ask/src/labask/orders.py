"""The question `orders`: which replies of a script depend on the order of its calls, and is a rule broken in any order.

The orders are looked for in the model of the kernel. Every order that an answer names is played by `labsys`, and so are orders that
have the steps of all states, as far as it is to.
"""
import argparse
import dataclasses
from dataclasses import dataclass
from typing import Any, Dict, Iterator, List, Optional, Sequence, Tuple

from labask.answers import Status, table, write_json
from labask.command_words import number
from labask.effort import Effort, add_dask_argument, add_effort_arguments, effort_of
from labask.interleaving import Broken, Findings, Interleaving, Move, Node, Written
from labask.order_rules import Rule, RuleReader
from labask.playing import Player, PlayingFault
from labask.shortening import short
from labask.worlds import World, read_file, read_world

STATES, ORDERS = 50_000, 500


def add_arguments(parser: argparse.ArgumentParser) -> None:
    """Adds the arguments of the question."""
    parser.add_argument("file", metavar="FILE", help="the world with its script")
    parser.add_argument("--rule", metavar="RULE", action="append", default=[], help="a rule that is to hold in every order, as 'never "
                        "call 3 ok' or 'deny 1@low read /a'; may be repeated")
    parser.add_argument("--states", metavar="N", type=number, default=STATES, help=f"the most states that are met; {STATES} by default")
    parser.add_argument("--orders", metavar="N", type=number, default=ORDERS,
                        help=f"the most orders that labsys plays to have every step; {ORDERS} by default")
    add_effort_arguments(parser)
    add_dask_argument(parser)


@dataclass(frozen=True)
class Call:
    """A call of an order that was played: its line and its reply."""
    text: str
    reply: str


@dataclass(frozen=True)
class Answer:
    """A reply to a call, with the shortest beginning of an order in which it comes."""
    reply: str
    calls: Tuple[Call, ...]


@dataclass(frozen=True)
class Differing:
    """A call that has more than one reply, those first that come after the fewest calls."""
    number: int
    line: int
    text: str
    answers: Tuple[Answer, ...]


@dataclass(frozen=True)
class BrokenRule:
    """A rule that is broken, with the shortest beginning of an order that breaks it."""
    rule: str
    calls: Tuple[Call, ...]


@dataclass(frozen=True)
class Tested:
    """How many orders labsys has played, and how many of the steps of all states they have."""
    orders: int
    steps: int
    all_steps: int


@dataclass(frozen=True)
class OrderPlayer:
    """Has labsys play orders. It is all that is sent to a worker of a cluster, with the orders."""
    world: World
    player: Player

    def play(self, order: Tuple[Sequence[str], Sequence[str]]) -> Tuple[Call, ...]:
        """The lines of an order as labsys plays them; raises `PlayingFault` where it answers otherwise than the model, as is due."""
        lines, all_due = order
        replies = self.player.play_accepted(self.world.with_script(lines)).replies
        for line, reply, due in zip(lines, replies, all_due):
            if reply.text != due:
                raise PlayingFault(f"labsys answers otherwise than labask's model: {line}: {reply.text}, not {due}")
        return tuple(Call(short(line), short(reply.text)) for line, reply in zip(lines, replies))


class Orders:
    """Asks about all orders of a script, and has labsys play what is found."""

    def __init__(self, world: World, player: Player, effort: Effort):
        self.world, self.effort, self.order_player = world, effort, OrderPlayer(world, player)
        self.orders = Interleaving(world, player.play_accepted(world.text))

    def rules(self, texts: Sequence[str]) -> List[Rule]:
        """The rules of the command line."""
        named = {tag: self.orders.named(tag) for tag in self.orders.forks}
        reader = RuleReader(self.world, self.orders.labels, named, len(self.orders.moves))
        return [reader.rule(text) for text in texts]

    def played(self, written: Written) -> Tuple[Call, ...]:
        """An order as labsys plays it; raises `PlayingFault` where it answers otherwise than the model."""
        return self.order_player.play((written.lines, written.due))

    def differing(self, findings: Findings) -> Iterator[Differing]:
        """The calls that have more than one reply, each of which labsys plays."""
        for number in findings.differing:
            move = self.orders.moves[number]
            found = sorted(findings.replies[number].values(), key=lambda each: sum(each[0].made))
            answers = tuple(self.answer(node, last) for node, last in found)
            yield Differing(number, move.line.line.number, short(move.line.single(number)), answers)

    def answer(self, node: Node, last: Move) -> Answer:
        """A reply to a call in a state, by the order in which that was met first."""
        calls = self.played(self.orders.written([*node.order(), last]))
        return Answer(calls[-1].reply, calls)

    def broken(self, findings: Findings) -> Iterator[BrokenRule]:
        """The rules that are broken, each with an order that labsys plays."""
        yield from (self.broken_rule(findings.broken[at]) for at in sorted(findings.broken))

    def broken_rule(self, broken: Broken) -> BrokenRule:
        """A broken rule with its order."""
        written = self.orders.written(broken.node.order())
        shown = broken.rule.shown_by(written.state)
        if shown is not None:
            written.add_call(*shown)
        return BrokenRule(broken.rule.text, self.played(written))

    def test(self, most: int) -> Tested:
        """Has labsys play orders that have every step of every state, up to so many."""
        chosen: List[Tuple[List[Move], int]] = []
        for order in self.orders.cover():
            if len(chosen) >= most:
                break
            chosen.append(order)
        done = steps = 0
        written = (self.orders.written(order) for order, _ in chosen)
        lines = ((each.lines, each.due) for each in written)
        for (_, new), _ in zip(chosen, self.effort.results(self.order_player.play, lines)):
            done, steps = done + 1, steps + new
            self.effort.progress(f"orders: {done} of {len(chosen)} played")
        self.effort.clear()
        return Tested(done, steps, sum(len(node.steps) for node in self.orders.nodes))


# ---- answers

def call_lines(calls: Sequence[Call]) -> List[str]:
    """The lines of an order."""
    return table([[each.text, each.reply] for each in calls], "    ")


def differing_lines(each: Differing) -> Iterator[str]:
    """The lines of a call that has more than one reply: the shortest pair of orders."""
    yield f"call {each.number}, line {each.line}: {each.text}: {len(each.answers)} replies"
    for answer in each.answers[:2]:
        yield f"  {answer.reply}"
        yield from call_lines(answer.calls)
    for answer in each.answers[2:]:
        yield f"  {answer.reply}"


def count(number: int, word: str, plural: str = "s") -> str:
    """A number of things in words."""
    return f"{number:,} {word}" + ("" if number == 1 else plural)


def searched_lines(asked: Orders, findings: Findings, tested: Tested) -> Iterator[str]:
    """How much was looked at, and by whom."""
    orders, last = asked.orders, [node for node in asked.orders.nodes if sum(node.made) == len(asked.orders.moves)]
    if orders.whole:
        yield (f"{count(sum(node.orders for node in last), 'order')} of {count(len(orders.moves), 'call')} of "
               f"{count(len(orders.courses), 'process', 'es')} come to {count(len(orders.nodes), 'state')}, "
               f"{len(last):,} of them at the end.")
    else:
        yield f"It was stopped early, at {count(len(orders.nodes), 'state')}; what comes behind them was not looked at."
    differing = len(findings.differing)
    yield f"The replies to {count(differing, 'call')} depend on the order" + (
        f"; those to {len(findings.replies) - differing} do not." if orders.whole else ".")
    yield (f"Every order that is shown was played by labsys. It played {count(tested.orders, 'order')} besides, with "
           f"{tested.steps:,} of the {count(tested.all_steps, 'step')} of all states.")
    yield "Which states are the same, and what was not played, rests on labask's model of labsys."


def report(asked: Orders, findings: Findings, differing: Sequence[Differing], broken: Sequence[BrokenRule],
           tested: Tested) -> Iterator[str]:
    """The lines of the answer."""
    for each in broken:
        yield f"broken: {each.rule}"
        yield from call_lines(each.calls)
    for at, rule in enumerate(findings.rules):
        if at not in findings.broken:
            yield f"holds in every order: {rule.text}" if asked.orders.whole else f"not found broken: {rule.text}"
    for one in differing:
        yield from differing_lines(one)
    yield from searched_lines(asked, findings, tested)


def as_json(asked: Orders, findings: Findings, differing: Sequence[Differing], broken: Sequence[BrokenRule],
            tested: Tested) -> Dict[str, Any]:
    """The answer as JSON has it."""
    orders = asked.orders
    last = [node for node in orders.nodes if sum(node.made) == len(orders.moves)]
    shortest: Dict[str, Optional[BrokenRule]] = {rule.text: None for rule in findings.rules}
    shortest.update({each.rule: each for each in broken})
    return {"whole": orders.whole, "calls": len(orders.moves), "orders": sum(node.orders for node in last), "states": len(orders.nodes),
            "last_states": len(last), "played_orders": tested.orders, "played_steps": tested.steps, "steps": tested.all_steps,
            "rules": [{"rule": text, "broken": found is not None, "calls": [dataclasses.asdict(call) for call in found.calls]
                       if found is not None else []} for text, found in shortest.items()],
            "differing": [dataclasses.asdict(each) for each in differing]}


def answer(arguments: argparse.Namespace, player: Player) -> int:
    """Answers the question."""
    effort = effort_of(arguments)
    asked = Orders(read_world(read_file(arguments.file)), player, effort)
    rules = asked.rules(arguments.rule)
    findings = asked.orders.search(rules, arguments.states, effort)
    effort.clear()
    differing, broken = list(asked.differing(findings)), list(asked.broken(findings))
    tested = asked.test(arguments.orders)
    if arguments.json:
        write_json(as_json(asked, findings, differing, broken, tested))
    else:
        print("\n".join(report(asked, findings, differing, broken, tested)))
    if broken if rules else differing:
        return Status.YES
    return Status.NO if asked.orders.whole else Status.STOPPED
