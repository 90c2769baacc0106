"""Tests `orders`: by every order of small random scripts that labsys itself plays, and by worlds whose answers are known.

`LABASK_ORDER_WORLDS` names of how many random worlds all orders are played.
"""
import itertools
import json
import os
import pathlib
import random
import time
from typing import Dict, Iterator, List, Sequence, Set, Tuple

import pytest
from support import EXAMPLES, TOP, labask
from test_kernel_model import accepted_world, line_of

from labask.answers import Status
from labask.effort import Effort
from labask.interleaving import Interleaving
from labask.orders import Orders
from labask.playing import Player, Reply
from labask.worlds import World, read_world

pytestmark = pytest.mark.usefixtures("program")

RACE, NO_RACE = TOP / "examples" / "race.txt", TOP / "examples" / "no_race.txt"
HEAD = """world 2
levels base
categories
bound all
dir / 0777 0 0 base
file /secret 0600 0 0 base "bytes"
file /door 0666 0 0 base ""
proc base 0 0 - "="
proc base 10 10 - "="
script
"""
SEEDS = range(int(os.environ.get("LABASK_ORDER_WORLDS", "4")))
NUMBERED = {"stat": 6, "fstat": 6}  # answers in which a number of an object stands, and at which place


# ---- all orders, played one by one

def merged(courses: Sequence[Sequence[int]]) -> Iterator[Tuple[int, ...]]:
    """Every order of calls that keeps the order of each process."""
    if not any(courses):
        yield ()
    for at, course in enumerate(courses):
        if course:
            rest = [*courses[:at], course[1:], *courses[at + 1:]]
            yield from ((course[0], *others) for others in merged(rest))


def shown(reply: Reply, objects: Set[str]) -> str:
    """A reply without the number of an object that the world does not have."""
    words = [word.written.decode() for word in reply.words]
    at = NUMBERED.get(reply.call)
    if words and at is not None and words[at] not in objects:
        words[at] = "new"
    return " ".join(words) if words else reply.text


def replies_of_all_orders(world: World, player: Player) -> Dict[int, Set[str]]:
    """The replies to each call in all orders."""
    courses: Dict[str, List[int]] = {}
    for number, line in world.lines_by_call.items():
        courses.setdefault(line.tag, []).append(number)
    objects, found = {each.number for each in world.objects}, {number: set() for number in world.lines_by_call}
    for order in merged(list(courses.values())):
        lines = [world.lines_by_call[number].text for number in order]
        for number, reply in zip(order, player.play_accepted(world.with_script(lines)).replies):
            found[number].add(shown(reply, objects))
    return found


def random_script(draw: random.Random, world: World) -> List[str]:
    """A script of six calls of up to three processes, without forks."""
    tags = [each.tag for each in world.processes][:3]
    lines = (line_of(draw, tags) for _ in itertools.count())
    return list(itertools.islice((line for line in lines if line.split(" ")[1] != "fork"), 6))


@pytest.mark.parametrize("seed", SEEDS)
def test_all_orders_of_a_random_script(seed: int, player: Player) -> None:
    draw = random.Random(f"orders {seed}")
    world = accepted_world(draw, player)
    while not world.processes:
        world = accepted_world(draw, player)
    world = read_world(world.with_script(random_script(draw, world)))
    due = replies_of_all_orders(world, player)
    asked = Orders(world, player, Effort())
    findings = asked.orders.search((), 50_000, Effort())
    assert {number: len(replies) for number, replies in findings.replies.items()} == {n: len(each) for n, each in due.items()}
    for each in asked.differing(findings):
        assert len({answer.reply for answer in each.answers}) >= len(due[each.number])
    tested = asked.test(10_000)
    assert tested.steps == tested.all_steps


@pytest.mark.parametrize("path", EXAMPLES, ids=lambda path: path.stem)
def test_every_example(path: pathlib.Path) -> None:
    status, out, messages = labask("orders", path, "--orders", "5", "--states", "1000", "--json")
    assert status in (Status.YES, Status.NO, Status.STOPPED) and not messages
    answer = json.loads(out)
    assert (status == Status.YES) == bool(answer["differing"]) and (status != Status.NO or answer["whole"])


# ---- answers that are known

def asked(tmp_path: pathlib.Path, script: str, *words: str) -> Tuple[int, str]:
    """The status and the answer about a script in a small world."""
    path = tmp_path / "script.txt"
    path.write_text(HEAD + script, encoding="ascii")
    status, out, messages = labask("orders", path, *words)
    assert not messages
    return status, out


def test_a_race_is_found_and_independent_calls_differ_in_nothing() -> None:
    status, out, _ = labask("orders", RACE, "--json")
    answer = json.loads(out)
    assert status == Status.YES and [each["number"] for each in answer["differing"]] == [1, 2, 3]
    last = answer["differing"][2]["answers"]
    assert {each["reply"] for each in last} == {'ok "a letter"', 'ok "root:hash"', "EBADF"}
    assert answer["played_steps"] == answer["steps"] and answer["orders"] == 10
    assert labask("orders", NO_RACE)[0] == Status.NO


RULES = [
    (RACE, 'never call 3 ok "root:hash"', True), (RACE, "call 3 ok", True), (RACE, "call 4 ok", False),
    (RACE, 'never call 3 ok "root:hash" if call 1 ok file 0644 10', True),
    (RACE, 'never call 3 ok "root:hash" if call 1 ENOENT', True), (RACE, "call 2 ok if call 1 ENOENT", True),
    (RACE, 'never call 3 ok "a letter" if call 1 ENOENT', False),
    (RACE, "never flow /etc/shadow -> 1@base", True), (RACE, "never flow /etc/shadow -> 2@base", False),
    (RACE, "never flow /etc/* -> label:base", True), (RACE, 'never flow /spool/job -> "/etc/shadow"', False),
    (RACE, "deny 2@base read /etc/shadow", False), (RACE, "deny 2@base read /etc/shadow by dac_read", False),
    (RACE, "deny 2@base read /etc/shadow by mac_read", True), (RACE, "may 2@base read /spool/job", True),
    (RACE, "may 1@base read /etc/shadow", False), (NO_RACE, "may 2@base list /spool/bob", False),
    (NO_RACE, "deny 1@base search /spool/bob by dac_search", False), (NO_RACE, "deny 1@base write /spool/ann/job", True),
    (NO_RACE, "deny 1@base execute /spool/manual by dac_execute", False),
]


@pytest.mark.parametrize("path, rule, broken", RULES, ids=[f"{path.stem} {rule}" for path, rule, _ in RULES])
def test_rules(path: pathlib.Path, rule: str, broken: bool) -> None:
    status, out, messages = labask("orders", path, "--rule", rule)
    assert (status, messages) == (Status.YES if broken else Status.NO, "")
    assert out.startswith(f"{'broken' if broken else 'holds in every order'}: {rule}\n")


@pytest.mark.parametrize("rule, said", [
    ("never call 9 ok", "there is no call 9"), ("call 0 ok", "there is no call 0"), ("call 1", "is no rule"), ("", "is no rule"),
    ("call 1 \"", "is no reply"), ("may 9@base read /spool", "has no process"), ("deny 1@base read spool", "is no absolute path"),
    ("deny 1@base read /a by none", "is no check"), ("may 1@base read /a by owner", "is no rule"),
    ("never flow /none -> 1@base", "no line of the world"), ("never flow /spool/job -> 7@base", "has no process"),
])
def test_what_is_no_rule(rule: str, said: str) -> None:
    status, out, messages = labask("orders", RACE, "--rule", rule)
    assert (status, out) == (Status.WRONG_WORDS, "") and said in messages


def test_a_child_begins_behind_its_fork(tmp_path: pathlib.Path) -> None:
    """Both processes fork, and the numbers of their children depend on the order; the children are the same all the same."""
    script = "1@base fork\n2@base fork\n3@base getids\n4@base getids\n1@base kill 3@base KILL\n1@base wait\n2@base wait\n"
    status, out = asked(tmp_path, script, "--json")
    answer = json.loads(out)
    differing = {each["number"]: {one["reply"] for one in each["answers"]} for each in answer["differing"]}
    # only the child of process 1 may be ended before its call
    assert status == Status.YES and differing == {3: {"ok 0 0 0 0 0 0 -", "ESRCH"}} and answer["played_steps"] == answer["steps"]


def test_a_flow_goes_through_a_child_and_a_file(tmp_path: pathlib.Path) -> None:
    script = ("1@base open /secret r\n1@base read 0 9\n1@base fork\n3@base open /door w\n3@base write 1 \"x\"\n"
              "2@base open /door r\n2@base read 0 9\n")
    for target in ("2@base", "/door", "3@base"):
        status, out = asked(tmp_path, script, "--rule", f"never flow /secret -> {target}", "--orders", "5")
        assert (status, out.startswith("broken")) == ((Status.YES, True) if target != "3@base" else (Status.NO, False))


def test_it_stops_early(tmp_path: pathlib.Path) -> None:
    status, out, _ = labask("orders", NO_RACE, "--states", "4")
    assert status == Status.STOPPED and "It was stopped early, at " in out and "do not" not in out
    status, out, _ = labask("orders", RACE, "--states", "4", "--rule", "never call 3 ok")
    assert status == Status.STOPPED and "not found broken: never call 3 ok" in out
    assert asked(tmp_path, "")[0] == Status.NO


def busy_script() -> str:
    """Three processes of six calls each, all on the same two files."""
    calls = ["open /door rw", "write 0 \"{}\"", "lseek 0 set 0", "read 0 9", "open /new{} wc 0644", "stat /door"]
    return "".join(f"{tag} {call.format(tag[0])}\n" for call in calls for tag in ("1@base", "2@base", "3@base"))


def test_three_processes_of_six_calls(tmp_path: pathlib.Path) -> None:
    path = tmp_path / "busy.txt"
    path.write_text(HEAD.replace('proc base 10 10 - "="', 'proc base 10 10 - "="\nproc base 20 20 - "="') + busy_script(), encoding="ascii")
    begin = time.process_time()
    status, out, _ = labask("orders", path, "--json")
    answer = json.loads(out)
    assert status == Status.YES and answer["whole"] and answer["orders"] == 17_153_136
    assert time.process_time() - begin < 10


def test_the_orders_of_the_script_itself_are_among_them(player: Player) -> None:
    world = read_world(RACE.read_bytes())
    orders = Interleaving(world, player.play_accepted(world.text))
    findings = orders.search((), 1_000, Effort())
    for reply in player.play_accepted(world.text).replies:
        assert reply.text in {orders.written([*node.order(), move]).due[-1] for node, move in findings.replies[reply.number].values()}
