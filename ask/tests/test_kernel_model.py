"""The model of the kernel answers every call as labsys does, on random worlds and random scripts of all calls.

`LABASK_MODEL_WORLDS` names how many worlds are played; a world has a script of 200 calls.
"""
import os
import random
from typing import Iterator, List, Tuple

from labask.kernel.calls import ROWS, play
from labask.kernel.state import Labels, State, first_state
from labask.kernel.texts import read_call, reply_text
from labask.playing import Player
from labask.signatures import CALLS, CAPABILITIES
from labask.worlds import World, read_world, split_words

WORLDS = int(os.environ.get("LABASK_MODEL_WORLDS", "60"))
SCRIPT = 200
LEVELS, CATEGORIES, GRADES = ["low", "mid", "high"], ["a", "b"], ["poor", "fine"]
NAMES = ["n0", "n1", "n2", "n3"]
MODES = ["0777", "0755", "0700", "0644", "4755", "2755", "6777", "0000", "0070", "0007"]
IDS = ["0", "10", "20"]
ALL = ",".join(CAPABILITIES)


def sets(draw: random.Random) -> str:
    """A capability text."""
    names = ",".join(draw.sample(CAPABILITIES, draw.randint(1, 6)))
    return draw.choice(["=", f"{names}=ep", f"{names}=eip", f"{names}=p", f"{names}=i", f"{ALL}=eip", f"{names}=ip"])


def file_sets(draw: random.Random) -> str:
    """A capability text that a file can have."""
    names = ",".join(draw.sample(CAPABILITIES, draw.randint(1, 6)))
    return draw.choice(["=", f"{names}=ep", f"{names}=eip", f"{names}=p", f"{names}=i", f"{names}=ip"])


def label(draw: random.Random) -> str:
    """A label."""
    names = ",".join(draw.sample(CATEGORIES, draw.choice([0, 0, 1, 2])))
    return draw.choice(LEVELS) + (f":{names}" if names else "") + draw.choice(["", "", "/poor"])


def world_text(draw: random.Random) -> bytes:
    """A random world with grades, capabilities and set-id bits, whose labels may be refused."""
    lines = ["world 2", "levels low mid high", "categories a b", "grades poor fine",
             f"bound {draw.choice(['all', 'none', ','.join(draw.sample(CAPABILITIES, 9))])}", "dir / 0777 0 0 low"]
    directories, low = [""], draw.random() < 0.5
    for _ in range(draw.randint(3, 9)):
        path = f"{draw.choice(directories)}/{draw.choice(NAMES)}"
        kind = draw.choice(["dir", "file", "file", "fifo"])
        text = f"{kind} {path} {draw.choice(MODES)} {draw.choice(IDS)} {draw.choice(IDS)} {'low' if low else label(draw)}"
        lines.append(text + (f' "bytes of {path}" "{file_sets(draw)}"' if kind == "file" else ""))
        directories += [path] if kind == "dir" else []
    for _ in range(draw.randint(1, 4)):
        groups = draw.choice(["-", "10", "10,20"])
        lines.append(f'proc {"low" if low else label(draw)} {draw.choice(IDS)} {draw.choice(IDS)} {groups} "{sets(draw)}"')
    return ("\n".join([*lines, "script"]) + "\n").encode()


def accepted_world(draw: random.Random, player: Player) -> World:
    """A random world that labsys accepts: lines that it refuses are taken away."""
    text = world_text(draw)
    while True:
        refusal = player.play(text).refusal
        if refusal is None:
            return read_world(text)
        lines = text.split(b"\n")
        del lines[refusal.line - 1]
        text = b"\n".join(lines)


def argument(draw: random.Random, name: str, tags: List[str]) -> str:
    """A random argument."""
    path = "/".join(draw.choices(NAMES, k=draw.choice([0, 1, 1, 2, 2, 3]))) or "."
    values = {
        "PATH": lambda: draw.choice(["/", "/", ""]) + path, "FD": lambda: str(draw.randint(0, 5)),
        "N": lambda: str(draw.choice([0, 1, 5, 100])), "BYTES": lambda: draw.choice(['""', '"x"', '"some bytes"']),
        "OFFSET": lambda: str(draw.randint(-3, 12)), "set|cur|end": lambda: draw.choice(["set", "cur", "end"]),
        "MODE": lambda: draw.choice(MODES), "UID": lambda: draw.choice(IDS), "GID": lambda: draw.choice(IDS),
        "CAPS": lambda: f'"{sets(draw)}"', "LABEL": lambda: label(draw), "PID": lambda: draw.choice(tags),
        "0|TERM|KILL": lambda: draw.choice(["0", "0", "TERM", "KILL"]), "on|off": lambda: draw.choice(["on", "off"]),
        "FLAGS": lambda: draw.choice(["r", "w", "rw", "rwa", "wt", "wa", "rwt"]),
    }
    return values[name]()


def line_of(draw: random.Random, tags: List[str]) -> str:
    """A random call of a process."""
    name = draw.choice([*CALLS, "open", "open", "read", "write", "rename", "link"])
    name = draw.choice(list(CALLS)) if name in ("exit", "kill") else name
    words = [argument(draw, each, tags) for each in CALLS[name].split() if not each.startswith("[")]
    if name == "umask":
        words = [draw.choice(["0000", "0022", "0077"])]
    if name == "open" and draw.random() < 0.4:
        words = [words[0], draw.choice(["wc", "rwc", "wcx", "rwcx", "wct"]), draw.choice(MODES)]
    return " ".join([draw.choice(tags), name, *words])


def script(draw: random.Random, world: World, labels: Labels) -> Iterator[Tuple[str, str]]:
    """Random lines, each with the reply of the model."""
    state: State = first_state(world, labels)
    tags = [process.tag for process in world.processes]
    for _ in range(SCRIPT):
        line = line_of(draw, tags)
        tag, name, *_ = line.split(" ")
        words = split_words(line.encode())[0][2:]
        call = read_call(name, words, labels)
        state, reply = play(state, labels.number(tag), call)
        if name == "fork" and reply.done:
            tags.append(labels.number_text(reply.answer[0]))
        yield line, reply_text(reply, labels)


def test_the_model_has_every_call() -> None:
    assert set(ROWS) == set(CALLS)


def test_the_model_answers_as_labsys(player: Player) -> None:
    seen = set()
    for seed in range(WORLDS):
        draw = random.Random(f"model {seed}")
        world = accepted_world(draw, player)
        lines, replies = zip(*script(draw, world, Labels(world.policy)))
        played = player.play_accepted(world.with_script(lines)).replies
        for line, own, due in zip(lines, replies, played):
            seen.add((due.call, due.outcome, due.error, due.check))
            assert own == due.text, f"world {seed}, call {due.number}: {line}"
    done = {call for call, *_ in seen}
    assert done == set(CALLS), f"not called: {set(CALLS) - done}"
