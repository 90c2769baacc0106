"""The question `trace`: writes a world with the script of a log of strace."""
import argparse
import os
import re
import sys
from typing import Any, Dict, Optional, Set

from labask.answers import Status, write_json
from labask.command_words import named
from labask.directories import OTHERS
from labask.playing import Player, Session
from labask.strace.follow import begin, ends_of, first_directory, first_process, follow
from labask.strace.following import Following
from labask.strace.log import Log, read_log
from labask.strace.questions import answers
from labask.strace.script import Script
from labask.worlds import Kind, World, read_file, read_world, split_words

INPUT_BYTES = 16777216
ROOT = re.compile(rb"# root (\".*\")$")
LEFT_OUT = re.compile(rb"# left out: (?:" + b"|".join(what.value.encode("ascii") for what in OTHERS.values()) + rb") (.*)$")


class TraceFault(Exception):
    """What is lacking before a log can be followed."""


def add_arguments(parser: argparse.ArgumentParser) -> None:
    """Adds the arguments of the question."""
    parser.add_argument("file", metavar="WORLD", help="the world; `labask world DIR` writes one; - is standard input")
    parser.add_argument("log", metavar="LOG", help="the log of `strace -f -y`")
    parser.add_argument("--directory", metavar="DIR", type=named,
                        help="the directory that is the root of the world; else the one that a comment of the world names")
    parser.add_argument("--as", metavar="TAG", dest="tag", type=named,
                        help="the process that the log begins with; the first of the world by default")
    parser.add_argument("--start", metavar="DIR", type=named, help="the current directory at the beginning, where the log does not "
                        "tell; the root of the world by default")
    parser.add_argument("--umask", metavar="MODE", type=read_mode, help="the umask at the beginning; 0022 by default")


def read_mode(text: str) -> str:
    """The mode of a word of the command line."""
    if not re.fullmatch(r"0?[0-7]{1,3}", text):
        raise argparse.ArgumentTypeError(f"{text!r} is no mode of at most 0777")
    return f"{int(text, 8):04o}"


def root_of(world: World, given: Optional[str]) -> bytes:
    """The directory that is the root of a world, as given or as a comment of the world has it."""
    if given is not None:
        return os.path.realpath(os.fsencode(given))
    for line in world.lines:
        found = ROOT.match(line.text)
        words = split_words(found[1])[0] if found else ()
        if words:
            return words[0].value
    raise TraceFault("no comment of the world names its directory: --directory DIR is needed")


def tag_of(world: World, given: Optional[str]) -> str:
    """The tag of the process that a log begins with."""
    tag = world.policy.canonical_tag(given) if given else next(iter(world.processes_by_tag), "")
    if tag not in world.processes_by_tag:
        raise TraceFault(f"the world has no process {given}" if given else "the world has no process")
    return tag


def absent_paths(world: World) -> Set[bytes]:
    """The paths of symbolic links, devices and sockets, which comments of the world name as left out."""
    found = (LEFT_OUT.match(line.text) for line in world.lines)
    words = (split_words(each[1])[0] for each in found if each)
    return {each[0].value for each in words if len(each) == 1}


def make_following(script: Script, world: World, root: bytes, log: Log) -> Following:
    """What is followed, at the beginning."""
    fifos = {each.path for each in world.objects if each.kind is Kind.FIFO}
    return Following(script, root, fifos, absent_paths(world), ends_of(log))


def trace(world: World, log: Log, arguments: argparse.Namespace, player: Player) -> Script:
    """The script of a log in a world, played as it is written."""
    root, tag, pid = root_of(world, arguments.directory), tag_of(world, arguments.tag), first_process(log)
    if pid is None:
        raise TraceFault("the log has no call")
    start = os.path.realpath(os.fsencode(arguments.start)) if arguments.start else None
    player.check(world.text)
    with Session(player, world.head()) as session:
        for line in world.script:
            session.line(line.line.text.decode("latin-1"), line.calls)
        script = Script(session)
        following = make_following(script, world, root, log)
        begin(following, pid, tag, start or first_directory(log, pid) or root, arguments.umask)
        follow(following, log)
    if script.questions and len(world_with(world, script)) <= INPUT_BYTES:
        add_answers(script, world, player)
    return script


def add_answers(script: Script, world: World, player: Player) -> None:
    """Adds to the questions of a script their answers, which are played when the whole script is known."""
    text = world_with(world, script)
    before = len(world.lines) + 1
    for each in answers(read_world(text), player, player.play_accepted(text).replies):
        script.answer(each.line - before, each.text)


def world_with(world: World, script: Script) -> bytes:
    """The world with the script behind it."""
    return world.text + b"".join(line + b"\n" for line in script.lines)


def as_json(script: Script) -> Dict[str, Any]:
    """The answer for `--json`."""
    return {"script": [line.decode("latin-1") for line in script.lines], "played": script.played, "added": script.added,
            "left_out": {reason.value: count for reason, count in script.left_out.items()}, "no_call": dict(script.unknown),
            "questions": len(script.questions), "bytes_made_up": script.made_up}


def answer(arguments: argparse.Namespace, player: Player) -> int:
    """Writes a world with the script of a log; what is left out stands there as comments, and is counted at the end."""
    world, log = read_world(read_file(arguments.file)), read_log(read_file(arguments.log))
    try:
        script = trace(world, log, arguments, player)
    except TraceFault as fault:
        print(f"labask: {fault}", file=sys.stderr)
        return Status.WRONG_WORDS
    for line in script.summary():
        script.comment(line)
    text = world_with(world, script)
    if len(text) > INPUT_BYTES:
        print(f"labask: the script would have {len(text)} bytes, and may have {INPUT_BYTES}", file=sys.stderr)
        return Status.REFUSED
    if arguments.json:
        write_json(as_json(script))
    else:
        sys.stdout.buffer.write(text)
    return Status.DONE
