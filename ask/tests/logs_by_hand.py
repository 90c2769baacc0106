"""What tests of logs that are written by hand share: a log is followed in a world, and compared, in this process."""
import argparse
import re
from typing import Dict, List, NamedTuple, Optional, Sequence

from labask import against, tracing
from labask.effort import Effort
from labask.playing import Player
from labask.strace.comparing import Comparison
from labask.strace.log import Log, read_log
from labask.worlds import World, read_world

OPTIONS = argparse.Namespace(directory=None, tag=None, start=None, umask=None)


class Followed(NamedTuple):
    """A log that was followed: the world with the script, its lines without their tags, and the comparisons by lines of the log."""
    world: World
    script: List[str]
    compared: Dict[int, Comparison]
    log: Log

    @property
    def text(self) -> str:
        """The world with its script, as text."""
        return self.world.text.decode("latin-1")

    @property
    def verdicts(self) -> Dict[int, str]:
        """The verdicts by lines of the log."""
        return {line: each.verdict.value for line, each in self.compared.items()}


def log_of(lines: Sequence[str]) -> bytes:
    """The log that has these lines; those without the number of a process are of process 7."""
    return "".join(line + "\n" if re.match(r"\d+ ", line) else f"7 {line}\n" for line in lines).encode("latin-1")


def follow(player: Player, world: str, log: bytes) -> Followed:
    """Follows a log in a world, and compares the replies."""
    before, read = read_world(world.encode()), read_log(log)
    script = tracing.trace(before, read, OPTIONS, player)
    for line in script.summary():
        script.comment(line)
    run = read_world(tracing.world_with(before, script))
    compared = against.compare_whole(run, read, player.play_accepted(run.text).replies, player)
    lines = [line.text.split(" ", 1)[1] for line in run.script]
    return Followed(run, lines, {each.call.line: each for each in compared}, read)


def report(player: Player, followed: Followed, effort: Optional[Effort] = None) -> against.Report:
    """What `why --against` says."""
    played, effort = player.play_accepted(followed.world.text), effort or Effort()
    compared = list(followed.compared.values())
    return against.Report(compared, against.explanations(followed.world, played, player, compared, effort), effort)
