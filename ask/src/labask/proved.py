"""What `labsys never` says of a world: what no script can do there, whatever its calls."""
from dataclasses import dataclass
from typing import Dict, FrozenSet, List, Optional, Sequence, Tuple

from labask.capability_texts import named
from labask.kernel_profile import CAPABILITIES
from labask.playing import STATUS_ACCEPTED, Played, Player, PlayingFault, Refused
from labask.worlds import Word, split_words

LINES = {b"never": 2, b"holds": 3, b"gives": 3, b"uncrossed": 2, b"open": 2}  # how many words each line has
LABEL_CAPABILITIES = tuple(name for name in CAPABILITIES if name.startswith("cap_mac_"))
Had = Tuple[str, FrozenSet[str]]


@dataclass(frozen=True)
class Proved:
    """What is so for every script of a world.

    `never` has the capabilities that none exercises. Of the five over labels, `holds` has those that processes have, by their tags,
    and `gives` those that files may give, by their paths, whose bytes are the characters of these numbers. Nothing crosses a label
    of `uncrossed`, and a script may cross one of `open`; both have labels of processes alone.
    """
    never: FrozenSet[str]
    holds: Tuple[Had, ...]
    gives: Tuple[Had, ...]
    uncrossed: Tuple[str, ...]
    open: Tuple[str, ...]

    @property
    def confined(self) -> bool:
        """Whether no process ever has one of the five capabilities over labels, so that nothing crosses any label."""
        return self.never.issuperset(LABEL_CAPABILITIES)


def read_had(lines: Sequence[Sequence[Word]]) -> Tuple[Had, ...]:
    """The capabilities of lines that have a name and a set."""
    return tuple((name.text, named(names.text)) for _, name, names in lines)


def read_proved(out: bytes) -> Proved:
    """What the lines of a whole output say; raises `ValueError` where they are no such output."""
    *lines, last = [split_words(line)[0] for line in out.split(b"\n")[:-1]] or [()]
    found: Dict[bytes, List[Sequence[Word]]] = {word: [] for word in LINES}
    for words in lines:
        if not words or LINES.get(words[0].written) != len(words):
            raise ValueError("another line")
        found[words[0].written].append(words)
    if len(found[b"never"]) != 1 or [word.text for word in last] != ["done", str(len(found[b"uncrossed"]))]:
        raise ValueError("another first or last line")
    uncrossed, crossed = (tuple(words[1].text for words in found[word]) for word in (b"uncrossed", b"open"))
    return Proved(named(found[b"never"][0][1].text), read_had(found[b"holds"]), read_had(found[b"gives"]), uncrossed, crossed)


def proved(player: Player, text: bytes) -> Proved:
    """What no script can do in the world of a text, with or without a script; raises `Refused` where `labsys` refuses the text."""
    status, out, messages = player.run(["never"], text)
    if status != STATUS_ACCEPTED:
        raise Refused(text, Played(status, out, b"", messages).refusal)
    try:
        return read_proved(out)
    except ValueError as fault:
        raise PlayingFault(f"{player.program[0]} does not answer as labsys does") from fault


def proved_if_answered(player: Player, text: bytes) -> Optional[Proved]:
    """The same, or None where `labsys never` gives no answer: for what is said besides the answer to another question."""
    try:
        return proved(player, text)
    except (PlayingFault, Refused):
        return None
