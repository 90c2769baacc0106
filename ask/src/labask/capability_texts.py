"""Capability texts: the three sets that a text stands for, the canonical text of sets, and where a text is no such text."""
import re
from dataclasses import dataclass
from typing import Dict, FrozenSet, Iterator, List, Tuple

from labask.kernel_profile import CAPABILITIES

FLAGS = "eip"
ACTION = re.compile(r"([=+-])([eip]*)")
BLANKS = " \t"


@dataclass(frozen=True)
class TextFault:
    """What is wrong at a place of a text: its first column, its length, whether a name is unknown there, and a message."""
    column: int
    length: int
    unknown: bool
    message: str


@dataclass(frozen=True)
class Sets:
    """Three sets of capabilities."""
    effective: FrozenSet[str] = frozenset()
    inheritable: FrozenSet[str] = frozenset()
    permitted: FrozenSet[str] = frozenset()

    @property
    def written(self) -> str:
        """The canonical text."""
        groups: Dict[str, List[str]] = {}
        for name in CAPABILITIES:
            held = zip(FLAGS, (self.effective, self.inheritable, self.permitted))
            flags = "".join(flag for flag, names in held if name in names)
            if flags:
                groups.setdefault(flags, []).append(name)
        clauses = [("all" if len(names) == len(CAPABILITIES) else ",".join(names)) + "=" + flags for flags, names in groups.items()]
        return " ".join(clauses) or "="


def clauses_of(text: str) -> Iterator[Tuple[int, str]]:
    """The clauses of a text, each with its column."""
    return ((found.start(), found[0]) for found in re.finditer(r"[^ \t]+", text))


def names_of(clause: str) -> str:
    """What stands before the first action of a clause: names with commas between them, or nothing."""
    return re.split("[=+-]", clause, maxsplit=1)[0]


def named(listed: str) -> FrozenSet[str]:
    """The capabilities of a list; one without names stands for all."""
    names = listed.lower().split(",")
    return frozenset(CAPABILITIES) if not listed or "all" in names else frozenset(names) & frozenset(CAPABILITIES)


def act(held: Dict[str, FrozenSet[str]], names: FrozenSet[str], operator: str, flags: str) -> None:
    """Raises and lowers the flags of capabilities as an action says."""
    for flag in FLAGS if operator == "=" else flags:
        held[flag] = held[flag] | names if operator != "-" and flag in flags else held[flag] - names


def read_sets(text: str) -> Sets:
    """The sets of a capability text that `labsys` accepts."""
    held: Dict[str, FrozenSet[str]] = {flag: frozenset() for flag in FLAGS}
    for _, clause in clauses_of(text):
        listed = names_of(clause)
        for operator, flags in ACTION.findall(clause[len(listed):]):
            act(held, named(listed), operator, flags)
    return Sets(*(held[flag] for flag in FLAGS))


def idle_lowerings(text: str) -> Iterator[TextFault]:
    """The actions of a capability text that `labsys` accepts which lower what no action before them has raised."""
    held: Dict[str, FrozenSet[str]] = {flag: frozenset() for flag in FLAGS}
    for column, clause in clauses_of(text):
        listed = names_of(clause)
        names = named(listed)
        for action in ACTION.finditer(clause, len(listed)):
            if action[1] == "-" and not any(held[flag] & names for flag in action[2]):
                message = f"{action[0]} lowers what no action before it has raised; to raise it, write {listed}={action[2]}"
                yield TextFault(column + action.start(), len(action[0]), False, message)
            act(held, names, action[1], action[2])


def name_faults(listed: str, column: int) -> Iterator[TextFault]:
    """What is wrong with the names of a list."""
    for found in re.finditer(r"[^,]+|(?<=,)(?=,|$)|^(?=,)", listed):
        name = found[0].lower()
        if not name:
            yield TextFault(column + found.start(), 1, True, "the name of a capability is due")
        elif name not in CAPABILITIES and name != "all":
            near = f"; meant may be cap_{name}" if "cap_" + name in CAPABILITIES else ""
            yield TextFault(column + found.start(), len(name), True, f"unknown capability {found[0]}{near}")


def action_faults(actions: str, column: int, listed: bool) -> Iterator[TextFault]:
    """What is wrong with the actions of a clause."""
    if not actions:
        yield TextFault(column, 1, False, "an action is due, as =p")
    if actions[:1] in ("+", "-") and not listed:
        yield TextFault(column, 1, False, f"names are due before {actions[0]}")
    at = 0
    while at < len(actions):
        action = ACTION.match(actions, at)
        if not action:
            yield TextFault(column + at, 1, False, "expected =, + or - or the flags e, i and p")
            return
        if action[1] != "=" and not action[2]:
            yield TextFault(column + at, 1, False, f"a flag is due after {action[1]}")
        at = action.end()


def hyphen_faults(clause: str, column: int) -> Iterator[TextFault]:
    """The names of a clause that have hyphens in place of underscores."""
    for found in re.finditer(r"\bcap(?:[-_][a-z]+)+", clause, re.I):
        name = found[0].replace("-", "_").lower()
        if "-" in found[0] and name in CAPABILITIES:
            yield TextFault(column + found.start(), len(found[0]), True, f"unknown capability {found[0]}; the name is {name}")


def text_faults(text: str) -> Iterator[TextFault]:
    """What is wrong with a capability text, in the order of its clauses; nothing where it is one."""
    clauses = list(clauses_of(text))
    if not clauses:
        yield TextFault(0, max(1, len(text)), False, "a capability text is not empty; that of empty sets is =")
    for column, clause in clauses:
        listed = names_of(clause)
        yield from hyphen_faults(clause, column)
        yield from name_faults(listed, column)
        yield from action_faults(clause[len(listed):], column + len(listed), bool(listed))
