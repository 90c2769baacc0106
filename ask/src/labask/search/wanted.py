"""Which calls a script of so many calls can have, as a rough closure says for a finer one."""
from typing import Any, Dict, Iterable, List, Sequence, Set, Tuple

from labask.search.facts import GROUP, LABEL, OWNER, Step
from labask.search.problem import Cast, Choices

# For each call what it is for, and the places of its objects in the words of a step.
CALLS: Dict[str, Tuple[str, Tuple[int, ...]]] = {
    "read": ("read", (1,)), "write": ("write", (1,)), "open": ("open", (1,)), "mkfifo": ("mkfifo", (1,)), "mkdir": ("mkdir", (1,)),
    "exec": ("become", (1,)), "cap_set_proc": ("become", ()), "setuid": ("become", ()), "setgid": ("become", ()),
    "mac_set_proc": ("become", ()), "chmod": ("chmod", (1,)), "chown": ("chown", (1,)), "mac_set_file": ("label", (1,)),
    "mac_set_fd": ("label", (1,)), "cap_set_file": ("caps", (1,)), "cap_set_fd": ("caps", (1,)), "link": ("move", (1, 2)),
    "rename": ("move", (2, 3)), "rename over": ("move", (2, 3)), "unlink": ("free", (1,)), "rename away": ("free", (1,)),
    "chdir": ("chdir", (1,)), "umask": ("umask", ()), "pipe": ("pipe", ()), "fork": ("fork", ()), "run": ("run", (1,)),
}
IDS = {OWNER: "users", GROUP: "groups", LABEL: "labels"}
BECOMING = {"setuid": "users", "setgid": "groups", "mac_set_proc": "labels"}


def purpose(words: Sequence[Any]) -> Tuple[str, Tuple[int, ...]]:
    """What the call of a step is for, and its objects."""
    what, places = CALLS[words[0]]
    if words[0] == "open" and len(words) > 3:
        what = "make"
    return what, tuple(words[place] for place in places)


class Wanted:
    """The calls that a script can have, from steps of a rough closure with its cast."""

    def __init__(self, cast: Cast, steps: Iterable[Step]):
        self.cast = cast
        self.steps = list(steps)
        self.calls: Set[Any] = set()
        for step in self.calling():
            what, items = purpose(step.words)
            self.calls.add((step.family, what, *(item if cast.items[item] else cast.kinds[item] for item in items)))
        self.families = {step.family for step in self.calling()}
        self.known: Dict[Any, bool] = {}

    def calling(self) -> List[Step]:
        """The steps that are calls."""
        return [step for step in self.steps if step.cost]

    def has(self, cast: Cast, family: int, what: str, items: Sequence[int]) -> bool:
        """Whether a call of a finer closure, with its cast, is wanted. Children are always, as no bound counts what a parent keeps."""
        key = (family, what, *items)
        if key not in self.known:
            mine = self.cast.family_of[cast.families[family][0]]
            there = [self.cast.item_of[cast.items[item][0]] if cast.items[item] else cast.kinds[item] for item in items]
            self.known[key] = mine in self.families if what == "fork" else (mine, what, *there) in self.calls
        return self.known[key]

    def choices(self) -> Choices:
        """The users, groups and labels that these steps have."""
        found: Dict[str, List[Any]] = {"users": [], "groups": [], "labels": []}
        for step in self.steps:
            for fact in step.needs:
                if fact[0] in IDS:
                    found[IDS[fact[0]]].append(fact[2])
            if step.words and step.words[0] in BECOMING:
                found[BECOMING[step.words[0]]].append(step.words[1])
        return Choices(*(frozenset(found[name]) for name in Choices._fields))
