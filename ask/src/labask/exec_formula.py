"""The formula of `exec` with its values: what a process gets by a program, as docs/PROFILE.md defines it.

It is compared with what `labsys` answers where the call is done; where it is not, it says what the call would give.
"""
from dataclasses import dataclass, replace
from typing import Any, Dict, FrozenSet, Iterator, List, Optional, Sequence, Tuple

from labask.answers import table
from labask.capability_texts import Sets, read_sets
from labask.observing import ObjectFacts, ProcessFacts
from labask.playing import PlayingFault
from labask.signatures import CAPABILITIES

SET_USER_ID, SET_GROUP_ID = 0o4000, 0o2000


def in_order(names: FrozenSet[str]) -> List[str]:
    """Capabilities in the order of the profile."""
    return [name for name in CAPABILITIES if name in names]


def shown(names: FrozenSet[str]) -> str:
    """A set of capabilities in words."""
    return "all" if len(names) == len(CAPABILITIES) else ",".join(in_order(names)) or "none"


@dataclass(frozen=True)
class ExecFormula:
    """What `exec` of a program gives: the process before, the program, its sets as a text, and the bound of the world.

    `after` is the process as `labsys` has it after the call; where the call was only done with further capabilities, `done_with`
    has these.
    """
    before: ProcessFacts
    program: ObjectFacts
    file_caps: str
    bound: FrozenSet[str]
    after: Optional[ProcessFacts] = None
    done_with: str = ""

    @property
    def file(self) -> Sets:
        """The sets of the file."""
        return read_sets(self.file_caps)

    @property
    def flag(self) -> bool:
        """Whether the flag of the file is on."""
        return bool(self.file.effective)

    @property
    def granted(self) -> FrozenSet[str]:
        """FP and X."""
        return self.file.permitted & self.bound

    @property
    def inherited(self) -> FrozenSet[str]:
        """FI and I."""
        return self.file.inheritable & read_sets(self.before.caps).inheritable

    @property
    def given(self) -> Sets:
        """The sets after the call."""
        permitted = self.granted | self.inherited
        return Sets(permitted if self.flag else frozenset(), read_sets(self.before.caps).inheritable, permitted)

    @property
    def given_ids(self) -> Tuple[str, ...]:
        """The ids after the call, in the order of `getids`."""
        user, effective, saved, group, effective_group, saved_group, groups = self.before.ids
        mode = int(self.program.mode, 8)
        users = (self.program.owner,) * 2 if mode & SET_USER_ID else (effective, saved)
        own_groups = (self.program.group,) * 2 if mode & SET_GROUP_ID else (effective_group, saved_group)
        return (user, *users, group, *own_groups, groups)

    def after_call(self, after: Optional[ProcessFacts], done_with: str = "") -> "ExecFormula":
        """The formula with the process after the call; raises `PlayingFault` where its sets or ids are not those of the formula."""
        if after is not None and (read_sets(after.caps), after.ids) != (self.given, self.given_ids):
            raise PlayingFault(f'exec of a program gives "{after.caps}", and its formula "{self.given.written}"')
        return replace(self, after=after, done_with=done_with)

    def set_id_text(self) -> str:
        """What the set-id bits of the program do."""
        mode = int(self.program.mode, 8)
        found = [f"the effective and the saved user become {self.program.owner}"] if mode & SET_USER_ID else []
        found += [f"the effective and the saved group become {self.program.group}"] if mode & SET_GROUP_ID else []
        return " and ".join(found) or "none: the program has no set-id bit"

    def rows(self) -> Iterator[Sequence[str]]:
        """The formula as rows: the values that go into it, and the result of each term."""
        before, file = read_sets(self.before.caps), self.file
        yield "P, permitted to the process", shown(before.permitted)
        yield "E, effective in the process", shown(before.effective)
        yield "I, inheritable of the process", shown(before.inheritable)
        yield "FP, permitted by the file", shown(file.permitted)
        yield "FI, inheritable of the file", shown(file.inheritable)
        yield "flag of the file", "on" if self.flag else "off"
        yield "X, the bound", shown(self.bound)
        yield "FP and X", shown(self.granted)
        yield "FI and I", shown(self.inherited)
        yield "P' = (FP and X) or (FI and I)", shown(self.given.permitted)
        yield "E' = P', since the flag is on" if self.flag else "E' is empty, since the flag is off", shown(self.given.effective)
        yield "I' = I", shown(self.given.inheritable)
        yield "set-id bits", self.set_id_text()

    def lines(self) -> Iterator[str]:
        """The formula as text."""
        yield from table(self.rows())
        if self.after is None:
            yield "The call was not done, so these values are not played."
        elif self.done_with:
            yield f'The call was not done. With {self.done_with} labsys answers "{self.after.caps}", as the formula gives.'
        else:
            yield f'After the call labsys answers "{self.after.caps}", as the formula gives.'

    def as_json(self) -> Dict[str, Any]:
        """The formula as JSON has it."""
        def sets(given: Sets) -> Dict[str, List[str]]:
            return {"permitted": in_order(given.permitted), "effective": in_order(given.effective),
                    "inheritable": in_order(given.inheritable)}
        mode = int(self.program.mode, 8)
        file = self.file
        return {
            "before": sets(read_sets(self.before.caps)),
            "file": {"permitted": in_order(file.permitted), "inheritable": in_order(file.inheritable), "flag": self.flag},
            "bound": in_order(self.bound), "file_permitted_and_bound": in_order(self.granted),
            "file_inheritable_and_inheritable": in_order(self.inherited), "after": sets(self.given),
            "user": self.program.owner if mode & SET_USER_ID else None,
            "group": self.program.group if mode & SET_GROUP_ID else None,
            "played": self.after is not None, "done_with": self.done_with or None,
        }
