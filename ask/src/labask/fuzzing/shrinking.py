"""Shrinks a text on which two programs differ: to fewer calls, fewer objects and processes, and plainer lines.

A change is kept where the programs differ in the same kind of way. So what is left may differ in the numbers that it shows.
"""
import dataclasses
from dataclasses import dataclass, field, replace
from typing import Callable, Iterator, Optional, Sequence, Set, Tuple

from labask.capability_texts import read_sets
from labask.effort import Effort
from labask.fuzzing.beginning import absolute, begun, unmoved
from labask.fuzzing.comparing import Comparer, Difference
from labask.fuzzing.draft import Draft
from labask.fuzzing.renumbering import only
from labask.worlds import Kind, WorldObject, WorldProcess, read_world

MOST_PLAYS = 1_000
LATE_PLAYS = 40  # as many of them counts one whose program had to be ended


@dataclass
class Shrinker:
    """Shrinks a text. `seen` has the texts that were played, and `plays` counts them."""
    comparer: Comparer
    effort: Effort
    seen: Set[bytes] = field(default_factory=set)
    plays: int = 0
    difference: Optional[Difference] = None

    def shrink(self, text: bytes, difference: Difference) -> Tuple[bytes, Difference]:
        """The least text that is found, with its difference."""
        self.difference = difference
        draft, before = Draft.of(read_world(text)), None
        if not self.differs(draft):
            return text, difference
        while draft != before and self.goes_on():
            before = draft
            for change in (self.fewer_calls, self.later, self.fewer_things, self.plainer):
                draft = change(draft)
        return draft.text, self.difference

    def goes_on(self) -> bool:
        """Whether more may be tried."""
        return self.plays < MOST_PLAYS and not self.effort.over()

    def differs(self, draft: Draft) -> bool:
        """Whether the programs differ on a text as they did."""
        text = draft.text
        if text in self.seen or not self.goes_on():
            return False
        self.seen.add(text)
        self.effort.progress(f"shrink: {len(self.seen)} texts, now of {len(draft.script)} calls")
        compared = self.comparer.compare(text)
        self.plays += LATE_PLAYS if compared is not None and compared.ended else 1
        assert self.difference is not None
        if compared is None or compared.difference is None or compared.difference.kind != self.difference.kind:
            return False
        self.difference = compared.difference
        return True

    def fewer_calls(self, draft: Draft) -> Draft:
        """As few calls as are found to be enough: those behind the difference go, and then pieces, from large to small."""
        assert self.difference is not None
        lines = draft.script[:max(1, self.difference.number)]
        tag = lines[-1].split(" ")[0] if lines else ""
        for few in (lines[-1:], tuple(line for line in lines if line.startswith(tag + " ")), lines):
            if len(few) < len(draft.script) and self.differs(replace(draft, script=few)):
                draft = replace(draft, script=few)
                break
        size = (len(draft.script) + 1) // 2
        while size:
            draft = self.without_pieces(draft, size)
            size //= 2
        return draft

    def without_pieces(self, draft: Draft, size: int) -> Draft:
        """Without those pieces of so many calls that may go, the last ones first."""
        for at in range(len(draft.script), 0, -size):
            lines = [*range(max(0, at - size)), *range(at, len(draft.script))]
            draft = self.kept(draft, only(draft, lines), replace(draft, script=tuple(draft.script[line] for line in lines)))
        return draft

    def later(self, draft: Draft) -> Draft:
        """With a world that begins later, where calls of the script were done already, and with absolute paths."""
        for count in range(len(draft.script) - 1, 0, -1):
            if (later := self.kept(draft, begun(draft, range(count)))) != draft:
                draft = later
                break
        draft = self.kept(draft, absolute(draft))
        for at in range(len(draft.script) - 1, -1, -1):
            draft = self.kept(draft, begun(draft, [at]), *unmoved(draft, at))
        return draft

    def fewer_things(self, draft: Draft) -> Draft:
        """Without the objects and processes that may go, the last ones first."""
        for each in reversed(draft.objects[1:]):
            kept = tuple(one for one in draft.objects if not (one.path + b"/").startswith(each.path + b"/"))
            fewer = replace(draft, objects=kept)
            draft = fewer if len(kept) < len(draft.objects) and self.differs(fewer) else draft
        for each in draft.objects[1:]:
            draft = self.kept(draft, draft.without_level(each.path)) if each.kind is Kind.DIRECTORY else draft
        for at in reversed(range(len(draft.processes))):
            fewer = draft.with_processes([None if place == at else each for place, each in enumerate(draft.processes)])
            draft = fewer if self.differs(fewer) else draft
        return draft

    def plainer(self, draft: Draft) -> Draft:
        """With plainer lines."""
        for at in range(len(draft.objects)):
            for plain in plain_objects(draft):
                objects = [*draft.objects[:at], plain(draft.objects[at]), *draft.objects[at + 1:]]
                draft = self.kept(draft, replace(draft, objects=tuple(objects)))
        for at in range(len(draft.processes)):
            for change in plain_processes(draft, draft.processes[at]):
                processes = [*draft.processes[:at], change(draft.processes[at]), *draft.processes[at + 1:]]
                draft = self.kept(draft, draft.with_processes(processes))
        for other in plain_policies(draft):
            draft = self.kept(draft, other)
        return draft

    def kept(self, draft: Draft, *others: Optional[Draft]) -> Draft:
        """The first of the others which is another, and on which the programs differ as they did."""
        return next((other for other in others if other is not None and other != draft and self.differs(other)), draft)


def plain_objects(draft: Draft) -> Iterator[Callable[[WorldObject], WorldObject]]:
    """What makes the line of an object plainer."""
    yield lambda each: replace(each, caps=None, content=b"", mode=0o777, owner=0, group=0, label=draft.bottom)
    yield lambda each: replace(each, caps=None)
    yield lambda each: replace(each, content=b"")
    yield lambda each: replace(each, label=draft.bottom)
    yield lambda each: replace(each, owner=0, group=0)
    yield lambda each: replace(each, mode=0o777 if each.kind is Kind.DIRECTORY else 0o666)
    yield lambda each: replace(each, mode=0o777)


def plain_processes(draft: Draft, process: WorldProcess) -> Iterator[Callable[[WorldProcess], WorldProcess]]:
    """What makes the line of a process plainer."""
    yield lambda each: replace(each, caps="=", user=0, group=0, groups=(), label=draft.bottom)
    yield lambda each: replace(each, caps="=")
    yield lambda each: replace(each, label=draft.bottom)
    yield lambda each: replace(each, groups=())
    yield lambda each: replace(each, user=0, group=0)
    sets = read_sets(process.caps)
    for name in sorted(sets.effective | sets.permitted | sets.inheritable):
        yield lambda each, name=name: replace(each, caps=without(each.caps, name))  # type: ignore[misc]


def without(caps: str, name: str) -> str:
    """A capability text without a capability."""
    sets = read_sets(caps)
    return dataclasses.replace(sets, effective=sets.effective - {name}, permitted=sets.permitted - {name},
                               inheritable=sets.inheritable - {name}).written


def plain_policies(draft: Draft) -> Iterator[Draft]:
    """Fewer names of labels, and the largest bound."""
    labels = " ".join([*(each.label for each in draft.objects), *(each.label for each in draft.processes), *draft.script])
    policy = draft.policy
    if ":" not in labels:
        policy = replace(policy, categories=())
    if not any(f"/{grade}" in labels for grade in policy.grades):
        policy = replace(policy, grades=())
    used = [level for level in policy.levels if level in labels] or list(policy.levels[:1])
    yield replace(draft, bound="all")
    yield replace(draft, policy=policy)
    yield replace(draft, policy=replace(policy, levels=tuple(used)))
