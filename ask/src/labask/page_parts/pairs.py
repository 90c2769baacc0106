"""Two runs side by side: their calls in rows, those with the same text in one row, and how the calls of a row differ."""
import enum
from dataclasses import dataclass
from functools import cached_property
from typing import Iterator, List, Optional, Tuple

from labask.worlds import Line, World

from .alignment import aligned, changed
from .rows import Item, items_of
from .run import Call, Note, Run


class Difference(enum.Enum):
    """How the calls of a row differ: their replies, only their records, or one of the runs has none."""
    NONE = "none"
    REPLY = "reply"
    RECORDS = "records"
    ALONE = "alone"


@dataclass(frozen=True)
class Pair:
    """A row: an item of each run, or of one of them. Rows with calls are numbered from 1; one with comments has the number 0."""
    number: int
    items: Tuple[Optional[Item], Optional[Item]]

    @cached_property
    def calls(self) -> Tuple[Optional[Call], Optional[Call]]:
        """The calls of the row."""
        one, two = (item if isinstance(item, Call) else None for item in self.items)
        return one, two

    @cached_property
    def difference(self) -> Difference:
        """How the calls of the row differ."""
        one, two = self.calls
        if one is None or two is None:
            return Difference.ALONE if self.number else Difference.NONE
        if one.reply.text != two.reply.text:
            return Difference.REPLY
        return Difference.NONE if records_of(one) == records_of(two) else Difference.RECORDS


def records_of(call: Call) -> List[str]:
    """The records of a call without its number."""
    return [record.line.partition(" ")[2] for record in call.records]


def text_of(item: Item) -> str:
    """The text of an item, by which it is compared: a call has a tag, which no comment begins with."""
    return f"# {item.text}" if isinstance(item, Note) else f"{item.reply.tag} {item.text}"


def pairs_of(one: Run, two: Run) -> Iterator[Pair]:
    """The rows of two runs."""
    first, second = list(items_of(one)), list(items_of(two))
    number = 0
    for here, there in aligned(list(map(text_of, first)), list(map(text_of, second))):
        items = None if here is None else first[here], None if there is None else second[there]
        is_call = any(isinstance(item, Call) for item in items)
        number += is_call
        yield Pair(number if is_call else 0, items)


def world_lines(world: World) -> List[Line]:
    """The lines of a world before its script, without comments."""
    last = world.script_line or len(world.lines) + 1
    return [line for line in world.lines.filled() if line.number < last]


def changed_lines(one: World, two: World) -> Iterator[Tuple[Optional[Line], Optional[Line]]]:
    """The lines of the worlds that differ."""
    first, second = world_lines(one), world_lines(two)
    texts = ([line.text.strip().decode("latin-1") for line in lines] for lines in (first, second))
    for here, there in changed(*texts):
        yield None if here is None else first[here], None if there is None else second[there]
