"""The table of calls: a row for each call and for each comment of the script, in tables of a hundred calls.

The first tables are there when the page opens. Those after them stand in elements `noscript`: where scripts are on, that is text
which a browser reads past, and the page's script makes a table of it when it comes into sight, at a choice, at printing, or when
the browser has time; where scripts are off, they are tables like the first ones.
"""
from dataclasses import dataclass
from typing import Callable, Dict, Iterable, Iterator, List, Mapping, Sequence, TypeVar, Union

from labask.playing import Outcome
from .lanes import Lanes, Patterns, connector, make_patterns
from .markup import code, cut, text
from .run import Call, Note, Run
from .views import View
from .words import record_text

TOGETHER = 100
AT_ONCE = 3
OUTCOMES = {Outcome.DONE: "k", Outcome.DENIED: "d", Outcome.REFUSED: "o"}
COLUMNS = ("Call", "Line", "", "Process", "Asks for", "Reply", "Records in the trail")
Item = Union[Call, Note]
Kind = TypeVar("Kind")


@dataclass(frozen=True)
class Table:
    """What the rows are made of: the run, its lanes and their patterns, and the labels that each call crosses. `letter` begins the
    classes of its patterns."""
    run: Run
    lanes: Lanes
    patterns: Patterns
    crossed: Mapping[int, Sequence[str]]
    letter: str

    def pattern(self, call: int) -> List[str]:
        """The class of the pattern that lanes have at a call; none where there are no lanes."""
        return [f"{self.letter}{self.patterns.at(call)}"] if self.lanes.names else []


def make_table(run: Run, lanes: Lanes, views: Sequence[View], letter: str = "a") -> Table:
    """The table of a run."""
    crossed: Dict[int, List[str]] = {}
    for view in views:
        if view.crossed is not None:
            crossed.setdefault(view.crossed, []).append(view.label)
    return Table(run, lanes, make_patterns(lanes), crossed, letter)


def items_of(run: Run) -> Iterator[Item]:
    """The calls and the comments of the script, in the order of their lines."""
    notes = [note for note in run.notes if run.world.script_line and note.line > run.world.script_line]
    at = 0
    for call in run.calls:
        while at < len(notes) and notes[at].line < call.line.line.number:
            yield notes[at]
            at += 1
        yield call
    yield from notes[at:]


def batches(items: Iterable[Kind], is_call: Callable[[Kind], bool], calls: int) -> Iterator[List[Kind]]:
    """Items in batches of a hundred calls, of `calls` in all. Comments stand with the call after them, and the last ones with the
    last call."""
    batch: List[Kind] = []
    inside = before = 0
    for item in items:
        if inside == TOGETHER and before + inside < calls:
            yield batch
            batch, inside, before = [], 0, before + inside
        batch.append(item)
        inside += is_call(item)
    if batch:
        yield batch


def row_class(table: Table, call: Call) -> str:
    """The classes of a row: those of the call, and the pattern of its lanes."""
    return " ".join(marks_of(call) + table.pattern(call.number))


def marks_of(call: Call) -> List[str]:
    """The classes of a call: how it was answered, whether a capability was exercised, and whether there is a record."""
    return [OUTCOMES[call.reply.outcome]] + (["x"] if call.exercised else []) + (["s"] if call.records else [])


def lane_mark(table: Table, call: Call) -> str:
    """The mark of a call in its lane, with the line to that of another process."""
    lane, joined = table.lanes.of(call.reply.tag), connector(table.lanes, call)
    between = f'<b style="--l:{joined[0]};--r:{joined[1]}"></b>' if joined else ""
    return f'{between}<i style="--l:{lane}"></i>' if lane is not None else ""


def record_items(table: Table, call: Call) -> Iterator[str]:
    """The items of a call's records, and of the labels that it crosses."""
    for record in call.records:
        yield f'<li class="{record.event}" title="{text(record.line)}">{record_text(table.run.world, call, record)}'
    if call.number in table.crossed:
        yield f'<li class="cross"><b>crosses</b> {" ".join(map(code, table.crossed[call.number]))}'


def call_row(table: Table, call: Call) -> str:
    """The row of a call."""
    number, items = call.number, "".join(record_items(table, call))
    return (f'<tr id="call-{number}" class="{row_class(table, call)}"><th scope="row"><a href="#call-{number}">{number}</a>'
            f'<td class="n">{call.line.line.number}<td class="g">{lane_mark(table, call)}<td class="w">{text(call.reply.tag)}'
            f'<td class="c">{cut(call.text)}<td class="r">{cut(call.reply.text)}<td class="s">'
            + (f"<ul>{items}</ul>" if items else "</td>"))


def note_row(table: Table, note: Note, call: int) -> str:
    """The row of a comment before a call."""
    return (f'<tr class="{" ".join(["note", *table.pattern(call)])}"><td><td class="n">{note.line}<td class="g">'
            f'<td colspan="4">{cut(note.text)}')


def lane_head(lanes: Lanes, more: str = "") -> str:
    """The head of the column of lanes, with their names."""
    names = "".join(f'<span title="{text(name)}">{text(name)}</span>' for name in lanes.names)
    return f'<th scope="col" class="g"{more}><span class="hidden">Lane</span><span class="names" aria-hidden="true">{names}</span>'


def calls_head(lanes: Lanes) -> str:
    """The head of a table."""
    cells = [f'<th scope="col">{name}' if name else lane_head(lanes) for name in COLUMNS]
    return "<thead><tr>" + "".join(cells) + "</thead>"


def caption_of(batch: Sequence[Item], total: int) -> str:
    """What a table has."""
    numbers = [item.number for item in batch if isinstance(item, Call)]
    return f"Calls {numbers[0]:,} to {numbers[-1]:,} of {total:,}" if numbers else "No calls"


def table_of(table: Table, batch: Sequence[Item]) -> Iterator[str]:
    """One table, of a batch of items."""
    columns = "".join(f'<col class="{name}">' for name in ("cn", "cl", "cg", "cw", "cc", "cr", "cs"))
    yield (f'<table class="calls"><caption>{caption_of(batch, len(table.run.calls))}</caption><colgroup>{columns}</colgroup>'
           f"{calls_head(table.lanes)}<tbody>\n")
    after = next((item.number for item in batch if isinstance(item, Call)), len(table.run.calls) + 1)
    for item in batch:
        if isinstance(item, Call):
            yield call_row(table, item) + "\n"
            after = item.number + 1
        else:
            yield note_row(table, item, after) + "\n"
    yield "</tbody></table>"


def in_turn(parts: Iterable[List[Kind]], make: Callable[[List[Kind]], Iterator[str]]) -> Iterator[str]:
    """Tables one after the other, each made of a batch; those after the first ones are made by the page's script."""
    for number, batch in enumerate(parts):
        later = number >= AT_ONCE
        yield f'<div class="batch{" later" if later else ""}" style="--rows:{len(batch)}">' + ("<noscript>" if later else "")
        yield from make(batch)
        yield ("</noscript>" if later else "") + "</div>\n"


def is_call(item: Item) -> bool:
    """Whether an item is a call, and no comment."""
    return isinstance(item, Call)


def tables_of(table: Table) -> Iterator[str]:
    """All tables of calls."""
    parts = batches(items_of(table.run), is_call, len(table.run.calls))
    return in_turn(parts, lambda batch: table_of(table, batch))
