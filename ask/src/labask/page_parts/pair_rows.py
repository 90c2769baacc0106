"""The table of the calls of two runs: a row for each pair, in tables of a hundred rows with calls."""
from dataclasses import dataclass
from typing import Iterator, List, Optional, Sequence, Tuple

from .lanes import Lanes
from .markup import cut, text
from .pairs import Difference, Pair
from .rows import Table, batches, in_turn, lane_head, lane_mark, marks_of, record_items
from .run import Call, Note

CLASSES = ("one", "two")
NAMES = ("A", "B")
COLUMNS = 9
MARKS = {Difference.REPLY: "≠ reply", Difference.RECORDS: "≠ records"}
ROW_CLASSES = {Difference.REPLY: "pf", Difference.RECORDS: "pr", Difference.ALONE: "pl"}


@dataclass(frozen=True)
class PairTable:
    """What the rows are made of: the tables of both runs, and their pairs."""
    tables: Tuple[Table, Table]
    pairs: Sequence[Pair]


def is_numbered(pair: Pair) -> bool:
    """Whether a pair has calls, and not comments."""
    return pair.number > 0


def mark_of(pair: Pair) -> str:
    """The mark of a row whose calls differ."""
    alone = next((name for name, call in zip(NAMES, pair.calls) if call is not None), "")
    said = f"{alone} alone" if pair.difference is Difference.ALONE else MARKS.get(pair.difference, "")
    return f'<small class="mark">{said}</small>' if said else ""


def pair_class(pair: Pair) -> List[str]:
    """The classes of a row: how its calls differ, and how any of them was answered."""
    own = {name for call in pair.calls if call for name in marks_of(call)}
    return list(filter(None, [ROW_CLASSES.get(pair.difference), *(f"p{name}" for name in "dox" if name in own)]))


def number_cell(name: str, number: object) -> str:
    """The cell with the number of a call, to which links lead."""
    return f'<td class="n both" id="{name}-{number}">{number}' if number else '<td class="n both">'


def side_cells(table: Table, name: str, call: Optional[Call]) -> str:
    """The cells of one of the runs: its lanes, and the reply with the records."""
    if call is None:
        return f'<td class="g {name}"><td class="e {name} absent">no such call'
    marks = " ".join([name, *marks_of(call)])
    items = "".join(record_items(table, call))
    return (f'<td class="g {marks}">{lane_mark(table, call)}<td class="e {marks}"><span class="r">{cut(call.reply.text)}</span>'
            + (f'<ul class="s">{items}</ul>' if items else ""))


def pair_row(pairs: PairTable, pair: Pair, lanes: Sequence[str]) -> str:
    """The row of a pair of calls; `lanes` has the classes of the patterns of lanes."""
    some = next(call for call in pair.calls if call is not None)
    numbers = "".join(number_cell(name, call and call.number) for name, call in zip(CLASSES, pair.calls))
    sides = "".join(map(side_cells, pairs.tables, CLASSES, pair.calls))
    return (f'<tr id="row-{pair.number}" class="{" ".join([*pair_class(pair), *lanes])}"><th scope="row">'
            f'<a href="#row-{pair.number}">{pair.number}</a>{mark_of(pair)}{numbers}<td class="w both">{text(some.reply.tag)}'
            f'<td class="c both">{cut(some.text)}{sides}')


def note_row(pair: Pair, lanes: Sequence[str]) -> str:
    """The row of a comment of one or both of the scripts."""
    notes = [item if isinstance(item, Note) else None for item in pair.items]
    lines = "".join(f'<td class="n">{note.line if note else ""}' for note in notes)
    said = next(cut(note.text) for note in notes if note)
    return f'<tr class="{" ".join(["note", *lanes])}"><td>{lines}<td colspan="2">{said}<td class="g one"><td><td class="g two"><td>'


def pair_rows(pairs: PairTable, batch: Sequence[Pair]) -> Iterator[str]:
    """The rows of a batch. The lanes of a run go on where it has no call."""
    after = [next((call.number for call in calls if call), len(table.run.calls) + 1)
             for table, calls in zip(pairs.tables, zip(*(pair.calls for pair in batch)))]
    for pair in batch:
        after = [call.number if call else number for call, number in zip(pair.calls, after)]
        lanes = [name for table, number in zip(pairs.tables, after) for name in table.pattern(number)]
        yield (pair_row(pairs, pair, lanes) if pair.number else note_row(pair, lanes)) + "\n"
        after = [number + 1 if call else number for call, number in zip(pair.calls, after)]


def pair_head(lanes: Sequence[Lanes]) -> str:
    """The head of a table."""
    cells = [f'<th scope="col">{name}' for name in ("Row", *NAMES, "Process", "Asks for")]
    for side, (name, own) in enumerate(zip(NAMES, lanes)):
        cells += [lane_head(own, f' data-side="{side}"'), f'<th scope="col">Reply in {name}']
    return "<thead><tr>" + "".join(cells) + "</thead>"


def table_of(pairs: PairTable, batch: Sequence[Pair]) -> Iterator[str]:
    """One table, of a batch of pairs."""
    columns = "".join(f'<col class="{name}">' for name in ("cm", "cp", "cp", "cw", "cc", "g1", "ce", "g2", "ce"))
    numbers = [pair.number for pair in batch if pair.number]
    total = sum(map(is_numbered, pairs.pairs))
    caption = f"Rows {numbers[0]:,} to {numbers[-1]:,} of {total:,}" if numbers else "No calls"
    yield f'<table class="calls pairs"><caption>{caption}</caption><colgroup>{columns}</colgroup>'
    yield f"{pair_head([table.lanes for table in pairs.tables])}<tbody>\n"
    yield from pair_rows(pairs, batch)
    yield "</tbody></table>"


def tables_of(pairs: PairTable) -> Iterator[str]:
    """All tables of calls."""
    parts = batches(pairs.pairs, is_numbered, sum(map(is_numbered, pairs.pairs)))
    return in_turn(parts, lambda batch: table_of(pairs, batch))
