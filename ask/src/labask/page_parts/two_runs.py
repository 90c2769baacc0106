"""The page of two runs side by side."""
from typing import Any, Dict, Iterator, List, Optional, Sequence, Tuple

from labask.effort import Effort
from labask.playing import Player
from labask.who import Answer, ask
from labask.worlds import Line, path_word

from .document import Sections, document, lane_width, tag_width
from .lanes import make_lanes, pattern_rules
from .markup import code, counted, head_row, headed, text
from .never import never_of_both
from .pair_rows import CLASSES, COLUMNS, NAMES, PairTable, is_numbered, tables_of
from .pairs import Difference, Pair, changed_lines, pairs_of
from .rights import MOST_RIGHTS, count_rights
from .rows import TOGETHER, make_table
from .run import read_text
from .sections import ROWS, controls, counts_text, marks_legend, processes_section, skip_link, words_section
from .side import Side, data_of, json_of
from .views import View

MOST_LANES = 16  # of each run
LANE_SHARE = 0.6  # of the width of a lane of a page of one run
Sides = Tuple[Side, Side]


def first_difference(pairs: Sequence[Pair]) -> Optional[Pair]:
    """The first pair of calls of which the replies differ, or which is in one of the runs alone."""
    return next((pair for pair in pairs if pair.difference in (Difference.REPLY, Difference.ALONE)), None)


def difference_text(pairs: Sequence[Pair]) -> str:
    """A sentence about how the runs differ, with a link to the first difference."""
    found = [pair.difference for pair in pairs if pair.number]
    both = len(found) - found.count(Difference.ALONE)
    replies, records = found.count(Difference.REPLY), found.count(Difference.RECORDS)
    alone = [sum(pair.difference is Difference.ALONE and pair.calls[side] is not None for pair in pairs) for side in (0, 1)]
    first = first_difference(pairs)
    link = f'<a href="#row-{first.number}">The first difference is row {first.number}</a>.' if first else "No reply differs."
    return (f"Both scripts have {counted(both, 'call')}: the replies to {replies:,} of them differ, and the records of {records:,} others. "
            f"{counted(alone[0], 'call')} {'is' if alone[0] == 1 else 'are'} in A alone, {alone[1]:,} in B alone. {link}")


def head_of(sides: Sides, pairs: Sequence[Pair]) -> Iterator[str]:
    """The head of the page."""
    one, two = (text(side.name) for side in sides)
    yield f'<h1>{one} and {two}</h1>\n<p class="lead">Two runs of <code>labsys</code>, A and B.</p>\n'
    for name, side in zip(NAMES, sides):
        yield f"<p><b>{name}: {text(side.name)}.</b> {counts_text(side.run)}</p>\n"
    yield f'<p class="first">{difference_text(pairs)}</p>\n'
    yield ('<p class="source">Every reply, record and view on this page was played by <code>labsys</code>. The page arranges them and '
           "judges nothing.</p>\n")


def calls_section(sides: Sides, table: PairTable) -> Iterator[str]:
    """The parts of the section of calls."""
    rows = sum(map(is_numbered, table.pairs))
    if not rows:
        yield "<p>Neither script has a call.</p>\n"
    yield ("<p>Read from the top. A call that both scripts have stands in one row, with its numbers in A and in B. A call that only one of "
           "them has stands in a row of its own; which those are is found as in a comparison of two texts. A mark below the number of a "
           "row says what differs. Each lane is a process, or a label where many processes call.</p>\n")
    yield marks_legend()
    yield controls(ROWS, list(dict.fromkeys(view.label for side in sides for view in side.views)), rows)
    yield skip_link()
    yield from tables_of(table)


def line_cells(line: Optional[Line]) -> List[str]:
    """The cells of a line of one of the worlds."""
    return ["", "no such line"] if line is None else [str(line.number), code(read_text(line.text.strip()))]


def world_section(sides: Sides) -> Iterator[str]:
    """The lines of the worlds that differ."""
    found = list(changed_lines(*(side.run.world for side in sides)))
    if not found:
        yield "<p>Before their scripts the worlds have the same lines.</p>\n"
        return
    yield "<p>The lines before the scripts that are not the same in both worlds. Comments are left out.</p>\n"
    heads = ("Line of A", "A", "Line of B", "B")
    yield f'<div class="wide"><table class="plain changed">{head_row(heads)}<tbody>\n'
    for one, two in found:
        yield f"<tr>{headed(heads, line_cells(one) + line_cells(two))}\n"
    yield "</tbody></table></div>\n"


def view_cells(side: Side, name: str, view: Optional[View]) -> List[str]:
    """The cells of what a label sees of one of the runs."""
    if view is None:
        return ["not asked", ""]
    crossed = view.crossed and f'<a href="#{name}-{view.crossed}">crossed by call {view.crossed}</a>'
    return [f"{len(view.seen):,} of {len(side.run.calls):,}", crossed or "not crossed"]


def labels_section(sides: Sides) -> Iterator[str]:
    """What each label sees of both runs."""
    views = [{view.label: view for view in side.views} for side in sides]
    labels = list(dict.fromkeys(label for each in views for label in each))
    yield ("<p>A label sees the replies to the processes whose label it dominates. Where a call crosses it, it sees nothing more. "
           "<code>labsys view LABEL</code> played this for each label and both runs.</p>\n")
    heads = [head for name in NAMES for head in (f"Replies in {name}", f"Crossing in {name}")]
    yield f'<div class="wide"><table class="plain">{head_row(["Label", *heads])}<tbody>\n'
    for label in labels:
        cells = [cell for parts in zip(sides, CLASSES, views) for cell in view_cells(parts[0], parts[1], parts[2].get(label))]
        yield f'<tr data-label="{text(label)}"><th scope="row">{code(label)}{headed(heads, cells)}\n'
    yield "</tbody></table></div>\n"


def both_processes(sides: Sides) -> Iterator[str]:
    """The processes of each run."""
    for number, (name, link, side) in enumerate(zip(NAMES, CLASSES, sides)):
        yield f'<div data-side="{number}"><h3>{name}: {text(side.name)}</h3>\n'
        yield from processes_section(side.run, side.order, link)
        yield "</div>\n"


def rights_of(player: Player, side: Side, effort: Effort) -> Dict[Tuple[bytes, str, str], Answer]:
    """The answers of `who` to what each process may do to each object, by path, process and right."""
    world = side.run.world
    answers = ask(world, world.processes, world.objects, player, effort)
    return {(each.path, each.process, each.right.value): each for each in answers}


def answer_text(answer: Answer) -> str:
    """An answer of `who` as the page has it."""
    return text(answer.text.replace(",", ", "))


def rights_section(player: Player, sides: Sides, effort: Effort) -> Iterator[str]:
    """The rights at the start that differ, of processes and objects that both worlds have."""
    if any(count_rights(side.run.world) > MOST_RIGHTS for side in sides):
        yield "<p>There are too many rights of processes to objects for a page. <code>labask who</code> asks for some of them.</p>\n"
        return
    one, two = (rights_of(player, side, effort) for side in sides)
    found = [key for key in one if key in two and one[key].text != two[key].text]
    if not found:
        yield "<p>Before the first call, each process that both worlds have may do the same to each object that both have.</p>\n"
        return
    yield ("<p>What a process may do before the first call to an object, where the answers of <code>labask who</code> differ: "
           "<code>yes</code> is by the rules alone, a capability is exercised where it is named, and else a check denies it.</p>\n")
    heads = ("Process", "Right", "A", "B")
    yield f'<div class="wide"><table class="plain">{head_row(["Object", *heads])}<tbody>\n'
    for path, process, right in found:
        answers = (answer_text(each[path, process, right]) for each in (one, two))
        yield f'<tr><th scope="row">{code(path_word(path))}{headed(heads, [text(process), text(right), *answers])}\n'
    yield "</tbody></table></div>\n"


def style_of(sides: Sides, table: PairTable) -> Iterator[str]:
    """The rules of the style sheet that the runs decide: widths and lanes."""
    counts = [len(each.lanes.names) for each in table.tables]
    width = LANE_SHARE * lane_width(max(counts))
    tags = tag_width(*(side.run for side in sides))
    yield (f":root{{--lane:{width:.2f}rem;--lanes:{max(counts)};--lanes-one:{counts[0]};--lanes-two:{counts[1]};--tags:{tags:.1f}rem}}\n")
    for name, each in zip(CLASSES, table.tables):
        yield from (rule + "\n" for rule in pattern_rules(each.patterns, each.letter, f".g.{name}"))


def page_of(player: Player, sides: Sides, effort: Effort) -> Iterator[str]:
    """The page of two runs, in pieces."""
    pairs = list(pairs_of(*(side.run for side in sides)))
    one, two = (make_table(side.run, make_lanes(side.run, side.order, MOST_LANES), side.views, letter)
                for side, letter in zip(sides, "ab"))
    table = PairTable((one, two), pairs)
    worlds = [(name, side.name, side.run.world) for name, side in zip(NAMES, sides)]
    sections: Sections = {
        "calls": ("Calls", calls_section(sides, table)),
        "world": ("Lines of the worlds that differ", world_section(sides)),
        "labels": ("Labels", labels_section(sides)),
        "processes": ("Processes", both_processes(sides)),
        "may": ("Who may: answers that differ", rights_section(player, sides, effort)),
        "never": ("What no script can do", never_of_both(player, worlds, effort)),
        "words": ("Checks and refusals", words_section(*(side.run for side in sides))),
    }
    data = {"sides": [{**data_of(side), "name": name, "cells": f"td.{each}"} for side, name, each in zip(sides, NAMES, CLASSES)],
            "rows": [[call.number if call else 0 for call in pair.calls] for pair in pairs if pair.number],
            "marked": [pair.number for pair in pairs if pair.difference is not Difference.NONE],
            "together": TOGETHER, "columns": COLUMNS}
    title = f"{sides[0].name} and {sides[1].name}: two runs of labsys"
    return document(title, "".join(style_of(sides, table)), head_of(sides, pairs), sections, data)


def json_of_two(sides: Sides) -> Dict[str, Any]:
    """Two runs as the page has them, for other programs."""
    pairs = list(pairs_of(*(side.run for side in sides)))
    first = first_difference(pairs)
    lines = changed_lines(*(side.run.world for side in sides))
    return {
        "runs": [{"file": side.name, **json_of(side)} for side in sides],
        "rows": [{"row": pair.number, "calls": [call and call.number for call in pair.calls], "difference": pair.difference.value}
                 for pair in pairs if pair.number],
        "first_difference": first and first.number,
        "world": [{"lines": [line and line.number for line in both],
                   "texts": [line and line.text.strip().decode("latin-1") for line in both]} for both in lines],
    }
