"""The page of one run."""
from typing import Iterator, List

from labask.effort import Effort
from labask.playing import Outcome, Player

from .document import Sections, document, lane_width, tag_width
from .lanes import make_lanes, pattern_rules
from .never import never_section
from .rights import rights_section
from .rows import COLUMNS, TOGETHER, Table, make_table, tables_of
from .run import Run
from .sections import (CALLS, controls, head_of, labels_section, legend, objects_section, processes_section, skip_link, words_section)
from .side import Side, data_of


def style_of(table: Table) -> str:
    """The rules of the style sheet that a run decides: widths and lanes."""
    count = len(table.lanes.names)
    rules = "\n".join(pattern_rules(table.patterns, table.letter, ".g"))
    return f":root{{--lane:{lane_width(count)}rem;--lanes:{count};--tags:{tag_width(table.run):.1f}rem}}\n{rules}"


def marked_calls(run: Run) -> List[int]:
    """The calls that are marked: a check denied them, or a capability was exercised."""
    return [call.number for call in run.calls if call.exercised or call.reply.outcome is Outcome.DENIED]


def calls_section(side: Side, table: Table) -> Iterator[str]:
    """The parts of the section of calls."""
    if not side.run.calls:
        yield "<p>The script has no call.</p>\n"
    yield from legend(table.lanes)
    yield controls(CALLS, [view.label for view in side.views], len(side.run.calls))
    yield skip_link()
    yield from tables_of(table)


def page_of(player: Player, side: Side, effort: Effort) -> Iterator[str]:
    """The page of a run, in pieces."""
    run = side.run
    table = make_table(run, make_lanes(run, side.order), side.views)
    sections: Sections = {
        "calls": ("Calls", calls_section(side, table)),
        "labels": ("Labels", labels_section(run, side.views, side.left)),
        "processes": ("Processes", processes_section(run, side.order)),
        "objects": ("Objects", objects_section(run.world)),
        "rights": ("Who may", rights_section(player, run.world, effort)),
        "never": ("What no script can do", never_section(player, run.world, effort)),
        "words": ("Checks and refusals", words_section(run)),
    }
    data = {"sides": [data_of(side)], "marked": marked_calls(run), "together": TOGETHER, "columns": len(COLUMNS)}
    return document(f"{side.name}: a run of labsys", style_of(table), head_of(run, side.name), sections, data)
