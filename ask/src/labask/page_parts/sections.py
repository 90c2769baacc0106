"""The sections of a page but the table of calls: its head, labels, processes, objects, and the words that explain them."""
from dataclasses import dataclass
from typing import Dict, Iterator, List, Mapping, Sequence, Tuple

from labask.playing import Outcome
from labask.reasons import error_in_words
from labask.worlds import World, path_word

from .lanes import LaneKind, Lanes
from .markup import code, counted, cut, head_row, headed, text
from .run import Life, Moment, Run
from .views import View, label_of
from .words import SETS, caps_of, check_text

LABEL_HEADS = ("Replies that it sees", "Processes that it sees", "Crossing")
LIFE_HEADS = ("From", "Label", *(name.capitalize() for name in SETS))
OBJECT_HEADS = ("Kind", "Mode", "Owner", "Group", "Label", "Capabilities", "Number", "Line")
MARKS = (
    ("k", "the call was done"),
    ("d", "a check denied it: the reply names the check and the place"),
    ("o", "it was refused otherwise, as where a name is absent"),
    ("k x", "a capability was exercised: the rule of a check failed, and the capability let the call go on"),
)


def counts_text(run: Run) -> str:
    """A sentence with the counts of a run."""
    outcomes = [call.reply.outcome for call in run.calls]
    exercises = sum(record.event == "exercise" for record in run.records)
    done, denied, refused = (outcomes.count(each) for each in (Outcome.DONE, Outcome.DENIED, Outcome.REFUSED))
    return (f"{counted(len(run.calls), 'call')} in a world of {counted(len(run.world.objects), 'object')} and "
            f"{counted(len(run.world.processes), 'process', 'processes')}: {done:,} done, {denied:,} denied by a check, "
            f"{refused:,} refused otherwise. The trail has {counted(len(run.records), 'record')}; by {exercises or 'none'} of them a "
            "capability was exercised.")


def head_of(run: Run, name: str) -> Iterator[str]:
    """The head of the page."""
    yield f'<h1>{text(name)}</h1>\n<p class="lead">A run of <code>labsys</code>. {counts_text(run)}</p>\n'
    first = run.world.objects[0].line if run.world.objects else 0
    said = [note.text for note in run.notes if note.line < first]
    if said:
        yield f'<blockquote><p>{"<br>".join(map(cut, said))}</p></blockquote>\n'
    yield ('<p class="source">Every reply, record and view on this page was played by <code>labsys</code>. The page arranges them and '
           "judges nothing. It shows one run: what no process asked for in it is not shown to be denied or allowed.</p>\n")


def lane_text(lanes: Lanes) -> str:
    """What a lane is."""
    if lanes.kind is LaneKind.NONE:
        return "There are no lanes, since processes of many labels call."
    if lanes.kind is LaneKind.LABEL:
        return "Each lane is a label, since many processes call."
    name = lanes.names[0] if lanes.names else "1@label"
    number, _, label = name.partition("@")
    return (f"Each lane is a process: {code(name)} is process {number} of the label {code(label)}. Its line begins where the process "
            "starts and ends where it ends.")


def marks_legend() -> str:
    """What the marks mean."""
    marks = "".join(f'<li><span class="{name}"><i></i></span>{what}' for name, what in MARKS)
    return (f'<ul class="legend" aria-label="Marks">{marks}<li><span class="sample unseen">grey</span>the chosen label does not see the '
            'reply<li><span class="sample crossing">line</span>by a capability, the call below goes between '
            "what the chosen label sees and what it does not. It crosses the label, which sees nothing more</ul>\n")


def legend(lanes: Lanes) -> Iterator[str]:
    """How the rows are read, and what the marks mean."""
    yield (f"<p>Read from the top: each row is a call, in the order of the script. {lane_text(lanes)} A place such as <code>p1</code> is "
           "what the first name of the call's path leads to, and <code>q1</code> that of its second path. A record of the trail stands "
           "beside the call that left it.</p>\n")
    yield marks_legend()


CONTROLS = """\
<form class="controls" aria-label="What is shown" hidden>
<p><label for="label">See as label</label> <select id="label"><option value="">{whole}</option>{labels}</select></p>
<p><label for="call">Pick {one}</label> <input id="call" type="number" min="1" max="{last}" inputmode="numeric" autocomplete="off">
<button type="button" id="previous">Previous</button> <button type="button" id="next">Next</button>
<button type="button" id="marked">{marked}</button></p>
<p><label for="only">Show</label> <select id="only">{shown}</select></p>
<output id="said" for="label call only" aria-live="polite"></output>
</form>
<noscript><p class="source">Scripts are off: all rows are below, and <a href="#labels">the table of labels</a> says what each label
sees. To choose a label or to pick a {one} takes scripts.</p></noscript>
"""


@dataclass(frozen=True)
class Picking:
    """What the controls of a table say: what is seen without a label, what one row is, where the button for marked ones leads, and
    which rows may be shown, by their classes."""
    whole: str
    one: str
    marked: str
    shown: Mapping[str, str]


CALLS = Picking("all of the run", "call", "Next marked", {
    "": "all calls", "d": "denied", "o": "refused otherwise", "x": "capability exercised", "s": "with records"})
ROWS = Picking("all of the runs", "row", "Next difference", {
    "": "all rows", "pf": "replies differ", "pr": "records differ", "pl": "in one run alone", "pd": "denied in a run",
    "po": "refused otherwise in a run", "px": "capability exercised in a run"})


def options(values: Mapping[str, str]) -> str:
    """The options of a control, by their values."""
    return "".join(f'<option value="{text(value)}">{text(said)}</option>' for value, said in values.items())


def controls(picking: Picking, labels: Sequence[str], last: int) -> str:
    """The controls of a table of calls, which has so many rows."""
    return CONTROLS.format(whole=picking.whole, one=picking.one, marked=picking.marked, shown=options(picking.shown),
                           labels=options({label: label for label in labels}), last=last)


def skip_link() -> str:
    """A link past the calls, which is shown where a key leads to it."""
    return '<p class="skip"><a href="#labels">Skip the calls</a></p>\n'


def view_row(run: Run, view: View) -> str:
    """The row of a label."""
    whole = "not crossed"
    if view.crossed is not None:
        whole = f'<a href="#call-{view.crossed}">crossed by call {view.crossed}</a>'
    processes = sum(label_of(tag) in view.dominated for tag in run.lives)
    cells = (f"{len(view.seen):,} of {len(run.calls):,}", f"{processes:,} of {len(run.lives):,}", whole)
    return f'<tr data-label="{text(view.label)}"><th scope="row">{code(view.label)}{headed(LABEL_HEADS, cells)}'


def policy_text(world: World) -> str:
    """The names of which labels are made, and the bound."""
    policy = world.policy
    grades = f" Grades, the lowest first: {' '.join(map(code, policy.grades))}." if policy.grades else ""
    return (f"<p>Levels, the lowest first: {' '.join(map(code, policy.levels))}. Categories: "
            f"{' '.join(map(code, policy.categories)) or 'none'}.{grades} The bound, which limits what the permitted set of a file gives "
            f"by <code>exec</code>: {code(world.bound)}.</p>\n")


def labels_section(run: Run, views: Sequence[View], left: int) -> Iterator[str]:
    """What each label sees; `left` counts the labels that were not asked."""
    yield ('<p>A label sees the replies to the processes whose label it dominates. Where a call crosses it, it sees nothing more: '
           "from there on, what it would see could depend on what is above it or beside it. <code>labsys view LABEL</code> played this "
           "for each label.</p>\n")
    yield policy_text(run.world)
    if left:
        yield f"<p>The world names {counted(left, 'more label')}; <code>labask page --label LABEL</code> asks for one.</p>\n"
    yield f'<div class="wide"><table class="plain">{head_row(("Label", *LABEL_HEADS))}<tbody>\n'
    yield from (view_row(run, view) + "\n" for view in views)
    yield "</tbody></table></div>\n"


def start_text(run: Run, life: Life, link: str) -> str:
    """How a process started."""
    if life.parent is not None:
        return f"child of {code(life.parent)}, by {call_link(life.moments[0].call, link)}"
    made = run.world.processes_by_tag.get(life.tag)
    if made is None:
        return ""
    groups = ",".join(map(str, made.groups)) or "none"
    return f"line {made.line}: user {made.user}, group {made.group}, further groups {groups}"


def call_link(call: int, link: str) -> str:
    """A link to a call, whose id begins with `link`."""
    return f'<a href="#{link}-{call}">call {call}</a>'


def moment_cells(moment: Moment, link: str) -> str:
    """The cells of a moment of a process."""
    since = f"{call_link(moment.call, link)}: {moment.cause}" if moment.call else "the start"
    sets = (cut(names) or "none" for names in caps_of(moment.caps).values())
    return headed(LIFE_HEADS, (since, code(moment.label), *sets))


def life_rows(run: Run, life: Life, depth: int, link: str) -> Iterator[str]:
    """The rows of a process: one for each moment, and one for its end."""
    rows = [moment_cells(moment, link) for moment in life.moments]
    if life.ended:
        call, how = life.ended
        rows.append(f'{headed(LIFE_HEADS, (call_link(call, link) + ": end",))}<td colspan="4" data-head="End">{text(how)}')
    last = "" if life.ended else "; lives at the end"
    said = f'<span class="tag">{text(life.tag)}</span><small>{start_text(run, life, link)}{last}</small>'
    yield (f'<tbody data-tag="{text(life.tag)}"{" class=child" if depth else ""}><tr><th scope="rowgroup" rowspan="{len(rows)}" '
           f'style="--depth:{depth}">{said}{rows[0]}\n')
    yield from (f"<tr>{row}\n" for row in rows[1:])
    yield "</tbody>"


def family(run: Run, order: Mapping[str, int]) -> Iterator[Tuple[int, Life]]:
    """The processes, each with its depth below a process of the world, children after their parents."""
    def place(tag: str) -> Tuple[int, int]:
        """Where a process stands among those of the world."""
        return order.get(label_of(tag), -1), int(tag.partition("@")[0])

    waiting = [(0, tag) for tag in sorted((tag for tag, life in run.lives.items() if life.parent is None), key=place, reverse=True)]
    while waiting:
        depth, tag = waiting.pop()
        yield depth, run.lives[tag]
        waiting += [(depth + 1, child) for child in reversed(run.lives[tag].children)]


def processes_section(run: Run, order: Mapping[str, int], link: str = "call") -> Iterator[str]:
    """The ancestry of the processes, with their labels and capability sets from call to call. The ids of calls begin with `link`."""
    yield ("<p>Where a process comes from, and which label and capability sets it has from which call on, by the records of the trail. "
           "Children stand below their parents. What is effective lets a call go on where a check would deny it; what is permitted may "
           "be made effective; what is inheritable is for <code>exec</code>.</p>\n")
    yield f'<div class="wide"><table class="plain lives">{head_row(("Process", *LIFE_HEADS))}\n'
    for depth, life in family(run, order):
        yield from life_rows(run, life, depth, link)
    yield "</table></div>\n"


def objects_section(world: World) -> Iterator[str]:
    """The objects of the world, before the first call."""
    yield ("<p>The files, directories and FIFOs of the world before the first call. The trail names an object by its number.</p>\n"
           f'<div class="wide"><table class="plain objects">{head_row(("Path", *OBJECT_HEADS))}<tbody>\n')
    for each in world.objects:
        caps = code(each.caps) if each.caps else ""
        cells = (each.kind.value, f"{each.mode:04o}", str(each.owner), str(each.group), code(each.label), caps, code(each.number),
                 str(each.line))
        yield f'<tr data-label="{text(each.label)}"><th scope="row">{code(path_word(each.path))}{headed(OBJECT_HEADS, cells)}\n'
    yield "</tbody></table></div>\n"


def overriding(*runs: Run) -> Dict[str, List[str]]:
    """The checks that the replies and the records of runs name, each with the capabilities that were exercised for it."""
    denied = (call.reply.check for run in runs for call in run.calls)
    found: Dict[str, Dict[str, None]] = {check: {} for check in denied if check}
    for members in (record.members for run in runs for record in run.records if record.event == "exercise"):
        found.setdefault(members["check"], {})[members["cap"]] = None
    return {check: list(found[check]) for check in sorted(found)}


def words_table(caption: str, heads: Sequence[str], rows: Iterator[Sequence[str]]) -> Iterator[str]:
    """A table with words; the first cell of a row heads it."""
    yield f'<div class="wide"><table class="plain"><caption>{caption}</caption>{head_row(heads)}<tbody>\n'
    for first, *cells in rows:
        yield f'<tr><th scope="row">{first}{headed(heads[1:], cells)}\n'
    yield "</tbody></table></div>\n"


def refusals_of(*runs: Run) -> List[Tuple[str, str]]:
    """The calls and the error numbers with which they were refused otherwise than by a check, each once."""
    return sorted({(call.reply.error or "", call.line.call) for run in runs for call in run.calls
                   if call.reply.outcome is Outcome.REFUSED})


def words_section(*runs: Run) -> Iterator[str]:
    """The checks and error numbers that occur, in words."""
    checks, refusals = overriding(*runs), refusals_of(*runs)
    if not checks and not refusals:
        yield "<p>No check denied a call here, and no call was refused.</p>\n"
    if checks:
        rows = ((code(check), text(check_text(check)), " ".join(map(code, used)) or "none") for check, used in checks.items())
        heads = ("Check", "In words, where its rule fails", f"Exercised for it in {'this run' if len(runs) == 1 else 'these runs'}")
        yield from words_table("The checks of which the rule failed", heads, rows)
    if refusals:
        words = ((code(error), code(call), text(error_in_words(call, error))) for error, call in refusals)
        yield from words_table("The other refusals", ("Reply", "Call", "In words"), words)
