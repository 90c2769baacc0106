"""A run with all that a page says of it; a page has one, or two side by side."""
from dataclasses import dataclass
from typing import Any, Dict, Iterator, List, Mapping, Sequence

from labask.answers import WrongWords
from labask.effort import Effort
from labask.label_texts import form_fault, label_faults
from labask.playing import Player
from labask.reasons import error_in_words
from labask.worlds import World

from .run import Run
from .sections import overriding, refusals_of
from .views import Ranks, View, label_of, named_labels, views_of
from .whys import Whys, make_whys
from .words import caps_of, check_text

MOST_VIEWS = 64


@dataclass(frozen=True)
class Side:
    """A run: the name of its file, the places of labels, what labels see of it, how many more labels it names, and what `why` says
    of its calls."""
    name: str
    run: Run
    order: Mapping[str, int]
    views: Sequence[View]
    left: int
    whys: Whys


def chosen(world: World, labels: Sequence[str]) -> Iterator[str]:
    """The canonical texts of the labels that the command line names; one without the form of a label is refused here."""
    for label in labels:
        for fault in form_fault(label):
            raise WrongWords(f"the world has no label {label!r}: {fault.message}")
        yield world.policy.canonical(label)


def labels_of(run: Run, others: Sequence[str], given: Sequence[str]) -> List[str]:
    """The labels to see a run as: those of the command line, or those that it names, and those of another run that it has too."""
    if given:
        return list(chosen(run.world, given))
    policy = run.world.policy
    shared = (policy.canonical(label) for label in others if not label_faults(label, policy))
    return list(dict.fromkeys([*named_labels(run), *shared]))


def make_side(player: Player, name: str, run: Run, labels: Sequence[str], effort: Effort) -> Side:
    """Plays and asks what a page says of a run, as the first of some labels see it."""
    named = named_labels(run)
    known = [label for label in labels if not label_faults(label, run.world.policy)]
    ranks = Ranks(player, run, list(dict.fromkeys([*named, *known])))
    asked = labels[:MOST_VIEWS]
    views = views_of(player, run, ranks, asked, effort)
    return Side(name, run, ranks.order, views, len(set(named) - set(asked)), make_whys(player, run, effort))


def data_of(side: Side) -> Dict[str, Any]:
    """What the page's script reads of a run: labels, what each sees, the callers, the sets of processes from call to call, and what
    is said of calls."""
    run = side.run
    tags = dict.fromkeys([*run.lives, *(line.tag for line in run.world.script)])
    labels = dict.fromkeys([*map(label_of, tags), *(each.label for each in run.world.objects)])
    places, numbers = {tag: at for at, tag in enumerate(tags)}, {label: at for at, label in enumerate(labels)}
    return {
        "labels": list(labels),
        "tags": [[tag, numbers[label_of(tag)]] for tag in tags],
        "callers": [places[call.reply.tag] for call in run.calls],
        "lines": [call.line.line.number for call in run.calls],
        "views": {view.label: {"sees": [numbers[label] for label in labels if label in view.dominated], "replies": len(view.seen),
                               "crossed": view.crossed or 0} for view in side.views},
        "moments": {tag: [[moment.call, moment.label, *caps_of(moment.caps).values()] for moment in life.moments]
                    for tag, life in run.lives.items()},
        "checks": {check: check_text(check) for check in overriding(run)},
        "errors": {f"{call} {error}": error_in_words(call, error) for error, call in refusals_of(run)},
        "whys": side.whys.lines,
        "left": side.whys.left,
    }


def json_of(side: Side) -> Dict[str, Any]:
    """A run as the page has it, for other programs."""
    run = side.run
    return {
        "calls": [{"call": call.number, "line": call.line.line.number, "pid": call.reply.tag, "asks": call.text, "reply": call.reply.text,
                   "outcome": call.reply.outcome.value, "records": [record.members for record in call.records],
                   "why": side.whys.lines.get(call.number)} for call in run.calls],
        "labels": [{"label": view.label, "sees": list(view.seen), "crossed": view.crossed} for view in side.views],
        "processes": [{"pid": life.tag, "parent": life.parent, "moments": [vars(moment) for moment in life.moments],
                       "ended": life.ended and {"call": life.ended[0], "how": life.ended[1]}} for life in run.lives.values()],
    }
