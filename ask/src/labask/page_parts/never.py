"""The section on what no script can do: what `labsys never` says of a world, and who is trusted with the capabilities over labels."""
from dataclasses import dataclass
from typing import Iterator, Optional, Sequence, Tuple

from labask.effort import Effort
from labask.exec_formula import in_order
from labask.kernel_profile import CAPABILITIES
from labask.never import Trusted, programs_of, trusted_of
from labask.playing import Player
from labask.proved import Proved, proved_if_answered
from labask.who import count_rights
from labask.worlds import World

from .markup import code, cut, head_row, headed, text
from .rights import MOST_RIGHTS

MOST_LISTED = 200  # labels of a cell, and rows of trusted processes and programs
HELD = ("Capabilities that no script exercises", "Capabilities that a script may exercise", "Labels that nothing crosses",
        "Labels that a script may cross")
TRUSTED_HEADS = ("Label", "Trusted with", "May execute it")
CONFINED = "all of them: no process ever has one of the five capabilities over labels"
PROVED = ("<p>This holds by proof, for every script of {worlds} and not only for {script}: <code>labsys never</code> says it without "
          "playing a call. What a label that nothing crosses sees is the same whatever else is in the world. That a script may do "
          "something means that it is not ruled out, not that one does it. The labels are those of the processes at the start.</p>\n")
TRUST = ("<p>The processes that hold one of the five capabilities over labels, and the programs that may give one by <code>exec</code>. "
         "Which processes may execute a program was played by a single call before the first one of the script; other calls may change "
         "it.</p>\n")
NO_ANSWER = "<p>Here it is not known what no script can do, since <code>labsys never</code> gave no answer{where}.</p>\n"
MANY = ("<p>Who may execute the programs was not asked, since that is too much for a page. <code>labask never</code> asks for it.</p>\n")


@dataclass(frozen=True)
class Answered:
    """What `labsys never` says of a world, who is trusted there, and whether it was asked who may execute the programs."""
    found: Proved
    trusted: Sequence[Trusted]
    asked: bool


def few_rights(world: World, found: Proved) -> bool:
    """Whether there are few enough rights to the programs that a page asks for them."""
    return count_rights(world.processes, list(programs_of(world, found).values())) <= MOST_RIGHTS


def answered(player: Player, world: World, effort: Effort) -> Optional[Answered]:
    """What is said of a world; None where `labsys never` gives no answer about it."""
    found = proved_if_answered(player, world.text)
    if found is None:
        return None
    asked = few_rights(world, found)
    return Answered(found, trusted_of(world, found, player, effort, asked), asked)


def listed(names: Sequence[str]) -> str:
    """Names with commas between them, of many the first ones."""
    more = len(names) - MOST_LISTED
    shown = ", ".join(map(code, names[:MOST_LISTED])) or "none"
    return shown if more <= 0 else f'{shown}<span class="more">… {more:,} more</span>'


def cells_of(one: Optional[Answered]) -> Tuple[str, ...]:
    """The cells of a world, one for each of `HELD`."""
    if one is None:
        return ("not known",) * len(HELD)
    found = one.found
    uncrossed = CONFINED if found.confined else listed(found.uncrossed)
    return (listed(in_order(found.never)), listed(in_order(frozenset(CAPABILITIES) - found.never)), uncrossed, listed(found.open))


def held_table(heads: Sequence[str], answers: Sequence[Optional[Answered]]) -> Iterator[str]:
    """The table of capabilities and labels, with a column for each world."""
    yield f'<div class="wide"><table class="plain">{head_row(["What", *heads])}<tbody>\n'
    for what, *cells in zip(HELD, *map(cells_of, answers)):
        yield f'<tr><th scope="row">{text(what)}{headed(heads, cells)}\n'
    yield "</tbody></table></div>\n"


def trusted_row(each: Trusted, asked: bool) -> str:
    """The row of a trusted process or program."""
    may = cut(each.may_execute) if asked or not each.program else "not asked"
    cells = (code(each.label), text(each.what.replace(",", ", ")), may)
    return f'<tr data-label="{text(each.label)}"><th scope="row">{code(each.shown_name)}{headed(TRUSTED_HEADS, cells)}\n'


def trusted_table(one: Answered) -> Iterator[str]:
    """The table of the trusted processes and programs of a world."""
    if not one.trusted:
        yield "<p>No process holds and no program gives one of the five capabilities over labels.</p>\n"
        return
    more = len(one.trusted) - MOST_LISTED
    if not one.asked:
        yield MANY
    yield f'<div class="wide"><table class="plain">{head_row(("Process or program", *TRUSTED_HEADS))}<tbody>\n'
    yield from (trusted_row(each, one.asked) for each in one.trusted[:MOST_LISTED])
    yield "</tbody></table></div>\n"
    if more > 0:
        yield f"<p>There {'is' if more == 1 else 'are'} {more:,} more; <code>labask never</code> has all of them.</p>\n"


def never_section(player: Player, world: World, effort: Effort) -> Iterator[str]:
    """What no script of a world can do."""
    one = answered(player, world, effort)
    if one is None:
        yield NO_ANSWER.format(where="")
        return
    yield PROVED.format(worlds="this world", script="this one")
    yield from held_table(("Which",), [one])
    if one.trusted:
        yield TRUST
    yield from trusted_table(one)


def never_of_both(player: Player, named: Sequence[Tuple[str, str, World]], effort: Effort) -> Iterator[str]:
    """What no script of each of two worlds can do, side by side; each has the name of its run and that of its file."""
    answers = [answered(player, world, effort) for _, _, world in named]
    yield PROVED.format(worlds="each world", script="the two that were played")
    yield from held_table([name for name, _, _ in named], answers)
    yield TRUST
    for side, ((name, file, _), one) in enumerate(zip(named, answers)):
        yield f'<div data-side="{side}"><h3>{name}: {text(file)}</h3>\n'
        yield from [NO_ANSWER.format(where=f" about {name}")] if one is None else trusted_table(one)
        yield "</div>\n"
