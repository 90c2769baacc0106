"""The table of `who`: the rights of the processes to the objects at the start, each asked by a call that was played."""
from typing import Dict, Iterator, List, Tuple

from labask.effort import Effort
from labask.playing import Player
from labask.who import RIGHTS, Access, Answer, ask
from labask.worlds import World, path_word

from .markup import code, head_row, headed, text

MOST_RIGHTS = 20_000


def count_rights(world: World) -> int:
    """How many rights there are to ask for."""
    return len(world.processes) * sum(len(RIGHTS[each.kind]) for each in world.objects)


def right_item(answer: Answer) -> str:
    """A right in a cell: whether the process has it, and by which capability or in spite of what it is denied."""
    name = text(answer.right.value)
    if answer.access is Access.RULES:
        return f'<li class="yes">{name}'
    if answer.access is Access.CAPABILITY:
        return f'<li class="by">{name} {text(answer.text.replace(",", ", "))}'
    return f'<li class="no">no {name}: {text(answer.text)}'


def right_rows(world: World, answers: Iterator[Answer]) -> Iterator[str]:
    """The rows of the objects, with a cell for each process."""
    cells: Dict[Tuple[bytes, str], List[str]] = {}
    tags = [process.tag for process in world.processes]
    for answer in answers:
        cells.setdefault((answer.path, answer.process), []).append(right_item(answer))
    for each in world.objects:
        lists = [f"<ul>{''.join(cells[each.path, tag])}</ul>" for tag in tags]
        yield f'<tr data-label="{text(each.label)}"><th scope="row">{code(path_word(each.path))}{headed(tags, lists)}\n'


def rights_section(player: Player, world: World, effort: Effort) -> Iterator[str]:
    """The rights at the start of the world."""
    count = count_rights(world)
    if count > MOST_RIGHTS:
        yield (f"<p>There are {count:,} rights of processes to objects, too many for a page. <code>labask who FILE PATH</code> asks for "
               "those to the object PATH.</p>\n")
        return
    if not world.processes:
        yield "<p>The world has no process.</p>\n"
        return
    yield ("<p>What each process may do before the first call: by the rules alone, by a capability that is exercised, or not, and then "
           "which check denies it. Each was played as a call on the world without its script; what the script changes is not in "
           "it.</p>\n")
    heads = head_row(["Object", *(process.tag for process in world.processes)])
    yield f'<div class="wide"><table class="plain rights">{heads}<tbody>\n'
    yield from right_rows(world, ask(world, world.processes, world.objects, player, effort))
    yield "</tbody></table></div>\n"
