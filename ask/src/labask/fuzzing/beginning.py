"""Worlds that begin later: a call of the script was done already, and the lines of the world say what came of it."""
from dataclasses import replace
from typing import Iterator, List, Optional, Sequence, Tuple

from labask.fuzzing.draft import Draft
from labask.kernel.calls import Path, play
from labask.kernel.state import NO_CAPS, Kind, Labels, Number, Process, State, caps_text, first_state
from labask.kernel.texts import call_text, read_call
from labask.worlds import Kind as LineKind, WorldObject, WorldProcess, read_world


def begun(draft: Draft, calls: Sequence[int]) -> Optional[Draft]:
    """A draft whose world has these calls of its script behind it, as far as its lines can say so; None where one is not done there."""
    world = read_world(draft.text)
    labels = Labels(world.policy)
    state = first_state(world, labels)
    for at in calls:
        line = world.script[at]
        state, reply = play(state, labels.number(line.tag), read_call(line.call, line.arguments, labels))
        if not reply.done:
            return None
    old = [labels.number(each.tag) for each in world.processes]
    rest = tuple(line for at, line in enumerate(draft.script) if at not in calls)
    lines = {number: process_line(process, labels) for number, process in state.processes.items()}
    later = replace(draft, script=rest).with_processes([lines.get(number) for number in old])
    children = [line for number, line in lines.items() if number not in old]
    return replace(later, objects=tuple(object_lines(state, labels)), processes=(*later.processes, *children))


def process_line(process: Process, labels: Labels) -> WorldProcess:
    """The line of a process as it is now."""
    ids = process.ids
    return WorldProcess(0, labels.text(process.label), ids.euid, ids.egid, ids.groups, caps_text(process.caps))


def object_lines(state: State, labels: Labels) -> Iterator[WorldObject]:
    """The lines of the objects that have a name, each directory before what is in it."""
    waiting: List[Tuple[bytes, Number]] = [(b"/", state.root)]
    written = set()
    while waiting:
        path, number = waiting.pop(0)
        thing, names = state.things[number], state.names.get(number, {})
        if number in written:
            continue
        written.add(number)
        caps = None if thing.caps == NO_CAPS else caps_text(thing.caps)
        content = thing.content if thing.kind is Kind.FILE else b""
        yield WorldObject(0, LineKind(thing.kind.value), path, thing.mode, thing.owner, thing.group, labels.text(thing.label), content, caps)
        waiting += [(path.rstrip(b"/") + b"/" + name, names[name]) for name in sorted(names)]


# ---- paths

def absolute(draft: Draft) -> Draft:
    """A draft whose calls have absolute paths in place of those from a current directory."""
    world = read_world(draft.text)
    labels = Labels(world.policy)
    state, lines = first_state(world, labels), []
    for line in world.script:
        call, who = read_call(line.call, line.arguments, labels), labels.number(line.tag)
        names = names_to(state, state.processes[who].cwd) if who in state.processes else None
        if names is not None:
            call = call._replace(arguments=tuple(Path(True, (*names, *each.names)) if isinstance(each, Path) and not each.absolute
                                                 else each for each in call.arguments))
        lines.append(f"{line.tag} {call_text(call, labels)}")
        state, _ = play(state, who, call)
    return replace(draft, script=tuple(lines))


def names_to(state: State, directory: Number) -> Optional[Tuple[bytes, ...]]:
    """The names of the path to a directory, or None where it was removed."""
    names: List[bytes] = []
    while directory != state.root:
        spots = state.spots.get(directory)
        if not spots:
            return None
        directory, name = spots[0]
        names.insert(0, name)
    return tuple(names)


def unmoved(draft: Draft, at: int) -> Iterator[Draft]:
    """Drafts without a call that renames or links; either the calls before it or those behind it name its other path then."""
    words = draft.script[at].split(" ")
    if words[1] in ("rename", "link"):
        before, after = draft.script[:at], draft.script[at + 1:]
        yield replace(draft, script=(*(with_path(line, words[2], words[3]) for line in before), *after))
        yield replace(draft, script=(*before, *(with_path(line, words[3], words[2]) for line in after)))


def with_path(line: str, old: str, new: str) -> str:
    """A line with another path in place of one, also where that leads on."""
    tag, call, *words = line.split(" ")
    return " ".join([tag, call, *(new + word[len(old):] if f"{word}/".startswith(f"{old}/") else word for word in words)])
