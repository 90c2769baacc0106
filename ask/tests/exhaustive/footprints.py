"""What a call reads and writes, and what a refusal depends on: the places in a state by which it is judged whether to ask again.

A call reads of its caller the ids, the capability sets, the label, the current directory and the descriptors; of each directory on
its paths the entry, the mode and the label; and of the objects at their ends all attributes. What it reads is never too little
here, and may be too much: then it is asked once more than it has to be. No rule says here whether a call is done.
"""
from typing import Callable, FrozenSet, Iterator, List, Optional, Sequence, Tuple

from exhaustive.calls import Call, descriptor_of, walks_of
from exhaustive.names import State, Walk

Cell = Tuple[object, ...]
Cells = FrozenSet[Cell]
ENTRIES_ALONE = {"exec_kind", "link_dir", "unlink_dir"}
BY_MODE = {"dac_read", "dac_search", "dac_write", "dac_execute", "owner", "chown"}
OF_CALLER = {"setfcap", "cap_within", "mac_subject", "cap_grow", "setuid", "setgid"}
# what done calls change of the caller, and of the object that they are on
OF_ITSELF = {"setuid": ["ids"], "setgid": ["ids"], "exec": ["ids", "caps"], "cap_set_proc": ["caps"], "mac_set_proc": ["own label"],
             "chdir": ["directory"]}
OF_OBJECT = {"chmod": ["mode"], "chown": ["mode"], "mac_set_file": ["label"], "mac_set_fd": ["label"], "cap_set_file": ["file caps"],
             "cap_set_fd": ["file caps"], "write": ["mode", "file caps"]}
CREATING = ("mkdir", "link", "rename")


def walk_cells(walk: Walk, start_cell: Sequence[Cell]) -> Iterator[Cell]:
    """The entries on a walk and what the walk's checks read of its directories."""
    yield from start_cell
    for place, name in zip(walk.places, walk.names):
        yield "entry", place, name
        yield "mode", place
        yield "label", place


def own_cells(actor: int) -> Tuple[Cell, ...]:
    """What the checks read of a caller."""
    return ("ids", actor), ("caps", actor), ("own label", actor)


def start_cells(call: Call) -> Tuple[Cell, ...]:
    """What says where a relative path begins."""
    return (("directory", call.actor),) if any(not path.startswith("/") for path in call.paths) else ()


def kept(find: Callable[[Call, State], Cells]) -> Callable[[Call, State], Cells]:
    """A function of a call and a state whose values are kept by all that they depend on."""
    def finding(call: Call, state: State) -> Cells:
        """As the function itself."""
        actor = call.actor
        key = (find, call, state.directories[actor], state.descriptors[actor], len(state.labels) if call.name == "fork" else 0)
        if key not in state.tree.cells:
            state.tree.cells[key] = find(call, state)
        return state.tree.cells[key]

    return finding


@kept
def reads(call: Call, state: State) -> Cells:
    """What the reply to a call may depend on."""
    cells = set(own_cells(call.actor)) | {("lives", call.actor)}
    for walk in walks_of(call, state):
        cells.update(walk_cells(walk, start_cells(call)))
        if walk.found is not None:
            cells.update((("mode", walk.found), ("label", walk.found), ("file caps", walk.found), ("inside", walk.found)))
            if call.name in ("mac_set_file", "rename", "rmdir"):
                cells.add(("holders", walk.found))
                cells.update(("label", holder) for holder in state.tree.holders.get(walk.found, ()))
        if call.name in CREATING or call.rest.startswith("wcx"):
            cells.add(("holders", walk.holder))
    if call.name == "rename":
        cells.update(("inside", number) for walk in walks_of(call, state)[:1] if walk.found is not None
                     for _, number in state.tree.below(walk.found, ""))
    if descriptor_of(call) is not None:
        cells.update(descriptor_cells(call, state))
    return frozenset(cells)


def descriptor_cells(call: Call, state: State) -> Iterator[Cell]:
    """What a call on a descriptor reads besides."""
    yield "descriptors", call.actor
    number = descriptor_of(call) or 0
    held = state.descriptors[call.actor]
    if number < len(held):
        yield from (("mode", held[number]), ("label", held[number]), ("file caps", held[number]), ("holders", held[number]))
        yield from (("label", holder) for holder in state.tree.holders.get(held[number], ()))


@kept
def effect_reads(call: Call, state: State) -> Cells:
    """What the effect of a done call may depend on."""
    walks = walks_of(call, state)
    cells: List[Cell] = [("entry", place, name) for walk in walks for place, name in zip(walk.places, walk.names)]
    cells += start_cells(call)
    if call.name == "exec":
        found = walks[0].found
        cells += [("file caps", found), ("mode", found), *own_cells(call.actor)]
    if call.name in ("setuid", "setgid", "chmod", "chown", "write") or call.rest == "wt":
        cells += own_cells(call.actor)
    if call.name == "mkdir" or call.rest.startswith("wcx"):
        cells += own_cells(call.actor)
    if call.name == "chown":
        cells.append(("mode", walks[0].found))
    if call.name == "open":
        cells.append(("descriptors", call.actor))
    if call.name == "fork":
        cells += [*own_cells(call.actor), ("directory", call.actor), ("descriptors", call.actor)]
    return frozenset(cells)


@kept
def writes(call: Call, state: State) -> Cells:
    """What a done call may change."""
    if call.name in OF_ITSELF:
        return frozenset((kind, call.actor) for kind in OF_ITSELF[call.name])
    if call.name in OF_OBJECT:
        held, descriptor = state.descriptors[call.actor], descriptor_of(call)
        if descriptor is not None:
            return frozenset((kind, held[descriptor]) for kind in OF_OBJECT[call.name] if descriptor < len(held))
        return frozenset((kind, walk.found) for kind in OF_OBJECT[call.name] for walk in walks_of(call, state))
    if call.name == "open":
        return frozenset(open_writes(call, state, walks_of(call, state)[0]))
    if call.name == "fork":
        child = len(state.labels)
        return frozenset([*own_cells(child), ("lives", child), ("directory", child), ("descriptors", child)])
    return frozenset(entry_writes(call, state, walks_of(call, state)))


def open_writes(call: Call, state: State, walk: Walk) -> Iterator[Cell]:
    """What a done `open` changes."""
    yield "descriptors", call.actor
    if call.rest == "wt" and walk.found is not None:
        yield "mode", walk.found
        yield "file caps", walk.found
    if call.rest.startswith("wcx"):
        yield from entry_writes(call, state, [walk])


def entry_writes(call: Call, state: State, walks: Sequence[Walk]) -> Iterator[Cell]:
    """What a done call on names changes."""
    made = walks[0].found is None
    for walk in walks:
        if call.name == "link" and walk is walks[0]:
            yield "holders", walk.found
            continue
        yield "entry", walk.holder, walk.names[-1] if walk.names else ""
        yield "inside", walk.holder
        if walk.found is not None:
            yield "holders", walk.found
    if made:
        new = len(state.tree.kinds)
        yield from (("mode", new), ("label", new), ("file caps", new), ("holders", new), ("inside", new))


# ---- what a refusal depends on

def refusal_cells(call: Call, reply: bytes, state: State, roots: int) -> Cells:
    """What has to change before a refused call gets another reply; `roots` names lead to the world's root."""
    key = (call, reply, state.directories[call.actor], state.descriptors[call.actor])
    if key not in state.tree.cells:
        state.tree.cells[key] = refusal_cells_anew(call, reply, state, roots)
    return state.tree.cells[key]


def refusal_cells_anew(call: Call, reply: bytes, state: State, roots: int) -> Cells:
    """As `refusal_cells`, for a reply that was not met before."""
    words = reply.decode("latin-1").split(" ")
    walks = walks_of(call, state)
    cells: List[Cell] = [*start_cells(call), ("lives", call.actor)]
    cells += [("entry", place, name) for walk in walks for place, name in zip(walk.places, walk.names)]
    if len(words) < 3:
        return frozenset(cells + other_refusal(call, words[0], walks))
    check, place = words[1], words[2]
    if check in ENTRIES_ALONE:
        return frozenset(cells)
    if check == "label_order":
        return frozenset(reads(call, state))
    actor = call.actor
    if check in OF_CALLER:
        return frozenset(cells + [("caps", actor), ("ids", actor)])
    thing = thing_at(call, place, walks, state, roots)
    if check in BY_MODE:
        return frozenset(cells + [("caps", actor), ("ids", actor), ("mode", thing)])
    return frozenset(cells + [("caps", actor), ("own label", actor), ("label", thing)])


def other_refusal(call: Call, error: str, walks: Sequence[Walk]) -> List[Cell]:
    """What a refusal without a check depends on, besides entries."""
    if error == "ENOTEMPTY":
        return [("inside", walk.found) for walk in walks]
    if error in ("EBADF", "EAGAIN", "EPIPE", "EINVAL"):
        return [("descriptors", call.actor)]
    return []


def thing_at(call: Call, place: str, walks: Sequence[Walk], state: State, roots: int) -> Optional[int]:
    """The object at a place of a denial."""
    if place == "fd":
        held, number = state.descriptors[call.actor], descriptor_of(call)
        return held[number] if number is not None and number < len(held) else None
    walk = walks["pq".index(place[0])]
    path = call.paths["pq".index(place[0])]
    index = int(place[1:]) - (roots if path.startswith("/") else 0)
    return walk.places[index]


