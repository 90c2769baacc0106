"""The calls that are tried in a state, and what a done call does to names."""
from dataclasses import dataclass, replace
from typing import Iterator, List, NamedTuple, Optional, Sequence, Tuple

from exhaustive.names import ROOT, State, Tree, Walk
from exhaustive.random_worlds import RandomWorld
from labask.capability_texts import Sets, read_sets

NEW_NAME = "new"
OBSERVER = -1


class Call(NamedTuple):
    """A call of a process: `paths` are those of its words, which stand first."""
    actor: int
    name: str
    paths: Tuple[str, ...] = ()
    rest: str = ""

    def text(self, root: str) -> str:
        """The call without its tag, where the world's root has a path."""
        words = [self.name, *(root + path if path.startswith("/") else path for path in self.paths)]
        return " ".join(words + [self.rest] if self.rest else words)


# ---- which calls are tried


def most(sets: Sets) -> str:
    """The text of the most that a process with these sets may set for itself."""
    return Sets(sets.permitted, sets.inheritable | sets.permitted, sets.permitted).written


@dataclass(frozen=True)
class Arguments:
    """The arguments that are tried in a world."""
    users: Tuple[int, ...]
    groups: Tuple[int, ...]
    labels: Tuple[str, ...]
    old_paths: Tuple[str, ...]

    @classmethod
    def of(cls, world: RandomWorld) -> "Arguments":
        """Those of a world: its users, groups and labels."""
        users = sorted({each.owner for each in world.objects} | {each.user for each in world.processes})
        groups = sorted({each.group for each in world.objects} | {each.group for each in world.processes}
                        | {number for each in world.processes for number in each.groups})
        return cls(tuple(users), tuple(groups), world.labels, tuple(each.path for each in world.objects[1:]))


def paths_from(directory: int, tree: Tree) -> List[Tuple[str, int]]:
    """The paths of all objects but the root, and the relative ones besides below a current directory that is not the root."""
    return tree.paths + (list(tree.below(directory, "")) if directory != ROOT else [])


def free_paths(state: State, actor: int, arguments: Arguments) -> List[str]:
    """The paths of a new name in each directory, and those of the world's objects that are free by now."""
    tree, directory = state.tree, state.directories[actor]
    free = [f"{path}/{NEW_NAME}" for path, number in [("", ROOT), *paths_from(directory, tree)] if tree.kinds[number] == "dir"]
    free += [NEW_NAME] if directory != ROOT else []
    free += [path for path in arguments.old_paths]
    walks = [(path, tree.walk(directory, path)) for path in dict.fromkeys(free)]
    return [path for path, walk in walks if walk.found is None and walk.holder is not None]


def on_object(actor: int, path: str, kind: str, arguments: Arguments, sets: Sets) -> Iterator[Call]:
    """The calls on an object."""
    modes = ("0777", "2777", "4777", "6777") if kind == "file" else ("0777",)
    yield from (Call(actor, "chmod", (path,), mode) for mode in modes)
    yield from (Call(actor, "chown", (path,), f"{user} {group}") for user in arguments.users for group in arguments.groups)
    yield from (Call(actor, "mac_set_file", (path,), label) for label in arguments.labels)
    if kind == "dir":
        yield Call(actor, "chdir", (path,))
        yield Call(actor, "rmdir", (path,))
        return
    yield Call(actor, "unlink", (path,))
    yield from (Call(actor, "open", (path,), flags) for flags in ("r", "w"))
    if kind == "file":
        yield Call(actor, "open", (path,), "wt")
        yield Call(actor, "exec", (path,))
        if sets.permitted:
            yield Call(actor, "cap_set_file", (path,), f'"{",".join(sorted(sets.permitted))}=eip"')


def fits(tree: Tree, number: int, walk: Walk) -> bool:
    """Whether an object can be moved to where a walk leads: not to itself or below it, and not to an object of another kind."""
    there = walk.found
    if walk.holder == number or any(walk.holder == each for _, each in tree.below(number, "")):
        return False
    return there is None or there != number and (tree.kinds[number] == "dir") == (tree.kinds[there] == "dir")


def on_names(actor: int, paths: Sequence[Tuple[str, int]], free: Sequence[str], state: State) -> Iterator[Call]:
    """The calls that make, move and add names."""
    tree, directory = state.tree, state.directories[actor]
    for path in free:
        yield Call(actor, "mkdir", (path,), "0777")
        yield Call(actor, "open", (path,), "wcx 0777")
    for path, number in paths:
        yield from (Call(actor, "rename", (path, other)) for other in [*free, *(each for each, _ in paths)]
                    if fits(tree, number, tree.walk(directory, other)))
        if tree.kinds[number] != "dir":
            yield from (Call(actor, "link", (path, other)) for other in free)


def on_itself(actor: int, state: State, arguments: Arguments, sets: Sets) -> Iterator[Call]:
    """The calls of a process on itself and its descriptors."""
    yield from (Call(actor, "setuid", (), str(user)) for user in arguments.users)
    yield from (Call(actor, "setgid", (), str(group)) for group in arguments.groups)
    yield from (Call(actor, "mac_set_proc", (), label) for label in arguments.labels if label != state.labels[actor])
    if most(sets) != sets.written:
        yield Call(actor, "cap_set_proc", (), f'"{most(sets)}"')
    yield Call(actor, "fork")
    for descriptor, number in enumerate(state.descriptors[actor]):
        yield from (Call(actor, "mac_set_fd", (), f"{descriptor} {label}") for label in arguments.labels)
        yield Call(actor, "write", (), f'{descriptor} "x"')
        if sets.permitted and state.tree.kinds[number] == "file":
            yield Call(actor, "cap_set_fd", (), f'{descriptor} "{",".join(sorted(sets.permitted))}=eip"')


def calls_of(actor: int, state: State, arguments: Arguments) -> List[Call]:
    """The calls of a process that may change what a check reads."""
    sets = read_sets(state.caps[actor])
    paths, free = paths_from(state.directories[actor], state.tree), free_paths(state, actor, arguments)
    found = [call for path, number in [("/", ROOT), *paths]
             for call in on_object(actor, path, state.tree.kinds[number], arguments, sets)
             if path != "/" or call.name in ("chmod", "chown")]
    found += on_names(actor, paths, free, state)
    return found + list(on_itself(actor, state, arguments, sets))


# ---- what a done call does to names


def walks_of(call: Call, state: State) -> List[Walk]:
    """The walks of the paths of a call."""
    return [state.tree.walk(state.directories[call.actor], path) for path in call.paths]


def descriptor_of(call: Call) -> Optional[int]:
    """The descriptor of a call that has one."""
    return int(call.rest.split(" ")[0]) if call.name in ("mac_set_fd", "cap_set_fd", "write", "read", "close") else None


def last_entry(walk: Walk) -> Tuple[int, str]:
    """The directory and the name of the entry that a path names."""
    assert walk.holder is not None
    return walk.holder, walk.names[-1]


def entry_changes(call: Call, state: State, made: Optional[int]) -> List[Tuple[int, str, Optional[int]]]:
    """The entries that a done call changes; `made` is the number of the object that it makes."""
    walks = walks_of(call, state)
    first, last = walks[0], walks[-1]
    if call.name in ("unlink", "rmdir"):
        return [(*last_entry(first), None)]
    if call.name == "link":
        return [(*last_entry(last), first.found)]
    if call.name == "rename":
        return [] if first.found == last.found else [(*last_entry(first), None), (*last_entry(last), first.found)]
    return [(*last_entry(first), made)]


def object_of(call: Call, state: State) -> int:
    """The object that a done call is on: that of its first path or its descriptor."""
    descriptor = descriptor_of(call)
    if descriptor is not None:
        return state.descriptors[call.actor][descriptor]
    found = walks_of(call, state)[0].found
    assert found is not None
    return found


def after_making(call: Call, state: State) -> State:
    """The state after a call that makes a directory, or a file and a descriptor of it."""
    kind, number = "dir" if call.name == "mkdir" else "file", len(state.tree.kinds)
    state = replace(state, tree=state.tree.changed(entry_changes(call, state, number), (kind,)))
    return state.with_actor(call.actor, descriptors=(*state.descriptors[call.actor], number)) if kind == "file" else state


def after_fork(actor: int, state: State) -> State:
    """The state with a child of a process, which is the last one then."""
    return replace(state, directories=(*state.directories, state.directories[actor]), caps=(*state.caps, state.caps[actor]),
                   descriptors=(*state.descriptors, state.descriptors[actor]), labels=(*state.labels, state.labels[actor]),
                   parents=(*state.parents, state.parents[actor]))


def after(call: Call, state: State) -> State:
    """The state after a done call; the sets that a program gives are not known by it."""
    actor = call.actor
    if call.name in ("unlink", "rmdir", "link", "rename"):
        return replace(state, tree=state.tree.changed(entry_changes(call, state, None)))
    if call.name == "mkdir" or call.rest.startswith("wcx"):
        return after_making(call, state)
    if call.name == "fork":
        return after_fork(actor, state)
    if call.name == "write" or call.rest == "wt":
        state = replace(state, overwritten=state.overwritten | {object_of(call, state)})
    if call.name == "open":
        return state.with_actor(actor, descriptors=(*state.descriptors[actor], object_of(call, state)))
    if call.name == "chdir":
        return state.with_actor(actor, directories=object_of(call, state))
    if call.name == "cap_set_proc":
        return state.with_actor(actor, caps=call.rest.strip('"'))
    return state.with_actor(actor, labels=call.rest) if call.name == "mac_set_proc" else state
