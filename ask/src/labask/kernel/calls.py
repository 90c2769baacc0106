"""The calls of the profile: what each does to a state of the model, and what it answers."""
from dataclasses import dataclass
from typing import Any, Callable, Dict, NamedTuple, Optional, Tuple

from labask.kernel import rules
from labask.kernel.rules import Stop, dac, mac_read, mac_write, need, owns
from labask.kernel.state import NO_CAPS, Cap, Caps, Description, Kind, Label, Number, Process, Spot, State, Thing

MOST_DESCRIPTORS, MOST_NAMES = 32, 1_024
MOST_PROCESSES, MOST_OBJECTS, MOST_DESCRIPTIONS = 4_095, 65_535, 65_535
MOST_FILE_BYTES, MOST_STREAM_BYTES = 65_536, 4_096
PIPE_MODE = 0o600


class Path(NamedTuple):
    """A path: whether it is absolute, and its names."""
    absolute: bool
    names: Tuple[bytes, ...]


class Call(NamedTuple):
    """A call with its arguments, as the call table names them."""
    name: str
    arguments: Tuple[Any, ...] = ()


class Reply(NamedTuple):
    """The reply to a call: its answer, or the error and of a denial the check and its place."""
    done: bool
    answer: Tuple[Any, ...] = ()
    error: str = ""
    check: Optional[str] = None
    place: Optional[str] = None


class Found(NamedTuple):
    """What the walk of a path found: the last directory and name, if the path has one, what is there, and the letter of its places."""
    directory: Optional[Number]
    name: bytes
    thing: Optional[Number]
    letter: str
    names: int

    @property
    def place(self) -> str:
        """The place of what the path leads to."""
        return f"{self.letter}{self.names}"

    @property
    def directory_place(self) -> str:
        """The place of the last directory."""
        return f"{self.letter}{self.names - 1}"


@dataclass
class Asked:
    """A call that is made: the state, which becomes that after the call, and the caller."""
    state: State
    who: Number
    process: Process

    def thing(self, number: Number) -> Thing:
        """The object with a number."""
        return self.state.things[number]

    def change(self, **values: Any) -> None:
        """Gives the caller other values."""
        self.process = self.process._replace(**values)
        self.state.set_process(self.who, self.process)

    # ---- walks

    def walk(self, path: Path, letter: str) -> Found:
        """The walk of a path, whose last name may be absent."""
        here: Number = self.state.root if path.absolute else self.process.cwd
        if not path.names:
            return Found(None, b"", here, letter, 0)
        for count, name in enumerate(path.names[:-1]):
            self.enter(here, f"{letter}{count}")
            here = or_missing(self.state.names.get(here, {}).get(name))
        count = len(path.names)
        self.enter(here, f"{letter}{count - 1}")
        return Found(here, path.names[-1], self.state.names.get(here, {}).get(path.names[-1]), letter, count)

    def enter(self, directory: Number, place: str) -> None:
        """The checks of a directory on the way."""
        thing = self.thing(directory)
        mac_read(self.process, thing, place)
        if thing.kind is not Kind.DIRECTORY:
            raise Stop("ENOTDIR")
        dac(self.process, rules.DAC_SEARCH, thing, rules.EXECUTE, place)

    def reach(self, path: Path) -> Tuple[Number, Thing, str]:
        """The object that a path leads to, and its place."""
        found = self.walk(path, "p")
        number = or_missing(found.thing)
        return number, self.thing(number), found.place

    def new_spot(self, path: Path, letter: str, label: Optional[Label]) -> Spot:
        """A name that nothing has yet, in a directory that is entered for an object of a label; None is the caller's."""
        found = self.walk(path, letter)
        if found.directory is None or found.thing is not None:
            raise Stop("EEXIST")
        self.write_directory(found, label)
        self.not_removed(found.directory)
        return found.directory, found.name

    def write_directory(self, found: Found, label: Optional[Label]) -> None:
        """The checks of a directory that gets an entry."""
        assert found.directory is not None
        directory, place = self.thing(found.directory), found.directory_place
        mac_write(self.process, directory.label, place)
        dac(self.process, rules.DAC_WRITE, directory, rules.WRITE, place)
        need(self.process, rules.LABEL_ORDER, (label or self.process.label).dominates(directory.label), place)

    def not_removed(self, directory: Number) -> None:
        """Nothing is made in a removed directory."""
        if directory != self.state.root and not self.state.spots.get(directory):
            raise Stop("ENOENT")

    def old_entry(self, path: Path) -> Tuple[Spot, Number, str]:
        """An entry that may be taken away: its spot, its object, and the object's place."""
        found = self.walk(path, "p")
        if found.directory is None:
            raise Stop("EBUSY")
        number = or_missing(found.thing)
        directory = self.thing(found.directory)
        mac_write(self.process, directory.label, found.directory_place)
        dac(self.process, rules.DAC_WRITE, directory, rules.WRITE, found.directory_place)
        mac_write(self.process, self.thing(number).label, found.place)
        return (found.directory, found.name), number, found.place

    # ---- descriptors

    def opened(self, fd: int) -> Tuple[Number, Description]:
        """What a descriptor refers to."""
        did = dict(self.process.descriptors).get(fd)
        if did is None:
            raise Stop("EBADF")
        return did, self.state.descriptions[did]

    def free_descriptors(self, count: int) -> None:
        """So many descriptors are free."""
        if len(self.process.descriptors) + count > MOST_DESCRIPTORS:
            raise Stop("EMFILE")

    def may_describe(self, count: int) -> None:
        """So many descriptions may be made."""
        self.free_descriptors(count)
        if self.state.last("description", self.process.label) + count > MOST_DESCRIPTIONS:
            raise Stop("ENFILE")

    def attach(self, did: Number) -> int:
        """Gives the caller a descriptor on a description."""
        held = dict(self.process.descriptors)
        fd = next(number for number in range(len(held) + 1) if number not in held)
        held[fd] = did
        self.change(descriptors=tuple(sorted(held.items())))
        return fd

    def describe(self, description: Description) -> int:
        """Makes a description with a descriptor."""
        did = self.state.draw("description", self.process.label)
        self.state.set_description(did, description)
        return self.attach(did)

    def any_open(self, number: Number, reads: bool) -> bool:
        """Whether a description for reading, or for writing, is on an object."""
        return any(each.thing == number and (each.reads if reads else each.writes) for each in self.state.descriptions.values())

    def drop_unheld(self) -> None:
        """Takes away the descriptions that no process holds, and the bytes of FIFOs without descriptions."""
        held = {did for process in self.state.processes.values() for _, did in process.descriptors}
        gone = [did for did in self.state.descriptions if did not in held]
        kept = {did: each for did, each in self.state.descriptions.items() if did in held}
        still = {each.thing for each in kept.values()}
        for did in gone:
            number = self.state.descriptions[did].thing
            if self.thing(number).kind is Kind.FIFO and number not in still:
                self.state.put(number, self.thing(number)._replace(content=b""))
        self.state.descriptions = kept

    # ---- making and ending

    def may_number(self) -> None:
        """A number of an object is left."""
        if self.state.last("object", self.process.label) >= MOST_OBJECTS:
            raise Stop("ENOSPC")

    def make(self, kind: Kind, mode: int, spot: Optional[Spot]) -> Number:
        """Makes an object of the caller."""
        ids = self.process.ids
        number = self.state.draw("object", self.process.label)
        self.state.put(number, Thing(kind, self.process.label, ids.euid, ids.egid, mode))
        if spot is not None:
            self.state.enter(spot, number)
        return number

    def masked(self, mode: int) -> int:
        """The permission bits of a mode without those of the umask."""
        return mode & rules.PERMISSIONS & ~self.process.umask

    def end(self, number: Number, how: str) -> None:
        """Ends a process."""
        state = self.state
        parent = state.processes[number].parent
        left: Dict[Number, Process] = {}
        for other, process in state.processes.items():
            if other == number:
                continue
            if process.parent == number:
                process = process._replace(parent=None)
            if other == parent:
                process = process._replace(ended=(*process.ended, (number, how)))
            left[other] = process
        state.processes = left
        self.drop_unheld()


def or_missing(number: Optional[Number]) -> Number:
    """An object that is there."""
    if number is None:
        raise Stop("ENOENT")
    return number


# ---- files and descriptors

def call_open(asked: Asked, path: Path, flags: str, mode: int = 0) -> Tuple[Any, ...]:
    """`open`."""
    asked.may_describe(1)
    found = asked.walk(path, "p")
    if found.thing is None:
        if "c" not in flags:
            raise Stop("ENOENT")
        assert found.directory is not None
        asked.write_directory(found, None)
        asked.not_removed(found.directory)
        asked.may_number()
        number = asked.make(Kind.FILE, asked.masked(mode), (found.directory, found.name))
    else:
        number = found.thing
        open_present(asked, number, flags, found.place)
    return (asked.describe(Description(number, "r" in flags, "w" in flags, "a" in flags)),)


def open_present(asked: Asked, number: Number, flags: str, place: str) -> None:
    """The checks of an object that is opened, and its emptying."""
    process, thing = asked.process, asked.thing(number)
    if "c" in flags and "x" in flags:
        raise Stop("EEXIST")
    if "r" in flags:
        mac_read(process, thing, place)
    if "w" in flags:
        mac_write(process, thing.label, place)
    if thing.kind is Kind.DIRECTORY:
        raise Stop("EISDIR")
    if thing.kind is Kind.FIFO and "r" in flags:
        if "w" in flags:
            raise Stop("EINVAL")
        mac_write(process, thing.label, place)
    if "r" in flags:
        dac(process, rules.DAC_READ, thing, rules.READ, place)
    if "w" in flags:
        dac(process, rules.DAC_WRITE, thing, rules.WRITE, place)
    if "t" in flags and thing.kind is Kind.FILE:
        asked.state.put(number, cleared(process, thing)._replace(content=b""))


def cleared(process: Process, thing: Thing) -> Thing:
    """A file whose content changes: without set-id bits and capabilities, where they do not stay."""
    if rules.keeps_set_id(process, rules.plain(thing)):
        return thing
    return thing._replace(mode=thing.mode & rules.PERMISSIONS, caps=NO_CAPS)


def call_close(asked: Asked, fd: int) -> Tuple[Any, ...]:
    """`close`."""
    asked.opened(fd)
    asked.change(descriptors=tuple(each for each in asked.process.descriptors if each[0] != fd))
    asked.drop_unheld()
    return ()


def call_read(asked: Asked, fd: int, count: int) -> Tuple[Any, ...]:
    """`read`."""
    did, one = asked.opened(fd)
    thing = asked.thing(one.thing)
    if not one.reads:
        raise Stop("EBADF")
    mac_read(asked.process, thing, "fd")
    if not thing.kind.stream:
        data = thing.content[one.offset:one.offset + count]
        asked.state.set_description(did, one._replace(offset=one.offset + len(data)))
        return (data,)
    mac_write(asked.process, thing.label, "fd")
    if not thing.content and asked.any_open(one.thing, False):
        raise Stop("EAGAIN")
    asked.state.put(one.thing, thing._replace(content=thing.content[count:]))
    return (thing.content[:count],)


def call_write(asked: Asked, fd: int, data: bytes) -> Tuple[Any, ...]:
    """`write`."""
    did, one = asked.opened(fd)
    thing = asked.thing(one.thing)
    if not one.writes:
        raise Stop("EBADF")
    mac_write(asked.process, thing.label, "fd")
    if thing.kind.stream:
        if not asked.any_open(one.thing, True):
            raise Stop("EPIPE")
        if len(thing.content) + len(data) > MOST_STREAM_BYTES:
            raise Stop("EAGAIN")
        asked.state.put(one.thing, thing._replace(content=thing.content + data))
        return (len(data),)
    at = len(thing.content) if one.appends else one.offset
    if at > len(thing.content):
        raise Stop("EINVAL")
    if at + len(data) > MOST_FILE_BYTES:
        raise Stop("EFBIG")
    if data:
        content = thing.content[:at] + data + thing.content[at + len(data):]
        asked.state.put(one.thing, cleared(asked.process, thing)._replace(content=content))
    asked.state.set_description(did, one._replace(offset=at + len(data)))
    return (len(data),)


def call_lseek(asked: Asked, fd: int, whence: str, offset: int) -> Tuple[Any, ...]:
    """`lseek`."""
    did, one = asked.opened(fd)
    thing = asked.thing(one.thing)
    mac_read(asked.process, thing, "fd")
    if thing.kind.stream:
        raise Stop("ESPIPE")
    to = {"set": 0, "cur": one.offset, "end": len(thing.content)}[whence] + offset
    if not 0 <= to <= len(thing.content):
        raise Stop("EINVAL")
    asked.state.set_description(did, one._replace(offset=to))
    return (to,)


def call_dup(asked: Asked, fd: int) -> Tuple[Any, ...]:
    """`dup`."""
    did, _ = asked.opened(fd)
    asked.free_descriptors(1)
    return (asked.attach(did),)


def call_pipe(asked: Asked) -> Tuple[Any, ...]:
    """`pipe`."""
    asked.may_describe(2)
    asked.may_number()
    number = asked.make(Kind.PIPE, PIPE_MODE, None)
    return (asked.describe(Description(number, True, False)), asked.describe(Description(number, False, True)))


def call_fstat(asked: Asked, fd: int) -> Tuple[Any, ...]:
    """`fstat`."""
    _, one = asked.opened(fd)
    mac_read(asked.process, asked.thing(one.thing), "fd")
    return stat_of(asked.state, one.thing)


def stat_of(state: State, number: Number) -> Tuple[Any, ...]:
    """What `stat` answers of an object."""
    thing, names = state.things[number], len(state.spots.get(number, ()))
    size = len(state.names.get(number, {})) if thing.kind is Kind.DIRECTORY else len(thing.content)
    count = {Kind.DIRECTORY: 1, Kind.PIPE: 0}.get(thing.kind, names)
    return (thing.kind, Mode(thing.mode), thing.owner, thing.group, size, count, number, thing.label)


class Mode(int):
    """A mode of an answer."""


# ---- the tree

def call_mkfifo(asked: Asked, path: Path, mode: int) -> Tuple[Any, ...]:
    """`mkfifo`."""
    return make_named(asked, path, mode, Kind.FIFO)


def call_mkdir(asked: Asked, path: Path, mode: int) -> Tuple[Any, ...]:
    """`mkdir`."""
    return make_named(asked, path, mode, Kind.DIRECTORY)


def make_named(asked: Asked, path: Path, mode: int, kind: Kind) -> Tuple[Any, ...]:
    """Makes an object at a path."""
    spot = asked.new_spot(path, "p", None)
    asked.may_number()
    asked.make(kind, asked.masked(mode), spot)
    return ()


def call_rmdir(asked: Asked, path: Path) -> Tuple[Any, ...]:
    """`rmdir`."""
    spot, number, _ = asked.old_entry(path)
    if asked.thing(number).kind is not Kind.DIRECTORY:
        raise Stop("ENOTDIR")
    if asked.state.names.get(number):
        raise Stop("ENOTEMPTY")
    asked.state.leave(spot)
    return ()


def call_unlink(asked: Asked, path: Path) -> Tuple[Any, ...]:
    """`unlink`."""
    spot, number, place = asked.old_entry(path)
    need(asked.process, rules.UNLINK_DIR, asked.thing(number).kind is not Kind.DIRECTORY, place)
    asked.state.leave(spot)
    return ()


def call_link(asked: Asked, path: Path, to: Path) -> Tuple[Any, ...]:
    """`link`."""
    number, thing, place = asked.reach(path)
    mac_write(asked.process, thing.label, place)
    need(asked.process, rules.LINK_DIR, thing.kind is not Kind.DIRECTORY, place)
    if len(asked.state.spots.get(number, ())) >= MOST_NAMES:
        raise Stop("EMLINK")
    asked.state.enter(asked.new_spot(to, "q", thing.label), number)
    return ()


def call_rename(asked: Asked, path: Path, to: Path) -> Tuple[Any, ...]:
    """`rename`."""
    spot, number, _ = asked.old_entry(path)
    thing = asked.thing(number)
    found = asked.walk(to, "q")
    if found.directory is None:
        raise Stop("EBUSY")
    asked.write_directory(found, thing.label)
    if found.thing is not None:
        mac_write(asked.process, asked.thing(found.thing).label, found.place)
        if found.thing == number:
            return ()
        may_replace(asked, thing, found.thing)
    if thing.kind is Kind.DIRECTORY and is_under(asked.state, found.directory, number):
        raise Stop("EINVAL")
    asked.not_removed(found.directory)
    asked.state.leave(spot)
    if found.thing is not None:
        asked.state.leave((found.directory, found.name))
    asked.state.enter((found.directory, found.name), number)
    return ()


def may_replace(asked: Asked, thing: Thing, target: Number) -> None:
    """An object may take the place of another one."""
    directory, other = thing.kind is Kind.DIRECTORY, asked.thing(target).kind is Kind.DIRECTORY
    if directory and not other:
        raise Stop("ENOTDIR")
    if other and not directory:
        raise Stop("EISDIR")
    if other and asked.state.names.get(target):
        raise Stop("ENOTEMPTY")


def is_under(state: State, directory: Number, top: Number) -> bool:
    """Whether a directory is another one or lies under it."""
    while directory != top:
        spots = state.spots.get(directory)
        if not spots:
            return False
        directory = spots[0][0]
    return True


def call_readdir(asked: Asked, path: Path) -> Tuple[Any, ...]:
    """`readdir`."""
    number, thing, place = asked.reach(path)
    mac_read(asked.process, thing, place)
    if thing.kind is not Kind.DIRECTORY:
        raise Stop("ENOTDIR")
    dac(asked.process, rules.DAC_READ, thing, rules.READ, place)
    return tuple(sorted(asked.state.names.get(number, {})))


def call_stat(asked: Asked, path: Path) -> Tuple[Any, ...]:
    """`stat`."""
    number, thing, place = asked.reach(path)
    mac_read(asked.process, thing, place)
    return stat_of(asked.state, number)


def call_chdir(asked: Asked, path: Path) -> Tuple[Any, ...]:
    """`chdir`."""
    number, _, place = asked.reach(path)
    asked.enter(number, place)
    asked.change(cwd=number)
    return ()


# ---- attributes

def call_chmod(asked: Asked, path: Path, mode: int) -> Tuple[Any, ...]:
    """`chmod`."""
    number, thing, place = asked.reach(path)
    mac_write(asked.process, thing.label, place)
    owns(asked.process, thing, place)
    kept = rules.keeps_set_id(asked.process, not mode & rules.SET_ID or asked.process.ids.euid == thing.owner)
    asked.state.put(number, thing._replace(mode=mode if kept else mode & rules.PERMISSIONS))
    return ()


def call_chown(asked: Asked, path: Path, user: int, group: int) -> Tuple[Any, ...]:
    """`chown`."""
    number, thing, place = asked.reach(path)
    ids = asked.process.ids
    mac_write(asked.process, thing.label, place)
    need(asked.process, rules.CHOWN, user == thing.owner == ids.euid and ids.member(group), place)
    kept = rules.keeps_set_id(asked.process, not thing.mode & rules.SET_ID)
    mode = thing.mode if kept else thing.mode & rules.PERMISSIONS
    asked.state.put(number, thing._replace(owner=user, group=group, mode=mode))
    return ()


def get_caps(asked: Asked, thing: Thing, place: str) -> Tuple[Any, ...]:
    """The sets of a file."""
    mac_read(asked.process, thing, place)
    if thing.kind is not Kind.FILE:
        raise Stop("EINVAL")
    return (thing.caps,)


def set_caps(asked: Asked, number: Number, caps: Caps, place: str) -> Tuple[Any, ...]:
    """Sets the sets of a file."""
    process, thing = asked.process, asked.thing(number)
    mac_write(process, thing.label, place)
    if thing.kind is not Kind.FILE or not rules.is_uniform(caps):
        raise Stop("EINVAL")
    owns(process, thing, place)
    need(process, rules.SETFCAP, False, place)
    within = not (caps.effective | caps.inheritable | caps.permitted) & ~process.caps.permitted
    need(process, rules.CAP_WITHIN, within, "self")
    asked.state.put(number, thing._replace(caps=caps))
    return ()


def get_label(asked: Asked, thing: Thing, place: str) -> Tuple[Any, ...]:
    """The label of an object."""
    mac_read(asked.process, thing, place)
    return (thing.label,)


def set_label(asked: Asked, number: Number, label: Label, place: str) -> Tuple[Any, ...]:
    """Sets the label of an object."""
    process, thing, state = asked.process, asked.thing(number), asked.state
    mac_write(process, thing.label, place)
    owns(process, thing, place)
    if label != thing.label:
        need(process, rules.MAC_UPGRADE if label.dominates(thing.label) else rules.MAC_DOWNGRADE, False, place)
        holders = (state.things[directory].label for directory, _ in state.spots.get(number, ()))
        need(process, rules.LABEL_ORDER, number != state.root and all(map(label.dominates, holders)), place)
        if state.names.get(number):
            raise Stop("ENOTEMPTY")
    state.put(number, thing._replace(label=label))
    return ()


def call_cap_get_file(asked: Asked, path: Path) -> Tuple[Any, ...]:
    """`cap_get_file`."""
    _, thing, place = asked.reach(path)
    return get_caps(asked, thing, place)


def call_cap_get_fd(asked: Asked, fd: int) -> Tuple[Any, ...]:
    """`cap_get_fd`."""
    return get_caps(asked, asked.thing(asked.opened(fd)[1].thing), "fd")


def call_cap_set_file(asked: Asked, path: Path, caps: Caps) -> Tuple[Any, ...]:
    """`cap_set_file`."""
    number, _, place = asked.reach(path)
    return set_caps(asked, number, caps, place)


def call_cap_set_fd(asked: Asked, fd: int, caps: Caps) -> Tuple[Any, ...]:
    """`cap_set_fd`."""
    return set_caps(asked, asked.opened(fd)[1].thing, caps, "fd")


def call_mac_get_file(asked: Asked, path: Path) -> Tuple[Any, ...]:
    """`mac_get_file`."""
    _, thing, place = asked.reach(path)
    return get_label(asked, thing, place)


def call_mac_get_fd(asked: Asked, fd: int) -> Tuple[Any, ...]:
    """`mac_get_fd`."""
    return get_label(asked, asked.thing(asked.opened(fd)[1].thing), "fd")


def call_mac_set_file(asked: Asked, path: Path, label: Label) -> Tuple[Any, ...]:
    """`mac_set_file`."""
    number, _, place = asked.reach(path)
    return set_label(asked, number, label, place)


def call_mac_set_fd(asked: Asked, fd: int, label: Label) -> Tuple[Any, ...]:
    """`mac_set_fd`."""
    return set_label(asked, asked.opened(fd)[1].thing, label, "fd")


# ---- processes

def call_fork(asked: Asked) -> Tuple[Any, ...]:
    """`fork`."""
    if asked.state.last("process", asked.process.label) >= MOST_PROCESSES:
        raise Stop("EAGAIN")
    child = asked.state.draw("process", asked.process.label)
    asked.state.set_process(child, asked.process._replace(parent=asked.who, ended=()))
    return (child,)


def call_exec(asked: Asked, path: Path) -> Tuple[Any, ...]:
    """`exec`."""
    _, thing, place = asked.reach(path)
    process = asked.process
    mac_read(process, thing, place)
    need(process, rules.EXEC_KIND, thing.kind is Kind.FILE, place)
    dac(process, rules.DAC_EXECUTE, thing, rules.EXECUTE, place)
    asked.change(ids=rules.executed_ids(process.ids, thing.mode, thing.owner, thing.group),
                 caps=rules.executed_caps(process.caps, thing.caps, asked.state.bound))
    return ()


def call_exit(asked: Asked, status: int) -> Tuple[Any, ...]:
    """`exit`."""
    asked.end(asked.who, f"exit {status}")
    return ()


def call_wait(asked: Asked) -> Tuple[Any, ...]:
    """`wait`."""
    ended = asked.process.ended
    if not ended:
        living = any(each.parent == asked.who for each in asked.state.processes.values())
        raise Stop("EAGAIN" if living else "ECHILD")
    asked.change(ended=ended[1:])
    return ended[0]


def call_kill(asked: Asked, target: Number, signal: str) -> Tuple[Any, ...]:
    """`kill`."""
    mac_write(asked.process, target.label, "pid")
    other = asked.state.processes.get(target)
    if other is None:
        raise Stop("ESRCH")
    if other.label != target.label:
        mac_write(asked.process, other.label, "pid")
    ids, its = asked.process.ids, other.ids
    need(asked.process, rules.KILL, bool({ids.ruid, ids.euid} & {its.ruid, its.suid}), "pid")
    if signal != "0":
        asked.end(target, f"kill {signal}")
    return ()


def call_getpid(asked: Asked) -> Tuple[Any, ...]:
    """`getpid`."""
    return (asked.who,)


def call_getppid(asked: Asked) -> Tuple[Any, ...]:
    """`getppid`."""
    return (asked.process.parent,)


def call_getids(asked: Asked) -> Tuple[Any, ...]:
    """`getids`."""
    return (*asked.process.ids[:-1], asked.process.ids.groups)


def call_setuid(asked: Asked, user: int) -> Tuple[Any, ...]:
    """`setuid`."""
    ids = asked.process.ids
    if (ids.ruid, ids.euid, ids.suid) == (user, user, user) or asked.process.has(Cap.SETUID):
        asked.change(ids=ids._replace(ruid=user, euid=user, suid=user))
    else:
        need(asked.process, rules.SETUID, user in (ids.ruid, ids.suid), "self")
        asked.change(ids=ids._replace(euid=user))
    return ()


def call_setgid(asked: Asked, group: int) -> Tuple[Any, ...]:
    """`setgid`."""
    ids = asked.process.ids
    if (ids.rgid, ids.egid, ids.sgid) == (group, group, group) or asked.process.has(Cap.SETGID):
        asked.change(ids=ids._replace(rgid=group, egid=group, sgid=group))
    else:
        need(asked.process, rules.SETGID, group in (ids.rgid, ids.sgid), "self")
        asked.change(ids=ids._replace(egid=group))
    return ()


def call_umask(asked: Asked, mode: int) -> Tuple[Any, ...]:
    """`umask`."""
    old = asked.process.umask
    asked.change(umask=mode)
    return (Mode(old),)


def call_cap_get_proc(asked: Asked) -> Tuple[Any, ...]:
    """`cap_get_proc`."""
    return (asked.process.caps,)


def call_cap_set_proc(asked: Asked, caps: Caps) -> Tuple[Any, ...]:
    """`cap_set_proc`."""
    need(asked.process, rules.CAP_GROW, rules.may_become(asked.process.caps, caps), "self")
    asked.change(caps=caps)
    return ()


def call_mac_get_proc(asked: Asked) -> Tuple[Any, ...]:
    """`mac_get_proc`."""
    return (asked.process.label,)


def call_mac_set_proc(asked: Asked, label: Label) -> Tuple[Any, ...]:
    """`mac_set_proc`."""
    need(asked.process, rules.MAC_SUBJECT, label == asked.process.label, "self")
    asked.change(label=label)
    return ()


# ---- audit

def call_aud_write(asked: Asked, data: bytes) -> Tuple[Any, ...]:
    """`aud_write`."""
    need(asked.process, rules.AUD_WRITE, False, "self")
    return ()


def call_aud_switch(asked: Asked, to: str) -> Tuple[Any, ...]:
    """`aud_switch`."""
    need(asked.process, rules.AUD_SWITCH, False, "self")
    asked.change(audited=to == "on")
    return ()


ROWS: Dict[str, Callable[..., Tuple[Any, ...]]] = {
    name[len("call_"):]: row for name, row in list(globals().items()) if name.startswith("call_")
}


def play(state: State, who: Number, call: Call) -> Tuple[State, Reply]:
    """The state after a call of a process, and the reply; a call that is stopped leaves the state as it was."""
    process = state.processes.get(who)
    if process is None:
        return state, Reply(False, error="ESRCH")
    asked = Asked(state.copy(), who, process)
    try:
        answer = ROWS[call.name](asked, *call.arguments)
    except Stop as stop:
        return state, Reply(False, error=stop.error, check=stop.check, place=stop.place)
    return asked.state, Reply(True, answer)


