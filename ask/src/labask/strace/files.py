"""Calls of the log on descriptors: opening, reading, writing, copying, and what becomes of the descriptors."""
import dataclasses
from typing import Callable, Dict, FrozenSet, Optional, Tuple

from labask.playing import Outcome, Reply
from labask.strace.following import Descriptor, Following, Place, Process, base_and_path, mode_of, needed, number, number_in
from labask.strace.log import Call
from labask.strace.offsets import fill, lseek, moved, moved_back, to_end, write_pieces
from labask.strace.script import Leave, Reason
from labask.strace.values import Argument, Handle
from labask.strace.waiting import Line, Pipe, PipeRead, PipeWrite, Waiting, nothing
from labask.worlds import MAX_INPUT, quoted

READ_BYTES = 65536
STAND_IN = b"?"
Handler = Callable[[Following, Call, Process], None]


@dataclasses.dataclass(frozen=True)
class Opening:
    """What a call of the family of `open` asks for."""
    base: Optional[Handle]
    path: bytes
    flags: FrozenSet[str]
    mode: Argument

    @property
    def letters(self) -> str:
        """The word of the flags."""
        writes = bool(self.flags & {"O_WRONLY", "O_RDWR"})
        text = "rw" if "O_RDWR" in self.flags else "w" if writes else "r"
        text += ("cx" if "O_EXCL" in self.flags else "c") if "O_CREAT" in self.flags else ""
        return text + ("t" if writes and "O_TRUNC" in self.flags else "") + ("a" if writes and "O_APPEND" in self.flags else "")


def opening_of(call: Call) -> Opening:
    """What a call asks for."""
    arguments, none = call.arguments, Argument(b"0")
    if call.name == "creat":
        return Opening(None, needed(arguments[0]), frozenset(("O_WRONLY", "O_CREAT", "O_TRUNC")), arguments[1])
    if call.name == "open":
        return Opening(None, needed(arguments[0]), arguments[1].flags, arguments[2] if len(arguments) > 2 else none)
    base, path = base_and_path(call, 0)
    if call.name == "openat2":
        fields = arguments[2].fields
        return Opening(base, path, fields["flags"].flags, fields.get("mode", none))
    return Opening(base, path, arguments[2].flags, arguments[3] if len(arguments) > 3 else none)


def place_of_opening(following: Following, call: Call, process: Process, opening: Opening) -> Place:
    """Where an opening leads. The path of the answer counts where it is another, behind a symbolic link."""
    real = call.result.path
    try:
        place = following.place(process, opening.base, opening.path)
    except Leave:
        if real is None or not real.startswith(b"/"):
            raise
        return following.place_of_real(real)
    if real is None or real.endswith(b" (deleted)") or real == place.real:
        return place
    return following.place_of_real(real)


def open_file(following: Following, call: Call, process: Process) -> None:
    """`open` and its kin. A directory is listed in place of being opened, which takes the same rights."""
    opening = opening_of(call)
    found = call.result.number if call.result.done else None
    closes = "O_CLOEXEC" in opening.flags
    try:
        place = place_of_opening(following, call, process, opening)
    except Leave:
        if found is not None:
            following.close(process, found, call.line, f"descriptor {found} is a new one")
        raise
    if opening.flags & {"O_PATH", "O_TMPFILE"} or "O_DIRECTORY" in opening.flags and "O_CREAT" in opening.flags:
        note_directory(process, found, place, closes)
        raise Leave(Reason.NO_ARGUMENT, ", ".join(sorted(opening.flags & {"O_PATH", "O_TMPFILE", "O_DIRECTORY"})))
    mode = [mode_of(opening.mode)] if "O_CREAT" in opening.flags else []
    following.script.call(call)
    if "O_DIRECTORY" in opening.flags:
        following.script.play(process.tag, "readdir", place.word)
        note_directory(process, found, place, closes)
        return
    reply = following.script.play(process.tag, "open", place.word, opening.letters, *mode)
    if reply.error == "EISDIR" and found is not None:
        following.script.play(process.tag, "readdir", place.word)
        note_directory(process, found, place, closes)
        return
    made = Descriptor(None, place.real, following.fifo(place.path), False, closes, "O_APPEND" in opening.flags)
    note_file(following, call, process, reply, made)


def note_directory(process: Process, found: Optional[int], place: Place, closes: bool) -> None:
    """Keeps a descriptor that has no number in the world, but a path there."""
    if found is not None:
        process.descriptors[found] = Descriptor(None, place.real, directory=True, closes=closes)


def note_file(following: Following, call: Call, process: Process, reply: Reply, made: Descriptor) -> None:
    """Keeps the descriptor that a reply gives; one that the log did not get is closed again."""
    made.played = number_in(reply)
    if call.result.answer is not None:
        process.descriptors[call.result.answer] = made
    elif made.played is not None:
        following.script.besides(call.line, "the log did not get this descriptor")
        following.script.play(process.tag, "close", str(made.played))


def close(following: Following, call: Call, process: Process) -> None:
    """`close`."""
    handle = call.arguments[0].handle
    held = process.descriptors.pop(handle.number, None) if handle and call.result.done else None
    if held is None or held.played is None:
        following.leave_unopened(handle, held)
    following.script.call(call)
    following.script.play(process.tag, "close", str(held.played))


def close_range(following: Following, call: Call, process: Process) -> None:
    """`close_range`: a `close` of each descriptor of the range."""
    first, last = number(call.arguments[0]), number(call.arguments[1])
    if not call.result.done or "CLOSE_RANGE_CLOEXEC" in call.arguments[2].flags:
        raise Leave(Reason.NO_ARGUMENT)
    closed = [process.descriptors.pop(each) for each in sorted(process.descriptors) if first <= each <= last]
    due = [held.played for held in closed if held.played is not None]
    if not due:
        raise Leave(Reason.FOLLOWED, "no descriptor of the world")
    following.script.call(call)
    for each in due:
        following.script.play(process.tag, "close", str(each))


def asked(held: Descriptor, call: Call, count: int) -> str:
    """How many bytes a read asks for: of a pipe as many as the log got, since others may have written more meanwhile."""
    if held.pipe is not None and call.result.done and call.result.number:
        count = call.result.number
    return str(max(0, min(count, READ_BYTES)))


def counted(call: Call) -> int:
    """How many bytes a call on one buffer, or on several, asks for."""
    if not call.name.endswith("v"):
        return number(call.arguments[2])
    items = call.arguments[1].fields.values()
    return sum(item.fields["iov_len"].number or 0 for item in items if "iov_len" in item.fields)


def read(following: Following, call: Call, process: Process) -> None:
    """`read` and `readv`."""
    held = following.descriptor(process, call.arguments[0])
    to_end(following, call, process, held)
    read_from(following, call, process, held)


def read_from(following: Following, call: Call, process: Process, held: Descriptor) -> None:
    """Reads where a descriptor is."""
    count = counted(call)
    if held.pipe is not None:
        reading = PipeRead(Line(following, call, process, held, held.pipe), int(asked(held, call, count)))
        following.queues.wait(process, Waiting(reading.step, nothing))
        return
    following.script.call(call)
    following.script.play(process.tag, "read", str(held.played), asked(held, call, count))


def given_bytes(argument: Argument, count: int) -> Tuple[bytes, int]:
    """The first `count` bytes of a string, and how many of them the log does not have: a byte of its own stands for each."""
    text = argument.string
    value = text.value[:count] if text else b""
    lacking = count - len(value)
    return value + stand_ins(lacking), lacking


def stand_ins(count: int) -> bytes:
    """What stands for so many bytes that the log does not have."""
    if count > MAX_INPUT:
        raise Leave(Reason.NO_ARGUMENT, "more bytes than an input may have")
    return STAND_IN * count


def gathered(call: Call) -> Tuple[bytes, int]:
    """The bytes that a call writes, and how many of them the log does not have."""
    asks = counted(call)
    count = asks if call.result.answer is None else call.result.answer
    if not call.name.endswith("v"):
        return given_bytes(call.arguments[1], min(count, asks))
    value, lacking = b"", 0
    for item in call.arguments[1].fields.values():
        length = min(count - len(value), item.fields["iov_len"].number or 0)
        piece, missing = given_bytes(item.fields.get("iov_base", item), length)
        value, lacking = value + piece, lacking + missing
    return value, lacking


def write(following: Following, call: Call, process: Process) -> None:
    """`write` and `writev`."""
    held = following.descriptor(process, call.arguments[0])
    if call.result.done and call.result.number:
        fill(following, process, held)
    write_to(following, call, process, held)


def write_to(following: Following, call: Call, process: Process, held: Descriptor) -> None:
    """Writes where a descriptor is."""
    content, lacking = gathered(call)
    following.script.made_up += lacking
    if held.pipe is not None and content and call.result.done:
        writing = PipeWrite(Line(following, call, process, held, held.pipe), content)
        following.queues.wait(process, Waiting(writing.step, writing.give_up, [held.pipe]))
        return
    following.script.call(call)
    write_pieces(following, process, held, content, call.result.done)


def pread(following: Following, call: Call, process: Process) -> None:
    """`pread64`, by moving there and back."""
    held = following.descriptor(process, call.arguments[0])
    old = moved(following, call, process, held, False)
    read_from(following, call, process, held)
    moved_back(following, call, process, held, old)


def pwrite(following: Following, call: Call, process: Process) -> None:
    """`pwrite64`, by moving there and back."""
    held = following.descriptor(process, call.arguments[0])
    old = moved(following, call, process, held, True)
    write_to(following, call, process, held)
    moved_back(following, call, process, held, old)


def copy(following: Following, call: Call, process: Process) -> None:
    """`copy_file_range` and `sendfile`: a read, and writes of what was read."""
    ranged = call.name == "copy_file_range"
    source, target = call.arguments[0 if ranged else 1], call.arguments[2 if ranged else 0]
    offsets = (call.arguments[1], call.arguments[3]) if ranged else (call.arguments[2],)
    if any(offset.written != b"NULL" for offset in offsets) or not call.result.done:
        raise Leave(Reason.NO_ARGUMENT)
    ends = [process.descriptors.get(each.handle.number) if each.handle else None for each in (source, target)]
    taken, given = (each if each is not None and each.played is not None else None for each in ends)
    if taken is None and given is None:
        following.leave_unopened(source.handle, ends[0])
    if given is not None and call.result.number:
        fill(following, process, given)
    if taken is not None:
        to_end(following, call, process, taken)
    following.script.call(call)
    content = taken_bytes(following, call, process, taken, number(call.arguments[4 if ranged else 3]))
    if given is not None and content:
        write_pieces(following, process, given, content, True)


def taken_bytes(following: Following, call: Call, process: Process, taken: Optional[Descriptor], count: int) -> bytes:
    """The bytes that a call copies: those that are read here, or stand-ins for what the world does not have."""
    if taken is None:
        content = stand_ins(call.result.number or 0)
        following.script.made_up += len(content)
        return content
    reply = following.script.play(process.tag, "read", str(taken.played), asked(taken, call, count))
    return reply.words[0].value if reply.outcome is Outcome.DONE else b""


def copied(held: Descriptor, closes: bool) -> Descriptor:
    """A descriptor of the same description, which has no number in the world yet."""
    return dataclasses.replace(held, played=None, closes=closes)


def duplicate(following: Following, call: Call, process: Process, closes: bool) -> None:
    """A descriptor is duplicated to the one that the log got."""
    handle = call.arguments[0].handle
    held = process.descriptors.get(handle.number) if handle else None
    found = call.result.number if call.result.done else None
    if held is None or held.played is None:
        if held is not None and found is not None:
            process.descriptors[found] = copied(held, closes)
        following.leave_unopened(handle, held)
    following.script.call(call)
    note_file(following, call, process, following.script.play(process.tag, "dup", str(held.played)), copied(held, closes))


def dup(following: Following, call: Call, process: Process) -> None:
    """`dup`."""
    duplicate(following, call, process, False)


def dup_to(following: Following, call: Call, process: Process) -> None:
    """`dup2` and `dup3`: the descriptor that is named is closed first."""
    old, new = call.arguments[0].handle, call.arguments[1].handle
    if old is None or new is None or not call.result.done:
        raise Leave(Reason.NO_ARGUMENT)
    if old.number == new.number:
        raise Leave(Reason.FOLLOWED)
    following.close(process, new.number, call.line, f"{call.name} closes {new.number}")
    duplicate(following, call, process, len(call.arguments) > 2 and "O_CLOEXEC" in call.arguments[2].flags)


def control(following: Following, call: Call, process: Process) -> None:
    """`fcntl`: of its commands those that duplicate, and the flag that closes at `execve`."""
    command = call.arguments[1].text
    if command in ("F_DUPFD", "F_DUPFD_CLOEXEC"):
        duplicate(following, call, process, command.endswith("CLOEXEC"))
        return
    handle = call.arguments[0].handle
    held = process.descriptors.get(handle.number) if handle else None
    if held is not None and command == "F_SETFD" and call.result.done:
        held.closes = "FD_CLOEXEC" in call.arguments[2].flags
        raise Leave(Reason.FOLLOWED)
    raise Leave(Reason.NO_CALL)


def pipe(following: Following, call: Call, process: Process) -> None:
    """`pipe` and `pipe2`."""
    if not call.result.done:
        raise Leave(Reason.NO_ARGUMENT)
    closes = len(call.arguments) > 1 and "O_CLOEXEC" in call.arguments[1].flags
    given = [each.handle for each in call.arguments[0].fields.values()]
    ends = [each.number for each in given if each is not None]
    if len(ends) != len(given):
        raise Leave(Reason.NO_ARGUMENT)
    following.script.call(call)
    reply, made = following.script.play(process.tag, "pipe"), Pipe()
    for index, end in enumerate(ends):
        process.descriptors[end] = Descriptor(number_in(reply, index), None, made, False, closes)


def status(following: Following, call: Call, process: Process) -> None:
    """`fstat`, and `stat` of what a descriptor of a directory refers to."""
    handle = call.arguments[0].handle
    held = process.descriptors.get(handle.number) if handle else None
    if held is not None and held.played is not None:
        following.script.call(call)
        following.script.play(process.tag, "fstat", str(held.played))
        return
    if held is None or not held.directory:
        following.leave_unopened(handle, held)
    place = following.place_of_descriptor(process, call.arguments[0])
    following.script.call(call)
    following.script.play(process.tag, "stat", place.word)


def names_in(following: Following, call: Call, process: Process) -> None:
    """`getdents64`: the names of the directory, where the call got some."""
    handle = call.arguments[0].handle
    held = process.descriptors.get(handle.number) if handle else None
    if held is None:
        following.leave_unopened(handle, held)
    place = following.place_of_descriptor(process, call.arguments[0])
    if call.result.done and call.result.number == 0:
        raise Leave(Reason.FOLLOWED, "no more names")
    following.script.call(call)
    following.script.play(process.tag, "readdir", place.word)


HANDLERS: Dict[str, Handler] = {
    "open": open_file, "openat": open_file, "openat2": open_file, "creat": open_file, "close": close, "close_range": close_range,
    "read": read, "readv": read, "write": write, "writev": write, "pread64": pread, "pwrite64": pwrite, "lseek": lseek,
    "copy_file_range": copy, "sendfile": copy, "dup": dup, "dup2": dup_to, "dup3": dup_to, "fcntl": control, "pipe": pipe,
    "pipe2": pipe, "fstat": status, "getdents64": names_in, "getdents": names_in,
}
