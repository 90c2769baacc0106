"""Offsets of descriptors: seeks, and reads and writes past the end of a file, where no offset is in the world.

Linux fills a file with zeros up to a place past its end at which something is written. Here the zeros are written by lines of their
own before that, and the call that led there is played after them.
"""
from typing import Optional

from labask.pieces import pieces
from labask.playing import Outcome, Reply
from labask.strace.following import Descriptor, Following, Process, Seek, number, number_in
from labask.strace.log import Call
from labask.strace.script import Leave, Reason
from labask.worlds import quoted

NUMBER = 4294967295
FILE_BYTES = 65536
SEEKS = {"SEEK_SET": "set", "SEEK_CUR": "cur", "SEEK_END": "end"}


def size_of(following: Following, process: Process, held: Descriptor) -> Optional[int]:
    """How many bytes a file has in the world now, which the question changes nothing of; None of what is no file, or not to be known."""
    reply = following.script.session.call(f"{process.tag} fstat {held.played}")
    if reply.outcome is not Outcome.DONE or reply.words[0].text != "file":
        return None
    return int(reply.words[4].value)


def played_seek(following: Following, process: Process, held: Descriptor, whence: str, offset: int) -> Reply:
    """Plays a seek."""
    return following.script.play(process.tag, "lseek", str(held.played), whence, str(offset))


def lseek(following: Following, call: Call, process: Process) -> None:
    """`lseek`; a search for data or a hole moves to where the log says that it led. One that leads past the end is played later."""
    held = following.descriptor(process, call.arguments[0])
    whence, offset = call.arguments[2].text, number(call.arguments[1])
    found = call.result.number if call.result.done else None
    if found is not None and (whence not in SEEKS or held.seek.call is not None):
        whence, offset = "SEEK_SET", found
    if whence not in SEEKS or abs(offset) > NUMBER:
        raise Leave(Reason.NO_ARGUMENT)
    if found is None and held.seek.call is not None:
        raise Leave(Reason.NO_ARGUMENT, "from a place past the end")
    size = size_of(following, process, held) if found is not None and held.pipe is None else None
    if found is not None:
        forget(following, held.seek)
    if size is not None and found is not None and found > size:
        held.seek.call, held.seek.offset = call, found
        following.seeks.append(held.seek)
        return
    following.script.call(call)
    played_seek(following, process, held, SEEKS[whence], offset)


def forget(following: Following, seek: Seek) -> None:
    """Leaves out a call that led past the end, where nothing was written."""
    if seek.call is not None:
        following.script.leave(seek.call, Reason.FOLLOWED, "past the end, and nothing is written there")
        seek.call = None


def forget_all(following: Following) -> None:
    """Leaves out all calls that led past an end where nothing was written, at the end of the log."""
    for seek in following.seeks:
        forget(following, seek)


def write_zeros(following: Following, process: Process, held: Descriptor, size: int, offset: int, line: int) -> None:
    """Writes zeros from the end of a file up to an offset."""
    if offset > FILE_BYTES:
        raise Leave(Reason.NO_ARGUMENT, "past the most bytes that a file may have")
    following.script.besides(line, f"zeros up to the offset {offset}")
    played_seek(following, process, held, "end", 0)
    write_pieces(following, process, held, bytes(offset - size), True)


def fill(following: Following, process: Process, held: Descriptor) -> None:
    """Before a write: where the offset is past the end, zeros are written up to it, and the seek that led there is played."""
    seek = held.seek
    if seek.call is None:
        return
    if held.appends:
        forget(following, seek)
        return
    size = size_of(following, process, held)
    if size is not None and seek.offset > size:
        write_zeros(following, process, held, size, seek.offset, seek.call.line)
    if seek.offset == seek.call.result.number:
        following.script.call(seek.call)
    else:
        following.script.besides(seek.call.line, f"to the offset {seek.offset}")
    played_seek(following, process, held, "set", seek.offset)
    seek.call = None


def to_end(following: Following, call: Call, process: Process, held: Descriptor) -> None:
    """Before a read: where the offset is past the end, it is moved to the end, from where no bytes are read either."""
    if held.seek.call is not None:
        following.script.besides(call.line, "to the end of the file; the offset is past it")
        played_seek(following, process, held, "end", 0)
        held.seek.offset += call.result.number or 0 if call.result.done else 0


def moved(following: Following, call: Call, process: Process, held: Descriptor, writes: bool) -> int:
    """Moves a descriptor to the offset that a call names, for that call alone, and gives the offset that it had."""
    offset = at_offset(call)
    size = size_of(following, process, held)
    following.script.besides(call.line, f"to the offset {offset}")
    old = number_in(played_seek(following, process, held, "cur", 0))
    if size is not None and offset > size and call.result.done:
        if writes:
            write_zeros(following, process, held, size, offset, call.line)
        else:
            offset = size
    if old is None or number_in(played_seek(following, process, held, "set", offset)) is None:
        raise Leave(Reason.NO_ARGUMENT, "no such offset here")
    return old


def moved_back(following: Following, call: Call, process: Process, held: Descriptor, offset: int) -> None:
    """Moves a descriptor back."""
    following.script.besides(call.line, "back to its offset")
    played_seek(following, process, held, "set", offset)


def at_offset(call: Call) -> int:
    """The offset that a call names."""
    offset = number(call.arguments[3])
    if not 0 <= offset <= NUMBER:
        raise Leave(Reason.NO_ARGUMENT)
    return offset


def write_pieces(following: Following, process: Process, held: Descriptor, content: bytes, whole: bool) -> None:
    """Writes bytes in as many lines as they need, up to the first that is not done; of a call that failed one line."""
    for piece in pieces(f"{process.tag} write {held.played} ", content):
        reply = following.script.play(process.tag, "write", str(held.played), quoted(piece))
        if held.pipe is not None and reply.outcome is Outcome.DONE:
            held.pipe.held += len(piece)
        if reply.outcome is not Outcome.DONE or not whole:
            return
