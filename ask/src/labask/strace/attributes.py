"""Calls of the log on extended attributes: capability sets of files, and access control lists that are no more than a mode."""
import struct
from typing import Dict, Optional, Tuple

from labask.file_caps import ATTRIBUTE, UnknownVersion, read_attribute
from labask.playing import Outcome
from labask.strace.files import Handler
from labask.strace.following import Following, Place, Process, needed
from labask.strace.log import Call
from labask.strace.script import Leave, Reason
from labask.worlds import quoted

ACCESS_LIST = "system.posix_acl_access"
# the entries of a list that is no more than a mode, by their tags: where the bits of each stand in the mode
SHIFTS = {0x01: 6, 0x04: 3, 0x20: 0}


def object_of(following: Following, call: Call, process: Process) -> Place:
    """The place of the object that a call is about."""
    if call.name.startswith("f"):
        return following.place_of_descriptor(process, call.arguments[0])
    return following.place(process, None, needed(call.arguments[0]))


def mode_of_list(value: bytes) -> Optional[int]:
    """The permission bits of an access control list, or None where it says more than a mode."""
    if len(value) != 4 + 8 * len(SHIFTS) or struct.unpack_from("<I", value)[0] != 2:
        return None
    read = (struct.unpack_from("<HH", value, 4 + 8 * index) for index in range(len(SHIFTS)))
    entries: Dict[int, int] = {tag: bits for tag, bits in read}
    return sum((entries[tag] & 7) << shift for tag, shift in SHIFTS.items()) if set(entries) == set(SHIFTS) else None


def set_list(following: Following, call: Call, process: Process, value: bytes) -> None:
    """Sets the permission bits that a list has; the set-id bits stay, for which `stat` is asked."""
    bits = mode_of_list(value)
    if bits is None:
        raise Leave(Reason.NO_ARGUMENT, "an access control list")
    place = object_of(following, call, process)
    following.script.besides(call.line, "the set-id bits that stay")
    reply = following.script.play(process.tag, "stat", place.word)
    if reply.outcome is not Outcome.DONE:
        raise Leave(Reason.NO_ARGUMENT, "a mode that is not known here")
    following.script.call(call)
    following.script.play(process.tag, "chmod", place.word, f"{int(reply.words[1].text, 8) & 0o6000 | bits:04o}")


def caps_of(value: bytes) -> Tuple[str, Tuple[str, ...]]:
    """The capability text of an attribute, and the capabilities that the profile does not have."""
    try:
        attribute = read_attribute(value)
    except UnknownVersion:
        raise Leave(Reason.NO_ARGUMENT, "an unknown version of the attribute")
    if attribute.root:
        raise Leave(Reason.NO_ARGUMENT, f"sets that count only where the user {attribute.root} is root")
    return attribute.sets.text, attribute.sets.left_out


def set_caps(following: Following, call: Call, process: Process, value: bytes) -> None:
    """`cap_set_file` of the sets that an attribute has."""
    text, left_out = caps_of(value)
    place = object_of(following, call, process)
    if left_out:
        following.script.comment(f"{call.line}, note: the profile does not have {','.join(left_out)}")
    following.script.call(call)
    following.script.play(process.tag, "cap_set_file", place.word, quoted(text.encode("ascii")))


def set_attribute(following: Following, call: Call, process: Process) -> None:
    """`setxattr`, `lsetxattr` and `fsetxattr`."""
    name, value = call.arguments[1].string, call.arguments[2].string
    if name is None or name.value.decode("latin-1") not in (ACCESS_LIST, ATTRIBUTE):
        raise Leave(Reason.NO_CALL)
    if value is None or not value.whole:
        raise Leave(Reason.NO_ARGUMENT, "a value that the log does not have")
    if name.value.decode("ascii") == ATTRIBUTE:
        set_caps(following, call, process, value.value)
    else:
        set_list(following, call, process, value.value)


def remove_attribute(following: Following, call: Call, process: Process) -> None:
    """`removexattr`, `lremovexattr` and `fremovexattr` of capability sets."""
    name = call.arguments[1].string
    if name is None or name.value.decode("latin-1") != ATTRIBUTE:
        raise Leave(Reason.NO_CALL)
    place = object_of(following, call, process)
    following.script.call(call)
    following.script.play(process.tag, "cap_set_file", place.word, quoted(b"="))


HANDLERS: Dict[str, Handler] = {
    **{name: set_attribute for name in ("setxattr", "lsetxattr", "fsetxattr")},
    **{name: remove_attribute for name in ("removexattr", "lremovexattr", "fremovexattr")},
}
