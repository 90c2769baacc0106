"""Calls of the log on paths: making, removing, linking and moving names, attributes, and the current directory."""
from typing import Dict, Optional, Tuple

from labask.playing import Outcome
from labask.strace.files import Handler, status
from labask.strace.following import Following, Place, Process, base_and_path, mode_of, needed, number, number_in
from labask.strace.log import Call
from labask.strace.script import Leave, Reason
from labask.strace.values import Argument

SAME = 4294967295


def place_at(following: Following, call: Call, process: Process, at: bool, index: int = 0) -> Tuple[Place, int]:
    """The place of the path of a call that begins with a path, or with a directory and a path, and the index after it."""
    if at:
        base, path = base_and_path(call, index)
        return following.place(process, base, path), index + 2
    return following.place(process, None, needed(call.arguments[index])), index + 1


def is_link(call: Call) -> bool:
    """Whether the log says that the object is a symbolic link."""
    return any(b"st_mode=S_IFLNK" in each.written or b"stx_mode=S_IFLNK" in each.written for each in call.arguments)


def stat(following: Following, call: Call, process: Process) -> None:
    """`stat`, `lstat`, `newfstatat` and `statx`; with an empty path that of the descriptor."""
    at = call.name in ("newfstatat", "statx")
    if at and call.arguments[1].string is not None and not call.arguments[1].string.value:
        status(following, call, process)
        return
    place, _ = place_at(following, call, process, at)
    if is_link(call):
        raise Leave(Reason.NO_OBJECT, "a symbolic link")
    following.script.call(call)
    following.script.play(process.tag, "stat", place.word)


def mkdir(following: Following, call: Call, process: Process) -> None:
    """`mkdir` and `mkdirat`."""
    place, index = place_at(following, call, process, call.name == "mkdirat")
    mode = mode_of(call.arguments[index])
    following.script.call(call)
    following.script.play(process.tag, "mkdir", place.word, mode)


def mknod(following: Following, call: Call, process: Process) -> None:
    """`mknod` and `mknodat` of a FIFO."""
    place, index = place_at(following, call, process, call.name == "mknodat")
    if "S_IFIFO" not in call.arguments[index].flags:
        raise Leave(Reason.NO_ARGUMENT)
    mode = mode_of(call.arguments[index])
    following.script.call(call)
    if following.script.play(process.tag, "mkfifo", place.word, mode).outcome is Outcome.DONE:
        following.fifos.add(place.path)


def unlink(following: Following, call: Call, process: Process) -> None:
    """`unlink`, `rmdir` and `unlinkat`."""
    try:
        place, index = place_at(following, call, process, call.name == "unlinkat")
    except Leave as left:
        if call.result.done and left.path is not None:
            following.absent.discard(left.path)
        raise
    directory = call.name == "rmdir" or (index < len(call.arguments) and "AT_REMOVEDIR" in call.arguments[index].flags)
    following.script.call(call)
    following.script.play(process.tag, "rmdir" if directory else "unlink", place.word)


def two_places(following: Following, call: Call, process: Process, at: bool) -> Tuple[Place, Place, Optional[Argument]]:
    """The places of two paths, and the flags after them."""
    first, index = place_at(following, call, process, at)
    second, index = place_at(following, call, process, at, index)
    return first, second, call.arguments[index] if index < len(call.arguments) else None


def link(following: Following, call: Call, process: Process) -> None:
    """`link` and `linkat`."""
    first, second, flags = two_places(following, call, process, call.name == "linkat")
    if flags is not None and "AT_EMPTY_PATH" in flags.flags:
        raise Leave(Reason.NO_ARGUMENT)
    following.script.call(call)
    following.script.play(process.tag, "link", first.word, second.word)


def symlink(following: Following, call: Call, process: Process) -> None:
    """`symlink` and `symlinkat`: from then on something is there that the world does not have."""
    at = call.name == "symlinkat"
    base = call.arguments[1].handle if at else None
    place = following.place(process, base, needed(call.arguments[2 if at else 1]))
    if call.result.done:
        following.absent.add(place.path)
    raise Leave(Reason.NO_OBJECT, "a symbolic link")


def rename(following: Following, call: Call, process: Process) -> None:
    """`rename` and its kin; one that may not replace is played where it was done."""
    first, second, flags = two_places(following, call, process, call.name != "rename")
    named = flags.flags if flags is not None and call.name == "renameat2" else frozenset(("0",))
    if not named <= {"0", "RENAME_NOREPLACE"} or "RENAME_NOREPLACE" in named and not call.result.done:
        raise Leave(Reason.NO_ARGUMENT, ", ".join(sorted(named)))
    following.script.call(call)
    following.script.play(process.tag, "rename", first.word, second.word)


def chmod(following: Following, call: Call, process: Process) -> None:
    """`chmod`, `fchmod` and `fchmodat`; that of a descriptor is played on its path."""
    if call.name == "fchmod":
        place, index = following.place_of_descriptor(process, call.arguments[0]), 1
    else:
        place, index = place_at(following, call, process, call.name != "chmod")
    mode = mode_of(call.arguments[index])
    following.script.call(call)
    following.script.play(process.tag, "chmod", place.word, mode)


def chown(following: Following, call: Call, process: Process) -> None:
    """`chown` and its kin. Where the user or the group is to stay, `stat` is asked for it."""
    if call.name == "fchown" or call.name == "fchownat" and not needed(call.arguments[1]):
        place, index = following.place_of_descriptor(process, call.arguments[0]), 1 if call.name == "fchown" else 2
    else:
        place, index = place_at(following, call, process, call.name == "fchownat")
    ids = [number(each) & SAME for each in call.arguments[index:index + 2]]
    words = [str(each) for each in ids]
    if len(ids) != 2:
        raise Leave(Reason.NO_ARGUMENT)
    if SAME in ids:
        following.script.besides(call.line, "the owner and the group that stay")
        reply = following.script.play(process.tag, "stat", place.word)
        if reply.outcome is not Outcome.DONE:
            raise Leave(Reason.NO_ARGUMENT, "an owner or group that is not known here")
        kept = [word.text for word in reply.words[2:4]]
        words = [old if each == SAME else str(each) for old, each in zip(kept, ids)]
    following.script.call(call)
    following.script.play(process.tag, "chown", place.word, *words)


def chdir(following: Following, call: Call, process: Process) -> None:
    """`chdir` and `fchdir`. Where one leads out of the directory, paths are written from the root from then on."""
    try:
        if call.name == "fchdir":
            place = following.place_of_descriptor(process, call.arguments[0])
        else:
            place, _ = place_at(following, call, process, False)
    except Leave:
        if call.result.done:
            process.in_step = False
            process.directory = outside_directory(following, call, process)
        raise
    following.script.call(call)
    reply = following.script.play(process.tag, "chdir", place.word)
    if call.result.done:
        process.directory, process.in_step = place.real, reply.outcome is Outcome.DONE
    elif reply.outcome is Outcome.DONE:
        process.in_step = False


def outside_directory(following: Following, call: Call, process: Process) -> Optional[bytes]:
    """The current directory after a call that led out of the directory, as far as the log tells."""
    if call.name == "fchdir":
        handle = call.arguments[0].handle
        return handle.path if handle else None
    path = call.arguments[0].string
    if path is None or not path.whole:
        return None
    return path.value if path.value.startswith(b"/") else process.directory and process.directory + b"/" + path.value


def truncate(following: Following, call: Call, process: Process) -> None:
    """`truncate` and `ftruncate` to no bytes: the file is opened and emptied. No call of the profile cuts a file elsewhere."""
    if number(call.arguments[1]) != 0:
        raise Leave(Reason.NO_CALL)
    if call.name == "ftruncate":
        place = following.place_of_descriptor(process, call.arguments[0])
    else:
        place, _ = place_at(following, call, process, False)
    following.script.call(call)
    opened = number_in(following.script.play(process.tag, "open", place.word, "wt"))
    if opened is not None:
        following.script.play(process.tag, "close", str(opened))


def umask(following: Following, call: Call, process: Process) -> None:
    """`umask`."""
    mode = number(call.arguments[0])
    following.script.call(call)
    following.script.play(process.tag, "umask", f"{mode & 0o777:04o}")


HANDLERS: Dict[str, Handler] = {
    "stat": stat, "lstat": stat, "newfstatat": stat, "statx": stat, "mkdir": mkdir, "mkdirat": mkdir, "mknod": mknod,
    "mknodat": mknod, "symlink": symlink, "symlinkat": symlink, "unlink": unlink, "rmdir": unlink, "unlinkat": unlink,
    "link": link, "linkat": link, "rename": rename, "renameat": rename, "renameat2": rename, "chmod": chmod, "fchmod": chmod,
    "fchmodat": chmod, "fchmodat2": chmod, "chown": chown, "lchown": chown, "fchown": chown, "fchownat": chown,
    "chdir": chdir, "fchdir": chdir, "umask": umask,
    "truncate": truncate, "ftruncate": truncate,
}
