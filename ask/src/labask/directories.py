"""Reads a tree of the system: its directories, files and FIFOs with what a world has of them, and what a world can't have."""
import enum
import os
import stat
from dataclasses import dataclass
from typing import Dict, Iterator, List, Optional, Tuple, Union

from labask.file_caps import ATTRIBUTE, Sets, UnknownVersion, read_attribute
from labask.kernel_profile import MAX_PATH, MAX_PATH_NAME, MAX_PATH_NAMES
from labask.worlds import Kind, path_word

# limits of the profile: bytes of a name and of a path, names in a path, bits of a mode
MODE = 0o6777
ACCESS_LISTS = ("system.posix_acl_access", "system.posix_acl_default")
KINDS = {stat.S_IFDIR: Kind.DIRECTORY, stat.S_IFREG: Kind.FILE, stat.S_IFIFO: Kind.FIFO}


class LeftOut(enum.Enum):
    """What a world does not have of a tree, in the singular."""
    SYMBOLIC_LINK = "symbolic link"
    BLOCK_DEVICE = "block device"
    CHARACTER_DEVICE = "character device"
    SOCKET = "socket"
    UNREADABLE = "unreadable object"
    CONTENT = "content"
    CAPABILITIES = "capabilities"
    STICKY_BIT = "sticky bit"
    ACCESS_LIST = "access control list"


OTHERS = {stat.S_IFLNK: LeftOut.SYMBOLIC_LINK, stat.S_IFBLK: LeftOut.BLOCK_DEVICE, stat.S_IFCHR: LeftOut.CHARACTER_DEVICE,
          stat.S_IFSOCK: LeftOut.SOCKET}


@dataclass(frozen=True)
class Entry:
    """An object of the tree. `path` begins at the root of the world; `size` is that of the whole content in bytes."""
    path: bytes
    kind: Kind
    mode: int
    owner: int
    group: int
    size: int = 0
    content: bytes = b""
    caps: Optional[Sets] = None


@dataclass(frozen=True)
class SecondName:
    """A further path of a file or FIFO whose first path was given before."""
    path: bytes
    first: bytes


@dataclass(frozen=True)
class Note:
    """What is left out at a path, and a text that says more of it."""
    path: bytes
    what: LeftOut
    text: str = ""


@dataclass(frozen=True)
class Unfit:
    """A path that no world can have, and why."""
    path: bytes
    why: str


Found = Union[Entry, SecondName, Note, Unfit]


@dataclass(frozen=True)
class Reading:
    """How a tree is read: its root, how many bytes of each file, and the user that is root where capabilities count."""
    root: bytes
    content_bytes: int = 0
    root_user: int = 0

    def real(self, path: bytes) -> bytes:
        """The path of the system for a path of the world."""
        return self.root if path == b"/" else self.root.rstrip(b"/") + path


def unfit_path(path: bytes) -> Optional[str]:
    """Why a path is none of the profile, or None."""
    names = [name for name in path.split(b"/") if name]
    if any(len(name) > MAX_PATH_NAME for name in names):
        return f"the name has {len(names[-1])} bytes, and may have {MAX_PATH_NAME}"
    if len(names) > MAX_PATH_NAMES:
        return f"the path has {len(names)} names, and may have {MAX_PATH_NAMES}"
    return f"the path has {len(path)} bytes, and may have {MAX_PATH}" if len(path) > MAX_PATH else None


def attribute_of(real: bytes, name: str) -> Optional[bytes]:
    """An extended attribute of an object, or None where it has none."""
    try:
        return os.getxattr(real, name, follow_symlinks=False)
    except (OSError, AttributeError):
        return None


def read_caps(reading: Reading, path: bytes) -> Tuple[Optional[Sets], List[Note]]:
    """The capability sets of a file, and what is left out of them."""
    value = attribute_of(reading.real(path), ATTRIBUTE)
    if value is None:
        return None, []
    try:
        attribute = read_attribute(value)
    except UnknownVersion as fault:
        return None, [Note(path, LeftOut.CAPABILITIES, f"an unknown version of the attribute {ATTRIBUTE}: {fault}")]
    if attribute.root not in (0, reading.root_user):
        text = f"{attribute.sets.text} counts only where the user {attribute.root} is root"
        return None, [Note(path, LeftOut.CAPABILITIES, text)]
    notes = []
    if attribute.sets.left_out:
        notes.append(Note(path, LeftOut.CAPABILITIES, f"the profile does not have {','.join(attribute.sets.left_out)}"))
    return None if attribute.sets.empty else attribute.sets, notes


def read_content(reading: Reading, path: bytes, size: int) -> Tuple[bytes, List[Note]]:
    """The first bytes of a file, as many as are read of each, and what is left out."""
    content = b""
    try:
        if reading.content_bytes:
            with open(os.open(reading.real(path), os.O_RDONLY | os.O_NOFOLLOW | os.O_NONBLOCK), "rb") as file:
                content = file.read(reading.content_bytes)
    except OSError as fault:
        return b"", [Note(path, LeftOut.CONTENT, f"{size} bytes, of which none is here: {fault.strerror}")]
    if len(content) < size:
        return content, [Note(path, LeftOut.CONTENT, f"{size} bytes, of which {len(content) or 'none'} {are(len(content))} here")]
    return content, []


def are(count: int) -> str:
    """The verb for so many bytes."""
    return "are" if count > 1 else "is"


def read_object(reading: Reading, path: bytes, status: os.stat_result) -> Iterator[Found]:
    """An object with what is left out of it."""
    kind = KINDS[stat.S_IFMT(status.st_mode)]
    caps, content = None, b""
    notes: List[Note] = []
    if kind is Kind.FILE:
        caps, notes = read_caps(reading, path)
        content, more = read_content(reading, path, status.st_size)
        notes += more
    if status.st_mode & stat.S_ISVTX:
        notes.append(Note(path, LeftOut.STICKY_BIT))
    lists = [name for name in ACCESS_LISTS if attribute_of(reading.real(path), name) is not None]
    notes += [Note(path, LeftOut.ACCESS_LIST, name) for name in lists]
    yield from notes
    yield Entry(path, kind, status.st_mode & MODE, status.st_uid, status.st_gid, status.st_size, content, caps)


def read_path(reading: Reading, path: bytes, known: Dict[Tuple[int, int], bytes]) -> Iterator[Found]:
    """What is at one path; `known` has the first paths of objects with several names."""
    try:
        status = os.lstat(reading.real(path))
    except OSError as fault:
        yield Note(path, LeftOut.UNREADABLE, fault.strerror)
        return
    why, form = unfit_path(path), stat.S_IFMT(status.st_mode)
    if form not in KINDS:
        yield Note(path, OTHERS.get(form, LeftOut.UNREADABLE))
    elif why:
        yield Unfit(path, why)
    elif form != stat.S_IFDIR and status.st_nlink > 1 and (status.st_dev, status.st_ino) in known:
        yield SecondName(path, known[status.st_dev, status.st_ino])
    else:
        if form != stat.S_IFDIR and status.st_nlink > 1:
            known[status.st_dev, status.st_ino] = path
        yield from read_object(reading, path, status)


def names_below(reading: Reading, path: bytes) -> List[bytes]:
    """The names in a directory, sorted by their bytes."""
    with os.scandir(reading.real(path)) as entries:
        return sorted(entry.name for entry in entries)


def read_tree(reading: Reading) -> Iterator[Found]:
    """All that is below the root, each directory before what is in it. What is below an unfit path is not looked at."""
    known: Dict[Tuple[int, int], bytes] = {}
    left = [b"/"]
    while left:
        path = left.pop()
        for found in read_path(reading, path, known):
            yield found
            if isinstance(found, Entry) and found.kind is Kind.DIRECTORY:
                try:
                    names = names_below(reading, path)
                except OSError as fault:
                    yield Note(path, LeftOut.UNREADABLE, f"its names could not be listed: {fault.strerror}")
                    continue
                left.extend(path.rstrip(b"/") + b"/" + name for name in reversed(names))


def note_text(note: Note) -> str:
    """A note as the text of a comment."""
    return f"left out: {note.what.value} {path_word(note.path)}" + (f": {note.text}" if note.text else "")
