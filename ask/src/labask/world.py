"""The question `world`: writes a world with the objects of a directory of the system."""
import argparse
import collections
import os
import sys
from dataclasses import dataclass, field
from typing import Any, Dict, List, Optional, Tuple

from labask.answers import Status, write_json
from labask.command_words import named, number
from labask.directories import Entry, LeftOut, Note, Reading, SecondName, Unfit, note_text, read_tree
from labask.file_caps import SPLIT, own_sets
from labask.kernel_profile import MAX_FILE_BYTES, MAX_GROUPS
from labask.label_maps import LabelFault, LabelMap, read_labels
from labask.pieces import LINE_BYTES, piece_length, pieces
from labask.playing import Outcome, Player, Refused
from labask.worlds import Kind, path_word, quoted, read_world

MAKER_CAPS = "cap_dac_read_search,cap_dac_write,cap_fsetid,cap_mac_read,cap_mac_write=ep"
ROOT_COMMENT = "root"


@dataclass(frozen=True)
class Proc:
    """A process of the world: its user, group, supplementary groups, capability text and label; None is the lowest label."""
    user: int
    group: int
    groups: Tuple[int, ...]
    caps: str
    label: Optional[str] = None
    notes: Tuple[str, ...] = ()


class Faults(Exception):
    """What is at fault, a line of text for each; nothing is written then."""

    def __init__(self, lines: List[str]):
        super().__init__("; ".join(lines))
        self.lines = lines


@dataclass
class Writing:
    """A world that is being written: its lines, the path that each line of an object is about, and what is left out."""
    labels: LabelMap
    lines: List[str] = field(default_factory=list)
    paths: Dict[int, bytes] = field(default_factory=dict)
    left_out: "collections.Counter[LeftOut]" = field(default_factory=collections.Counter)
    tags: "collections.Counter[str]" = field(default_factory=collections.Counter)
    rests: List[Tuple[Entry, bytes]] = field(default_factory=list)
    second: List[SecondName] = field(default_factory=list)
    first_labels: Dict[bytes, str] = field(default_factory=dict)
    faults: List[str] = field(default_factory=list)

    def comment(self, text: str) -> None:
        """Writes a comment, of which a line holds as many bytes as it can."""
        self.lines.append(f"# {text}"[:LINE_BYTES])

    def line(self, text: str, path: bytes) -> None:
        """Writes a line that is about a path."""
        self.lines.append(text)
        self.paths[len(self.lines)] = path
        if len(text) > LINE_BYTES:
            self.faults.append(f"{path_word(path)}: its line would have {len(text)} bytes, and may have {LINE_BYTES}")

    @property
    def text(self) -> bytes:
        """The bytes of all lines."""
        return "".join(line + "\n" for line in self.lines).encode("ascii")


def read_bytes(text: str) -> int:
    """How many bytes of each file are taken."""
    return number(text, MAX_FILE_BYTES)


def read_proc(text: str) -> Proc:
    """The process of UID:GID:GROUPS:CAPS or UID:GID:GROUPS:CAPS:LABEL."""
    parts = text.split(":", 4)
    if len(parts) < 4 or not parts[3]:
        raise argparse.ArgumentTypeError(f"{text!r} is not UID:GID:GROUPS:CAPS or UID:GID:GROUPS:CAPS:LABEL")
    groups = () if parts[2] in ("-", "") else tuple(number(each) for each in parts[2].split(","))
    if len(groups) > MAX_GROUPS:
        raise argparse.ArgumentTypeError(f"{text!r} has more than {MAX_GROUPS} groups")
    return Proc(number(parts[0]), number(parts[1]), groups, parts[3], parts[4] if len(parts) > 4 else None)


def own_process() -> Proc:
    """The process that asks: its effective user and group, and its capabilities."""
    sets, groups, notes = own_sets(), tuple(os.getgroups()), []
    if sets.left_out:
        notes.append(f"left out: capabilities of the process: {','.join(sets.left_out)}")
    notes += [f"{name} of the process stands as {len(SPLIT[name])} capabilities" for name in sets.split]
    if len(groups) > MAX_GROUPS:
        notes.append(f"left out: {len(groups) - MAX_GROUPS} of the {len(groups)} groups of the process")
    return Proc(os.geteuid(), os.getegid(), groups[:MAX_GROUPS], sets.text, notes=tuple(notes))


def add_arguments(parser: argparse.ArgumentParser) -> None:
    """Adds the arguments of the question."""
    parser.add_argument("directory", metavar="DIR", type=named, help="the directory that becomes the root of the world")
    parser.add_argument("--bytes", metavar="N", type=read_bytes, default=0,
                        help=f"take the first N bytes of each file, 0 to {MAX_FILE_BYTES}; 0 by default")
    parser.add_argument("--proc", metavar="UID:GID:GROUPS:CAPS[:LABEL]", type=read_proc, action="append", default=[],
                        help="a process; without this option the one process is that of who asks")
    parser.add_argument("--labels", metavar="FILE", type=named,
                        help="the labels: lines of a policy, and lines `label PATH LABEL`, of which that with the longest beginning "
                        "of a path counts; else all labels are the lowest")
    parser.add_argument("--root-user", metavar="UID", type=number, default=0,
                        help="take capability sets, too, that count only where the user UID is root")


def object_line(writing: Writing, entry: Entry) -> str:
    """The line of an object, with as much content as it can hold; the rest is left to the script."""
    label = writing.labels.label_of(entry.path)
    words = f"{entry.kind.value} {path_word(entry.path)} {entry.mode:04o} {entry.owner} {entry.group} {label}"
    writing.first_labels[entry.path] = label
    if entry.kind is not Kind.FILE:
        return words
    caps = f" {quoted(entry.caps.text.encode())}" if entry.caps else ""
    held = piece_length(entry.content, LINE_BYTES - len(words) - len(caps) - 3)
    if held < len(entry.content):
        writing.rests.append((entry, entry.content[held:]))
    return f"{words} {quoted(entry.content[:held])}{caps}"


def write_tree(writing: Writing, reading: Reading) -> None:
    """Writes the objects of a tree, with comments of what is left out."""
    for found in read_tree(reading):
        if isinstance(found, Note):
            writing.left_out[found.what] += 1
            writing.comment(note_text(found))
        elif isinstance(found, Unfit):
            writing.faults.append(f"{path_word(found.path)}: {found.why}")
        elif isinstance(found, SecondName):
            writing.second.append(found)
        else:
            for name in found.caps.split if found.caps else ():
                writing.comment(f"{name} of the next file stands as {len(SPLIT[name])} capabilities")
            writing.line(object_line(writing, found), found.path)


def write_process(writing: Writing, proc: Proc) -> str:
    """Writes a process, and gives its tag."""
    label = path_word(os.fsencode(proc.label)) if proc.label else writing.labels.lowest
    for note in proc.notes:
        writing.comment(note)
    groups = ",".join(map(str, proc.groups)) or "-"
    writing.lines.append(f"proc {label} {proc.user} {proc.group} {groups} {quoted(os.fsencode(proc.caps))}")
    writing.tags[label] += 1
    return f"{writing.tags[label]}@{label}"


def write_script(writing: Writing, makers: Dict[str, str]) -> None:
    """Writes the calls that make what no line of a world can say: further names, and the rest of a long content."""
    for each in writing.second:
        tag = makers[writing.first_labels[each.first]]
        writing.line(f"{tag} link {path_word(each.first)} {path_word(each.path)}", each.path)
    for entry, rest in writing.rests:
        tag = makers[writing.first_labels[entry.path]]
        writing.line(f"{tag} open {path_word(entry.path)} wa", entry.path)
        for piece in pieces(f"{tag} write 0 ", rest):
            writing.line(f"{tag} write 0 {quoted(piece)}", entry.path)
        writing.line(f"{tag} close 0", entry.path)
    for tag in makers.values():
        writing.lines.append(f"{tag} exit 0")


def write_end(writing: Writing) -> None:
    """Writes what is left out, in numbers, and the script."""
    paths = [each.first for each in writing.second] + [entry.path for entry, rest in writing.rests]
    needed = dict.fromkeys(writing.first_labels[path] for path in paths)
    if needed:
        writing.comment("The last processes make further names and long contents in the script below, and end.")
    makers = {label: write_process(writing, Proc(0, 0, (), MAKER_CAPS, label)) for label in needed}
    counts = [f"{what.value} {count}" for what, count in writing.left_out.items()]
    writing.comment(f"left out in all: {', '.join(counts) or 'nothing'}")
    writing.lines.append("script")
    write_script(writing, makers)


def make_world(directory: bytes, arguments: argparse.Namespace) -> Writing:
    """The world of a directory, before it is judged."""
    labels = read_labels(arguments.labels) if arguments.labels else LabelMap()
    writing = Writing(labels)
    writing.lines += [f"# {ROOT_COMMENT} {quoted(directory)}", *labels.policy]
    write_tree(writing, Reading(directory, arguments.bytes, arguments.root_user))
    for proc in arguments.proc or [own_process()]:
        write_process(writing, proc)
    write_end(writing)
    return writing


def where_refused(writing: Writing, refused: Refused) -> str:
    """What a refusal is about: a path with its label, a line of the map of labels, or a line of the world."""
    if refused.refusal is None:
        return "the world has more bytes than an input may have"
    line, word = refused.refusal.line, refused.refusal.word
    path = writing.paths.get(line)
    if path is not None:
        source = writing.labels.source_of(path)
        return f"{path_word(path)}: label {writing.labels.label_of(path)}{f' of {source}' if source else ''}: refused, {word}"
    if 2 <= line < 2 + len(writing.labels.sources) and writing.labels.sources[line - 2]:
        return f"{writing.labels.sources[line - 2]}: refused, {word}"
    return f"{writing.lines[line - 1] if line <= len(writing.lines) else 'the end'}: refused, {word}"


def judge(writing: Writing, player: Player) -> None:
    """Raises `Faults` where `labsys` does not accept the world, or a call of its script is not done."""
    if writing.faults:
        raise Faults(writing.faults)
    try:
        if not (writing.second or writing.rests):
            player.check(writing.text)
            return
        played = player.play_accepted(writing.text)
    except Refused as refused:
        raise Faults([where_refused(writing, refused)]) from refused
    numbers = read_world(writing.text).lines_by_call
    stopped = [reply for reply in played.replies if reply.outcome is not Outcome.DONE]
    lines = {numbers[reply.number].line.number: reply.text for reply in stopped}
    if lines:
        raise Faults([f"{path_word(writing.paths[line])}: {writing.lines[line - 1]}: {text}" for line, text in lines.items()])


def unused_labels(writing: Writing) -> List[str]:
    """Paths of the map of labels that nothing of the world begins with."""
    used = {writing.labels.beginning_of(path) for path in (*writing.first_labels, *(each.path for each in writing.second))}
    return [f"{at}: the world has nothing at {path_word(path)} or below"
            for path, at in writing.labels.named_at.items() if path not in used]


def as_json(writing: Writing) -> Dict[str, Any]:
    """The answer for `--json`."""
    kinds = collections.Counter(line.split(" ", 1)[0] for line in writing.lines)
    return {"world": writing.text.decode("ascii"), "objects": sum(kinds[kind.value] for kind in Kind), "processes": kinds["proc"],
            "second_names": len(writing.second), "left_out": {what.value: count for what, count in writing.left_out.items()}}


def answer(arguments: argparse.Namespace, player: Player) -> int:
    """Writes the world of a directory. Where no world can have the tree, nothing is written but what is at fault."""
    directory = os.path.realpath(os.fsencode(arguments.directory))
    os.listdir(os.fsdecode(directory))
    try:
        writing = make_world(directory, arguments)
        judge(writing, player)
    except (Faults, LabelFault) as faults:
        for line in getattr(faults, "lines", [str(faults)]):
            print(f"labask: {line}", file=sys.stderr)
        return Status.REFUSED
    for line in unused_labels(writing):
        print(f"labask: {line}", file=sys.stderr)
    if arguments.json:
        write_json(as_json(writing))
    else:
        sys.stdout.write(writing.text.decode("ascii"))
    return Status.DONE
