"""Compares the replies of a played script with what Linux answered in the log."""
import enum
import re
from dataclasses import dataclass
from typing import Callable, Dict, Iterator, List, Optional, Sequence, Tuple

from labask.playing import Outcome, Reply
from labask.strace.log import Call
from labask.strace.values import Argument, unescaped

DONE = "ok"
MODE = 0o6777
KINDS = {"S_IFREG": ("file",), "S_IFDIR": ("dir",), "S_IFIFO": ("fifo", "pipe")}


class Verdict(enum.Enum):
    """How a reply compares with the answer of the log."""
    SAME = "same"
    DENIED = "denied here"
    KNOWN = "known difference"
    OTHER = "other difference"


@dataclass(frozen=True)
class Comparison:
    """A call of the log, the replies to its lines, and how they compare; `text` says in what they differ.

    Of a call that asks for rights `question` has the question, and `replies` the one that counts, which is to no line of the script.
    """
    call: Call
    replies: Tuple[Reply, ...]
    verdict: Verdict
    text: str = ""
    question: Optional[str] = None

    @property
    def reply(self) -> Reply:
        """The reply that counts: the first that is not done, or the last."""
        return next((reply for reply in self.replies if reply.outcome is not Outcome.DONE), self.replies[-1])


class Differs(Exception):
    """A value that differs: a verdict, and in what."""

    def __init__(self, verdict: Verdict, text: str):
        super().__init__(text)
        self.verdict = verdict
        self.text = text


# the rows of docs/DIFFERENCES.md by what they are about, and then what docs/FROM_A_SYSTEM.md has besides
OPENED_DIRECTORY = "a directory that is opened"
WAITING = "calls that would wait"
PAST_END = "places past the end of a file"
ENDED_CHILD = "`kill` of an ended child"
ORDER = "the order of ended children"
DIRECTORY_SIZE = "size and link count of a directory"
OPEN_FAULTS = "`open` of a directory or FIFO whose mode allows nothing"
RENAME_FAULTS = "`rename` with two faults"
NO_NAME = "paths without a name, such as `/` and `.`"
ORPHAN = "a process whose parent has ended"
SPLIT_RIGHTS = "one right by the mode, another by `cap_dac_read_search`"
NO_PARENT = "a process that the world begins with has no parent"
CONTENT = "content that the world does not have"
NAMES = "names of what no world has"
PIPE_STATUS = "size and link count of a pipe or FIFO"
NO_CODE = "programs without code"
ROOM = "the room of a pipe or FIFO"

# by the word of the call, what is replied here, and what the log has
KNOWN: Dict[Tuple[str, str, str], str] = {
    ("open", "EISDIR", DONE): OPENED_DIRECTORY,
    ("open", "EINVAL", DONE): "a FIFO for reading and writing",
    ("open", DONE, "ENXIO"): "a FIFO without a reader",
    ("open", "EISDIR", "EACCES"): OPEN_FAULTS,
    ("open", "EINVAL", "EACCES"): OPEN_FAULTS,
    ("open", DONE, "EACCES"): SPLIT_RIGHTS,
    ("mkdir", DONE, "EACCES"): SPLIT_RIGHTS,
    ("read", "EAGAIN", DONE): WAITING,
    ("write", "EAGAIN", DONE): WAITING,
    ("wait", "EAGAIN", DONE): WAITING,
    ("write", "EPIPE", DONE): ROOM,
    ("write", "EINVAL", DONE): PAST_END,
    ("lseek", "EINVAL", DONE): PAST_END,
    ("kill", "ESRCH", DONE): ENDED_CHILD,
    ("unlink", "EPERM unlink_dir", "EISDIR"): "`unlink` of a directory",
    ("link", "EPERM link_dir", "EEXIST"): "`link` of a directory to a path with a fault",
    ("link", DONE, "EPERM"): "`link` to a file of another",
    ("rename", "ENOENT", "EACCES"): RENAME_FAULTS,
    ("rename", "ENOENT", "ENOTDIR"): RENAME_FAULTS,
    ("rename", "ENOTDIR", "EINVAL"): RENAME_FAULTS,
    ("rename", "ENOTEMPTY", "EINVAL"): RENAME_FAULTS,
    ("rename", "EISDIR", "ENOTEMPTY"): "`rename` of a file to the directory that holds it",
    ("rename", DONE, "EACCES"): "a directory that its mover may not write",
    ("rmdir", "EBUSY", "EINVAL"): NO_NAME,
    ("unlink", "EBUSY", "EISDIR"): NO_NAME,
    ("chown", DONE, "EPERM"): "`chown` of a set-user-ID file of another",
    ("exec", DONE, "ETXTBSY"): "a program that is open for writing",
    ("exec", DONE, "EACCES"): "a file without any execute bit",
    ("exec", DONE, "ENOEXEC"): NO_CODE,
}


def known_texts() -> Tuple[str, ...]:
    """What the known differences are called, each once."""
    named = (*KNOWN.values(), ORDER, DIRECTORY_SIZE, ORPHAN, NO_PARENT, CONTENT, NAMES, PIPE_STATUS)
    return tuple(dict.fromkeys(named))


def same_number(what: str, here: int, there: Optional[int]) -> None:
    """Raises `Differs` where two numbers differ."""
    if here != there:
        raise Differs(Verdict.OTHER, f"{what} {here}, and {there} in the log")


def status_fields(call: Call) -> Dict[str, Argument]:
    """The members of the structure that a call on attributes filled in, without the beginning of their names."""
    for argument in call.arguments:
        if argument.written.startswith(b"{st"):
            return {re.sub(r"^stx?_", "", name): value for name, value in argument.fields.items()}
    return {}


def compare_status(call: Call, reply: Reply, tags: Dict[int, str]) -> None:
    """Compares kind, mode, owner, group, size and link count, as far as the log has them."""
    kind, mode, *numbers = [word.text for word in reply.words[:6]]
    fields = status_fields(call)
    if "mode" in fields:
        kinds = next((kinds for name, kinds in KINDS.items() if name in fields["mode"].flags), ())
        if kind not in kinds:
            raise Differs(Verdict.OTHER, f"a {kind}, and {fields['mode'].text} in the log")
        same_mode(int(mode, 8), fields["mode"])
    there = {name: fields[name].number for name in ("uid", "gid", "size", "nlink") if name in fields}
    for name, here in zip(("uid", "gid", "size", "nlink"), map(int, numbers)):
        if name in there and there[name] != here:
            raise Differs(*status_difference(kind, name, here, there[name]))


def same_mode(here: int, there: Argument) -> None:
    """Raises `Differs` where two modes differ; the bit that no mode of the profile has does not count."""
    bits = (there.bits or 0) & MODE
    if bits != here:
        raise Differs(Verdict.OTHER, f"mode {here:04o}, and {bits:04o} in the log")


def status_difference(kind: str, name: str, here: int, there: Optional[int]) -> Tuple[Verdict, str]:
    """The verdict on a number of the attributes that differs."""
    if name in ("size", "nlink") and kind == "dir":
        return Verdict.KNOWN, DIRECTORY_SIZE
    if name in ("size", "nlink") and kind in ("pipe", "fifo"):
        return Verdict.KNOWN, PIPE_STATUS
    if name == "size" and there is not None and here < there:
        return Verdict.KNOWN, CONTENT
    return Verdict.OTHER, f"{name} {here}, and {there} in the log"


def compare_read(call: Call, here: bytes) -> None:
    """Compares the bytes that were read, as far as the log has them."""
    count = call.result.number or 0
    there = b"".join(texts_of(call))
    handle = call.arguments[0].handle
    if len(here) < count and handle and handle.path and handle.path.startswith(b"pipe:"):
        raise Differs(Verdict.KNOWN, WAITING)
    if len(here) < count and there.startswith(here[:len(there)]):
        raise Differs(Verdict.KNOWN, CONTENT)
    same_number("bytes", len(here), count)
    if here[:len(there)] != there[:count]:
        raise Differs(Verdict.OTHER, "other bytes than in the log")


def texts_of(call: Call) -> Iterator[bytes]:
    """The strings of a call that reads, up to the first of which the log does not have all."""
    argument = call.arguments[1] if len(call.arguments) > 1 else Argument(b"")
    items = [argument] if not call.name.endswith("v") else [
        item.fields.get("iov_base", item) for item in argument.fields.values()]
    for text in (item.string for item in items):
        if text is not None:
            yield text.value
        if text is None or not text.whole:
            return


def compare_umask(call: Call, reply: Reply, tags: Dict[int, str]) -> None:
    """Compares the old umask."""
    here, there = reply.words[0].text, call.result.number or 0
    if int(here, 8) != there:
        raise Differs(Verdict.OTHER, f"umask {here}, and {there:04o} in the log")


def compare_number(call: Call, reply: Reply, tags: Dict[int, str]) -> None:
    """Compares the number of the answer."""
    same_number("answer", int(reply.words[0].text), call.result.number)


IDS = {"getuid": 0, "geteuid": 1, "getgid": 3, "getegid": 4}


def compare_ids(call: Call, reply: Reply, tags: Dict[int, str]) -> None:
    """Compares the ids that the call asked for; of groups their number."""
    words = [word.text for word in reply.words]
    if call.name in IDS:
        same_number("id", int(words[IDS[call.name]]), call.result.number)
    elif call.name == "getgroups":
        same_number("groups", 0 if words[6] == "-" else words[6].count(",") + 1, call.result.number)
    else:
        first = 0 if call.name == "getresuid" else 3
        there = [each.text.strip("[]") for each in call.arguments[:3]]
        if words[first:first + 3] != there:
            raise Differs(Verdict.OTHER, f"ids {' '.join(words[first:first + 3])}, and {' '.join(there)} in the log")


def compare_names(call: Call, reply: Reply, tags: Dict[int, str]) -> None:
    """Compares the names of a directory, where the log has them: those of the log are to be here."""
    listed = re.findall(rb'd_name="((?:[^"\\]|\\.)*)"', b"".join(each.written for each in call.arguments))
    there = set(map(unescaped, listed)) - {b".", b".."}
    if there - {word.value for word in reply.words}:
        raise Differs(Verdict.KNOWN, NAMES)


def compare_wait(call: Call, reply: Reply, tags: Dict[int, str]) -> None:
    """Compares which child has ended, and how."""
    written = b", ".join(each.written for each in call.arguments).decode("latin-1")
    found = re.search(r"si_pid=(\d{1,23})\b", written)
    pid = int(found[1]) if found else call.result.number
    tag, *ended = [word.text for word in reply.words]
    if pid is not None and tags.get(pid, tag) != tag:
        raise Differs(Verdict.KNOWN, ORDER)
    exited = re.search(r"WEXITSTATUS\(s\) == (\d+)|CLD_EXITED.*si_status=(\d+)", written)
    killed = re.search(r"WTERMSIG\(s\) == SIG([A-Z]+)|CLD_(?:KILLED|DUMPED).*si_status=SIG([A-Z]+)", written)
    due = ["exit", exited[1] or exited[2]] if exited else ["kill", killed[1] or killed[2]] if killed else ended
    if due != ended:
        raise Differs(Verdict.OTHER, f"{' '.join(ended)}, and {' '.join(due)} in the log")


def compare_process(call: Call, reply: Reply, tags: Dict[int, str]) -> None:
    """Compares the number of a process, where the log has told which that is."""
    here, due = reply.words[0].text, tags.get(call.result.number or 0)
    if due is not None and here != due:
        raise Differs(Verdict.OTHER, f"{here}, and the log means {due}")


VALUES: Dict[str, Callable[[Call, Reply, Dict[int, str]], None]] = {
    "stat": compare_status, "fstat": compare_status, "umask": compare_umask, "lseek": compare_number,
    "getids": compare_ids, "readdir": compare_names, "wait": compare_wait, "getpid": compare_process,
}


def compare_written(call: Call, replies: Sequence[Reply]) -> None:
    """Compares how many bytes were written, over all lines of a call."""
    written = [int(reply.words[0].text) for reply in replies if reply.call == "write"]
    if written:
        same_number("bytes", sum(written), call.result.number)


def compare_values(call: Call, replies: Sequence[Reply], tags: Dict[int, str]) -> None:
    """Compares the answers of a call that was done here and in the log."""
    compare_written(call, replies)
    read = [reply.words[0].value for reply in replies if reply.call == "read"]
    if read:
        compare_read(call, b"".join(read))
    for reply in replies:
        if call.name == "getppid":
            if reply.words[0].text == "none":
                raise Differs(Verdict.KNOWN, NO_PARENT if next(iter(tags.values())) == reply.tag else ORPHAN)
        elif reply.call in VALUES:
            VALUES[reply.call](call, reply, tags)


def compare_errors(call: Call, reply: Optional[Reply], word: str) -> None:
    """Compares how a call was answered, where not both are done; `reply` is the one that is not done here."""
    here = reply.text.rsplit(" ", 1)[0] if reply is not None and reply.check else reply.text if reply is not None else DONE
    there = DONE if call.result.done or call.result.number is None else call.result.error or "-"
    known = KNOWN.get((word, here, there))
    if reply is not None and reply.error == there:
        return
    if known:
        raise Differs(Verdict.KNOWN, known)
    text = f"{reply.text if reply is not None else DONE}, and {there} in the log"
    raise Differs(Verdict.DENIED if reply is not None and reply.check else Verdict.OTHER, text)


def compare(call: Call, replies: Sequence[Reply], tags: Dict[int, str]) -> Comparison:
    """Compares the replies to the lines of a call. `tags` has the processes of the world by their numbers in the log."""
    listed = len(replies) > 1 and replies[0].error == "EISDIR"
    due = replies[1:] if listed else replies
    stopped = next((reply for reply in due if reply.outcome is not Outcome.DONE), None)
    try:
        if stopped is None and (call.result.done or call.result.number is None):
            compare_values(call, due, tags)
        elif not (stopped is not None and stopped.call == "wait" and stopped.error == "EAGAIN" and call.result.number == 0):
            compare_errors(call, stopped, (stopped or due[0]).call)
        if listed:
            raise Differs(Verdict.KNOWN, OPENED_DIRECTORY)
    except Differs as differs:
        return Comparison(call, tuple(replies), differs.verdict, differs.text)
    return Comparison(call, tuple(replies), Verdict.SAME)


def compare_question(call: Call, question: str, reply: Reply) -> Comparison:
    """Compares the answer to a question with that of the log."""
    stopped = reply if reply.outcome is not Outcome.DONE else None
    try:
        if stopped is not None or not call.result.done:
            compare_errors(call, stopped, reply.call)
    except Differs as differs:
        return Comparison(call, (reply,), differs.verdict, differs.text, question)
    return Comparison(call, (reply,), Verdict.SAME, "", question)


def note_tags(call: Call, replies: List[Reply], tags: Dict[int, str]) -> None:
    """Keeps which process of the world a process of the log is, as far as a call tells."""
    tags.setdefault(call.pid, replies[0].tag)
    if replies[0].call == "fork" and replies[0].outcome is Outcome.DONE and call.result.number is not None:
        tags[call.result.number] = replies[0].words[0].text
