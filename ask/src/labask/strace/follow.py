"""Follows a log from its beginning to its end, and writes its script."""
import collections
import re
from typing import Dict, List, Optional

from labask.strace import attributes, files, lives, names, questions
from labask.strace.following import Following, Process
from labask.strace.log import Call, Ended, Event, Log, Other
from labask.strace.offsets import forget_all
from labask.strace.script import Leave, Reason, Script
from labask.strace.values import unescaped

HANDLERS = {**files.HANDLERS, **names.HANDLERS, **attributes.HANDLERS, **lives.HANDLERS, **questions.HANDLERS}
NOBODY = -1  # the process of a line that is about none
WITHOUT_RESULT = ("exit", "exit_group")
DIRECTORY = re.compile(rb"AT_FDCWD<([^>]*)>")


def first_process(log: Log) -> Optional[int]:
    """The number of the process of the first call, or None where there is no call."""
    return next((event.pid for event in log.events if isinstance(event, Call)), None)


def first_directory(log: Log, pid: int) -> Optional[bytes]:
    """The current directory of a process at its beginning, as far as its calls tell before it changes."""
    for call in (event for event in log.events if isinstance(event, Call) and event.pid == pid):
        if call.name in ("chdir", "fchdir") and call.result.done:
            return None
        found = DIRECTORY.search(call.text)
        if found:
            return unescaped(found[1])
    return None


def ends_of(log: Log) -> Dict[int, List[str]]:
    """The signals that killed processes, by their numbers."""
    found: Dict[int, List[str]] = collections.defaultdict(list)
    for event in log.events:
        if isinstance(event, Ended) and event.signal is not None:
            found[event.pid].append(event.signal)
    return found


def begin(following: Following, pid: int, tag: str, start: bytes, umask: Optional[str]) -> None:
    """Begins with the first process, which is moved to where it starts."""
    process = Process(tag, directory=start)
    following.processes[pid] = process
    if umask is not None:
        following.script.besides(0, "the umask at the beginning")
        following.script.play(tag, "umask", umask)
    path = following.inside(start)
    process.in_step = path == b"/" or path is not None and moved_to_start(following, tag, start)


def moved_to_start(following: Following, tag: str, start: bytes) -> bool:
    """Moves the first process to its current directory, and says whether it is there; no world may have that directory."""
    what = "the current directory at the beginning"
    try:
        place = following.place_of_real(start)
        following.script.besides(0, what)
        return following.script.play(tag, "chdir", place.word).error is None
    except Leave as left:
        following.script.leave_at(0, left.reason, left.text, what)
        return False


def follow_call(following: Following, call: Call) -> None:
    """Follows a call: as a line of the script, or as a comment that says why it is none."""
    process, handler = following.processes.get(call.pid), HANDLERS.get(call.name)
    try:
        if process is None or not process.living:
            raise Leave(Reason.NO_PROCESS)
        if handler is None:
            raise Leave(Reason.NO_CALL)
        if call.result.number is None and call.name not in WITHOUT_RESULT:
            raise Leave(Reason.NO_RESULT)
        handler(following, call, process)
    except Leave as left:
        following.script.leave(call, left.reason, left.text)
    except LookupError:
        following.script.leave(call, Reason.NO_ARGUMENT, "arguments that are not read")


def perform(following: Following, event: Event) -> None:
    """Follows an event, and then the events of a process that has begun with it later than in the log."""
    if isinstance(event, Call):
        follow_call(following, event)
        born = event.result.number if event.name in lives.BEGINNING else None
        for late in following.queues.unborn.pop(born, ()) if born is not None else ():
            dispatch(following, late)
    elif isinstance(event, Ended):
        lives.end(following, event)
    else:
        following.script.leave_line(event.line, event.text)


def dispatch(following: Following, event: Event) -> None:
    """Follows an event, or keeps it for later where its process waits, or has not begun."""
    pid = NOBODY if isinstance(event, Other) else event.pid
    process = following.processes.get(pid)
    if pid in following.queues.unborn:
        following.queues.unborn[pid].append(event)
    elif process is None or process.waits is None:
        perform(following, event)
    else:
        process.queue.append(event)
        if isinstance(event, Call) and event.name in lives.BEGINNING and event.result.answer is not None:
            following.queues.unborn[event.result.answer] = collections.deque()


def resume(following: Following, process: Process) -> None:
    """Ends the waiting of a process, and follows its events up to where it waits again."""
    following.queues.end(process)
    while process.queue and process.waits is None:
        perform(following, process.queue.popleft())


def go_on(following: Following) -> None:
    """Goes on with processes that wait, as long as one of them can."""
    moved = True
    while moved:
        moved = False
        for process in list(following.queues.waiting):
            before = len(following.script.lines)
            if process.waits is not None and process.waits.step():
                resume(following, process)
                moved = True
            moved = moved or len(following.script.lines) > before


def follow(following: Following, log: Log) -> Script:
    """Follows a log, and gives its script. At the end no process waits any more."""
    for event in log.events:
        dispatch(following, event)
        if following.queues.waiting:
            go_on(following)
    while following.queues.waiting:
        process = following.queues.waiting[0]
        if process.waits is not None:
            process.waits.give_up()
        resume(following, process)
        go_on(following)
    forget_all(following)
    return following.script
