"""Calls of the log on processes: their children, programs, ends, signals and users."""
import re
from typing import Dict

from labask.playing import Outcome
from labask.strace.files import Handler
from labask.strace.following import Following, Process, needed, number
from labask.strace.log import Call, Ended
from labask.strace.script import Leave, Reason
from labask.strace.values import DIGITS
from labask.strace.waiting import Waiting

KEPT = 0xFFFFFFFF
BEGINNING = frozenset(("fork", "vfork", "clone", "clone3"))
ENDING = {"SIGTERM": "TERM", "SIGKILL": "KILL"}


def fork(following: Following, call: Call, process: Process) -> None:
    """`fork`, `vfork`, and a `clone` that makes a process. One that makes a thread is followed alone."""
    born = call.result.answer
    if born is None:
        raise Leave(Reason.NO_ARGUMENT)
    if b"CLONE_THREAD" in call.text:
        process.threads += 1
        following.processes[born] = process
        raise Leave(Reason.FOLLOWED, "a thread")
    following.script.call(call)
    reply = following.script.play(process.tag, "fork")
    following.processes.pop(born, None)
    if reply.outcome is Outcome.DONE:
        following.processes[born] = process.child(reply.words[0].text)


def execute(following: Following, call: Call, process: Process) -> None:
    """`execve` and `execveat`. Descriptors that close with it are closed, also where the program is outside."""
    try:
        at = call.name == "execveat"
        path = needed(call.arguments[1 if at else 0])
        place = following.place(process, call.arguments[0].handle if at else None, path)
        following.script.call(call)
        following.script.play(process.tag, "exec", place.word)
    finally:
        if call.result.done:
            process.threads = 1
            for each in [each for each, held in process.descriptors.items() if held.closes]:
                following.close(process, each, call.line, f"{call.name} closes {each}")


def leave(following: Following, call: Call, process: Process) -> None:
    """`exit_group`, and an `exit` of the only thread."""
    if call.name == "exit" and process.threads > 1:
        raise Leave(Reason.FOLLOWED, "the end of a thread")
    following.script.call(call)
    following.script.play(process.tag, "exit", str(number(call.arguments[0]) & 255))
    process.end()


def end(following: Following, ended: Ended) -> None:
    """The end of a process or thread, as strace says it. One that no call has ended here is ended by a call of its own."""
    process = following.processes.get(ended.pid)
    if process is None or not process.living:
        return
    if process.threads > 1 and ended.signal is None:
        process.threads -= 1
        return
    if ended.signal is None:
        following.script.besides(ended.line, f"process {ended.pid} exited")
        following.script.play(process.tag, "exit", str((ended.status or 0) & 255))
    else:
        following.script.besides(ended.line, f"process {ended.pid} was killed by {ended.signal}")
        following.script.play(process.tag, "kill", process.tag, ENDING.get(ended.signal, "KILL"))
    process.end()


def wait(following: Following, call: Call, process: Process) -> None:
    """`wait4` and `waitid` of ended children."""
    written = b", ".join(each.written for each in call.arguments)
    if re.search(rb"WNOWAIT|WIFSTOPPED|WIFCONTINUED|CLD_STOPPED|CLD_CONTINUED|CLD_TRAPPED", written):
        raise Leave(Reason.NO_ARGUMENT)
    found = call.result.number if call.name != "waitid" else number_after(written, rb"si_pid=(%b)\b" % DIGITS)
    if call.result.done and not found and process.ended_children:
        raise Leave(Reason.NO_ARGUMENT, "no child had ended yet")
    if not call.result.done and not re.match(rb"-1,|P_ALL", written):
        raise Leave(Reason.NO_ARGUMENT, "one child alone")
    child = following.processes.get(found) if call.result.done and found else None

    def play() -> None:
        following.script.call(call)
        if following.script.play(process.tag, "wait").outcome is Outcome.DONE:
            process.ended_children = max(0, process.ended_children - 1)

    def step() -> bool:
        if child is not None and child.living and (child.waits or child.queue):
            return False
        play()
        return True

    following.queues.wait(process, Waiting(step, play))


def number_after(text: bytes, pattern: bytes) -> int:
    """The number that a pattern finds, or 0."""
    found = re.search(pattern, text)
    return int(found[1]) if found else 0


def kill(following: Following, call: Call, process: Process) -> None:
    """`kill` of one process: the signal where it ended the process, and else the question whether it may be sent."""
    pid, signal = number(call.arguments[0]), call.arguments[1].text
    target = following.processes.get(pid)
    if pid <= 0 or target is None:
        raise Leave(Reason.NO_PROCESS if pid > 0 else Reason.NO_ARGUMENT)
    ends = signal in ENDING and signal in following.ends.get(pid, []) and call.result.done
    following.script.call(call)
    reply = following.script.play(process.tag, "kill", target.tag, ENDING[signal] if ends else "0")
    if ends and reply.outcome is Outcome.DONE and target.living:
        target.end()


def ask(word: str) -> Handler:
    """A call without arguments."""
    def handler(following: Following, call: Call, process: Process) -> None:
        following.script.call(call)
        following.script.play(process.tag, word)
    return handler


def set_ids(word: str) -> Handler:
    """`setuid` and its kin, where they set all ids to one; the profile has no call that sets some of them."""
    def handler(following: Following, call: Call, process: Process) -> None:
        ids = {number(each) & KEPT for each in call.arguments}
        if len(ids) != 1 or KEPT in ids:
            raise Leave(Reason.NO_ARGUMENT, "only some of the ids")
        following.script.call(call)
        following.script.play(process.tag, word, str(ids.pop()))
    return handler


ASKED = ("getuid", "geteuid", "getgid", "getegid", "getresuid", "getresgid", "getgroups")
HANDLERS: Dict[str, Handler] = {
    "fork": fork, "vfork": fork, "clone": fork, "clone3": fork, "execve": execute, "execveat": execute, "exit_group": leave,
    "exit": leave, "wait4": wait, "waitid": wait, "waitpid": wait, "kill": kill, "getpid": ask("getpid"),
    "getppid": ask("getppid"), **{name: ask("getids") for name in ASKED},
    **{name: set_ids("setuid") for name in ("setuid", "setreuid", "setresuid")},
    **{name: set_ids("setgid") for name in ("setgid", "setregid", "setresgid")},
}
