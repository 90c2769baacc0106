"""Which calls follow on a call in a random script: those that show what it changed, or that use what it gave."""
import random
from typing import Any, Dict, NamedTuple, Optional, Sequence, Tuple

from labask.kernel.calls import Call, Reply
from labask.kernel.state import Number
from labask.signatures import CALLS

BY_DESCRIPTOR = ("read", "read", "write", "write", "lseek", "fstat", "dup", "close", "cap_get_fd", "mac_get_fd", "cap_set_fd", "mac_set_fd")
BY_NAME = ("stat", "open", "unlink", "rename", "link", "chmod")
FOLLOWERS: Dict[str, Tuple[str, ...]] = {
    "open": (*BY_DESCRIPTOR, "open", "open", "cap_get_file"),
    "dup": BY_DESCRIPTOR,
    "pipe": BY_DESCRIPTOR,
    "close": ("open", "dup", "read", "write", "close", "stat"),
    "read": ("read", "lseek", "write", "close"),
    "write": ("read", "lseek", "write", "fstat", "cap_get_fd", "close", "close"),
    "lseek": ("read", "write", "lseek"),
    "mkfifo": BY_NAME,
    "mkdir": (*BY_NAME, "chdir", "readdir", "rmdir"),
    "rmdir": ("mkdir", "stat", "open", "mkfifo", "link", "rename"),
    "link": BY_NAME,
    "unlink": ("stat", "open", "mkdir", "fstat"),
    "rename": (*BY_NAME, "readdir", "rename", "fstat", "fstat"),
    "chdir": ("rmdir", "rmdir", "rmdir", "open", "mkdir", "stat", "rename"),
    "chmod": ("stat", "exec", "chmod", "chown"),
    "chown": ("stat", "chmod", "exec"),
    "umask": ("mkdir", "open", "mkfifo", "umask"),
    "cap_set_file": ("cap_get_file", "exec", "open", "cap_set_file"),
    "mac_set_file": ("mac_get_file", "stat", "mac_set_file", "rename", "read"),
    "cap_set_fd": ("cap_get_fd", "write", "fstat"),
    "mac_set_fd": ("mac_get_fd", "read", "write", "lseek"),
    "fork": ("getppid", "getids", "exit", "wait", "kill", "getpid", "exec", "exec", "setuid"),
    "exec": ("getids", "cap_get_proc", "setuid", "setuid", "setgid", "setgid", "kill", "kill"),
    "exit": ("wait", "getppid"),
    "wait": ("wait",),
    "kill": ("wait", "kill"),
    "setuid": ("getids", "getids", "setuid", "setuid", "kill", "kill", "stat"),
    "setgid": ("getids", "getids", "setgid", "setgid", "mkdir"),
    "cap_set_proc": ("cap_get_proc", "cap_set_proc"),
    "mac_set_proc": ("mac_get_proc", "kill", "kill", "kill", "open", *BY_DESCRIPTOR),
    "aud_switch": ("getpid", "aud_write", "open"),
}


class Following(NamedTuple):
    """A call that was made, its caller and the reply, and the caller's parent."""
    who: Number
    call: Call
    reply: Reply
    parent: Optional[Number]

    @property
    def names(self) -> Sequence[str]:
        """The calls that follow on it."""
        return FOLLOWERS.get(self.call.name, ()) if self.reply.done else (self.call.name,)

    @property
    def other_end(self) -> Call:
        """The call that opens the other end of a FIFO that it opened."""
        return Call("open", (self.call.arguments[0], "w" if "r" in self.call.arguments[1] else "r"))

    def caller(self, draw: random.Random) -> Number:
        """The process that makes the next call: mostly the same one, else its child or parent."""
        if self.call.name == "fork" and self.reply.done and draw.random() < 0.6:
            child: Number = self.reply.answer[0]
            return child
        ended = self.call.name == "exit"
        return self.parent if self.parent is not None and (ended or draw.random() < 0.05) else self.who

    def argument(self, word: str, made: Any, draw: random.Random) -> Any:
        """The first argument of the next call, whose name in the call table is given: what this call named or gave, or the one made."""
        if word == "FD" and self.call.name in ("open", "dup", "pipe") and self.reply.done:
            return draw.choice(self.reply.answer)
        if self.call.name == "close" or (word in ("UID", "GID") and draw.random() < 0.5):
            return made
        named = [value for one, value in zip(CALLS[self.call.name].split(), self.call.arguments) if one == word]
        if word == "PID" and self.call.name == "fork" and self.reply.done:
            return self.reply.answer[0]
        return named[-1] if named and word in ("PATH", "FD", "PID", "UID", "GID") else made
