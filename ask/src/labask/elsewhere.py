"""Names of calls and commands elsewhere, each with what is written here in its place."""
import re
from typing import Dict, List, Optional, Sequence, Tuple

from labask.kernel_profile import OPEN_FLAGS
from labask.signatures import CALLS, FORMS
from labask.worlds import Word

# the same call by another name
RENAMED: Dict[str, str] = {
    **dict.fromkeys(("ls", "opendir", "getdents", "getdents64", "scandir"), "readdir"),
    **dict.fromkeys(("rm", "unlinkat", "remove"), "unlink"),
    **dict.fromkeys(("mv", "renameat", "renameat2"), "rename"),
    **dict.fromkeys(("ln", "linkat"), "link"),
    **dict.fromkeys(("openat", "openat2", "open64"), "open"),
    **dict.fromkeys(("stat64", "lstat", "lstat64", "fstatat", "newfstatat", "statx"), "stat"),
    **dict.fromkeys(("execve", "execv", "execvp", "execl", "execlp", "execveat"), "exec"),
    **dict.fromkeys(("waitpid", "wait3", "wait4", "waitid"), "wait"),
    **dict.fromkeys(("_exit", "_Exit", "exit_group"), "exit"),
    **dict.fromkeys(("vfork", "clone", "clone3"), "fork"),
    **dict.fromkeys(("getuid", "geteuid", "getgid", "getegid", "getgroups", "getresuid", "getresgid", "id", "whoami"), "getids"),
    **dict.fromkeys(("seteuid", "setreuid", "setresuid"), "setuid"),
    **dict.fromkeys(("setegid", "setregid", "setresgid"), "setgid"),
    **dict.fromkeys(("lchown", "fchownat"), "chown"),
    **dict.fromkeys(("dup2", "dup3"), "dup"),
    **dict.fromkeys(("pread", "pread64", "readv"), "read"),
    **dict.fromkeys(("pwrite", "pwrite64", "writev"), "write"),
    **dict.fromkeys(("lseek64", "_llseek"), "lseek"),
    **dict.fromkeys(("getcap", "getfilecap"), "getfcap"),
    **dict.fromkeys(("setcap", "setfilecap"), "setfcap"),
    **dict.fromkeys(("getfilecon", "getfattr"), "getfmac"),
    **dict.fromkeys(("chcon", "setfilecon"), "setfmac"),
    **dict.fromkeys(("mknod", "mkfifoat"), "mkfifo"),
    "fstat64": "fstat", "pipe2": "pipe", "mkdirat": "mkdir", "fchmodat": "chmod", "cd": "chdir",
    "capget": "cap_get_proc", "getpcaps": "cap_get_proc", "capset": "cap_set_proc", "getcon": "mac_get_proc",
    "setcon": "mac_set_proc", "runcon": "mac_set_proc", "newrole": "mac_set_proc", "logger": "aud_write", "auditctl": "aud_switch",
}
# what is written with other words, and the lines of a script without their tags: {0} is the first argument, and so on
REWRITTEN: Dict[str, Tuple[str, Tuple[str, ...]]] = {
    "creat": ("open PATH wct MODE", ("open {0} wct {1}",)),
    "touch": ("open PATH wc MODE, and close FD", ("open {0} wc 0644",)),
    "truncate": ("open PATH wt, and close FD", ("open {0} wt",)),
    "cat": ("open PATH r, read FD N and close FD", ("open {0} r",)),
    "chgrp": ("chown PATH UID GID, with the owner as UID", ()),
    "cp": ("open PATH r and read FD N, and then open PATH wc MODE and write FD BYTES", ()),
    "echo": ("write FD BYTES, to a descriptor that open PATH w has answered", ()),
    "printf": ("write FD BYTES, to a descriptor that open PATH w has answered", ()),
    "fchmod": ("chmod PATH MODE", ()), "fchown": ("chown PATH UID GID", ()), "fchdir": ("chdir PATH", ()),
    "ftruncate": ("open PATH wt", ()), "fcntl": ("dup FD for a further descriptor", ()),
    "sudo": ("exec PATH of a program that has capabilities or a set-user-ID bit", ()),
    "su": ("exec PATH of a program that has capabilities or a set-user-ID bit, or setuid UID", ()),
    "killall": ("kill PID TERM, once for each process", ()), "pkill": ("kill PID TERM, once for each process", ()),
    "raise": ("kill PID TERM, with the caller's own number", ()), "abort": ("kill PID KILL, with the caller's own number", ()),
    "access": ("open PATH r or open PATH w, whose reply says whether it is allowed", ()),
    "faccessat": ("open PATH r or open PATH w, whose reply says whether it is allowed", ()),
}
# what nothing stands for
ABSENT: Dict[str, str] = {
    **dict.fromkeys(("sleep", "nanosleep", "clock_nanosleep", "usleep", "alarm", "pause"), "there are no times, and no call waits"),
    **dict.fromkeys(("symlink", "symlinkat", "readlink", "readlinkat"), "there are no symbolic links; link PATH PATH adds a name"),
    **dict.fromkeys(("setfacl", "getfacl", "chacl", "acl_get_file", "acl_set_file"),
                    "there are no access control lists; chmod PATH MODE sets the mode"),
    **dict.fromkeys(("signal", "sigaction", "rt_sigaction"), "there are no handlers of signals"),
    **dict.fromkeys(("socket", "connect", "bind", "listen", "accept"), "there are no sockets; pipe and mkfifo PATH MODE are here"),
    **dict.fromkeys(("mmap", "munmap", "brk", "ioctl"), "nothing stands for it"),
    **dict.fromkeys(("pwd", "getcwd"), "nothing answers the current directory; chdir PATH sets it"),
    "ps": "nothing lists processes; the end lines of the output do", "chroot": "the root can't be changed",
    "mount": "there is one tree alone", "setgroups": "the groups of a process stand in its line proc",
}
FLAG_LETTERS: Dict[str, str] = {"O_RDONLY": "r", "O_WRONLY": "w", "O_RDWR": "rw", "O_CREAT": "c", "O_EXCL": "x", "O_TRUNC": "t",
                                "O_APPEND": "a", "O_CLOEXEC": ""}
NAMES = frozenset([*RENAMED, *REWRITTEN, *ABSENT])


def open_letters(text: str) -> Optional[str]:
    """The letters of FLAGS for names such as O_RDONLY with | between them, or None."""
    names = text.split("|")
    if not all(name in FLAG_LETTERS for name in names):
        return None
    return "".join(sorted(set("".join(FLAG_LETTERS[name] for name in names)), key=OPEN_FLAGS.index))


def what_to_write(name: str) -> str:
    """What is written here in place of a name."""
    if name in ABSENT:
        return ABSENT[name]
    if name in REWRITTEN:
        return f"here it is {REWRITTEN[name][0]}"
    call = RENAMED[name]
    return f"here it is {call} {FORMS[call]}".rstrip()


def arguments_here(call: str, words: Sequence[Word]) -> List[str]:
    """The arguments of a call elsewhere as they are written here: without options and AT_FDCWD, and with letters for flags."""
    texts = [word.written.decode("latin-1") for word in words]
    kept = [text for text in texts if text != "AT_FDCWD" and not re.fullmatch(r"--?[A-Za-z][A-Za-z-]*", text)]
    return [open_letters(text) or text for text in kept] if call == "open" else kept


def lines_here(tag: str, name: str, words: Sequence[Word]) -> Tuple[str, ...]:
    """Lines of a script in place of a call elsewhere; none where its arguments do not say them."""
    if name in RENAMED:
        call = RENAMED[name]
        texts = arguments_here(call, words)
        if CALLS.get(call) == "":
            return (f"{tag} {call}",)
        if CALLS.get(call) == "PATH" and len(texts) > 1 and call != "exec":
            return tuple(f"{tag} {call} {text}" for text in texts)
        return (" ".join([tag, call, *(texts[:1] if call == "exec" else texts)]),)
    templates = REWRITTEN[name][1] if name in REWRITTEN else ()
    texts = arguments_here("", words)
    needed = 1 + max((int(digit) for template in templates for digit in re.findall(r"{(\d)}", template)), default=-1)
    return tuple(f"{tag} {template.format(*texts)}" for template in templates) if needed == len(texts) else ()
