"""What the kernel has: capabilities, calls, checks, errors and limits.

`tests/labask_profile.py --write` writes this file from the sources of the crates.
"""
from typing import Dict, NamedTuple, Optional, Tuple


class Check(NamedTuple):
    """The error of a call that a check denies, and the capability that overrides the check. One without an error denies nothing."""
    error: Optional[str]
    capability: Optional[str]


class Utility(NamedTuple):
    """The call that a utility makes for each of its paths, and how many of its arguments stand before them."""
    call: str
    before: int


class ListOfNames(NamedTuple):
    """How many names a list of a world has at least, where its line is there, and how many at most."""
    least: int
    most: int


# in their order
CAPABILITIES: Tuple[str, ...] = (
    "cap_chown", "cap_dac_execute", "cap_dac_read_search", "cap_dac_write", "cap_fowner", "cap_fsetid", "cap_kill", "cap_link_dir",
    "cap_setfcap", "cap_setgid", "cap_setuid", "cap_mac_downgrade", "cap_mac_read", "cap_mac_relabel_subj", "cap_mac_upgrade",
    "cap_mac_write", "cap_audit_control", "cap_audit_write",
)
# with the names of their arguments
CALLS: Dict[str, str] = {
    "open": "PATH FLAGS [MODE]", "close": "FD", "read": "FD N", "write": "FD BYTES", "lseek": "FD set|cur|end OFFSET", "dup": "FD",
    "pipe": "", "mkfifo": "PATH MODE", "fstat": "FD", "mkdir": "PATH MODE", "rmdir": "PATH", "link": "PATH PATH", "unlink": "PATH",
    "rename": "PATH PATH", "readdir": "PATH", "stat": "PATH", "chdir": "PATH", "chmod": "PATH MODE", "chown": "PATH UID GID",
    "umask": "MODE", "cap_get_file": "PATH", "cap_set_file": "PATH CAPS", "cap_get_fd": "FD", "cap_set_fd": "FD CAPS",
    "mac_get_file": "PATH", "mac_set_file": "PATH LABEL", "mac_get_fd": "FD", "mac_set_fd": "FD LABEL", "fork": "", "exec": "PATH",
    "exit": "N", "wait": "", "kill": "PID 0|TERM|KILL", "getpid": "", "getppid": "", "getids": "", "setuid": "UID", "setgid": "GID",
    "cap_get_proc": "", "cap_set_proc": "CAPS", "mac_get_proc": "", "mac_set_proc": "LABEL", "aud_write": "BYTES",
    "aud_switch": "on|off",
}
# on paths
UTILITIES: Dict[str, Utility] = {
    "getfcap": Utility("cap_get_file", 0), "setfcap": Utility("cap_set_file", 1), "getfmac": Utility("mac_get_file", 0),
    "setfmac": Utility("mac_set_file", 1),
}
# calls and utilities that ask for capability sets
ASKING: Tuple[str, ...] = (
    "cap_get_file", "cap_set_file", "cap_get_fd", "cap_set_fd", "cap_get_proc", "cap_set_proc", "getfcap", "setfcap",
)
# of open, in the order of their letters
OPEN_FLAGS = "rwcxta"
# in the order of the profile
CHECKS: Dict[str, Check] = {
    "mac_read": Check("EACCES", "cap_mac_read"), "mac_write": Check("EACCES", "cap_mac_write"), "label_order": Check("EPERM", None),
    "mac_upgrade": Check("EPERM", "cap_mac_upgrade"), "mac_downgrade": Check("EPERM", "cap_mac_downgrade"),
    "mac_subject": Check("EPERM", "cap_mac_relabel_subj"), "dac_read": Check("EACCES", "cap_dac_read_search"),
    "dac_search": Check("EACCES", "cap_dac_read_search"), "dac_write": Check("EACCES", "cap_dac_write"),
    "dac_execute": Check("EACCES", "cap_dac_execute"), "exec_kind": Check("EACCES", None), "owner": Check("EPERM", "cap_fowner"),
    "chown": Check("EPERM", "cap_chown"), "setfcap": Check("EPERM", "cap_setfcap"), "cap_within": Check("EPERM", None),
    "cap_grow": Check("EPERM", None), "setuid": Check("EPERM", None), "setgid": Check("EPERM", None),
    "kill": Check("EPERM", "cap_kill"), "link_dir": Check("EPERM", None), "unlink_dir": Check("EPERM", None),
    "aud_write": Check("EPERM", "cap_audit_write"), "aud_switch": Check("EPERM", "cap_audit_control"),
    "setuid_all": Check(None, "cap_setuid"), "setgid_all": Check(None, "cap_setgid"), "fsetid": Check(None, "cap_fsetid"),
}
# of calls
ERRORS: Tuple[str, ...] = (
    "EACCES", "EAGAIN", "EBADF", "EBUSY", "ECHILD", "EEXIST", "EFBIG", "EINVAL", "EISDIR", "EMFILE", "EMLINK", "ENFILE", "ENOENT",
    "ENOSPC", "ENOTDIR", "ENOTEMPTY", "EPERM", "EPIPE", "ESPIPE", "ESRCH",
)
# errors of each call but those of checks
REFUSALS: Dict[str, Tuple[str, ...]] = {
    "open": ("EEXIST", "EMFILE", "ENFILE", "ENOTDIR", "ENOENT", "ENOSPC", "EISDIR", "EINVAL"), "close": ("EBADF",),
    "read": ("EBADF", "EAGAIN"), "write": ("EBADF", "EPIPE", "EAGAIN", "EINVAL", "EFBIG"), "lseek": ("EBADF", "ESPIPE", "EINVAL"),
    "dup": ("EBADF", "EMFILE"), "pipe": ("EMFILE", "ENFILE", "ENOSPC"), "mkfifo": ("ENOTDIR", "ENOENT", "EEXIST", "ENOSPC"),
    "fstat": ("EBADF",), "mkdir": ("ENOTDIR", "ENOENT", "EEXIST", "ENOSPC"), "rmdir": ("ENOTDIR", "ENOENT", "EBUSY", "ENOTEMPTY"),
    "link": ("ENOTDIR", "ENOENT", "EMLINK", "EEXIST"), "unlink": ("ENOTDIR", "ENOENT", "EBUSY"),
    "rename": ("ENOTDIR", "ENOENT", "EBUSY", "EISDIR", "ENOTEMPTY", "EINVAL"), "readdir": ("ENOTDIR", "ENOENT"),
    "stat": ("ENOTDIR", "ENOENT"), "chdir": ("ENOTDIR", "ENOENT"), "chmod": ("ENOTDIR", "ENOENT"), "chown": ("ENOTDIR", "ENOENT"),
    "umask": (), "cap_get_file": ("ENOTDIR", "ENOENT", "EINVAL"), "cap_set_file": ("ENOTDIR", "ENOENT", "EINVAL"),
    "cap_get_fd": ("EBADF", "EINVAL"), "cap_set_fd": ("EBADF", "EINVAL"), "mac_get_file": ("ENOTDIR", "ENOENT"),
    "mac_set_file": ("ENOTDIR", "ENOENT", "ENOTEMPTY"), "mac_get_fd": ("EBADF",), "mac_set_fd": ("EBADF",), "fork": ("EAGAIN",),
    "exec": ("ENOTDIR", "ENOENT"), "exit": (), "wait": ("ECHILD", "EAGAIN"), "kill": ("ESRCH",), "getpid": (), "getppid": (),
    "getids": (), "setuid": (), "setgid": (), "cap_get_proc": (), "cap_set_proc": (), "mac_get_proc": (), "mac_set_proc": (),
    "aud_write": (), "aud_switch": (),
}
# checks that may deny each call
DENIALS: Dict[str, Tuple[str, ...]] = {
    "open": ("mac_read", "dac_search", "mac_write", "dac_write", "label_order", "dac_read"), "close": (),
    "read": ("mac_read", "mac_write"), "write": ("mac_write",), "lseek": ("mac_read",), "dup": (), "pipe": (),
    "mkfifo": ("mac_read", "dac_search", "mac_write", "dac_write", "label_order"), "fstat": ("mac_read",),
    "mkdir": ("mac_read", "dac_search", "mac_write", "dac_write", "label_order"),
    "rmdir": ("mac_read", "dac_search", "mac_write", "dac_write"),
    "link": ("mac_read", "dac_search", "mac_write", "link_dir", "dac_write", "label_order"),
    "unlink": ("mac_read", "dac_search", "mac_write", "dac_write", "unlink_dir"),
    "rename": ("mac_read", "dac_search", "mac_write", "dac_write", "label_order"), "readdir": ("mac_read", "dac_search", "dac_read"),
    "stat": ("mac_read", "dac_search"), "chdir": ("mac_read", "dac_search"), "chmod": ("mac_read", "dac_search", "mac_write", "owner"),
    "chown": ("mac_read", "dac_search", "mac_write", "chown"), "umask": (), "cap_get_file": ("mac_read", "dac_search"),
    "cap_set_file": ("mac_read", "dac_search", "mac_write", "owner", "setfcap", "cap_within"), "cap_get_fd": ("mac_read",),
    "cap_set_fd": ("mac_write", "owner", "setfcap", "cap_within"), "mac_get_file": ("mac_read", "dac_search"),
    "mac_set_file": ("mac_read", "dac_search", "mac_write", "owner", "mac_upgrade", "mac_downgrade", "label_order"),
    "mac_get_fd": ("mac_read",), "mac_set_fd": ("mac_write", "owner", "mac_upgrade", "mac_downgrade", "label_order"), "fork": (),
    "exec": ("mac_read", "dac_search", "exec_kind", "dac_execute"), "exit": (), "wait": (), "kill": ("mac_write", "kill"),
    "getpid": (), "getppid": (), "getids": (), "setuid": ("setuid",), "setgid": ("setgid",), "cap_get_proc": (),
    "cap_set_proc": ("cap_grow",), "mac_get_proc": (), "mac_set_proc": ("mac_subject",), "aud_write": ("aud_write",),
    "aud_switch": ("aud_switch",),
}
# of a world, with the names of the words behind the keyword
LINES: Dict[str, str] = {
    "dir": "PATH MODE UID GID LABEL", "file": "PATH MODE UID GID LABEL BYTES [CAPS]", "fifo": "PATH MODE UID GID LABEL",
    "proc": "LABEL UID GID GROUPS CAPS",
}
# of the names of a world
LISTS: Dict[str, ListOfNames] = {
    "levels": ListOfNames(1, 16), "categories": ListOfNames(0, 64), "grades": ListOfNames(1, 16),
}
# words with which lines of programs begin
STEPS: Tuple[str, ...] = (
    "slices", "rounds", "program", "do", "jump", "stop",
)
# of lines, of which the first counts
FAULTS: Tuple[str, ...] = (
    "too_long", "old_format", "syntax", "unknown_name", "repeated", "no_parent", "root_label", "label_order", "too_many", "mixed_caps",
    "bad_tag", "bad_path", "bad_label", "bad_caps", "caps_asked", "unended", "header", "record",
)
# the most that there may be
MAX_INPUT = 16_777_216  # bytes of an input
MAX_LINE = 2_048  # bytes of a line
MAX_PATH = 1_023  # bytes of a path
MAX_PATH_NAMES = 32  # names of a path
MAX_PATH_NAME = 63  # bytes of a name of a path
MAX_LABEL_NAME = 31  # bytes of the name of a level, a category or a grade
MAX_NUMBER = 4_294_967_295  # of an argument, a user or a group
MAX_OFFSET = 4_294_967_295  # of lseek, forwards or backwards
MAX_STATUS = 255  # exit status
MAX_GROUPS = 16  # supplementary groups of a process
MAX_DESCRIPTORS = 32  # descriptors of a process
MAX_LINKS = 1_024  # names of an object that is no directory
MAX_FILE_BYTES = 65_536  # bytes of a file, and of one read
MAX_PIPE_BYTES = 4_096  # bytes that wait in a pipe or FIFO
MAX_OBJECT_NUMBER = 65_535  # objects whose numbers are drawn at one label
MAX_PROCESS_NUMBER = 4_095  # processes whose numbers are drawn at one label
MAX_DESCRIPTION_NUMBER = 65_535  # open descriptions whose numbers are drawn at one label
