"""Checks and refusals in words, as the profile and the call table define them."""
from typing import Dict, Tuple

CHECKS: Dict[str, str] = {
    "mac_read": "the caller's label does not dominate that of the object",
    "mac_write": "the caller's label is not equal to that of what would be written",
    "label_order": "a label does not dominate the label of a directory that would hold the object",
    "mac_upgrade": "an object gets a label that dominates its old one only by a capability",
    "mac_downgrade": "an object gets a label that does not dominate its old one only by a capability",
    "mac_subject": "a process gets another label only by a capability",
    "dac_read": "the mode does not let the caller read the object",
    "dac_search": "the mode does not let the caller search the directory",
    "dac_write": "the mode does not let the caller write the object",
    "dac_execute": "the mode does not let the caller execute the file",
    "exec_kind": "only a regular file is executed",
    "owner": "the caller's effective user is not the owner",
    "chown": "only the owner gives the object another group, one of his own, and nobody gives it another owner",
    "setfcap": "the capability sets of a file are set only by a capability",
    "cap_within": "the caller is not permitted each capability that the file would get",
    "cap_grow": "the sets asked for go beyond what the caller is permitted",
    "setuid": "the user is neither the caller's real nor its saved one",
    "setgid": "the group is neither the caller's real nor its saved one",
    "kill": "the caller's real or effective user is not the real or saved user of the process",
    "link_dir": "a directory gets no second name",
    "unlink_dir": "a directory is not removed by unlink",
    "aud_write": "a note in the trail is written only by a capability",
    "aud_switch": "the audit switch is set only by a capability",
}
ERRORS: Dict[str, str] = {
    "ESRCH": "no living process has the number",
    "ENOENT": "a name of the path is absent",
    "EBADF": "the caller has no such descriptor, or it is not open for this",
    "ENOTDIR": "something on the path is no directory",
    "EEXIST": "the name is there already",
    "EISDIR": "it is a directory",
    "EBUSY": "the path has no name",
    "ENOTEMPTY": "the directory has entries",
    "EMLINK": "the object has as many names as there may be",
    "EINVAL": "the call does not fit the object",
    "ESPIPE": "a pipe or FIFO has no offset",
    "EAGAIN": "the call would have to wait",
    "EPIPE": "no process has the pipe or FIFO open for reading",
    "EFBIG": "the file would be larger than a file may be",
    "EMFILE": "the caller has as many descriptors as there may be",
    "ENFILE": "all numbers of open descriptions of the caller's label are drawn",
    "ENOSPC": "all numbers of objects of the caller's label are drawn",
    "ECHILD": "the caller has no child, neither a living nor an ended one",
}
ERRORS_OF_CALLS: Dict[Tuple[str, str], str] = {
    ("open", "EINVAL"): "a FIFO is opened for reading or for writing, not for both",
    ("open", "EISDIR"): "a directory is not opened",
    ("write", "EINVAL"): "the position is past the end of the file",
    ("lseek", "EINVAL"): "the new offset would be negative or past the end",
    ("rename", "EINVAL"): "a directory does not move to a place below itself",
    ("rename", "EISDIR"): "a directory has the new name, and what moves is none",
    ("rename", "ENOTDIR"): "what moves is a directory, and what has the new name is none, or something on a path is none",
    ("cap_get_file", "EINVAL"): "only a file has capability sets",
    ("cap_get_fd", "EINVAL"): "only a file has capability sets",
    ("cap_set_file", "EINVAL"): "only a file has capability sets, and they are uniform",
    ("cap_set_fd", "EINVAL"): "only a file has capability sets, and they are uniform",
    ("read", "EAGAIN"): "the pipe or FIFO is empty, and is open for writing",
    ("write", "EAGAIN"): "the pipe or FIFO has less room than the bytes need",
    ("fork", "EAGAIN"): "all numbers of processes of the caller's label are drawn",
    ("wait", "EAGAIN"): "no child has ended yet",
    ("read", "EBADF"): "the caller has no such descriptor open for reading",
    ("write", "EBADF"): "the caller has no such descriptor open for writing",
}


def check_in_words(check: str) -> str:
    """What a denied check says."""
    return CHECKS.get(check, "the check denies it")


def error_in_words(call: str, error: str) -> str:
    """What an error of a call says that no check denied."""
    return ERRORS_OF_CALLS.get((call, error), ERRORS.get(error, "the call is refused"))
