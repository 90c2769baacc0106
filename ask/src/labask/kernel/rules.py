"""The rules of the checks: what lets a call go on, by a rule or by an effective capability."""
from typing import NamedTuple, Optional

from labask.kernel.state import Cap, Caps, Ids, Label, Process, Thing

READ, WRITE, EXECUTE = 4, 2, 1
SET_USER, SET_GROUP, PERMISSIONS = 0o4000, 0o2000, 0o777
SET_ID = SET_USER | SET_GROUP


class Stop(Exception):
    """What stops a call: an error, and of a denial the check and its place."""

    def __init__(self, error: str, check: Optional[str] = None, place: Optional[str] = None):
        super().__init__(error)
        self.error, self.check, self.place = error, check, place


class Rule(NamedTuple):
    """A check: its name, the capability that overrides it, and its error."""
    name: str
    cap: int
    error: str


MAC_READ = Rule("mac_read", Cap.MAC_READ, "EACCES")
MAC_WRITE = Rule("mac_write", Cap.MAC_WRITE, "EACCES")
LABEL_ORDER = Rule("label_order", 0, "EPERM")
MAC_UPGRADE = Rule("mac_upgrade", Cap.MAC_UPGRADE, "EPERM")
MAC_DOWNGRADE = Rule("mac_downgrade", Cap.MAC_DOWNGRADE, "EPERM")
MAC_SUBJECT = Rule("mac_subject", Cap.MAC_RELABEL_SUBJ, "EPERM")
DAC_READ = Rule("dac_read", Cap.DAC_READ_SEARCH, "EACCES")
DAC_SEARCH = Rule("dac_search", Cap.DAC_READ_SEARCH, "EACCES")
DAC_WRITE = Rule("dac_write", Cap.DAC_WRITE, "EACCES")
DAC_EXECUTE = Rule("dac_execute", Cap.DAC_EXECUTE, "EACCES")
EXEC_KIND = Rule("exec_kind", 0, "EACCES")
OWNER = Rule("owner", Cap.FOWNER, "EPERM")
CHOWN = Rule("chown", Cap.CHOWN, "EPERM")
SETFCAP = Rule("setfcap", Cap.SETFCAP, "EPERM")
CAP_WITHIN = Rule("cap_within", 0, "EPERM")
CAP_GROW = Rule("cap_grow", 0, "EPERM")
SETUID = Rule("setuid", 0, "EPERM")
SETGID = Rule("setgid", 0, "EPERM")
KILL = Rule("kill", Cap.KILL, "EPERM")
LINK_DIR = Rule("link_dir", 0, "EPERM")
UNLINK_DIR = Rule("unlink_dir", 0, "EPERM")
AUD_WRITE = Rule("aud_write", Cap.AUDIT_WRITE, "EPERM")
AUD_SWITCH = Rule("aud_switch", Cap.AUDIT_CONTROL, "EPERM")


def need(process: Process, rule: Rule, holds: bool, place: str) -> None:
    """Stops the call where the rule fails and no capability overrides it."""
    if not holds and not process.caps.effective & rule.cap:
        raise Stop(rule.error, rule.name, place)


def class_bits(mode: int, owner: int, group: int, ids: Ids) -> int:
    """The three bits of a mode that count for these ids."""
    if ids.euid == owner:
        return mode >> 6 & 7
    return mode >> 3 & 7 if ids.member(group) else mode & 7


def mode_allows(thing: Thing, process: Process, bit: int) -> bool:
    """Whether the class's bits allow what is wanted."""
    return bool(class_bits(thing.mode, thing.owner, thing.group, process.ids) & bit)


def mac_read(process: Process, thing: Thing, place: str) -> None:
    """The check that the caller's label dominates the object's."""
    need(process, MAC_READ, process.label.dominates(thing.label), place)


def mac_write(process: Process, label: Label, place: str) -> None:
    """The check that the caller's label is this one."""
    need(process, MAC_WRITE, process.label == label, place)


def dac(process: Process, rule: Rule, thing: Thing, bit: int, place: str) -> None:
    """A check of the mode."""
    need(process, rule, mode_allows(thing, process, bit), place)


def owns(process: Process, thing: Thing, place: str) -> None:
    """The check that the caller is the owner."""
    need(process, OWNER, process.ids.euid == thing.owner, place)


def keeps_set_id(process: Process, holds: bool) -> bool:
    """The soft check of set-id bits and capabilities: whether they stay."""
    return holds or process.has(Cap.FSETID)


def plain(thing: Thing) -> bool:
    """Whether a file has no set-id bit and no capabilities."""
    return not thing.mode & SET_ID and not thing.caps.permitted and not thing.caps.inheritable


def is_uniform(caps: Caps) -> bool:
    """Whether a file can have these sets."""
    return not caps.effective or caps.effective == caps.permitted | caps.inheritable


def executed_caps(caps: Caps, program: Caps, bound: int) -> Caps:
    """The sets of a process after `exec` of a program."""
    permitted = program.permitted & bound | program.inheritable & caps.inheritable
    return Caps(permitted if program.effective else 0, permitted, caps.inheritable)


def executed_ids(ids: Ids, mode: int, owner: int, group: int) -> Ids:
    """The ids of a process after `exec` of a program."""
    if mode & SET_USER:
        ids = ids._replace(euid=owner, suid=owner)
    return ids._replace(egid=group, sgid=group) if mode & SET_GROUP else ids


def may_become(old: Caps, new: Caps) -> bool:
    """Whether a process may set these sets."""
    return not (new.permitted & ~old.permitted or new.effective & ~new.permitted
                or new.inheritable & ~(old.inheritable | old.permitted))
