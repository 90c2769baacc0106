"""Capabilities of Linux as those of the profile: sets of files and of processes, and their texts."""
import struct
from dataclasses import dataclass
from typing import FrozenSet, Iterable, List, Optional, Tuple

from labask.capability_texts import Sets as ProfileSets
from labask.kernel_profile import CAPABILITIES

ATTRIBUTE = "security.capability"
LINUX = (
    "cap_chown", "cap_dac_override", "cap_dac_read_search", "cap_fowner", "cap_fsetid", "cap_kill", "cap_setgid", "cap_setuid",
    "cap_setpcap", "cap_linux_immutable", "cap_net_bind_service", "cap_net_broadcast", "cap_net_admin", "cap_net_raw",
    "cap_ipc_lock", "cap_ipc_owner", "cap_sys_module", "cap_sys_rawio", "cap_sys_chroot", "cap_sys_ptrace", "cap_sys_pacct",
    "cap_sys_admin", "cap_sys_boot", "cap_sys_nice", "cap_sys_resource", "cap_sys_time", "cap_sys_tty_config", "cap_mknod",
    "cap_lease", "cap_audit_write", "cap_audit_control", "cap_setfcap", "cap_mac_override", "cap_mac_admin", "cap_syslog",
    "cap_wake_alarm", "cap_block_suspend", "cap_audit_read", "cap_perfmon", "cap_bpf", "cap_checkpoint_restore",
)
# what the profile splits
SPLIT = {"cap_dac_override": ("cap_dac_execute", "cap_dac_read_search", "cap_dac_write")}
REVISION = 0xFF000000
EFFECTIVE = 0x000001
# the words of 32 bits that follow the first one, by the version: permitted and inheritable in turn, and of version 3 a user
WORDS = {0x01000000: 2, 0x02000000: 4, 0x03000000: 5}


class UnknownVersion(ValueError):
    """An attribute that is none of the versions."""


@dataclass(frozen=True)
class Sets(ProfileSets):
    """Three sets of capabilities of the profile, and the names of those of Linux that it does not have, or that it splits."""
    left_out: Tuple[str, ...] = ()
    split: Tuple[str, ...] = ()

    @property
    def empty(self) -> bool:
        """Whether no capability of the profile has a flag."""
        return not (self.permitted or self.inheritable or self.effective)

    @property
    def text(self) -> str:
        """The canonical capability text."""
        return self.written


@dataclass(frozen=True)
class Attribute:
    """What the attribute of a file says: its sets, and the user that is root where they count; 0 where they count everywhere."""
    sets: Sets
    root: int


def names_of(bits: int) -> List[str]:
    """The names of Linux for the bits of a set."""
    return [LINUX[bit] if bit < len(LINUX) else f"cap_{bit}" for bit in range(64) if bits >> bit & 1]


def profile_names(names: Iterable[str]) -> FrozenSet[str]:
    """The capabilities of the profile that stand for some of Linux."""
    return frozenset(each for name in names for each in SPLIT.get(name, (name,)) if each in CAPABILITIES)


def sets_of(permitted: int, inheritable: int, effective: int) -> Sets:
    """Sets of the profile for three sets of Linux, as bits."""
    given = names_of(permitted | inheritable | effective)
    return Sets(effective=profile_names(names_of(effective)), inheritable=profile_names(names_of(inheritable)),
                permitted=profile_names(names_of(permitted)),
                left_out=tuple(name for name in given if name not in CAPABILITIES and name not in SPLIT),
                split=tuple(name for name in given if name in SPLIT))


def read_attribute(value: bytes) -> Attribute:
    """Reads the attribute `security.capability` of a file."""
    first = struct.unpack_from("<I", value)[0] if len(value) >= 4 else 0
    words = WORDS.get(first & REVISION)
    if words is None or len(value) < 4 + 4 * words:
        raise UnknownVersion(value.hex())
    fields = struct.unpack_from(f"<{words}I", value, 4)
    permitted, inheritable = fields[0], fields[1]
    if words > 2:
        permitted, inheritable = permitted | fields[2] << 32, inheritable | fields[3] << 32
    effective = permitted | inheritable if first & EFFECTIVE else 0
    return Attribute(sets_of(permitted, inheritable, effective), fields[4] if words > 4 else 0)


def own_sets(status: Optional[str] = None) -> Sets:
    """The sets of this process, as /proc has them; `status` is the text of the file `status` there."""
    if status is None:
        try:
            with open("/proc/self/status", encoding="ascii", errors="replace") as file:
                status = file.read()
        except OSError:
            status = ""
    found = dict(line.split(":", 1) for line in status.splitlines() if line.startswith("Cap"))
    return sets_of(*(int(found.get(name, "0"), 16) for name in ("CapPrm", "CapInh", "CapEff")))
