"""Which of the checks that deny something no capability ever overrides, since no script of the world exercises it."""
from typing import Dict, Iterable, List, Optional

from labask.kernel_profile import CHECKS
from labask.playing import Player
from labask.proved import proved_if_answered


def overriding_capabilities(checks: Iterable[str]) -> Dict[str, str]:
    """The capability that overrides each of some checks which has one, in the order of the profile."""
    named = frozenset(checks)
    return {check: each.capability for check, each in CHECKS.items() if check in named and each.capability is not None}


def never_passed(player: Player, text: bytes, checks: Iterable[str]) -> Optional[Dict[str, str]]:
    """The checks of which no script of the world of a text exercises the capability that overrides them, each with that capability.
    None where `labsys never` gives no answer; it is asked only where a check has such a capability."""
    overriding = overriding_capabilities(checks)
    if not overriding:
        return {}
    found = proved_if_answered(player, text)
    return None if found is None else {check: name for check, name in overriding.items() if name in found.never}


def never_lines(passed: Optional[Dict[str, str]]) -> List[str]:
    """The line about these checks below a table, where there are some."""
    return [f"Never overridden by a capability, as `labsys never` proves of every script: {', '.join(passed)}."] if passed else []
