"""`labask.proved`: what `labsys never` writes, read, and what it does not write, refused."""
import pytest

from labask.kernel_profile import CAPABILITIES
from labask.playing import Player, PlayingFault, Refused
from labask.proved import Proved, proved, read_proved

WORLD = b"""world 2
levels low high
categories a
bound cap_mac_read,cap_kill
dir / 0755 0 0 low
file "/a \\"b\\x0a\\xe9" 0755 0 0 low "" "cap_mac_read,cap_kill,cap_chown=ep"
proc low 1 1 - "="
proc high 1 1 - "cap_mac_read=p"
proc high:a 1 1 - "all=i cap_mac_upgrade=ip"
script
"""
EVER = frozenset(["cap_mac_read", "cap_kill", "cap_mac_upgrade"])


def test_of_a_world(player):
    """Worked out by hand: `low` may execute the file, and so have cap_mac_read, which is not strictly above any label."""
    due = Proved(frozenset(CAPABILITIES) - EVER, (("1@high", frozenset(["cap_mac_read"])), ("1@high:a", frozenset(["cap_mac_upgrade"]))),
                 (("/a \"b\n\xe9", frozenset(["cap_mac_read"])),), (), ("low", "high", "high:a"))
    assert proved(player, WORLD) == proved(player, WORLD + b"1@low getpid\n") == due
    assert not due.confined


def test_of_a_world_without_capabilities(player):
    text = b'world 2\nlevels low high\ncategories\nbound none\ndir / 0755 0 0 low\nproc high 1 1 - "="\nproc low 1 1 - "="\nscript\n'
    assert proved(player, text) == Proved(frozenset(CAPABILITIES), (), (), ("low", "high"), ())
    assert proved(player, text).confined
    assert proved(player, text[:text.index(b"proc")] + b"script\n") == Proved(frozenset(CAPABILITIES), (), (), (), ())


def test_of_all_capabilities(player):
    found = proved(player, WORLD.replace(b'"="', b'"all=p"'))
    assert found.never == frozenset() and len(found.holds[0][1]) == 5 and not found.confined


@pytest.mark.parametrize("text", [b"", WORLD.replace(b"script\n", b""), WORLD + b"1@low fly\n"])
def test_refused(text, player):
    with pytest.raises(Refused) as refused:
        proved(player, text)
    assert refused.value.refusal is not None


def test_too_long(player):
    with pytest.raises(Refused) as refused:
        proved(player, WORLD + (b"#" * 1_023 + b"\n") * 16_384)
    assert refused.value.refusal is None


@pytest.mark.parametrize("out", [b"", b"\n", b"never all\n", b"done 0\n", b"never all\nuncrossed low\ndone 0\n", b"never all\nlost low\ndone 0\n",
                                 b"never all\nholds 1@low\ndone 0\n", b"never all\nnever all\ndone 0\n", b"never all\n\ndone 0\n"])
def test_other_outputs(out):
    with pytest.raises(ValueError):
        read_proved(out)


def test_other_program():
    with pytest.raises(PlayingFault, match="does not answer as labsys does"):
        proved(Player(["true"]), WORLD)
