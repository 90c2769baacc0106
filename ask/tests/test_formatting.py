"""The question fmt writes worlds in their canonical form and keeps comments; what it writes is what labsys upgrade writes."""
import pathlib
import subprocess

import pytest
from hypothesis import given, settings
from strategies import worlds
from support import EXAMPLES, labask

from labask.formatting import formatted
from labask.playing import Player

pytestmark = pytest.mark.usefixtures("program")
UNTIDY = ('  # a world \nworld 2\n\nlevels   low high\ncategories a b\nbound CAP_KILL,cap_chown\n# the root\ndir //./ 755 00 0 "low"\n'
          'proc low:b,a 7 7 007,8 "cap_kill=p cap_kill+e"\n  file   /x/ 4755 1 1 low "a\\x62c" "cap_chown=ep"\n\nscript\n'
          '# a call\n01@low:b,a   stat  /./x \n1@low:a,b getfmac "/x"\n')
TIDY = ('# a world\nworld 2\n\nlevels low high\ncategories a b\nbound cap_chown,cap_kill\n# the root\ndir / 0755 0 0 low\n'
        'proc low:a,b 7 7 7,8 "cap_kill=ep"\nfile /x 4755 1 1 low "abc" "cap_chown=ep"\n\nscript\n'
        '# a call\n1@low:a,b stat /./x\n1@low:a,b getfmac "/x"\n')


def test_canonical_form_and_comments(tmp_path: pathlib.Path) -> None:
    path = tmp_path / "world.txt"
    path.write_text(UNTIDY)
    assert labask("fmt", path) == (0, TIDY, "")
    status, out, _ = labask("fmt", "--check", path)
    assert status == 3 and '-dir //./ 755 00 0 "low"' in out and "+dir / 0755 0 0 low" in out
    path.write_text(TIDY)
    assert labask("fmt", path) == (0, TIDY, "")
    assert labask("fmt", "--check", path)[0] == 0
    path.write_text(TIDY.replace("0755", "1755"))
    status, out, messages = labask("fmt", path)
    assert status == 2 and not out and "refused 8 world syntax" in messages


@pytest.mark.parametrize("path", EXAMPLES, ids=lambda path: path.stem)
def test_what_is_formatted_stays_as_it_is(path: pathlib.Path, player: Player) -> None:
    written = formatted(path.read_bytes(), player)
    assert formatted(written, player) == written
    assert written.count(b"#") == path.read_bytes().count(b"#")


@settings(max_examples=15)
@given(text=worlds(("cap_kill", "cap_mac_read")))
def test_lines_are_those_that_labsys_writes(text: bytes, player: Player) -> None:
    """Where objects stand before processes, without comments, the whole text is what `upgrade` writes of the old format."""
    untidy = text.replace(b" ", b"  ").replace(b" 0755", b" 755")
    old = untidy.replace(b"world  2", b"world 1", 1)
    due = subprocess.run([*player.program, "upgrade"], input=old, stdout=subprocess.PIPE, check=True).stdout
    assert formatted(untidy, player) == due
