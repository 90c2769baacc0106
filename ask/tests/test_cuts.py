"""`cuts`: each row, played in a run of its own, has the call not done, and as many other replies changed.

The single changes of a small world are counted by hand.
"""
import json
import re

import pytest
from support import TOP, labask

from labask.playing import Outcome

ASKED = {"backup_for_all": 6, "lesson": 3, "login": 3, "owners_and_modes": 2, "relabelling": 2, "read_by_capability": 1}
NUMBER = re.compile(r"\d+@\S+")
WORLD = """world 2
levels low high
categories
bound all
dir / 0755 0 0 low
file /a 0644 10 10 low "x"
file /b 0644 10 10 low "y"
proc low 11 11 - "cap_kill=ep"
script
1@low stat /
1@low open /a r
1@low read 0 1
"""
# what single changes of the world above deny its second call, worked out by hand: /b is not touched, and `read` of the third call
# needs the descriptor
BY_HAND = [
    "dir /: mode 0755 becomes 0754", "file /a: label low becomes high", "file /a: mode 0644 becomes 0640",
]
# 11 bits of / and /a; the owners 10 and 11 for /, 0 and 11 for /a; the label of /a and that of the process; cap_kill
TRIED = 11 + 11 + 2 + 2 + 1 + 1 + 1
pytestmark = pytest.mark.usefixtures("program")


def without_numbers(replies):
    """The texts of replies, without numbers of objects and processes."""
    return [NUMBER.sub("n", reply.text) for reply in replies]


def others_alone(text, changed, call, player):
    """The reply to a call in a changed world, and how many other replies differ."""
    before, after = player.play_accepted(text).replies, player.play_accepted(changed).replies
    pairs = enumerate(zip(without_numbers(before), without_numbers(after)), 1)
    return after[call - 1], sum(one != other and number != call for number, (one, other) in pairs)


def changed_by_hand(path, cut):
    """The world with the new text of a line."""
    lines = path.read_bytes().decode("latin-1").split("\n")
    lines[cut["line"] - 1] = cut["text"]
    return "\n".join(lines)


@pytest.mark.parametrize("name", ASKED)
def test_rows_of_examples(name, player):
    """Each row is as a run of its own answers; the first and the last one are written by --apply."""
    path, call = TOP / "examples" / f"{name}.txt", ASKED[name]
    cuts = json.loads(labask("cuts", path, call, "--json")[1])["cuts"]
    others = [len(cut["others"]) for cut in cuts]
    assert cuts and others == sorted(others)
    for row, cut in enumerate(cuts, 1):
        applied = row in (1, len(cuts))
        if not applied and cut["change"].startswith("process") and "label" in cut["change"]:
            continue  # numbers of processes change with it
        text = labask("cuts", path, call, "--apply", row)[1] if applied else changed_by_hand(path, cut)
        reply, differ = others_alone(path.read_bytes(), text.encode("latin-1"), call, player)
        assert reply.outcome is not Outcome.DONE and reply.text == cut["reply"], f"row {row}: {cut['change']}"
        assert "label" in cut["change"] or differ == len(cut["others"]), f"row {row}: {cut['change']}"


def test_changes_by_hand(tmp_path):
    """The changes of the small world are those worked out by hand, and the first one changes the fewest replies."""
    path = tmp_path / "small.txt"
    path.write_text(WORLD)
    answer = json.loads(labask("cuts", path, 2, "--json")[1])
    assert sorted(cut["change"] for cut in answer["cuts"]) == BY_HAND
    assert len(answer["cuts"][0]["others"]) == 1
    assert answer["tried"] == TRIED


@pytest.mark.parametrize("words", [(4,), (0,), (2, "--apply", 99)], ids=str)
def test_wrong_numbers(words, tmp_path):
    """Calls and rows that are not there."""
    path = tmp_path / "small.txt"
    path.write_text(WORLD)
    assert labask("cuts", path, *words)[0] == 1
