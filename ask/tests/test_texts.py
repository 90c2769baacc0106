"""Texts of capabilities and of labels, as `labask` reads them, compared with what `labsys` says of each in a call."""
import pytest
from hypothesis import given, settings
from hypothesis import strategies as st

from labask.capability_texts import read_sets, text_faults
from labask.kernel_profile import CAPABILITIES
from labask.label_texts import label_faults
from labask.playing import Refused
from labask.worlds import Policy, quoted

POLICY = Policy(("low", "mid", "high"), ("a", "b-1", "c_"), ("draft", "final"))
HEAD = ("world 2\nlevels low mid high\ncategories a b-1 c_\ngrades draft final\nbound all\ndir / 0755 0 0 low\n").encode()
ASKER = b'proc low 1 1 - "="\nscript\n1@low '
NAMES = st.sampled_from((*CAPABILITIES[:4], "all", "ALL", "Cap_Kill", "cap_none", "chown", "cap-kill", "", "cap_chown:ep"))
ACTIONS = st.lists(st.builds(lambda sign, flags: sign + "".join(flags), st.sampled_from("=+-"), st.lists(st.sampled_from("eip"), max_size=4)),
                   max_size=3).map("".join)
CLAUSES = st.builds(lambda names, actions: ",".join(names) + actions, st.lists(NAMES, max_size=3), ACTIONS)
GOOD_NAMES = st.lists(st.sampled_from((*CAPABILITIES[:4], "all")), min_size=1, max_size=3).map(",".join)
GOOD_ACTIONS = st.lists(st.builds("{}{}".format, st.sampled_from("=+-"), st.sampled_from(("e", "i", "p", "ep", "eip"))), min_size=1, max_size=3)
GOOD_CLAUSES = st.builds(lambda names, actions: names + "".join(actions), GOOD_NAMES, GOOD_ACTIONS)
GOOD_CAP_TEXTS = st.lists(GOOD_CLAUSES, min_size=1, max_size=3).map(" ".join)
CAP_TEXTS = st.one_of(st.lists(CLAUSES, max_size=3).map(" ".join), st.text("=+-eip,_ \tcahonw", max_size=12))
PARTS = st.sampled_from(("low", "mid", "high", "a", "b-1", "c_", "draft", "final", "none", "LOW", "", "1", "x" * 31, "x" * 32))
GOOD_LABELS = st.builds(
    lambda level, names, grade: level + ":" * bool(names) + ",".join(names) + grade, st.sampled_from(POLICY.levels),
    st.lists(st.sampled_from(POLICY.categories), max_size=4), st.sampled_from(("", "/draft", "/final")))
LABELS = st.one_of(st.lists(st.one_of(PARTS, st.sampled_from(":,/")), max_size=7).map("".join), st.text("lowmid:,/abc-_1 ", max_size=12))


def refusal(player, text):
    """The word by which a text is refused; None where it is accepted."""
    try:
        player.check(text)
    except Refused as refused:
        return refused.refusal.word
    return None


def call(name, text):
    """A world with a script of one call about a text."""
    return HEAD + ASKER + f"{name} {quoted(text.encode())}\n".encode()


def test_capability_texts(player):
    """There are faults exactly in the texts that `labsys` refuses."""
    @settings(max_examples=400)
    @given(CAP_TEXTS)
    def judge(text):
        assert refusal(player, call("cap_set_proc", text)) == ("bad_caps" if list(text_faults(text)) else None), list(text_faults(text))

    judge()


def test_sets_of_capability_texts(player):
    """The canonical text of the sets is that of `labsys`, which a process has at the end."""
    @settings(max_examples=200)
    @given(GOOD_CAP_TEXTS)
    def judge(text):
        sets = read_sets(text)
        world = HEAD + f"proc low 1 1 - {quoted(text.encode())}\nscript\n1@low getpid\n".encode()
        if sets.effective <= sets.permitted:
            assert player.play_accepted(world).ends["1@low"].caps == sets.written
        else:
            assert refusal(player, world) == "syntax"

    judge()


def test_labels(player):
    """There are faults exactly in the texts that `labsys` refuses."""
    @settings(max_examples=400)
    @given(LABELS)
    def judge(text):
        assert refusal(player, call("mac_set_proc", text)) == ("bad_label" if label_faults(text, POLICY) else None)

    judge()


def test_canonical_labels(player):
    """The canonical text of a label is that of `labsys`, which a process has at the end."""
    @settings(max_examples=200)
    @given(GOOD_LABELS)
    def judge(text):
        world = HEAD + f'proc {text} 1 1 - "="\nscript\n1@{text} getpid\n'.encode()
        assert [end.label for end in player.play_accepted(world).ends.values()] == [POLICY.canonical(text)]

    judge()


@pytest.mark.parametrize("text", ["", "low", "low:", "low:a,", ":a", "low/", "low:a:b", "low:a/draft/final", "low high"])
def test_forms_of_labels(text, player):
    assert bool(label_faults(text, POLICY)) == (refusal(player, call("mac_set_proc", text)) is not None)
