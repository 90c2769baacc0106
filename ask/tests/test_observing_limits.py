"""Tests that a run with questions between its calls begins again where its input has come near the limit, and answers the same."""
import pathlib

import pytest
from support import EXAMPLES, labask

from labask import observing, playing
from labask.worlds import read_world

pytestmark = pytest.mark.usefixtures("program")


@pytest.mark.parametrize("path", EXAMPLES[::3], ids=lambda path: path.stem)
def test_answers_are_the_same_where_the_run_begins_again(monkeypatch: pytest.MonkeyPatch, path: pathlib.Path) -> None:
    due = labask("why", path, "--json")
    begun, renew = [], observing.Observed.make_room

    def make_room(self: observing.Observed, size: int) -> None:
        """Counts the runs that begin again."""
        before = self.session
        renew(self, size)
        begun.append(self.session is not before)

    text = path.read_bytes()
    room = len(observing.with_observer(read_world(text))[0]) + len(text) + 1_024
    monkeypatch.setattr(observing, "QUESTION_BYTES", 600)
    monkeypatch.setattr(playing, "MAX_INPUT", room)
    monkeypatch.setattr(observing.Observed, "make_room", make_room)
    assert labask("why", path, "--json") == due
    assert any(begun) or len(begun) < 30


def test_a_script_that_leaves_no_room_is_said(monkeypatch: pytest.MonkeyPatch) -> None:
    monkeypatch.setattr(playing, "MAX_INPUT", EXAMPLES[0].stat().st_size)
    status, out, said = labask("why", EXAMPLES[0])
    assert (status, out) == (70, "") and "no question fits between the calls" in said
