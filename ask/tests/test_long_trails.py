"""Tests that records are selected of trails that are longer than `labsys select` reads."""
import pytest
from support import EXAMPLES

from labask import playing
from labask.playing import Player, find_program

pytestmark = pytest.mark.usefixtures("program")


@pytest.mark.parametrize("most", [400, 700, 10**6])
def test_pieces_of_a_trail_have_all_records(monkeypatch: pytest.MonkeyPatch, most: int) -> None:
    player = Player([find_program()])
    trails = [player.play(path.read_bytes()).trail for path in EXAMPLES]
    due = [player.select("all", trail) for trail in trails]
    whole = playing.pieces_of
    monkeypatch.setattr(playing, "pieces_of", lambda trail: whole(trail, most))
    assert [player.select("all", trail) for trail in trails] == due
    pieces = [piece for trail in trails for piece in whole(trail, most)]
    assert all(len(piece) <= most for piece in pieces) and (len(pieces) > len(trails)) == (most < 10**6)
