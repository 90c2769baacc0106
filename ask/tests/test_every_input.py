"""`check` and `who` about every example and the input of every case; `why` about all of them is asked by test_why.py.

The exit status is that of an answer or of a refusal, as `labsys` accepts the input or not, and `check` names the line that
`labsys` names.
"""
import pytest
from support import ANSWERED, EXAMPLES, case_inputs, labask

from labask.answers import Status
from labask.playing import Refused
from labask.worlds import read_world

MOST_CELLS = 3000  # of a table; about the objects of larger worlds, the first ones are asked
MOST_BYTES = 1_000_000  # of a refused input about which `who` is asked too, which says the same as `check`
INPUTS = {**{path.name: path.read_bytes() for path in EXAMPLES}, **case_inputs()}


def refusal_of(player, text):
    """The refusal of an input, as `labsys check` writes it; None where it is accepted."""
    try:
        player.check(text)
    except Refused as refused:
        return str(refused)
    return None


def first_paths(text):
    """Paths to ask about, where the table would be large; none where it is not."""
    world = read_world(text)
    if len(world.objects) * len(world.processes) <= MOST_CELLS:
        return []
    paths = [each.path for each in world.objects[:max(1, MOST_CELLS // max(1, len(world.processes)))]]
    return [path.decode("ascii") for path in paths[:200] if path.isascii()]


@pytest.fixture(params=INPUTS)
def given(request, tmp_path, player):
    """An input in a file, and its refusal."""
    path = tmp_path / "input.txt"
    path.write_bytes(INPUTS[request.param])
    return path, refusal_of(player, INPUTS[request.param])


def test_every_input(given):
    path, refusal = given
    status, out, messages = labask("check", path)
    assert status == (Status.DONE if refusal is None else Status.REFUSED) and "Traceback" not in messages
    assert refusal is None or (out.splitlines()[-1] == f"labsys: {refusal}" and "no fault was found" not in out), out[:300]
    if refusal is None or path.stat().st_size <= MOST_BYTES:
        status = labask("who", path, *(first_paths(path.read_bytes()) if refusal is None else ()))[0]
        assert status in ((*ANSWERED, Status.STOPPED) if refusal is None else (Status.REFUSED,))
