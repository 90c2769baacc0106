"""Tests that an answer of `flow` does not depend on the order of sets, which differs where PYTHONHASHSEED does."""
import os
import pathlib
import subprocess
import sys
from typing import Tuple

import pytest

from exhaustive.random_worlds import random_world
from support import LABASK, TOP

SEEDS = (0, 2, 5)  # of the hashes of texts
# worlds with pairs of which there are several shortest scripts
ASKED = {
    "two ways to a file": (random_world(15).head, ("/f2", "2@lo")),
    "many ways to a file": (random_world(15).head, ("/f6", "3@lo")),
    "a way through a program": ((TOP / "examples" / "backup_for_operators.txt").read_text("ascii"), ("/pay/list of may", "/eng/design")),
}


def answer_with(seed: int, *words: str) -> bytes:
    """The answer where the hashes of texts have a seed."""
    run = subprocess.run([sys.executable, LABASK, "flow", *words, "--json"], capture_output=True, check=False,
                         env={**os.environ, "PYTHONHASHSEED": str(seed), "PYTHONDONTWRITEBYTECODE": "1"})
    assert run.returncode == 3, run.stderr
    return run.stdout


@pytest.mark.usefixtures("program")
@pytest.mark.parametrize("name", ASKED)
def test_an_answer_is_the_same_with_each_order_of_sets(name: str, tmp_path: pathlib.Path) -> None:
    text, pair = ASKED[name]
    path = tmp_path / "world.txt"
    path.write_text(text, "ascii")
    assert len({answer_with(seed, str(path), *pair) for seed in SEEDS}) == 1


def test_seeds_of_hashes_give_sets_other_orders() -> None:
    def order_with(seed: int) -> Tuple[str, ...]:
        run = subprocess.run([sys.executable, "-c", "print(*{'at', 'free', 'entry', 'taint', 'acts'})"], capture_output=True, text=True,
                             check=True, env={**os.environ, "PYTHONHASHSEED": str(seed)})
        return tuple(run.stdout.split())
    assert len({order_with(seed) for seed in SEEDS}) > 1
