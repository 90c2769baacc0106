"""The question label compares labels as labsys plays them, and draws their lattice."""
import json
import pathlib
from itertools import product
from typing import Any, Dict
from xml.etree import ElementTree

import pytest
from hypothesis import given
from hypothesis import strategies as st
from support import TOP, labask

from labask.kernel.state import Label
from labask.label import compare
from labask.lattice import every_label, join, lattice_of, meet
from labask.playing import Player
from labask.worlds import Policy, read_world

pytestmark = pytest.mark.usefixtures("program")
HOSPITAL = TOP / "examples" / "hospital.txt"
HEAD = "world 2\nlevels low high\ncategories a b\ngrades fetched system\nbound none\ndir / 0755 0 0 low\nscript\n"
POLICY = Policy(("low", "high"), ("a", "b"), ("fetched", "system"))
ALL = list(every_label(POLICY))
labels = st.sampled_from(ALL)


@pytest.fixture
def world(tmp_path: pathlib.Path) -> pathlib.Path:
    """A file with a world with grades."""
    path = tmp_path / "world.txt"
    path.write_text(HEAD)
    return path


def compared(*words: object) -> Dict[str, Any]:
    """The answer as JSON, with its status."""
    status, out, messages = labask("label", *words, "--json")
    assert out, messages
    return {"status": status, **json.loads(out)}


@pytest.mark.parametrize("one, other, status, high, low", [
    ("high:b,a", "low:a", 3, "high:a,b", "low:a"), ("low:a", "high:a,b", 0, "high:a,b", "low:a"), ("low:a", "low:b", 0, "low:a,b", "low"),
    ("low/fetched", "low", 3, "low/fetched", "low"), ("high", "low/fetched", 0, "high/fetched", "low"), ("high", "high/system", 3, "high", "high"),
])
def test_answers(one: str, other: str, status: int, high: str, low: str, world: pathlib.Path) -> None:
    found = compared(world, one, other)
    assert (found["status"], found["join"], found["meet"], found["dominates"]) == (status, high, low, status == 3)
    assert bool(found["lacks"]) == (status == 0)


def test_reasons(world: pathlib.Path) -> None:
    _, out, _ = labask("label", world, "low:a", "high:b/fetched")
    assert "low:a does not dominate high:b/fetched: its level low is below high, and it lacks b, and its grade system is above fetched." in out


def test_labsys_orders_labels_as_their_definition(player: Player) -> None:
    """Each comparison raises a fault where what is played differs from the definition, or a bound is none."""
    world = read_world(HEAD.encode())
    for one, other in product(("low", "high:a", "low:b/fetched", "high:a,b"), ("low:a", "high/fetched", "high:a")):
        compare(world, one, other, player)


@given(labels, labels, labels)
def test_bounds(one: Label, other: Label, third: Label) -> None:
    assert (third.dominates(one) and third.dominates(other)) == third.dominates(join(one, other))
    assert (one.dominates(third) and other.dominates(third)) == meet(one, other).dominates(third)


@given(st.lists(labels, min_size=1))
def test_covers_are_the_steps_of_dominance(chosen: "list[Label]") -> None:
    lattice = lattice_of(chosen)
    reached = {(each, each) for each in lattice.labels} | set(lattice.covers)
    for _ in lattice.labels:
        reached |= {(high, low) for high, middle in reached for between, low in lattice.covers if middle == between}
    assert reached == {(high, low) for high, low in product(lattice.labels, repeat=2) if high.dominates(low)}
    assert sum(map(len, lattice.rows())) == len(set(chosen))


def test_drawing(world: pathlib.Path) -> None:
    status, out, _ = labask("label", world, "low:a", "low:b", "--lattice")
    root = ElementTree.fromstring(out)
    texts = [each.text for each in root.iter("{http://www.w3.org/2000/svg}text")]
    assert status == 0 and len([text for text in texts if text and text.startswith(("low", "high"))]) == len(ALL)
    assert {"A", "B", "join", "meet"} <= set(texts)


def test_many_labels(tmp_path: pathlib.Path) -> None:
    """Where there are too many labels, those of the world are drawn, and else the two with their bounds."""
    names = " ".join(f"c{n}" for n in range(64))
    path = tmp_path / "world.txt"
    path.write_text(HEAD.replace("a b", names).replace("script", 'proc low:c3 1 1 - "="\nscript'))
    assert compared(path, "--lattice")["labels"] == ["low", "low:c3"]
    path.write_text(path.read_text().replace("script", "".join(f'proc low:c{n} 1 1 - "="\n' for n in range(64)) + "script"))
    assert set(compared(path, "low:c1", "high", "--lattice")["labels"]) == {"low", "low:c1", "high", "high:c1"}
    assert labask("label", path, "--lattice")[0] == 1


@pytest.mark.parametrize("words, said", [
    (("low",), "two labels are compared"), ((), "two labels are compared"), (("low", "zzz"), "unknown level zzz"),
    (("low:", "low"), "the name of a label begins with a letter"), (("low/x", "low"), "unknown grade x"),
    (("low", "low", "low"), "two labels are compared"), (("\udcff", "low"), "is no label"),
], ids=ascii)
def test_wrong_words(words: "tuple[str, ...]", said: str, world: pathlib.Path) -> None:
    status, out, messages = labask("label", world, *words)
    assert (status, out) == (1, "") and said in messages


def test_refused_world(tmp_path: pathlib.Path) -> None:
    (tmp_path / "world.txt").write_text("world 3\n")
    assert labask("label", tmp_path / "world.txt", "low", "low")[0] == 2
