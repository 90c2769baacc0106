"""Tests `who` at the limits of an input and of the numbers of a label."""
import pathlib

import pytest
from support import labask

from labask import who
from labask.playing import Player, find_program
from labask.worlds import MAX_INPUT, read_world

pytestmark = pytest.mark.usefixtures("program")

HEAD = "world 2\nlevels a b\ncategories\nbound all\ndir / 0755 0 0 a\n"
USER, ROOT = 'proc a 1 1 - "="\n', 'proc a 0 0 - "="\n'


def cells(path: pathlib.Path, *words: object):
    """The rows of the table, each as its cells without the right that the kind of object has not."""
    status, out, said = labask("who", path, *words)
    assert said == "" and status in (0, 3, 4)
    lines = out.split("\n")
    end = -3 if lines[-3].startswith("Never overridden by a capability") else -2
    columns = [lines[0].index(name) for name in lines[0].split()] + [len(max(lines[:end], key=len)) + 1]
    rows = [[line[begin:end].strip() for begin, end in zip(columns, columns[1:])] for line in lines[1:end]]
    return [[cell for cell in row if cell != "-"] for row in rows]


def write(path: pathlib.Path, *parts: str) -> pathlib.Path:
    """A world in a file."""
    path.write_text(HEAD + "".join(parts) + "script\n", encoding="ascii")
    return path


@pytest.mark.parametrize("free", [0, 3_000])
def test_a_label_with_nearly_all_numbers_of_objects(tmp_path: pathlib.Path, free: int) -> None:
    directories = "".join(f"dir /d{number} 0{'57'[number % 2]}55 0 0 a\n" for number in range(65_534 - free))
    path, player = write(tmp_path / "world", directories, ROOT, USER), Player([find_program()])
    world = read_world(path.read_bytes())
    found = list(who.ask(world, world.processes, world.objects[1:2_001], player))
    due = [[right is not who.Right.WRITE or (tag == "1@a" and number % 2 == 1), right] for number in range(2_000)
           for tag in ("1@a", "2@a") for right in (who.Right.LIST, who.Right.SEARCH, who.Right.WRITE)]
    assert [[each.allowed, each.right] for each in found] == due
    assert player.plays < 20


def test_more_descriptions_than_a_label_has_numbers(tmp_path: pathlib.Path) -> None:
    files = "".join(f'fifo /f{number} 0666 0 0 a\n' for number in range(9_000))
    path, player = write(tmp_path / "world", files, USER * 4), Player([find_program()])
    world = read_world(path.read_bytes())
    found = list(who.ask(world, world.processes, world.objects[1:], player))
    assert len(found) == 72_000 and all(each.access is who.Access.RULES for each in found)


@pytest.mark.parametrize("living, asked", [(4_079, True), (4_080, False), (4_095, False)])
def test_children_are_made_where_numbers_are_left(tmp_path: pathlib.Path, living: int, asked: bool) -> None:
    files = "".join(f'file /f{number} 0755 0 0 a ""\n' for number in range(40))
    path = write(tmp_path / "world", files, USER * living)
    due = "yes" if asked else "not asked"
    assert cells(path, "/f*", "--process", "7@a") == [[f"/f{number}", "7@a", "yes", "dac_write", due] for number in range(40)]


def test_a_world_that_fills_the_input_is_not_asked(tmp_path: pathlib.Path) -> None:
    text = HEAD + 'file /f 0644 0 0 a ""\n' + USER + "script\n"
    comment = "#" + "x" * 2_000 + "\n"
    count, rest = divmod(MAX_INPUT - len(text) - 40, len(comment))
    path = tmp_path / "world"
    path.write_text(comment * count + "#" + "x" * rest + "\n" + text, encoding="ascii")
    assert cells(path, "/f") == [["/f", "1@a", "not asked", "not asked", "not asked"]]


def test_paths_that_are_too_long_to_be_asked(tmp_path: pathlib.Path) -> None:
    names = [f"/{'x' * 63}"] * 15 + [f"/{'x' * 59}"]
    lines = [f"dir {''.join(names[:count])} 0755 0 0 a\n" for count in range(1, 17)]
    deep = [f"dir {'/d' * count} 0755 0 0 a\n" for count in range(1, 33)]
    path = write(tmp_path / "world", *lines, *deep, USER)
    assert cells(path, "".join(names), "/d" * 31, "/d" * 32) == [
        ["".join(names), "1@a", "not asked", "yes", "not asked"], ["/d" * 31, "1@a", "dac_write", "yes", "yes"],
        ["/d" * 32, "1@a", "not asked", "yes", "not asked"]]


def test_answers_of_a_pair_stay_together(monkeypatch: pytest.MonkeyPatch, tmp_path: pathlib.Path) -> None:
    monkeypatch.setattr(who, "PLAY_BYTES", 120)
    path = write(tmp_path / "world", 'file /f 0644 0 0 a ""\n', "fifo /g 0600 0 0 a\n", USER * 3)
    small, player = cells(path), Player([find_program()])
    world = read_world(path.read_bytes())
    batches = list(who.batches_of(world, world.processes, world.objects))
    assert len(batches) > 3 and all(len(batch.asked) >= 1 for batch in batches)
    monkeypatch.undo()
    assert cells(path) == small and len(list(who.ask(world, world.processes, world.objects, player))) == 24
