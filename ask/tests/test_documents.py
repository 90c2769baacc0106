"""The commands that docs/ASK.md shows are played, and what they write compared; the form of the man page is checked.

`pytest --write` writes what is shown anew.
"""
import pathlib
import shutil
import subprocess
import tempfile

import examples
import pytest
from support import TOP

from labask import main as labask_main

PAGE = TOP / "docs" / "ASK.md"
MANUAL = TOP / "docs" / "labask.1"
FORMATTERS = {"mandoc": ["-T", "lint", "-W", "warning"], "groff": ["-mdoc", "-Tascii", "-ww", "-z"]}


def page_due(program):
    """The bytes of the page, as they should be."""
    with tempfile.TemporaryDirectory() as name:
        folder = pathlib.Path(name)
        examples.make_folder(folder, [program])
        return examples.play_page(PAGE, folder)


def test_page(program, write):
    due = page_due(program)
    if write:
        PAGE.write_bytes(due)
    assert PAGE.read_text(encoding="utf-8").splitlines() == due.decode("utf-8").splitlines()


@pytest.mark.parametrize("name", labask_main.QUESTIONS)
def test_every_question_is_described(name):
    manual = MANUAL.read_text(encoding="utf-8")
    assert f".Cm {name}\n" in manual and f".It Cm {name} " in manual
    assert f"\n## {name}\n" in PAGE.read_text(encoding="utf-8")


@pytest.mark.parametrize("name", FORMATTERS)
def test_form_of_the_manual(name):
    """Programs that format manuals report nothing."""
    if shutil.which(name) is None:
        pytest.skip(f"there is no {name}")
    command = [name, *FORMATTERS[name], str(MANUAL)]
    assert subprocess.run(command, stdout=subprocess.PIPE, stderr=subprocess.STDOUT, check=False).stdout == b""
