"""`make install`: what it puts below a folder works, also where the folder moves, and `make uninstall` removes it."""
import os
import pathlib
import shutil
import subprocess

import pytest
from support import HERE, LABASK, TOP

SOURCES = HERE.parent / "src" / "labask"
EXAMPLE = TOP / "examples" / "read_by_capability.txt"
COPIED = ("Makefile", "docs", "examples", "completion", "editor", "ask")
PLAIN = {"PATH": "/usr/bin:/bin", "LC_ALL": "C"}
pytestmark = pytest.mark.skipif(shutil.which("make") is None, reason="there is no make")


def make(checkout, root, target):
    """Makes a target of the Makefile for a folder that stands for the root."""
    subprocess.run(["make", "-s", "-C", str(checkout), f"DESTDIR={root}", "PREFIX=/usr", target], check=True, env=PLAIN)


@pytest.fixture(scope="module")
def checkout(tmp_path_factory, program):
    """A copy of the checkout with the program in its place, and a script that starts it and builds nothing."""
    folder = tmp_path_factory.mktemp("checkout")
    for name in COPIED:
        (shutil.copytree if (TOP / name).is_dir() else shutil.copy2)(TOP / name, folder / name)
    built = folder / "crates" / "labsys" / "out" / "labsys"
    built.parent.mkdir(parents=True)
    shutil.copy2(program, built)
    (folder / "labsys").write_text(f'#!/bin/sh\nexec "{built}" "$@"\n')
    (folder / "labsys").chmod(0o755)
    return folder


@pytest.fixture(scope="module")
def moved(checkout, tmp_path_factory):
    """The root of an installation that was moved after it was made, and whose checkout is away."""
    root = tmp_path_factory.mktemp("roots") / "root"
    make(checkout, root, "install")
    return root.rename(root.with_name("moved"))


def files_below(folder):
    """The paths of all files below a folder."""
    return {str(path.relative_to(folder)) for path in folder.rglob("*") if not path.is_dir() and path.suffix != ".pyc"}


def test_every_module_is_installed(moved):
    there = files_below(moved / "usr" / "libexec" / "ask" / "src" / "labask")
    assert there == files_below(SOURCES) - {"py.typed"}


def answered(command, question, environment):
    """The exit status of a question about the example, and all that it writes."""
    done = subprocess.run([str(command), question, str(EXAMPLE)], env={**PLAIN, **environment}, stdin=subprocess.DEVNULL,
                          stdout=subprocess.PIPE, stderr=subprocess.STDOUT, check=False)
    return done.returncode, done.stdout


@pytest.mark.parametrize("question", ("check", "why", "page"))
def test_answers(question, moved, program):
    """An answer is that of the checkout, with the program that is installed beside it."""
    assert answered(moved / "usr" / "bin" / "labask", question, {}) == answered(LABASK, question, {"LABSYS": program})


def test_link_is_relative(moved):
    assert os.readlink(moved / "usr" / "bin" / "labask") == "../libexec/ask/labask"


def test_no_old_modules_stay(checkout, tmp_path):
    """A module of an older version goes away."""
    make(checkout, tmp_path, "install")
    old = tmp_path / "usr" / "libexec" / "ask" / "src" / "labask" / "of_an_older_version.py"
    old.write_text("")
    make(checkout, tmp_path, "install")
    assert not old.exists()


@pytest.mark.parametrize("name", ("labsys", "labask"))
def test_manuals_and_completions(name, moved):
    share = moved / "usr" / "share"
    pairs = {f"man/man1/{name}.1": f"docs/{name}.1", f"bash-completion/completions/{name}": f"completion/{name}.bash",
             f"zsh/site-functions/_{name}": f"completion/_{name}"}
    for installed, source in pairs.items():
        assert (share / installed).read_bytes() == (TOP / source).read_bytes(), installed


@pytest.mark.skipif(shutil.which("bash") is None, reason="there is no bash")
def test_installed_completion(moved):
    """The completion knows the questions."""
    script = moved / "usr" / "share" / "bash-completion" / "completions" / "labask"
    line = 'source "$1"; COMP_WORDS=(labask wh); COMP_CWORD=1; _labask; printf "%s " "${COMPREPLY[@]}"'
    done = subprocess.run(["bash", "-c", line, "bash", str(script)], stdout=subprocess.PIPE, check=True, env=PLAIN)
    assert set(done.stdout.decode().split()) == {"who", "why"}


def test_uninstalled(checkout, tmp_path: pathlib.Path):
    make(checkout, tmp_path, "install")
    make(checkout, tmp_path, "uninstall")
    assert not files_below(tmp_path)
