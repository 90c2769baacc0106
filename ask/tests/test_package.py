"""The package: it is installed with all its files, has the version of the repository, and hides no module of Python."""
import ast
import importlib.util
import shutil
import subprocess
import sys

import pytest
from support import HERE, TOP, labask

SOURCES = HERE.parent / "src" / "labask"
MODULES = sorted(SOURCES.rglob("*.py"))
knows_its_modules = pytest.mark.skipif(sys.version_info < (3, 10), reason="Python before 3.10 does not tell the names of its modules")


@knows_its_modules
def test_no_module_of_python_is_hidden():
    """No file has the name of a module of the standard library."""
    assert not {path.stem for path in MODULES} & sys.stdlib_module_names


@knows_its_modules
@pytest.mark.parametrize("path", MODULES, ids=lambda path: str(path.relative_to(SOURCES)))
def test_standard_library_alone(path):
    """Only modules of Python are imported, and `rich`, which need not be there; `dask` and `distributed` at most in functions."""
    tree = ast.parse(path.read_text(encoding="utf-8"))
    found = {name.name for node in ast.walk(tree) if isinstance(node, ast.Import) for name in node.names}
    found |= {node.module for node in ast.walk(tree) if isinstance(node, ast.ImportFrom) and not node.level}
    assert {name.partition(".")[0] for name in found} <= {*sys.stdlib_module_names, "labask", "rich", "dask", "distributed"}


@pytest.mark.parametrize("package", ["rich", "dask", "distributed"])
def test_other_packages_are_imported_where_they_are_used(package):
    """The module of no question imports a package that need not be there."""
    told = "import importlib, sys; from labask import main, cluster\n"
    told += "for each in main.QUESTIONS.values(): importlib.import_module('labask.' + each.module)\n"
    done = subprocess.run([sys.executable, "-c", f"{told}sys.exit({package!r} in sys.modules)"], env={"PYTHONPATH": str(SOURCES.parent)},
                          check=False)
    assert done.returncode == 0


@pytest.mark.parametrize("words", [("--version",), ("--labsys", "/none", "--version")], ids=str)
def test_version(words):
    """The version is that of the repository, and needs no program."""
    _, version, *_ = (TOP / "docs" / "version.txt").read_text(encoding="ascii").split()
    assert labask(*words) == (0, f"labask {version}\n", "")


@pytest.fixture(scope="module")
def installed(tmp_path_factory):
    """A folder in which pip has installed the package, with what is there already: no network is asked."""
    if not all(map(importlib.util.find_spec, ("pip", "setuptools", "wheel"))):
        pytest.skip("pip, setuptools or wheel is not there")
    folder = tmp_path_factory.mktemp("package")
    shutil.copytree(SOURCES.parent, folder / "from" / "src", ignore=shutil.ignore_patterns("__pycache__"))
    shutil.copy(HERE.parent / "pyproject.toml", folder / "from")
    subprocess.run([sys.executable, "-m", "pip", "install", "--quiet", "--no-deps", "--no-build-isolation", "--no-index",
                    "--target", str(folder / "to"), str(folder / "from")], check=True)
    return folder / "to"


def test_every_file_is_installed(installed):
    due = {path.relative_to(SOURCES) for path in SOURCES.rglob("*") if path.is_file() and path.suffix != ".pyc"}
    there = {path.relative_to(installed / "labask") for path in (installed / "labask").rglob("*") if path.is_file()}
    assert {path for path in there if path.suffix != ".pyc"} == due


def test_installed_command(installed):
    """The command that pip makes answers."""
    done = subprocess.run([str(installed / "bin" / "labask"), "--version"], stdout=subprocess.PIPE, check=True,
                          env={"PYTHONPATH": str(installed)})
    assert done.stdout.decode() == labask("--version")[1]
