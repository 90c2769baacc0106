"""Fixtures of all tests of `labask`, and the settings of Hypothesis: each run makes the same worlds."""
import os
import pathlib
import signal
import sys
import tempfile
from typing import Iterator, Optional

import pytest
from hypothesis import HealthCheck, settings

from labask.playing import Player

sys.dont_write_bytecode = True
# what runs in the background of a shell ignores Ctrl-C, and so would each labask that a test starts
signal.signal(signal.SIGINT, signal.default_int_handler)

settings.register_profile("same", derandomize=True, database=None, deadline=None, print_blob=False,
                          suppress_health_check=[HealthCheck.too_slow, HealthCheck.filter_too_much, HealthCheck.data_too_large])
settings.load_profile("same")


def pytest_addoption(parser: pytest.Parser) -> None:
    """Adds the options by which expected files and logs are written anew."""
    parser.addoption("--write", action="store_true", help="write what is expected of answers and pages anew")
    parser.addoption("--record", action="store_true", help="record the logs of strace anew")


def built_program() -> Optional[str]:
    """The program that the variable LABSYS names, where it is there. The script `labsys` of the repository would build one."""
    named = os.environ.get("LABSYS", "")
    return os.path.abspath(named) if os.access(named, os.X_OK) else None


@pytest.fixture(scope="session")
def program() -> Iterator[str]:
    """The path of `labsys`."""
    found = built_program()
    if found is None:
        pytest.skip("the variable LABSYS names no program labsys")
    with pytest.MonkeyPatch.context() as patch:
        patch.setenv("LABSYS", found)
        yield found


@pytest.fixture(scope="session")
def player(program: str) -> Player:
    """A player of `labsys`."""
    return Player([program])


@pytest.fixture
def open_folder() -> Iterator[pathlib.Path]:
    """A new folder that every user may enter; that of the fixture `tmp_path` is closed to others."""
    with tempfile.TemporaryDirectory(prefix="labask-") as name:
        folder = pathlib.Path(name)
        folder.chmod(0o755)
        yield folder


@pytest.fixture(scope="session")
def write(request: pytest.FixtureRequest) -> bool:
    """Whether what is expected is written anew."""
    return bool(request.config.getoption("--write"))
