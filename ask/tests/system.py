"""What the tests of trees and traces share: programs that are run, trees that are made, and strace."""
import os
import pathlib
import shutil
import subprocess
import sys
from typing import List, Optional, Tuple

from support import LABASK

USER = 1000
PLAIN = {"PATH": "/usr/local/bin:/usr/bin:/bin:/usr/sbin:/sbin", "LC_ALL": "C", "HOME": "/"}


def program() -> str:
    """The program `labsys`."""
    return os.environ["LABSYS"]


def labask(*words: "str | os.PathLike[str]", given: bytes = b"", status: Optional[int] = 0) -> Tuple[bytes, str]:
    """The output and the messages of `labask`, which is to end with this status; with None it is to answer yes or no."""
    done = subprocess.run([sys.executable, str(LABASK), *map(os.fspath, words)], input=given, stdout=subprocess.PIPE,
                          stderr=subprocess.PIPE, check=False)
    said = done.stderr.decode()
    assert done.returncode == status or status is None and done.returncode in (0, 3), f"labask {' '.join(map(str, words))}: status {done.returncode}, not {status}: {said}"
    return done.stdout, said


def play(text: bytes) -> List[bytes]:
    """The lines that `labsys play` writes for a text that it accepts."""
    done = subprocess.run([program(), "play", os.devnull], input=text, stdout=subprocess.PIPE, check=False)
    assert done.returncode == 0, f"labsys play: status {done.returncode}: {done.stdout.splitlines()[-1:]!r}"
    return done.stdout.split(b"\n")[:-1]


def root() -> bool:
    """Whether this test may change owners and capabilities."""
    return os.geteuid() == 0


def strace() -> Optional[str]:
    """The path of strace where it can trace here, and else None."""
    found = shutil.which("strace")
    if found is None:
        return None
    tried = subprocess.run([found, "-f", "-o", os.devnull, "true"], stderr=subprocess.DEVNULL, check=False)
    return found if tried.returncode == 0 else None


def as_user() -> None:
    """What a child does before its program where this test is root: it becomes a user without privilege."""
    if root():
        os.setgroups([USER])
        os.setgid(USER)
        os.setuid(USER)
    os.umask(0o022)


def give(tree: pathlib.Path) -> None:
    """Gives a tree to the user without privilege, where this test is root."""
    if root():
        os.chown(tree, USER, USER)
        for folder, names, files in os.walk(tree):
            for name in names + files:
                os.lchown(os.path.join(folder, name), USER, USER)


def own_ids() -> Tuple[int, int, str]:
    """The user, the group and the groups that `as_user` leaves."""
    return (USER, USER, str(USER)) if root() else (os.getuid(), os.getgid(), ",".join(map(str, os.getgroups()[:16])) or "-")
