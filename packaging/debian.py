"""The package for Debian: what `make install` installs, with documents and examples."""
import gzip
import os
import pathlib
import re
import shutil
import subprocess
import tempfile
from email.utils import formatdate
from typing import Iterator

from archive import version
from origin import PROGRAM, TOP

MAINTAINER = "Zendovaly maintainers <maintainers@users.noreply.zendovaly.example>"
FOLDERS = {"PREFIX": "/usr", "askdir": "/usr/libexec/labask", "zshdir": "/usr/share/zsh/vendor-completions"}
CONTROL = """\
Package: labsys
Version: {version}
Architecture: amd64
Maintainer: {maintainer}
Installed-Size: {size}
Depends: libc6 (>= {libc})
Recommends: python3 (>= 3.9)
Suggests: python3-rich, python3-distributed
Section: science
Priority: optional
Description: simulated kernel with proved answers
 labsys plays the system calls of a profile of the withdrawn drafts IEEE
 P1003.1e and P1003.2c: root's power split into capabilities, mandatory labels
 on processes and files, and an audit trail. labask, which needs Python,
 answers questions about a world by playing it.
"""
CHANGELOG = "labsys ({version}) unstable; urgency=medium\n\n  * See CHANGELOG.md.\n\n -- {maintainer}  {date}\n"


def needed_libc() -> str:
    """The oldest version of the C library that has all functions of the program."""
    versions = re.findall(rb"GLIBC_(\d+)\.(\d+)", PROGRAM.read_bytes())
    return ".".join(map(str, max(tuple(map(int, each)) for each in versions)))


def compress(path: pathlib.Path) -> None:
    """Puts a file in place of another, with its text compressed."""
    path.with_name(f"{path.name}.gz").write_bytes(gzip.compress(path.read_bytes(), 9, mtime=0))
    path.unlink()


def add_documents(folder: pathlib.Path, origin: str, time: int) -> None:
    """Puts the documents into a folder, and what Debian wants to be there."""
    folder.mkdir(parents=True)
    for name in ("README.md", "CHANGELOG.md"):
        shutil.copy(TOP / name, folder)
    shutil.copy(TOP / "LICENSE", folder / "copyright")
    (folder / "ORIGIN").write_text(origin, encoding="utf-8")
    changelog = folder / "changelog"
    changelog.write_text(CHANGELOG.format(version=version(), maintainer=MAINTAINER, date=formatdate(time)), encoding="utf-8")
    compress(changelog)
    shutil.copytree(TOP / "docs", folder / "docs", ignore=shutil.ignore_patterns("*.1"))
    shutil.copytree(TOP / "examples", folder / "examples")


def everything(folder: pathlib.Path) -> Iterator[pathlib.Path]:
    """A folder and all that is below it."""
    yield folder
    yield from folder.rglob("*")


def level(folder: pathlib.Path, time: int) -> int:
    """Gives all that is below a folder one time and the usual modes. Returns its size, in KiB."""
    paths = list(everything(folder))
    for path in paths:
        if not path.is_symlink():
            path.chmod(0o755 if path.is_dir() or os.access(path, os.X_OK) else 0o644)
        os.utime(path, (time, time), follow_symlinks=False)
    return sum(-(-path.lstat().st_size // 1024) for path in paths)


def write_package(path: pathlib.Path, origin: str, time: int) -> None:
    """Writes the package by `dpkg-deb`."""
    with tempfile.TemporaryDirectory() as room:
        stage = pathlib.Path(room) / "stage"
        words = [f"{name}={value}" for name, value in {**FOLDERS, "DESTDIR": str(stage)}.items()]
        subprocess.run(["make", "-s", "-C", str(TOP), *words, "install"], check=True)
        for page in (stage / "usr/share/man").glob("*/*"):
            compress(page)
        add_documents(stage / "usr/share/doc/labsys", origin, time)
        size = level(stage, time)
        (stage / "DEBIAN").mkdir()
        control = CONTROL.format(version=version(), maintainer=MAINTAINER, size=size, libc=needed_libc())
        (stage / "DEBIAN" / "control").write_text(control, encoding="utf-8")
        level(stage / "DEBIAN", time)
        subprocess.run(["dpkg-deb", "--root-owner-group", "-Zxz", "--build", str(stage), str(path)], check=True,
                       stdout=subprocess.DEVNULL, env={**os.environ, "SOURCE_DATE_EPOCH": str(time)})
