"""Where a program comes from: the sources that the gate has passed on, the program that it built, and the kit that it built it with."""
import hashlib
import os
import pathlib
import shutil
import subprocess
from dataclasses import asdict, dataclass
from typing import Iterator, List

TOP = pathlib.Path(__file__).resolve().parent.parent
PROGRAM = TOP / "crates" / "labsys" / "out" / "labsys"
MARK = PROGRAM.with_suffix(".built")  # has the time at which the build of the program began
NOTE = PROGRAM.with_suffix(".gate")  # what the gate noted when it had passed
NONE = "none"  # in place of a commit and a tree, where the sources are no checkout of git
TOOLS = ("bin/rattle", "bin/rattle-link", "toolchain/bin/clang")


class Refused(Exception):
    """Why the program is not packed."""


@dataclass(frozen=True)
class Origin:
    """What the gate noted: each value is one line. Of tools, of the program and of the tree of sources it is a checksum."""
    tree: str
    program: str
    kit: str
    rattle: str
    rattle_link: str
    clang: str


def checksum(path: pathlib.Path) -> str:
    """The SHA-256 of a file, in hexadecimal digits."""
    digest = hashlib.sha256()
    with path.open("rb") as file:
        for chunk in iter(lambda: file.read(1 << 20), b""):
            digest.update(chunk)
    return digest.hexdigest()


def git(*words: str) -> str:
    """What git answers at the top, without its line end; nothing where it fails or is not there."""
    try:
        done = subprocess.run(["git", "-C", str(TOP), *words], stdout=subprocess.PIPE, stderr=subprocess.DEVNULL, text=True, check=False)
    except FileNotFoundError:
        return ""
    return done.stdout.strip() if done.returncode == 0 else ""


def is_checkout() -> bool:
    """Whether the top is that of a checkout, and not merely below one."""
    found = git("rev-parse", "--show-toplevel")
    return bool(found) and os.path.samefile(found, TOP)


def commit() -> str:
    """The commit of the checkout."""
    return git("rev-parse", "HEAD") if is_checkout() else NONE


def tree() -> str:
    """The name that git gives to the files of the commit: other files have another name."""
    return git("rev-parse", "HEAD^{tree}") if is_checkout() else NONE


def commit_time() -> int:
    """The time of the commit, in seconds of the epoch."""
    return int(git("log", "-1", "--format=%ct")) if is_checkout() else 0


def changes() -> List[str]:
    """The files that are not as in the commit, or not in it."""
    return git("status", "--porcelain").splitlines() if is_checkout() else []


def newer_sources() -> Iterator[pathlib.Path]:
    """The sources of the program that changed after its build began."""
    begun = MARK.stat().st_mtime
    sources = [TOP / "crates.txt", *(path for part in ("src", "specs", "proofs") for path in TOP.glob(f"crates/*/{part}/**/*"))]
    return (path for path in sources if path.stat().st_mtime > begun)


def kit_folder() -> pathlib.Path:
    """The folder of the kit: that of `rt` on PATH, or the one that RATTLE_KIT names."""
    found = shutil.which("rt", path=os.pathsep.join([f"{os.environ.get('RATTLE_KIT', '')}/bin", os.environ.get("PATH", "")]))
    if found is None:
        raise Refused("there is no rt, whose kit would have to be named")
    return pathlib.Path(found).resolve().parent.parent


def make_origin() -> Origin:
    """What there is to note of the program and the sources as they are now."""
    kit = kit_folder()
    named = subprocess.run([kit / "bin" / "rt", "version"], stdout=subprocess.PIPE, text=True, check=True).stdout.strip()
    return Origin(tree(), checksum(PROGRAM), named, *(checksum(kit / tool) for tool in TOOLS))


def write_note() -> None:
    """Notes that the gate has passed. Of sources that are in no commit nothing is noted, so that they can't be packed."""
    NOTE.unlink(missing_ok=True)
    if changes():
        raise Refused("these sources are not those of a commit, so the gate notes nothing for a release")
    lines = (f"{name} {value}\n" for name, value in asdict(make_origin()).items())
    NOTE.write_text("".join(lines), encoding="utf-8")


def read_note() -> Origin:
    """What the gate noted of the program; raises `Refused` where it noted nothing, or where the program or the sources are others."""
    if not (NOTE.exists() and MARK.exists() and PROGRAM.exists()):
        raise Refused("the gate has not passed here: run .ci/run first")
    noted = Origin(**dict(line.split(" ", 1) for line in NOTE.read_text(encoding="utf-8").splitlines()))
    if changes():
        raise Refused(f"{changes()[0].split()[-1]} is not as in the commit")
    if noted.tree != tree():
        raise Refused("the gate has passed on other sources than those of this commit")
    if noted.program != checksum(PROGRAM):
        raise Refused(f"{PROGRAM.relative_to(TOP)} is not the program that the gate has built")
    for path in newer_sources():
        raise Refused(f"{path.relative_to(TOP)} has changed since the gate has built the program")
    return noted
