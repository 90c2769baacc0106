"""The archive of a release. It is unpacked anywhere, and its files stand to each other as in a checkout."""
import gzip
import hashlib
import io
import pathlib
import tarfile
from typing import Dict, Iterator

from origin import PROGRAM, TOP

DOCUMENTS = ("README.md", "CHANGELOG.md", "LICENSE", "docs/*.*", "examples/*.*", "examples/programs/*.*", "examples/lesson/*.*",
             "examples/lesson/answers/*.*", "completion/*", "editor/*.vim")
LABASK = ("ask/labask", "ask/src/labask/**/*.py", "ask/src/labask/*.css", "ask/src/labask/*.js", "ask/src/labask/py.typed")
EXECUTABLE = {"labsys", "ask/labask"}
SUMS = "SHA256SUMS"


def version() -> str:
    """The number of the version."""
    return (TOP / "docs" / "version.txt").read_text(encoding="ascii").split()[1]


def files_of(origin: str) -> Dict[str, bytes]:
    """The files by their names, in order, with the text about their origin and their checksums."""
    files = {"labsys": PROGRAM.read_bytes(), "ORIGIN": origin.encode("utf-8")}
    for pattern in DOCUMENTS + LABASK:
        files |= {str(path.relative_to(TOP)): path.read_bytes() for path in TOP.glob(pattern) if path.is_file()}
    return dict(sorted({**files, SUMS: sums_of(files).encode("ascii")}.items()))


def sums_of(files: Dict[str, bytes]) -> str:
    """The checksums of files, as `sha256sum` writes and reads them."""
    return "".join(f"{hashlib.sha256(data).hexdigest()}  {name}\n" for name, data in sorted(files.items()))


def entry(name: str, kind: bytes, mode: int, time: int) -> tarfile.TarInfo:
    """An entry of root's."""
    made = tarfile.TarInfo(name)
    made.type, made.mode, made.mtime, made.uname, made.gname = kind, mode, time, "root", "root"
    return made


def folders_of(files: Dict[str, bytes]) -> Iterator[str]:
    """The folders of files, each before what is in it."""
    return iter(sorted({str(folder) for name in files for folder in pathlib.PurePath(name).parents if str(folder) != "."}))


def write_archive(path: pathlib.Path, origin: str, time: int) -> None:
    """Writes the archive. All that it has of a time is `time`, and nothing in it tells where and by whom it was made."""
    top, files, made_of = path.name.removesuffix(".tar.gz"), files_of(origin), io.BytesIO()
    with tarfile.open(fileobj=made_of, mode="w", format=tarfile.USTAR_FORMAT) as archive:
        for folder in ["", *folders_of(files)]:
            archive.addfile(entry(f"{top}/{folder}".rstrip("/"), tarfile.DIRTYPE, 0o755, time))
        for name, data in files.items():
            made = entry(f"{top}/{name}", tarfile.REGTYPE, 0o755 if name in EXECUTABLE else 0o644, time)
            made.size = len(data)
            archive.addfile(made, io.BytesIO(data))
        link = entry(f"{top}/labask", tarfile.SYMTYPE, 0o777, time)
        link.linkname = "ask/labask"
        archive.addfile(link)
    path.write_bytes(gzip.compress(made_of.getvalue(), 9, mtime=0))
