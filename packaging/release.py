#!/usr/bin/env python3
"""Packs the program that the gate has built: an archive that runs where it is unpacked, and a package for Debian.

    release.py note                      notes that the gate has passed, and on what: .ci/run calls it at its end
    release.py pack [--output FOLDER]    writes the release to FOLDER, by default out/ at the top

`pack` refuses a program other than the one that the gate noted, and sources other than those on which it passed. The same commit
and program give the same bytes.
"""
import argparse
import pathlib
import shutil
import sys

from archive import SUMS, sums_of, version, write_archive
from debian import write_package
from origin import TOP, Origin, Refused, commit, commit_time, read_note, write_note

ORIGIN = """\
{version}
commit       {commit}
tree         {origin.tree}
gate         .ci/run has passed on this tree: proofs, edits that must fail, tests and cases
program      {origin.program}
kit          {origin.kit}
rattle       {origin.rattle}
rattle-link  {origin.rattle_link}
clang        {origin.clang}

The program and the programs of the kit are named by their SHA-256. A commit and a tree are named as git does; they are "none" where
the release was packed outside of a checkout. The gate is the script .ci/run of the sources. It has no number: the tree on which it
passed and the kit say which run it was, and running it again on them gives the same answer.
"""


def pack(folder: pathlib.Path, origin: Origin) -> None:
    """Writes the release to a folder."""
    named = (TOP / "docs" / "version.txt").read_text(encoding="ascii").strip()
    text, time = ORIGIN.format(version=named, commit=commit(), origin=origin), commit_time()
    files = [folder / f"labsys-{version()}-x86_64-linux.tar.gz", folder / "ORIGIN"]
    folder.mkdir(parents=True, exist_ok=True)
    write_archive(files[0], text, time)
    files[1].write_text(text, encoding="utf-8")
    if shutil.which("dpkg-deb"):
        files.append(folder / f"labsys_{version()}_amd64.deb")
        write_package(files[2], text, time)
    else:
        print("release.py: no package for Debian, since there is no dpkg-deb")
    (folder / SUMS).write_text(sums_of({file.name: file.read_bytes() for file in files}), encoding="ascii")


def main() -> None:
    """Does what the command line asks for."""
    parser = argparse.ArgumentParser(description=__doc__, formatter_class=argparse.RawDescriptionHelpFormatter)
    commands = parser.add_subparsers(dest="command", required=True)
    commands.add_parser("note")
    commands.add_parser("pack").add_argument("--output", type=pathlib.Path, default=TOP / "out", metavar="FOLDER")
    given = parser.parse_args()
    try:
        if given.command == "note":
            write_note()
        else:
            pack(given.output, read_note())
    except Refused as why:
        sys.exit(f"release.py: {why}")


if __name__ == "__main__":
    main()
