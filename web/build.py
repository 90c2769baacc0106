#!/usr/bin/env python3
"""Makes the page that plays: one file of HTML with the program as WebAssembly, which needs no server and no other file.

    build.py MODULE.bc PAGE.html [--toolchain FOLDER]

MODULE.bc is bitcode of the program: the file that `rt try` gives to the clang of its toolchain for a moment. It is not proved, and that of
the proved program cannot be compiled for this target (docs/DECISIONS.md, "A release"). FOLDER is the toolchain, by default the one of the kit whose `rt` is on PATH. It takes some minutes of a processor.
"""
import argparse
import base64
import html
import json
import pathlib
import shutil
import string
import subprocess
import sys
import tempfile
from typing import Iterator

HERE = pathlib.Path(__file__).resolve().parent
TOP = HERE.parent
TARGET = "--target=wasm64-unknown-unknown"
FIRST = "read_by_capability"
STACK = 4 << 20  # bytes


def toolchain() -> pathlib.Path:
    """The toolchain of the kit."""
    found = shutil.which("rt")
    if found is None:
        sys.exit("build.py: there is no rt on PATH; name the toolchain of its kit by --toolchain")
    return pathlib.Path(found).resolve().parent.parent / "toolchain"


def run(*words: object) -> None:
    """Runs a command, whose messages are shown where it fails."""
    done = subprocess.run([str(word) for word in words], stdout=subprocess.PIPE, stderr=subprocess.STDOUT, text=True, check=False)
    if done.returncode:
        sys.exit(f"build.py: {words[0]} failed\n{done.stdout}")


def module_of(bitcode: pathlib.Path, tools: pathlib.Path, room: pathlib.Path) -> bytes:
    """The module of WebAssembly that the toolchain makes of bitcode and of what stands for the C library."""
    clang, linker = tools / "bin" / "clang", room / "wasm-ld"
    linker.symlink_to(clang)  # by this name it is the linker
    run(clang, TARGET, "-O1", "-c", "-x", "ir", bitcode, "-o", room / "program.o")
    run(clang, TARGET, "-O2", "-ffreestanding", "-fno-builtin", "-c", HERE / "libc.c", "-o", room / "libc.o")
    run(linker, "-mwasm64", "--no-entry", "--gc-sections", "--strip-all", "--stack-first", "-z", f"stack-size={STACK}",
        room / "program.o", room / "libc.o", "-o", room / "labsys.wasm")
    return (room / "labsys.wasm").read_bytes()


def examples() -> Iterator[pathlib.Path]:
    """The worlds of the examples that are text."""
    yield from sorted((TOP / "examples").glob("*.txt")) + sorted((TOP / "examples" / "programs").glob("*.txt"))


def embedded(text: str) -> str:
    """A text as JSON that stands inside of an element `script`."""
    return json.dumps(text).replace("<", "\\u003c")


def page_of(module: bytes) -> str:
    """The page, with the module in it."""
    texts = {path.stem: path.read_text(encoding="utf-8") for path in examples()}
    fill = string.Template((HERE / "page.html").read_text(encoding="utf-8"))
    return fill.substitute(
        version=html.escape((TOP / "docs" / "version.txt").read_text(encoding="ascii").split(" ", 1)[1].strip()),
        options="".join(f'<option value="{name}">{name.replace("_", " ")}</option>' for name in texts),
        examples="\n".join(f'<script type="application/json" id="example-{name}">{embedded(text)}</script>' for name, text in texts.items()),
        first=html.escape(texts[FIRST]), module=base64.b64encode(module).decode("ascii"),
        script=(HERE / "page.js").read_text(encoding="utf-8"))


def main() -> None:
    """Writes the page."""
    parser = argparse.ArgumentParser(description=__doc__, formatter_class=argparse.RawDescriptionHelpFormatter)
    parser.add_argument("bitcode", metavar="MODULE.bc", type=pathlib.Path)
    parser.add_argument("page", metavar="PAGE.html", type=pathlib.Path)
    parser.add_argument("--toolchain", metavar="FOLDER", type=pathlib.Path)
    given = parser.parse_args()
    with tempfile.TemporaryDirectory() as room:
        module = module_of(given.bitcode, given.toolchain or toolchain(), pathlib.Path(room))
    given.page.write_text(page_of(module), encoding="utf-8")


if __name__ == "__main__":
    main()
