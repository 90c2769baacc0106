#!/usr/bin/env python3
"""Refuses each allocation of a run in turn, and reports how the runs ended.

    bench/allocations.py [--cmd PROGRAM] [INPUT..]

An input is played once whole, and then once for each of its allocations, of which that one finds no memory. A run is as it should
be where it ends with status 6, and its output and its trail are each a prefix of the whole run's. Where the refused one is not
needed, as where a buffer would only have grown early, it may also end as the whole run does. It prints the rows of the table in
README.md, and fails where a run ends otherwise. An input is a file, or a case, of which the section `input` is taken; without
inputs it takes those of README.md. PROGRAM is the built one where none is given; the script `labsys` would run commands that
allocate themselves. It needs a C compiler, for a library that is loaded before the C library and refuses the allocation.
"""
import argparse
import os
import pathlib
import subprocess
import sys
import tempfile

TOP = pathlib.Path(__file__).resolve().parent.parent
BUILT = TOP / "crates" / "labsys" / "out" / "labsys"
INPUTS = ["examples/read_by_capability.txt", "tests/cases/utilities/day_of_logins_and_relabelling.case"]

sys.path.insert(0, str(TOP / "tests"))
from run_cases import read_case  # noqa: E402

# Counts the calls that ask for memory, and refuses the one whose number is in the environment. At the end it writes how many there were.
REFUSING = r"""
#include <errno.h>
#include <stddef.h>
#include <stdio.h>
#include <stdlib.h>

void *__libc_malloc(size_t), *__libc_calloc(size_t, size_t), *__libc_realloc(void *, size_t), *__libc_memalign(size_t, size_t);

static unsigned long made, refused;

static int refuse(void) { return ++made == refused; }

static void *none(void) { errno = ENOMEM; return NULL; }

__attribute__((constructor)) static void begin(void) {
    const char *number = getenv("REFUSED");
    made = 0;
    refused = number ? strtoul(number, NULL, 10) : 0;
}

__attribute__((destructor)) static void report(void) {
    const char *name = getenv("COUNTED");
    FILE *file = name ? fopen(name, "w") : NULL;
    unsigned long count = made;
    if (file) { fprintf(file, "%lu\n", count); fclose(file); }
}

void *malloc(size_t size) { return refuse() ? none() : __libc_malloc(size); }
void *calloc(size_t count, size_t size) { return refuse() ? none() : __libc_calloc(count, size); }
void *realloc(void *at, size_t size) { return refuse() ? none() : __libc_realloc(at, size); }
void *memalign(size_t align, size_t size) { return refuse() ? none() : __libc_memalign(align, size); }
void *aligned_alloc(size_t align, size_t size) { return refuse() ? none() : __libc_memalign(align, size); }
int posix_memalign(void **at, size_t align, size_t size) {
    if (refuse()) return ENOMEM;
    *at = __libc_memalign(align, size);
    return *at ? 0 : ENOMEM;
}
"""


def run(command, text, room, refused=0):
    """The status, the output and the trail of a run, and how many allocations it made."""
    trail, count = room / "trail", room / "count"
    trail.unlink(missing_ok=True)
    environment = dict(os.environ, LD_PRELOAD=str(room / "refusing.so"), REFUSED=str(refused), COUNTED=str(count))
    done = subprocess.run([command, "play", str(trail)], input=text, capture_output=True, env=environment)
    return done.returncode, done.stdout, trail.read_bytes() if trail.exists() else b"", int(count.read_text())


def tried(command, text, room):
    """How many allocations a whole run makes, how many refused ones end in status 6, and the numbers of those that do not end as they should."""
    status, out, records, count = run(command, text, room)
    if status != 0:
        sys.exit(f"the whole run ends with status {status}")
    ended, wrong = 0, []
    for number in range(1, count + 1):
        left = run(command, text, room, number)
        if left[0] == 6 and out.startswith(left[1]) and records.startswith(left[2]):
            ended += 1
        elif left[:3] != (status, out, records):
            wrong.append(number)
    return count, ended, wrong


def text_of(path):
    """The bytes of an input, also of one that stands in a case."""
    return read_case(path)["input"] if path.suffix == ".case" else path.read_bytes()


def main():
    arguments = argparse.ArgumentParser(description=__doc__, formatter_class=argparse.RawDescriptionHelpFormatter)
    arguments.add_argument("--cmd", default=BUILT, help="the program; without it, that of the checkout", metavar="PROGRAM")
    arguments.add_argument("inputs", nargs="*", type=pathlib.Path, default=[TOP / name for name in INPUTS], metavar="INPUT")
    given = arguments.parse_args()
    if not os.access(given.cmd, os.X_OK):
        sys.exit(f"there is no program {given.cmd}: `make` builds that of the checkout")
    is_well = True
    print("| Input | Allocations | End with status 6 | Can do without |\n|---|---|---|---|")
    with tempfile.TemporaryDirectory() as name:
        room = pathlib.Path(name)
        (room / "refusing.c").write_text(REFUSING)
        subprocess.run(["cc", "-shared", "-fPIC", "-O1", "-o", room / "refusing.so", room / "refusing.c"], check=True)
        for path in given.inputs:
            count, ended, wrong = tried(given.cmd, text_of(path), room)
            print(f"| `{path.name}` | {count} | {ended} | {count - ended - len(wrong)} |", flush=True)
            if wrong:
                is_well = False
                print(f"{path.name}: {len(wrong)} runs end otherwise, as where these allocations are refused: {wrong[:10]}", file=sys.stderr)
    sys.exit(0 if is_well else 1)


if __name__ == "__main__":
    main()
