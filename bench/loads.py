#!/usr/bin/env python3
"""Writes loads of further kinds, always the same bytes.

    bench/loads.py FOLDER [--old] [NAME..]

A load is a file FOLDER/NAME.in of at most 16 MiB, a world and its script; with --old it is of the old format of worlds. The kinds:
`worlds` (400,000 files), `labels` (as many labels as objects and processes), `relabelled` (a file of 1,000 names that gets labels again
and again), `spread` (the same with the names in 1,000 directories), `relinked` (these names, removed and made again), `descending`
(names made in descending order), `deep` (paths of 32 names), `copies` (forks of processes with 32 descriptors and 16 groups),
`descriptors`, `pipes`, `mixed` (calls of all sorts) and `crowd` (4,095 processes of each of four labels).
"""
import argparse
import pathlib
import random

LIMIT = 16_777_216
CALLER = ['proc unc 10 10 - "="']


def head(levels="unc conf sec", cats="a b"):
    """The head of a world and its root."""
    return [f"levels {levels}", f"categories {cats}".rstrip(), "bound all", f"dir / 0777 0 0 {levels.split()[0]}"]


def lists_of_names(count, length):
    """Lists of `length` names out of `count`, each once, in one order."""
    names = [f"c{n:02d}" for n in range(count)]
    order = random.Random(length)
    seen = set()
    while True:
        chosen = tuple(sorted(order.sample(names, length)))
        if chosen not in seen:
            seen.add(chosen)
            yield ",".join(chosen)


def worlds():
    """400,000 files of twelve labels in 64 directories."""
    labels = [level + cats for level in ("unc", "conf", "sec") for cats in ("", ":a", ":b", ":a,b")]
    dirs = [f"dir /d{n:02d} 0777 0 0 unc" for n in range(64)]
    files = [f'file /d{n % 64:02d}/f{n:06d} 0644 10 10 {labels[n % 12]} ""' for n in range(380_000)]
    return head() + dirs + files + CALLER, ["1@unc mac_get_file /d00/f000000"]


def labels():
    """Objects and processes of a label each, and a call for each process."""
    cats = lists_of_names(64, 4)
    own = [next(cats) for _ in range(120_000)]
    files = [f'file /f{n:06d} 0644 10 10 l0:{own[n]} ""' for n in range(100_000)]
    procs = [f'proc l0:{own[n]} 10 10 - "="' for n in range(100_000, 120_000)]
    calls = [f"1@l0:{own[n]} open /f{n - 100_000:06d} rwc 0644" for n in range(100_000, 120_000)]
    return head("l0", " ".join(f"c{n:02d}" for n in range(64))) + files + procs, calls


def relabelled():
    """A file with 1,000 names that gets one label and the other."""
    links = [f"1@unc link /f /n{n:04d}" for n in range(1_000)]
    pairs = ["1@unc mac_set_file /f conf", "1@unc mac_set_file /f unc"] * 150_000
    world = head() + ['file /f 0644 10 10 unc ""', 'proc unc 10 10 - "all=ep"']
    return world, links + pairs


def linked():
    """A world of a file and 1,000 directories, and the calls that give the file a name in each of these."""
    dirs = [f"dir /d{n:04d} 0777 10 10 unc" for n in range(1_000)]
    links = [f"1@unc link /f /d{n:04d}/f" for n in range(1_000)]
    return head() + dirs + ['file /f 0644 10 10 unc ""', 'proc unc 10 10 - "all=ep"'], links


def spread():
    """A file with a name in each of 1,000 directories that gets one label and the other, and is looked at in between."""
    world, links = linked()
    return world, links + ["1@unc mac_set_file /f conf", "1@unc stat /f", "1@unc mac_set_file /f unc", "1@unc stat /f"] * 20_000


def relinked():
    """The same file, which loses its name in one directory after the other and gets it again."""
    world, links = linked()
    order = random.Random(1).choices(range(1_000), k=150_000)
    return world, links + [line for n in order for line in (f"1@unc unlink /d{n:04d}/f", f"1@unc link /f /d{n:04d}/f")]


def descending():
    """Names that come in descending order into one directory, 1,000 of each file."""
    numbers = range(330_000, 0, -1)
    made = [f"1@unc open n{n:06d} wc 0644" if n % 1_000 == 0 else f"1@unc link n{n // 1_000 * 1_000 + 1_000:06d} n{n:06d}" for n in numbers]
    return head() + ["dir /d 0777 10 10 unc", *CALLER], ["1@unc chdir /d"] + [line for n, line in zip(numbers, made) for line in ([line, "1@unc close 0"] if n % 1_000 == 0 else [line])]


def deep():
    """Calls on paths of 32 names, in 24 chains of directories."""
    chains = [[f"n{chain:02d}-{i:02d}" for i in range(31)] for chain in range(24)]
    dirs = ["dir /" + "/".join(names[:depth]) + " 0755 10 10 unc" for names in chains for depth in range(1, 32)]
    return head() + dirs + CALLER, ["1@unc stat /" + "/".join(chains[n % 24]) + "/absent" for n in range(90_000)]


def copies():
    """Processes with 32 descriptors and 16 groups that fork, and whose children end."""
    world = head() + ['file /f 0644 10 10 unc ""', f'proc unc 10 10 {",".join(str(n) for n in range(16))} "="']
    opened = ["1@unc open /f r"] * 32
    return world, opened + [f"{n}@unc fork" for n in range(1, 4_090)]


def descriptors():
    """A file of a thousand in turn is opened, written, read and closed."""
    files = [f'file /d/f{n:04d} 0644 10 10 unc ""' for n in range(1_000)]
    inner = ['1@unc write 0 "x"', "1@unc lseek 0 set 0", "1@unc read 0 1"] * 3
    return head() + ["dir /d 0777 10 10 unc", *files, *CALLER], [line for n in range(65_000) for line in (f"1@unc open /d/f{n % 1_000:04d} rw", *inner, "1@unc close 0")]


def pipes():
    """Writes of a byte to a pipe, each read again."""
    return head() + CALLER, ["1@unc pipe"] + ['1@unc write 1 "x"', "1@unc read 0 1"] * 450_000


def mixed():
    """Calls of all sorts by 64 processes of four labels, chosen at random."""
    order = random.Random(7)
    names = [f"/d{d}/n{n:03d}" for d in range(8) for n in range(128)]
    world = head() + [f"dir /d{d} 0777 10 10 unc" for d in range(8)] + ['proc unc 10 10 - "all=ep"', 'proc conf 10 10 - "="', 'proc sec:a 10 10 - "="', 'proc unc 11 11 10 "="'] * 16
    tags = [f"{n}@unc" for n in range(1, 33)] + [f"{n}@conf" for n in range(1, 17)] + [f"{n}@sec:a" for n in range(1, 17)]
    forms = ["stat {}", "open {} rwc 0644", "close 0", "close 1", 'write 0 "sixteen bytes ..."', "read 0 16", "lseek 0 set 0", "mkdir {} 0755", "unlink {}", "rmdir {}", "link {} {}"]
    forms += ["rename {} {}", "chmod {} 0640", "chown {} 10 10", "mac_get_file {}", "cap_get_file {}", "mac_get_proc", "getpid", "getids", "cap_get_proc", "umask 0022", "readdir /d0/n000"]
    calls = [f"{order.choice(tags)} {order.choice(forms).format(order.choice(names), order.choice(names))}" for _ in range(500_000)]
    return world, calls


def crowd():
    """4,095 processes of each of four labels, which all ask for their numbers."""
    tags = ("unc", "unc:a", "unc:b", "conf")
    procs = [f'proc {tag} 10 10 - "="' for tag in tags for _ in range(4_095)]
    return head() + procs, [f"{n % 4_095 + 1}@{tags[n % 4]} getpid" for n in range(700_000)]


KINDS = [worlds, labels, relabelled, spread, relinked, descending, deep, copies, descriptors, pipes, mixed, crowd]


def text_of(world, calls, is_old):
    """The text of a load, up to the limit of an input."""
    lines = [f"world {1 if is_old else 2}", *world, "script", *calls]
    size = 0
    kept = []
    for line in lines:
        size += len(line) + 1
        if size > LIMIT:
            break
        kept.append(line)
    return "".join(f"{line}\n" for line in kept)


def main():
    names = [kind.__name__ for kind in KINDS]
    arguments = argparse.ArgumentParser(description=__doc__, formatter_class=argparse.RawDescriptionHelpFormatter)
    arguments.add_argument("folder", type=pathlib.Path, metavar="FOLDER")
    arguments.add_argument("--old", action="store_true", help="in the old format of worlds")
    arguments.add_argument("names", nargs="*", choices=[[], *names], metavar="NAME", help=", ".join(names))
    given = arguments.parse_args()
    given.folder.mkdir(parents=True, exist_ok=True)
    for kind in KINDS:
        if not given.names or kind.__name__ in given.names:
            (given.folder / f"{kind.__name__}.in").write_text(text_of(*kind(), given.old), encoding="ascii")


if __name__ == "__main__":
    main()
