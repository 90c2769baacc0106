#!/usr/bin/env python3
"""Times runs over inputs of doubling size: the time should double with the size.

    bench/play.py [--cmd PROGRAM] [PART..]

It prints the tables of README.md: wall time, and the most memory that the run held at a time. A part is what one section of that
page has: `inputs`, which are scripts and worlds up to the limits of an input and of a label, `lines`, `directories`, `objects`,
`things`, `descriptors`, `processes`, `attributes`, `commands`, `programs` and `trails`. Without parts it prints all. PROGRAM is the built one where none
is given; the script `labsys` would add its own time.
"""
import argparse
import itertools
import os
import pathlib
import random
import subprocess
import sys
import tempfile
import time

from started import compiled, taken

TOP = pathlib.Path(__file__).resolve().parent.parent
BUILT = TOP / "crates" / "labsys" / "out" / "labsys"
HEAD = b"world 2\nlevels unc conf sec\ncategories a b\nbound all\ndir / 0777 0 0 unc\n"
CATS = [b"c%02d" % n for n in range(64)]
HEAD_OF_CATS = b"world 2\nlevels l0\ncategories " + b" ".join(CATS) + b"\nbound all\ndir / 0777 0 0 l0\n"
LIMIT = 16_777_216


def long_script(size):
    """A world of one file and one process, and calls up to this many bytes."""
    world = HEAD + b'file /a 0644 10 10 sec "hello"\nproc sec 10 10 - "="\nscript\n'
    line = b"1@sec mac_get_file /a\n"
    return world + line * ((size - len(world)) // len(line))


def mixed_script(size):
    """The same world with all capabilities permitted, and the three calls in turn up to this many bytes."""
    world = HEAD + b'file /a 0644 10 10 sec "hello"\nproc unc 10 10 - "all=p"\nscript\n'
    lines = b'1@unc cap_set_proc "cap_mac_read+e all+p"\n1@unc mac_get_file /a\n1@unc cap_get_proc\n'
    return world + lines * ((size - len(world)) // len(lines))


def asking_script(size):
    """The same world, and three calls in turn that change nothing, up to this many bytes."""
    world = HEAD + b'file /a 0644 10 10 sec "hello"\nproc sec 10 10 - "all=p"\nscript\n'
    lines = b"1@sec mac_get_file /a\n1@sec getpid\n1@sec cap_get_proc\n"
    return world + lines * ((size - len(world)) // len(lines))


def old_asking_script(size):
    """The same in the old format."""
    return asking_script(size).replace(b"world 2", b"world 1", 1)


def large_world(files, procs):
    """This many files and processes of one level, and one call for each file."""
    lines = [b'file /f%d 0644 10 10 unc "x"\n' % i for i in range(files)]
    lines += [b'proc unc 10 10 - "="\n'] * procs
    lines += [b"script\n"]
    lines += [b"%d@unc mac_get_file /f%d\n" % (i % procs + 1, i) for i in range(files)]
    return HEAD + b"".join(lines)


def filled_by_threes():
    """400,000 files of 3 bytes each in one directory, of twelve labels, with one process and one call."""
    labels = [level + cats for level in (b"unc", b"conf", b"sec") for cats in (b"", b":a", b":b", b":a,b")]
    files = b"".join(b'file /d/f%06d 0644 10 10 %s "xyz"\n' % (n, labels[n % 12]) for n in range(400_000))
    return HEAD + b"dir /d 0777 0 0 unc\n" + files + b'proc unc 10 10 - "="\nscript\n1@unc mac_get_file /d/f000000\n'


def filled_world(size, depth):
    """A world of this many bytes: directories one in another, and in the last of them files of twelve labels."""
    labels = [level + cats for level in (b"unc", b"conf", b"sec") for cats in (b"", b":a", b":b", b":a,b")]
    lines = [HEAD] + [b"dir %s 0777 0 0 unc\n" % (b"/d" * n) for n in range(1, depth)]
    files = (size - sum(map(len, lines))) // len(b"file %s/f000000 0644 10 10 conf:a,b \"x\"\n" % (b"/d" * (depth - 1)))
    lines += [b"file %s/f%06d 0644 10 10 %s \"x\"\n" % (b"/d" * (depth - 1), n, labels[n % 12]) for n in range(files)]
    return b"".join(lines + [b"script\n"])


OPEN = HEAD + b"dir /d 0777 10 10 unc\n"
CALLER = b'proc unc 10 10 - "="\nscript\n'


def changed_names(names, shuffled):
    """This many names in one directory, made, looked up, linked and removed, in order or in random order."""
    order = list(range(names))
    if shuffled:
        random.Random(1).shuffle(order)
    lines = [b"file /f 0644 10 10 unc \"x\"\n", CALLER, b"1@unc chdir /d\n"]
    for call in (b"mkdir n%05d 0755", b"stat n%05d", b"rmdir n%05d"):
        lines += [b"1@unc " + call % n + b"\n" for n in order]
    for n in order[:1000]:
        lines += [b"1@unc link /f l%05d\n" % n, b"1@unc unlink l%05d\n" % n]
    return OPEN + b"".join(lines)


def deep_paths(calls):
    """Calls on paths of 32 names, in a tree of 24 chains of directories."""
    world = [b"dir %s 0755 10 10 unc\n" % b"".join(b"/n%02d-%02d" % (chain, i) for i in range(depth)) for chain in range(24) for depth in range(1, 32)]
    paths = [b"".join(b"/n%02d-%02d" % (chain, i) for i in range(31)) + b"/absent" for chain in range(24)]
    return HEAD + b"".join(world) + CALLER + b"".join(b"1@unc stat %s\n" % paths[n % 24] for n in range(calls))


def moved_below(depth, calls):
    """A chain of directories, and a directory that moves to its end and back."""
    chain = b"1@unc mkdir d 0755\n1@unc chdir d\n" * depth
    moves = b"1@unc rename /a b\n1@unc rename b /a\n" * (calls // 2)
    return HEAD + b"dir /a 0777 10 10 unc\ndir /a/in 0777 10 10 unc\n" + CALLER + chain + moves


def listed(calls):
    """A directory of 10,000 names that is listed this often."""
    names = b"".join(b"file /d/f%05d 0644 10 10 unc \"x\"\n" % n for n in range(10_000))
    return OPEN + names + CALLER + b"1@unc readdir /d\n" * calls


def spread(call, objects):
    """This many calls on as many names in 60 directories in turn. `%b` in the call is the path."""
    world = [b"dir /d%02d 0777 10 10 unc\n" % n for n in range(60)]
    return HEAD + b"".join(world) + CALLER + b"".join(call % (b"/d%02d/n%05d" % (n % 60, n)) for n in range(objects))


def rewritten(cycles, files, size):
    """In turn over this many files: one is opened, written, gone back in and read three times, and closed, which is 11 calls."""
    world = [b'file /d/f%04d 0644 10 10 unc ""\n' % n for n in range(files)]
    inner = b'1@unc write 0 "%s"\n1@unc lseek 0 set 0\n1@unc read 0 %d\n' % (b"x" * size, size)
    lines = [b"1@unc open /d/f%04d rw\n%s1@unc close 0\n" % (n % files, inner * 3) for n in range(cycles)]
    return OPEN + b"".join(world) + CALLER + b"".join(lines)


def drawn_descriptions(count):
    """A file opened and closed this many times, so that as many numbers of descriptions are drawn."""
    return OPEN + b'file /f 0644 10 10 unc ""\n' + CALLER + b"1@unc open /f r\n1@unc close 0\n" * count


def filled_file(size):
    """A file filled to this many bytes, one by one."""
    return OPEN + b'file /f 0644 10 10 unc ""\n' + CALLER + b"1@unc open /f w\n" + b'1@unc write 0 "x"\n' * size


def piped(calls, size):
    """Writes of this many bytes to a pipe, each read again."""
    pair = b'1@unc write 1 "%s"\n1@unc read 0 %d\n' % (b"x" * size, size)
    return OPEN + CALLER + b"1@unc pipe\n" + pair * (calls // 2)


def filled_pipe(calls):
    """A pipe that is filled to 4,096 bytes by three writes, and emptied by one read of them all."""
    lines = b"".join(b'1@unc write 1 "%s"\n' % (b"x" * size) for size in (2_000, 2_000, 96)) + b"1@unc read 0 4096\n"
    return OPEN + CALLER + b"1@unc pipe\n" + lines * (calls // 4)


def started(procs):
    """This many processes of one level."""
    return b'proc unc 10 10 - "all=ep"\n' * procs + b"script\n"


def awaited(forks):
    """A process that forks this often; each child ends, and is awaited."""
    lines = [b"1@unc fork\n%d@unc exit 0\n1@unc wait\n" % n for n in range(2, forks + 2)]
    return HEAD + started(1) + b"".join(lines)


def chained(forks):
    """A process that forks, its child, the child's child, and so on."""
    return HEAD + started(1) + b"".join(b"%d@unc fork\n" % n for n in range(1, forks + 1))


def asked(calls):
    """4,000 processes that ask for their numbers in turn."""
    return HEAD + started(4_000) + b"".join(b"%d@unc getpid\n" % (n % 4_000 + 1) for n in range(calls))


def executed(procs):
    """This many processes that execute one file."""
    return HEAD + b'file /x 0755 10 10 unc "x"\n' + started(procs) + b"".join(b"%d@unc exec /x\n" % n for n in range(1, procs + 1))


def attributed(files):
    """This many files that get a mode, an owner, capability sets and a label each."""
    world = [b'file /d/f%05d 0644 10 10 unc "x"\n' % n for n in range(files)]
    lines = [
        b'1@unc chmod /d/f%05d 0600\n1@unc chown /d/f%05d 11 11\n1@unc cap_set_file /d/f%05d "cap_kill=p"\n1@unc mac_set_file /d/f%05d conf\n' % (n, n, n, n)
        for n in range(files)
    ]
    return OPEN + b"".join(world) + started(1) + b"".join(lines)


SLICES = [level + cats for level in ("l0", "l1", "l2", "l3") for cats in ("", ":a", ":b", ":c", ":d", ":a,b", ":a,c", ":a,d", ":b,c", ":b,d", ":c,d", ":a,b,c", ":a,b,d", ":a,c,d", ":b,c,d", ":a,b,c,d")]
CROWD = "world 2\nlevels l0 l1 l2 l3\ncategories a b c d\nbound all\ndir / 0777 0 0 l0\n" + "".join(f'proc {label} 10 10 - "="\n' * 63 for label in SLICES)


def turned(turns):
    """This many turns of 64 labels, each of 63 processes, which ask for their numbers."""
    programs = "".join(f"program {n}@{label}\ndo getpid\njump always 0\n" for label in SLICES for n in range(1, 64))
    return f"{CROWD}script\nslices {' '.join(SLICES)}\nrounds {turns // 64}\n{programs}".encode()


def turned_script(turns):
    """The same calls as a script."""
    calls = "".join(f"{n % 63 + 1}@{label} getpid\n" for n in range(turns // 64) for label in SLICES)
    return f"{CROWD}script\n{calls}".encode()


def generated(program, calls):
    """The generated input of this many calls."""
    return subprocess.run([program, "gen", str(calls)], stdout=subprocess.PIPE, check=True).stdout


def recorded(records):
    """A trail with this many records of each kind in turn, about 54 bytes each."""
    lines = [
        b'%d fork 1@unc %d@unc\n',
        b'%d exec 1@unc 7@unc "cap_kill,cap_mac_read=ep" "cap_kill,cap_mac_read=ep"\n',
        b'%d exercise 1@unc unc cap_mac_read mac_read obj:7@sec:a sec:a - p1\n',
        b'%d mac_set_file 1@unc 7@unc unc sec:a,b\n',
        b'%d deny 1@unc mac_get_file EACCES mac_read p12\n',
        b'%d note 1@unc "twenty bytes of text"\n',
        b'%d cap_set_proc 1@unc "cap_kill,cap_mac_read=ep"\n',
        b'%d exercise 1@unc unc cap_kill kill proc:2@unc unc - pid\n',
    ]
    head = b'trail 1\nlevels unc sec\ncategories a b\nbound all\n0 boot 1@unc unc "cap_kill,cap_mac_read=ep"\n'
    numbers = iter(range(2, 65_536))
    texts = (line % ((n, next(numbers)) if line.count(b"%d") == 2 else n) for n, line in zip(range(1, records), (lines * records)[:records - 1]))
    return head + b"".join(texts)


def distinct_labels(size):
    """Files up to this many bytes, each of a label of its own."""
    labels = map(b",".join, itertools.combinations(CATS, 4))
    end = b'proc l0 10 10 - "="\nscript\n1@l0 getpid\n'
    line = b'file /f%06d 0644 10 10 l0:%s ""\n'
    files = (size - len(HEAD_OF_CATS) - len(end)) // len(line % (0, b",".join(CATS[:4])))
    return HEAD_OF_CATS + b"".join(line % pair for pair in zip(range(files), labels)) + end


def crowded(labels):
    """4,095 processes of each of this many labels."""
    procs = [b'proc l0:%s 10 10 - "="\n' % b",".join(pair) for pair in itertools.islice(itertools.combinations(CATS, 2), labels)]
    return HEAD_OF_CATS + b"".join(line * 4_095 for line in procs) + b"script\n1@l0:c00,c01 getpid\n"


def write_input(path, make, args, counted):
    """Writes an input, and returns how often it has these bytes. A process of its own makes it, since a run begins with the
    memory of the process that starts it."""
    source, sink = os.pipe()
    child = os.fork()
    if child == 0:
        text = make(*args)
        path.write_bytes(text)
        os.write(sink, b"%d" % text.count(counted))
        os._exit(0)
    os.close(sink)
    os.waitpid(child, 0)
    with open(source, "rb") as count:
        return int(count.read())


PLAY = ("play", "trail.out")


def run(program, folder, words=PLAY):
    """The status, the seconds and the MiB of one run on the input."""
    with open(pathlib.Path(folder) / "input", "rb") as source:
        begin = time.monotonic()
        child = subprocess.Popen([program, *words], stdin=source, stdout=subprocess.DEVNULL, cwd=folder)
        _, status, used = os.wait4(child.pid, 0)
        child.returncode = os.waitstatus_to_exitcode(status)
        return child.returncode, time.monotonic() - begin, used.ru_maxrss / 1024


def show(run_of, title, make, *args, counted=b"\n", words=PLAY):
    """Prints the row of one input. `{}` in its title is how often the input has the bytes that are counted."""
    program, folder = run_of
    path = pathlib.Path(folder) / "input"
    count = write_input(path, make, args, counted)
    status, seconds, resident = run(program, folder, words)
    ended = "" if status == 0 else f" status {status}"
    print(f"| {title.format(count)} | {path.stat().st_size:,} | {seconds:.2f} | {resident:,.0f} MiB |{ended}", flush=True)


def inputs(run_of):
    """The rows of scripts of one call and of three, and of worlds up to the limits of a label and of an input."""
    for part in (32, 16, 8, 4, 2, 1):
        show(run_of, "{:,} calls", long_script, LIMIT // part, counted=b"mac_get_file")
    for part in (32, 16, 8, 4, 2, 1):
        show(run_of, "{:,} calls of three kinds", mixed_script, LIMIT // part, counted=b"1@unc ")
    for part in (8, 4, 2, 1):
        files, procs = 65_534 // part, 4_095 // part
        show(run_of, f"{files:,} files, {procs:,} processes", large_world, files, procs)
    for depth in (2, 32):
        for part in (8, 4, 2, 1):
            show(run_of, f"{{:,}} files, {depth} names deep", filled_world, LIMIT // part, depth, counted=b"file ")
    show(run_of, "{:,} files, 2 names deep, of 3 bytes each", filled_by_threes, counted=b"\nfile ")


def lines(run_of):
    """The rows of scripts of short lines that change nothing."""
    for part in (32, 16, 8, 4, 2, 1):
        show(run_of, "{:,} calls of `mac_get_file`, `getpid` and `cap_get_proc`", asking_script, LIMIT // part, counted=b"1@sec ")


def directories(run_of):
    """The rows of scripts on directories."""
    for shuffled in (False, True):
        for names in (7_500, 15_000, 30_000, 60_000):
            order = "in random order" if shuffled else "in order"
            show(run_of, f"{names:,} names in one directory, {order}", changed_names, names, shuffled)
    for calls in (10_000, 20_000, 40_000):
        show(run_of, f"{calls:,} calls on paths of 32 names", deep_paths, calls)
    for depth in (7_500, 15_000, 30_000, 60_000):
        show(run_of, f"a chain of {depth:,} directories, and as many moves to its end", moved_below, depth, depth)
    for calls in (50, 100, 200):
        show(run_of, f"a directory of 10,000 names, listed {calls} times", listed, calls)


def objects(run_of):
    """The rows of scripts that make objects in 60 directories, and of as many calls that fail, without the memory of this program."""
    program, folder = run_of
    starter, path = compiled("start", folder), pathlib.Path(folder) / "input"
    scripts = {
        "60,000 files, made by `open`": b"1@unc open %b wc 0644\n1@unc close 0\n",
        "60,000 calls of `open` that fail": b"1@unc open %b w\n1@unc close 0\n",
        "60,000 directories, made by `mkdir`": b"1@unc mkdir %b 0755\n",
        "60,000 calls of `rmdir` that fail": b"1@unc rmdir %b\n",
    }
    for title, call in scripts.items():
        write_input(path, spread, (call, 60_000), b"")
        took = taken(starter, [program, *PLAY], path, os.devnull, folder)
        print(f"| {title} | {path.stat().st_size:,} | {took.seconds:.2f} | {took.mib:.1f} MiB |", flush=True)


def things(run_of):
    """The rows of worlds up to the limit of an input, without the memory of this program, and what a run takes for each thing."""
    program, folder = run_of
    starter, path = compiled("start", folder), pathlib.Path(folder) / "input"
    write_input(path, crowded, (0,), b"")
    least = taken(starter, [program, "check"], path, os.devnull, folder).mib
    worlds = {"files of a label each": (distinct_labels, LIMIT, b"\nfile "), "files of twelve labels": (filled_by_threes, None, b"\nfile "), "processes, 4,095 of each label": (crowded, 100, b"\nproc ")}
    for title, (make, size, counted) in worlds.items():
        count = write_input(path, make, () if size is None else (size,), counted)
        took = taken(starter, [program, *PLAY], path, os.devnull, folder)
        each = (took.mib - least) * 2**20 / count
        print(f"| {count:,} {title}, {each:,.0f} bytes each | {path.stat().st_size:,} | {took.seconds:.2f} | {took.mib:.1f} MiB |", flush=True)


def descriptors(run_of):
    """The rows of scripts on descriptors."""
    for files in (1, 1_000):
        for calls in (62_500, 125_000, 250_000, 500_000):
            show(run_of, f"{calls:,} calls on {files:,} files, 1 byte a write", rewritten, calls // 11, files, 1)
        for calls in (12_500, 25_000, 50_000):
            show(run_of, f"{calls:,} calls on {files:,} files, 1,000 bytes a write", rewritten, calls // 11, files, 1_000)
    for count in (8_191, 16_383, 32_767, 65_535):
        show(run_of, f"{count:,} descriptions of one label", drawn_descriptions, count)
    for size in (8_192, 16_384, 32_768, 65_536):
        show(run_of, f"a file filled to {size:,} bytes, one by one", filled_file, size)
    for calls in (62_500, 125_000, 250_000, 500_000):
        show(run_of, f"{calls:,} calls on a pipe, 1 byte each", piped, calls, 1)
    for calls in (4_000, 8_000, 16_000):
        show(run_of, f"{calls:,} calls on a pipe, 2,000 bytes each", piped, calls, 2_000)
    for calls in (3_500, 7_000, 14_000):
        show(run_of, f"{calls:,} calls on a pipe, which is filled and emptied", filled_pipe, calls)


def processes(run_of):
    """The rows of scripts on processes."""
    for forks in (500, 1_000, 2_000, 4_000):
        show(run_of, f"{forks:,} children that end and are awaited in turn", awaited, forks)
    for forks in (500, 1_000, 2_000, 4_000):
        show(run_of, f"a chain of {forks:,} forks", chained, forks)
    for calls in (62_500, 125_000, 250_000, 500_000):
        show(run_of, f"{calls:,} calls of getpid by 4,000 processes", asked, calls)
    for procs in (500, 1_000, 2_000, 4_000):
        show(run_of, f"{procs:,} processes execute one file", executed, procs)


def attributes(run_of):
    """The rows of scripts on attributes of objects."""
    for files in (7_500, 15_000, 30_000, 60_000):
        show(run_of, f"{files:,} files get a mode, an owner, capability sets and a label", attributed, files)


def commands(run_of):
    """The rows of each command, on the script of short lines and on the generated input."""
    for words in (PLAY, ("view", "sec"), ("view", "unc"), ("check",)):
        show(run_of, f"`{' '.join(words)}` of {{:,}} calls", asking_script, LIMIT, counted=b"1@sec ", words=words)
    show(run_of, "`upgrade` of {:,} calls", old_asking_script, LIMIT, counted=b"1@sec ", words=("upgrade",))
    for count in (12_500, 25_000, 50_000, 100_000):
        show(run_of, f"`gen {count}`", started, 0, words=("gen", str(count)))
        show(run_of, f"`drill {count}`", started, 0, words=("drill", str(count)))
        show(run_of, f"`least` of `gen {count}`", generated, run_of[0], count, words=("least",))


def programs(run_of):
    """The rows of programs in turns, and of their calls as scripts."""
    for turns in (12_500, 25_000, 50_000, 100_000):
        show(run_of, f"`sched` of {turns // 64 * 64:,} turns", turned, turns, words=("sched", "trail.out"))
        show(run_of, f"`play` of {turns // 64 * 64:,} calls", turned_script, turns)


def trails(run_of):
    """The rows of trails that are read."""
    for records in (37_500, 75_000, 150_000, 300_000):
        for words in (("lineage",), ("select", "all"), ("select", "event=boot")):
            show(run_of, f"`{' '.join(words)}` of {{:,}} lines", recorded, records, words=words)


PARTS = [inputs, lines, directories, objects, things, descriptors, processes, attributes, commands, programs, trails]


def main():
    names = [part.__name__ for part in PARTS]
    arguments = argparse.ArgumentParser(description=__doc__, formatter_class=argparse.RawDescriptionHelpFormatter)
    arguments.add_argument("--cmd", default=BUILT, type=pathlib.Path, help="the program; without it, that of the checkout", metavar="PROGRAM")
    arguments.add_argument("parts", nargs="*", choices=[[], *names], metavar="PART", help=", ".join(names))
    given = arguments.parse_args()
    program = given.cmd.resolve()
    if not os.access(program, os.X_OK):
        sys.exit(f"there is no program {program}: `make` builds that of the checkout")
    with tempfile.TemporaryDirectory() as folder:
        for part in PARTS:
            if not given.parts or part.__name__ in given.parts:
                print(f"\n{part.__name__}:\n\n| Input | Bytes | Seconds | Resident |\n|---|---|---|---|")
                part((program, folder))


if __name__ == "__main__":
    main()
