#!/usr/bin/env python3
"""Measures what docs/SCALE.md says of plays: what one takes, and what a cluster of dask.distributed adds to it.

    bench/scale.py plays [--cmd PROGRAM] [OBJECTS ...]
    bench/scale.py tasks [--cmd PROGRAM] ADDRESS

`plays` plays hospitals of bench/labask.py, each with its rounds, many times one after another: the seconds of the processor that
`labsys` takes, those that `labask` takes besides, and the most memory of a play. `tasks` has a cluster play a small world, in
batches of one and in larger ones, and says how many milliseconds of the processor each play takes of labask, the scheduler and the
workers, without those of labsys. The last line says how busy the machine was.
"""
import argparse
import os
import pathlib
import resource
import sys
import tempfile
import time

import labask as hospitals
import started

TOP = pathlib.Path(__file__).resolve().parent.parent
SMALL_WORLDS = 2_000
PLAYS_SECONDS = 5.0


def labask_module(name):
    """A module of the package labask, in place of the script of this folder that has its name."""
    sys.modules.pop("labask", None)
    sys.path.insert(0, str(TOP / "ask" / "src"))
    return __import__(f"labask.{name}", fromlist=["*"])


def used(who):
    """The seconds of the processor that were used."""
    usage = resource.getrusage(who)
    return usage.ru_utime + usage.ru_stime


def resident(program, text):
    """The MiB that a play takes at most."""
    with tempfile.TemporaryDirectory() as name:
        folder = pathlib.Path(name)
        (folder / "world").write_bytes(text)
        return started.taken(started.compiled("start", folder), [program, "play", "trail"], folder / "world", os.devnull, folder).mib


def measure_plays(program, sizes):
    """A row for a world of each size."""
    player = labask_module("playing").Player([program])
    print("| Objects | Bytes | Calls | labsys, ms | labask, ms | Memory, MiB |")
    for size in sizes:
        text = hospitals.hospital(size, True).encode("ascii")
        calls = len(player.play_accepted(text).replies)
        count, begin, own, others = 0, time.monotonic(), used(resource.RUSAGE_SELF), used(resource.RUSAGE_CHILDREN)
        while time.monotonic() < begin + PLAYS_SECONDS:
            player.play_accepted(text)
            count += 1
        own, others = used(resource.RUSAGE_SELF) - own, used(resource.RUSAGE_CHILDREN) - others
        print(f"| {size:,} | {len(text):,} | {calls:,} | {1000 * others / count:.1f} | {1000 * own / count:.1f} | "
              f"{resident(program, text):.1f} |", flush=True)


def processor_seconds(client):
    """The seconds of the processor that this process, the scheduler and the workers have used, without those of labsys."""
    workers = client.run(time.process_time)
    return [time.process_time(), client.run_on_scheduler(time.process_time), sum(workers.values())]


def measure_tasks(program, address):
    """A row for plays by as many threads as the cluster has, and for batches of each size."""
    playing, cluster, effort = map(labask_module, ("playing", "cluster", "effort"))
    asked, play, texts = cluster.cluster_at(address), playing.Player([program]).play, [playing.SMALL_WORLD] * SMALL_WORLDS
    client = asked.client
    jobs = sum(client.nthreads().values())
    ways = {f"none, `--jobs {jobs}`": lambda: effort.Effort(jobs).results(play, texts)}
    ways.update({f"at most {most}": lambda most=most: asked.results(play, texts, lambda: False, most) for most in (1, 16, 256)})
    print("| Batches | Plays | Seconds | labask, ms | Scheduler, ms | Workers, ms |")
    for name, way in ways.items():
        begin, before = time.monotonic(), processor_seconds(client)
        done = sum(1 for _ in way())
        taken, used_by = time.monotonic() - begin, [then - first for then, first in zip(processor_seconds(client), before)]
        cells = " | ".join(f"{1000 * seconds / done:.2f}" for seconds in used_by)
        print(f"| {name} | {done:,} | {taken:.1f} | {cells} |", flush=True)


def main():
    parser = argparse.ArgumentParser(description="Measures plays, and what a cluster adds to them.")
    parser.add_argument("what", choices=("plays", "tasks"))
    parser.add_argument("--cmd", default=str(hospitals.BUILT), metavar="PROGRAM", help="the program labsys")
    parser.add_argument("words", metavar="OBJECTS or ADDRESS", nargs="*")
    words = parser.parse_intermixed_args()
    if words.what == "tasks" and len(words.words) != 1:
        parser.error("the address of a cluster is missing")
    if words.what == "plays":
        measure_plays(words.cmd, [int(word) for word in words.words] or hospitals.SIZES)
    else:
        measure_tasks(words.cmd, words.words[0])
    print(f"load of the machine: {os.getloadavg()[0]:.1f}, of {os.cpu_count()} processors")


if __name__ == "__main__":
    main()
