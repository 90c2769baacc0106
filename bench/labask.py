#!/usr/bin/env python3
"""Measures how long `labask who` takes for all objects of hospitals of growing size.

    bench/labask.py [--cmd PROGRAM] [--jobs N] [--write FOLDER] [--calls] [OBJECTS ...]

A hospital has wards with rooms, and in each room the records of its patients, a board and a FIFO. Each ward is a category and a
group, with a doctor and a nurse; a pharmacist, an administrator, an archive program and a visitor are of no ward. With --write
the worlds are only written, each to a file FOLDER/hospital-OBJECTS.txt; with --calls they have a script, in which the staff of each
ward goes to the records of its ward and of the next one.
"""
import argparse
import pathlib
import subprocess
import sys
import tempfile
import time

TOP = pathlib.Path(__file__).resolve().parent.parent
BUILT = TOP / "crates" / "labsys" / "out" / "labsys"
SIZES = (60, 600, 6_000)
MOST_WARDS = 30
ANSWERED = (0, 3)
ROOM = 8  # objects of a room: its directory, its board, its FIFO, and records


def wards_of(objects):
    """How many wards a hospital of so many objects has."""
    return max(2, min(MOST_WARDS, objects // 30))


def head(wards):
    """The names of labels, and the directories of no ward."""
    return ["world 2", "levels public staff patient", f"categories {' '.join(f'w{ward:02d}' for ward in range(wards))}",
            "bound cap_dac_read_search,cap_mac_read,cap_fowner", "dir / 0755 0 0 public", "dir /bin 0755 0 0 public",
            'file /bin/archive 4750 1 1 public "archive" "cap_dac_read_search,cap_mac_read=ep"', "dir /wards 0755 0 0 public",
            'file /timetable 0664 1 1 public "visits from 2 to 4"']


def room(ward, number, size):
    """A room with its board, its FIFO and as many records as make up its size."""
    path, group, staff, patient = f"/wards/w{ward:02d}/r{number:03d}", 100 + ward, "staff", f"patient:w{ward:02d}"
    lines = [f"dir {path} 0750 {1000 + ward} {group} {staff}", f'file {path}/board 0664 {1000 + ward} {group} {staff} "beds"',
             f"fifo {path}/calls 0620 {2000 + ward} {group} {staff}"]
    lines += [f'file {path}/record{each} 06{4 - 2 * (each % 3)}0 {1000 + ward} {group} {patient} "a patient"' for each in range(size)]
    return lines[:size]


def processes(wards):
    """The users: a doctor and a nurse of each ward, and those of no ward."""
    users = [f'proc patient:w{ward:02d} {1000 + ward} {100 + ward} - "="' for ward in range(wards)]
    users += [f'proc staff {2000 + ward} {100 + ward} - "="' for ward in range(wards)]
    every = ",".join(str(100 + ward) for ward in range(min(wards, 16)))
    return users + [f'proc patient 5 5 {every} "="', 'proc staff 1 1 - "cap_fowner=ep"', 'proc public 6 1 - "cap_mac_read=p"',
                    'proc public 7 7 - "="']


def calls_on(room_path):
    """The calls of someone who comes to a room."""
    return [f"readdir {room_path}", f"open {room_path}/board r", f"stat {room_path}/record0", f"open {room_path}/record0 r",
            f"open {room_path}/record1 w", f"chmod {room_path}/record2 0666"]


def rounds(wards):
    """A script in which the doctor and the nurse of each ward come to a room of their ward and of the next one."""
    return [f"{tag} {call}" for ward in range(wards) for tag in (f"1@patient:w{ward:02d}", f"{ward + 1}@staff")
            for other in (ward, (ward + 1) % wards) for call in calls_on(f"/wards/w{other:02d}/r000")]


def hospital(objects, with_calls=False):
    """A world with so many objects; its script has no call, or those of rounds."""
    wards = wards_of(objects)
    lines = head(wards) + [f"dir /wards/w{ward:02d} 0755 {1000 + ward} {100 + ward} public" for ward in range(wards)]
    left, number = objects - (len(lines) - 4), 0
    while left > 0:
        size = min(ROOM, left)
        lines += room(number % wards, number // wards, size)
        left, number = left - size, number + 1
    return "\n".join([*lines, *processes(wards), "script", *(rounds(wards) if with_calls else ())]) + "\n"


def seconds_of(command, world):
    """The seconds that `labask who` takes for a world, and how many rows its table has."""
    with tempfile.TemporaryFile() as out:
        begin = time.monotonic()
        status = subprocess.run([*command, world], stdout=out, check=False).returncode
        taken = time.monotonic() - begin
        if status not in ANSWERED:
            sys.exit(f"{world}: status {status}")
        out.seek(0)
        return taken, sum(line.startswith((b"/", b'"')) for line in out)


def main():
    parser = argparse.ArgumentParser(description="Measures labask who on hospitals of growing size.")
    parser.add_argument("--cmd", default=str(BUILT), metavar="PROGRAM", help="the program labsys")
    parser.add_argument("--jobs", metavar="N", help="how many plays run side by side")
    parser.add_argument("--write", metavar="FOLDER", help="write the worlds, and measure nothing")
    parser.add_argument("--calls", action="store_true", help="write worlds with a script")
    parser.add_argument("sizes", metavar="OBJECTS", nargs="*", type=int, default=SIZES, help="the numbers of objects")
    words = parser.parse_args()
    with tempfile.TemporaryDirectory() as name:
        folder = pathlib.Path(words.write or name)
        for size in words.sizes:
            text, path = hospital(size, words.calls), folder / f"hospital-{size}.txt"
            path.write_text(text, encoding="ascii")
            if words.write:
                continue
            jobs = ["--jobs", words.jobs] if words.jobs else []
            taken, rows = seconds_of([sys.executable, str(TOP / "ask" / "labask"), "--labsys", words.cmd, "who", *jobs], str(path))
            print(f"| {size:,} | {text.count(chr(10) + 'proc '):,} | {rows:,} | {taken:.2f} |", flush=True)


if __name__ == "__main__":
    main()
