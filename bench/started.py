"""Runs a command by the small program of start.c, for measurements of memory and of user time. It needs a C compiler."""
import collections
import os
import pathlib
import subprocess

HERE = pathlib.Path(__file__).resolve().parent
Taken = collections.namedtuple("Taken", "status seconds user mib")


def compiled(name, folder):
    """The program of a C file of this folder."""
    made = pathlib.Path(folder) / name
    subprocess.run(["cc", "-O2", "-o", made, HERE / f"{name}.c"], check=True)
    return made


def taken(starter, words, source, sink, folder):
    """What a run took that reads the file `source` and writes the file `sink`, in a folder."""
    report = pathlib.Path(folder) / "taken"
    with open(source, "rb") as given, open(sink, "wb") as out, open(report, "wb") as noted:
        at_three = lambda: os.dup2(noted.fileno(), 3)
        subprocess.run([starter, *words], stdin=given, stdout=out, cwd=folder, preexec_fn=at_three, pass_fds=(3,), check=True)
    status, seconds, user, kib = report.read_text().split()
    return Taken(int(status), float(seconds), float(user), int(kib) / 1024)
