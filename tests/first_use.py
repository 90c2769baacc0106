#!/usr/bin/env python3
"""Tries the script `labsys` and `make install` in copies of the checkout, with a stand-in for `rt`, so that nothing is proved.

    first_use.py [--program PROGRAM] [NAME ..]

The stand-in notes three crates as proved, and gives PROGRAM as the program that it built: a stub where none is given, which wants
standard descriptors that are open, reads its input, and writes a line to FILE and a line to standard output. It takes some seconds.
The names of tests try these alone.
"""
import argparse
import contextlib
import os
import pathlib
import pty
import re
import resource
import shutil
import signal
import stat
import subprocess
import sys
import tempfile
import time
import unittest

TOP = pathlib.Path(__file__).resolve().parent.parent
EXAMPLE = TOP / "examples" / "read_by_capability.txt"
SYSTEM = "/usr/bin:/bin"
NOBODY = 65534
CRATES = ("io_ends", "lab_lattice", "cap_bits")

STUB = """\
#!/bin/sh
for end in 0 1 2; do [ -e "/proc/self/fd/$end" ] || exit 9; done
[ "$1" = play ] || exit 0
cat >/dev/null 2>&1 || exit 3
printf 'trail 1\\n' >"$2" || exit 5
printf 'done 1\\n' || exit 4
"""

# It is called in crates/labsys. What it proved before it does not prove again, as rt.
STAND_IN = """\
#!/bin/sh
if [ "$1" = version ]; then
    echo "{kit} logic 0123456789abcdef"
    exit
fi
echo $$ >"{room}/pid"
for crate in {crates}; do
    [ ! -e "../$crate/out/rlib/stamp" ] || continue
    sleep {seconds}
    mkdir -p "../$crate/out/rlib" && echo >"../$crate/out/rlib/stamp" && echo "$crate" >>"{room}/proved"
done
{end}
mkdir -p out && cp "{program}" out/labsys && chmod +x out/labsys
shift 2
exec out/labsys "$@"
"""

program_given = None


def named_kit():
    """The name of the kit that the README gives."""
    return re.search(r"rattle-kit-\w+", (TOP / "README.md").read_text(encoding="utf-8"))[0]


class Room:
    """A folder with a copy of the checkout, a stand-in for rt, and a folder for temporary files."""

    def __init__(self, name):
        self.room = pathlib.Path(name)
        self.top = self.room / "checkout"
        self.temporary = self.room / "temporary"
        self.cache = self.room / "cache"
        for folder in (self.top, self.temporary, self.cache, self.room / "bin"):
            folder.mkdir()
        for folder in (self.room, self.temporary, self.cache):
            folder.chmod(0o777)
        for path in ("labsys", "build.sh", "Makefile", "crates.txt", "HANDLES"):
            shutil.copy2(TOP / path, self.top / path)
        for path in ("docs", "examples", "completion", "editor", "ask"):
            shutil.copytree(TOP / path, self.top / path)
        for path in TOP.glob("crates/*/*/*"):
            if path.name in ("main.rt", "lib.rt", "Lib.antt"):
                (self.top / path.parent.relative_to(TOP)).mkdir(parents=True)
                shutil.copy2(path, self.top / path.relative_to(TOP))
        self.program = self.room / "program"
        if program_given:
            shutil.copy2(program_given, self.program)
        else:
            self.program.write_text(STUB)
        self.program.chmod(0o755)
        self.world = self.room / "world.txt"
        self.world.write_bytes(EXAMPLE.read_bytes())
        self.path = SYSTEM
        self.user = {}
        self.more = {}

    def has_rt(self, seconds=0, end="", kit=None):
        """Puts a stand-in for rt on PATH, which takes so many seconds for a crate."""
        text = STAND_IN.format(room=self.room, crates=" ".join(CRATES), seconds=seconds, end=end, program=self.program, kit=kit or named_kit())
        (self.room / "bin" / "rt").write_text(text)
        (self.room / "bin" / "rt").chmod(0o755)
        self.path = f"{self.room}/bin:{SYSTEM}"

    def is_built(self):
        """Has the program built, so that the script only starts it."""
        self.has_rt()
        return self.run("check").returncode == 0

    def environment(self):
        return {"PATH": self.path, "TMPDIR": str(self.temporary), "XDG_CACHE_HOME": str(self.cache), "HOME": str(self.room), **self.more}

    def command(self, words, script=None):
        return [str(script or self.top / "labsys"), *map(str, words)]

    def run(self, *words, script=None, **how):
        """The script's status, output and messages for these words, over the example. An end may be given as a path."""
        how = {"stdin": self.world, "stdout": subprocess.PIPE, "stderr": subprocess.PIPE, "cwd": self.room, **self.user, **how}
        with contextlib.ExitStack() as opened:
            for end, mode in (("stdin", "rb"), ("stdout", "ab")):
                if isinstance(how[end], pathlib.Path):
                    how[end] = opened.enter_context(how[end].open(mode))
            return subprocess.run(self.command(words, script), env=self.environment(), timeout=60, check=False, **how)

    def in_shell(self, ends, *words):
        """The same, with redirections or a pipe that a shell makes: `%` in them stands for the script and its words."""
        line = ends.replace("%", '"$@"')
        how = {"stdin": subprocess.DEVNULL, "capture_output": True, "cwd": self.room, "env": self.environment(), "timeout": 60}
        return subprocess.run(["sh", "-c", line, "sh", *self.command(words)], check=False, **how)

    def start(self, *words, **how):
        """Starts the script in a session of its own, and waits until the stand-in runs. An interrupt ends it, whoever runs the tests."""
        how = {"stdout": subprocess.PIPE, "stderr": subprocess.PIPE, "cwd": self.room, "preexec_fn": not_ignoring_interrupts, **how}
        with self.world.open("rb") as world:
            started = subprocess.Popen(self.command(words), stdin=world, env=self.environment(), start_new_session=True, **how)
        while not (self.room / "pid").exists() or not (self.room / "pid").read_text():
            time.sleep(0.02)
        return started

    def proved(self):
        """The crates that the stand-in proved, in order."""
        notes = self.room / "proved"
        return notes.read_text().split() if notes.exists() else []

    def is_stand_in_alive(self):
        try:
            os.kill(int((self.room / "pid").read_text()), 0)
        except ProcessLookupError:
            return False
        return True

    def left(self):
        """What is left in the folder of temporary files."""
        return os.listdir(self.temporary)


def not_ignoring_interrupts():
    """A shell has the commands that it starts in the background ignore them."""
    signal.signal(signal.SIGINT, signal.SIG_DFL)


def limit_files():
    """No file may have a byte from here on."""
    resource.setrlimit(resource.RLIMIT_FSIZE, (0, 0))


def read_all(end):
    """What comes from a terminal or a pipe until its other side is closed."""
    text = b""
    while True:
        try:
            piece = os.read(end, 4096)
        except OSError:
            piece = b""
        if not piece:
            return text.decode()
        text += piece


class FirstUse(unittest.TestCase):
    """Each test has a room of its own."""

    def setUp(self):
        folder = tempfile.TemporaryDirectory()
        self.addCleanup(folder.cleanup)
        self.room = Room(folder.name)

    def plays(self, **how):
        """A run of the example that ends well, and writes no message."""
        done = self.room.run("play", "trail", **how)
        self.assertEqual((done.returncode, done.stderr), (0, b""))
        self.assertIn(b"done 1\n", done.stdout)

    def test_kit_is_that_of_the_readme(self):
        kit = re.search(r"^kit=(.*)$", (TOP / "build.sh").read_text(encoding="utf-8"), re.M)[1]
        self.assertEqual(kit, named_kit())

    def test_texts_need_no_build(self):
        for word in ("help", "version"):
            done = self.room.run(f"--{word}")
            self.assertEqual((done.returncode, done.stderr), (0, b""))
            self.assertEqual(done.stdout, (TOP / "docs" / f"{word}.txt").read_bytes())

    def test_texts_end_as_those_of_the_program(self):
        for ends in ("% >&-", "% >/dev/full"):
            done = self.room.in_shell(ends, "--help")
            self.assertEqual((done.returncode, done.stderr), (4, b"labsys: write fault\n"), ends)
        done = self.room.in_shell("{ %; echo $? >&2; } | :", "--help")
        self.assertIn(done.stderr, (b"141\n", b"0\n"))

    def test_no_toolchain(self):
        done = self.room.run("check")
        self.assertEqual((done.returncode, done.stdout, self.room.left()), (70, b"", []))
        self.assertEqual(done.stderr.count(b"\n"), 1)
        self.assertIn(named_kit().encode(), done.stderr)

    def test_another_rt_is_no_toolchain(self):
        self.room.has_rt(kit="request tracker")
        self.assertEqual(self.room.run("check").returncode, 70)

    def test_toolchain_in_its_folder(self):
        self.room.has_rt()
        self.room.path = SYSTEM
        self.room.more = {"RATTLE_KIT": str(self.room.room)}
        self.assertEqual(self.room.run("check").returncode, 0)

    def test_build(self):
        self.room.has_rt()
        done = self.room.run("play", "trail")
        self.assertEqual(done.returncode, 0)
        self.assertIn(b"done 1\n", done.stdout)
        messages = done.stderr.decode()
        for part in ("building", "about an hour", "RATTLE_KIT", f"{self.room.room}/bin/rt"):
            self.assertIn(part, messages)
        self.assertNotIn("\r", messages)
        self.assertEqual((self.room.left(), self.room.proved()), ([], list(CRATES)))
        self.plays()

    def test_build_from_another_folder_by_a_link(self):
        self.room.has_rt()
        link = self.room.room / "a link"
        link.symlink_to(self.room.top / "labsys")
        self.assertEqual(self.room.run("play", "trail", script=link, cwd=self.room.cache).returncode, 0)
        self.assertTrue((self.room.cache / "trail").exists())

    def test_changed_source_is_built(self):
        self.assertTrue(self.room.is_built())
        time.sleep(0.05)
        (self.room.top / "crates" / "labsys" / "src" / "main.rt").touch()
        self.assertIn(b"building", self.room.run("check").stderr)
        self.plays()

    def test_build_that_fails(self):
        self.room.has_rt(end="echo 'rt: io_ends NOT PROVED'; exit 1")
        done = self.room.run("check")
        self.assertEqual((done.returncode, done.stdout, self.room.left()), (70, b"", []))
        self.assertIn(b"rt: io_ends NOT PROVED\n", done.stderr)

    def test_progress_on_a_terminal(self):
        self.room.has_rt(seconds=2)
        master, slave = pty.openpty()
        started = self.room.start("check", stderr=slave)
        os.close(slave)
        messages = read_all(master)
        started.communicate()
        os.close(master)
        self.assertEqual(started.returncode, 0)
        crates = [line for line in (TOP / "crates.txt").read_text().splitlines() if not line.startswith("#") and "_tests:" not in line]
        shown = rf"\rlabsys: \d+:\d\d, (\d+) of {len(crates)} crates are proved"
        counts = [int(count) for count in re.findall(shown, messages)]
        self.assertGreaterEqual(len(counts), 3, messages)
        self.assertEqual(counts, sorted(counts))
        self.assertIn(2, counts)
        self.assertTrue(messages.endswith("\n"))

    def interrupted(self, send, ends):
        """A build that is stopped by a signal, and goes on where it was. Its messages go to the second of the ends."""
        self.room.has_rt(seconds=1)
        reader, writer = ends
        started = self.room.start("check", stderr=writer)
        os.close(writer)
        while not self.room.proved():
            time.sleep(0.02)
        send(started.pid)
        messages = read_all(reader)
        os.close(reader)
        started.communicate()
        self.assertLess(started.returncode, 0)
        self.assertIn("stopped", messages)
        self.assertFalse(self.room.is_stand_in_alive())
        self.assertEqual(self.room.left(), [])
        self.assertLess(len(self.room.proved()), len(CRATES))
        self.assertEqual(self.room.run("check").returncode, 0)
        self.assertEqual(self.room.proved(), list(CRATES))

    def test_interrupt_from_a_terminal(self):
        self.interrupted(lambda group: os.killpg(group, signal.SIGINT), pty.openpty())

    def test_termination_of_the_script_alone(self):
        self.interrupted(lambda script: os.kill(script, signal.SIGTERM), os.pipe())

    def test_checkout_that_is_read_only(self):
        for path in self.room.top.rglob("*"):
            path.chmod(path.stat().st_mode & ~(stat.S_IWUSR | stat.S_IWGRP | stat.S_IWOTH))
        if os.geteuid() == 0:
            self.room.user = {"user": NOBODY, "group": NOBODY, "extra_groups": []}
        else:
            self.addCleanup(subprocess.run, ["chmod", "-R", "u+w", self.room.top], check=True)
        self.assertEqual((self.room.run("check").returncode, os.listdir(self.room.cache)), (70, []))
        self.room.has_rt()
        done = self.room.run("play", "trail")
        self.assertEqual(done.returncode, 0, done.stderr)
        self.assertIn(str(self.room.cache).encode(), done.stderr)
        self.assertEqual(list(self.room.top.glob("crates/*/out")), [])
        self.plays()
        self.assertEqual((len(os.listdir(self.room.cache / "labsys")), self.room.left()), (1, []))
        self.room.path = SYSTEM
        self.plays()
        self.room.has_rt()
        main = self.room.top / "crates" / "labsys" / "src" / "main.rt"
        main.chmod(0o644)
        main.write_text(main.read_text() + "// a comment\n")
        self.assertIn(b"building", self.room.run("check").stderr)
        self.assertEqual(len(os.listdir(self.room.cache / "labsys")), 2)

    def test_other_files_than_those_of_the_ends_are_played(self):
        self.assertTrue(self.room.is_built())
        self.plays()
        world = self.room.world
        self.assertEqual(self.room.run("play", "/dev/null", stdout=subprocess.DEVNULL).returncode, 0)
        self.assertEqual(self.room.in_shell("cat world.txt | %", "play", "/dev/stdout").returncode, 0)
        self.assertEqual(self.room.in_shell("cat world.txt | % | cat >replies", "play", "trail").returncode, 0)
        self.assertIn(b"done 1\n", (self.room.room / "replies").read_bytes())

    def test_terminal_is_played(self):
        self.assertTrue(self.room.is_built())
        master, slave = pty.openpty()
        done = self.room.run("play", os.ttyname(slave), stdout=slave, stderr=slave)
        os.close(slave)
        text = read_all(master)
        os.close(master)
        self.assertEqual(done.returncode, 0)
        self.assertIn("trail 1", text)
        self.assertIn("done 1", text)

    def test_closed_descriptors_of_a_first_use(self):
        self.room.has_rt()
        self.assertEqual(self.room.in_shell("% <&- >&- 2>&-", "play", "trail").returncode, 3)
        self.assertTrue((self.room.top / "crates/labsys/out/labsys.built").exists())

    def test_limit_of_a_file(self):
        self.assertTrue(self.room.is_built())
        done = self.room.run("play", "trail", preexec_fn=limit_files)
        self.assertEqual(done.returncode, 5)
        done = self.room.run("play", "/dev/null", stdout=self.room.room / "replies", preexec_fn=limit_files)
        self.assertEqual(done.returncode, 4)

    @unittest.skipUnless(shutil.which("make"), "make is not there")
    def test_installed(self):
        self.assertTrue(self.room.is_built())
        words = ["make", "-s", "-C", str(self.room.top), f"DESTDIR={self.room.room}/root", "PREFIX=/usr"]
        subprocess.run([*words, "install"], check=True, env=self.room.environment())
        root = self.room.room / "root"
        shutil.rmtree(self.room.top)
        self.plays(script=root / "usr/bin/labsys")
        for name in ("labsys", "labask"):
            self.assertTrue((root / f"usr/share/man/man1/{name}.1").exists())
        self.assertEqual(os.readlink(root / "usr/bin/labask"), "../libexec/ask/labask")
        subprocess.run([root / "usr/bin/labask", "flow", "--help"], check=True, stdout=subprocess.DEVNULL)

    @unittest.skipUnless(shutil.which("make"), "make is not there")
    def test_uninstalled(self):
        self.assertTrue(self.room.is_built())
        words = ["make", "-s", "-C", str(self.room.top), f"DESTDIR={self.room.room}/root", "PREFIX=/usr"]
        for target in ("install", "uninstall"):
            subprocess.run([*words, target], check=True, env=self.room.environment())
        self.assertEqual([path for path in (self.room.room / "root").rglob("*") if not path.is_dir()], [])


def main():
    global program_given
    arguments = argparse.ArgumentParser(description=__doc__, formatter_class=argparse.RawDescriptionHelpFormatter)
    arguments.add_argument("--program", type=pathlib.Path, help="the program that the stand-in for rt builds")
    arguments.add_argument("names", nargs="*", metavar="NAME", help="a test, as test_build")
    given = arguments.parse_args()
    program_given = given.program
    names = [f"FirstUse.{name}" for name in given.names] or None
    unittest.main(argv=[sys.argv[0]], defaultTest=names)


if __name__ == "__main__":
    main()
