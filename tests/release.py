#!/usr/bin/env python3
"""Tries `make dist` in copies of the checkout: what a release has, that it is the same twice, and that it runs where it is unpacked.

    release.py --program PROGRAM [NAME ..]

PROGRAM stands for the one that the gate has built, and a stand-in for `rt`, so that nothing is proved. A test that lacks something,
such as `chroot` or `dpkg-deb`, says so and is skipped. It takes some seconds. The names of tests try these alone.
"""
import argparse
import os
import pathlib
import shutil
import stat
import subprocess
import sys
import tarfile
import tempfile
import time
import unittest

import first_use
from first_use import NOBODY, TOP, Room

MORE = ("README.md", "CHANGELOG.md", "LICENSE", ".gitignore")
AUTHOR = {f"GIT_{who}_{what}": "nobody@example.org" for who in ("AUTHOR", "COMMITTER") for what in ("NAME", "EMAIL")}
TOOLS = ("bin/rattle", "bin/rattle-link", "toolchain/bin/clang")
EXAMPLE = "examples/read_by_capability"
NAME = f"labsys-{(TOP / 'docs' / 'version.txt').read_text(encoding='ascii').split()[1]}-x86_64-linux"
FIRST_REPLY = 10  # seconds from the archive to the first reply


class Packed(Room):
    """A room with a checkout of git on which the gate has passed."""

    def __init__(self, name):
        super().__init__(name)
        for path in MORE:
            shutil.copy2(TOP / path, self.top / path)
        shutil.copytree(TOP / "packaging", self.top / "packaging", ignore=shutil.ignore_patterns("__pycache__"))
        for tool in TOOLS:
            (self.room / tool).parent.mkdir(parents=True, exist_ok=True)
            (self.room / tool).write_text(f"stand-in for {tool}")
        self.more = {**AUTHOR, "GIT_CONFIG_GLOBAL": "/dev/null", "PYTHONDONTWRITEBYTECODE": "1"}
        self.has_rt()
        self.git("init", "-q")
        self.commit()

    def git(self, *words):
        subprocess.run(["git", "-C", self.top, *words], check=True, env=self.environment())

    def commit(self):
        self.git("add", "-A")
        self.git("commit", "-q", "--allow-empty", "-m", "a state")

    def passes(self):
        """The gate builds the program and passes."""
        done = self.run("check")
        assert done.returncode == 0, done.stderr
        subprocess.run([sys.executable, self.top / "packaging" / "release.py", "note"], check=True, env=self.environment())

    def dist(self, top=None, umask=0o022):
        """What `make dist` says, with its status."""
        return subprocess.run(["make", "-s", "-C", top or self.top, "dist"], capture_output=True, text=True, check=False,
                              env=self.environment(), umask=umask)


def programs_there(*names):
    """Skips a test where a program is missing."""
    lacking = [name for name in names if shutil.which(name) is None]
    return unittest.skipIf(lacking, f"there is no program {', '.join(lacking)}")


@programs_there("git", "make")
class Release(unittest.TestCase):
    """The tests of one release, which is packed once."""

    @classmethod
    def setUpClass(cls):
        folder = tempfile.TemporaryDirectory()
        cls.addClassCleanup(folder.cleanup)
        cls.room = Packed(folder.name)
        cls.room.passes()
        done = cls.room.dist()
        assert (done.returncode, done.stderr) == (0, ""), done
        cls.out = cls.room.top / "out"

    def unpacked(self, folder):
        """The folder of the release, unpacked in a folder."""
        folder.mkdir(parents=True, exist_ok=True)
        subprocess.run(["tar", "-xzf", self.out / f"{NAME}.tar.gz", "-C", folder], check=True)
        return folder / NAME

    def example(self, ending):
        return (TOP / f"{EXAMPLE}.{ending}").read_bytes()

    def plays(self, program, trail, **how):
        """The program plays the first example into a file."""
        done = subprocess.run([program, "play", trail], input=self.example("txt"), capture_output=True, check=False, timeout=60, **how)
        self.assertEqual((done.returncode, done.stdout, done.stderr), (0, self.example("out"), b""))

    def test_same_sources_give_the_same_bytes(self):
        other = self.room.room / "elsewhere" / "checkout"
        shutil.copytree(self.room.top, other, symlinks=True, ignore=shutil.ignore_patterns("*.gz", "*.deb", "SHA256SUMS"))
        for path in [*(other / "docs").iterdir(), other / "ask" / "labask"]:
            path.touch()
        done = self.room.dist(other, umask=0o077)
        self.assertEqual(done.returncode, 0, done.stderr)
        for path in self.out.iterdir():
            self.assertEqual((other / "out" / path.name).read_bytes(), path.read_bytes(), path.name)

    def test_sums_and_origin(self):
        release = self.unpacked(self.room.room / "here")
        for folder in (release, self.out):
            subprocess.run(["sha256sum", "--quiet", "--check", "SHA256SUMS"], cwd=folder, check=True)
            origin = dict(line.split(None, 1) for line in (folder / "ORIGIN").read_text().splitlines()[:9])
            for what, word in (("commit", "HEAD"), ("tree", "HEAD^{tree}")):
                named = subprocess.run(["git", "-C", self.room.top, "rev-parse", word], stdout=subprocess.PIPE, text=True, check=True)
                self.assertEqual(origin[what], named.stdout.strip())
            self.assertIn(origin["program"], (release / "SHA256SUMS").read_text())
            self.assertIn(first_use.named_kit(), origin["kit"])

    def test_entries_of_the_archive(self):
        with tarfile.open(self.out / f"{NAME}.tar.gz") as archive:
            entries = archive.getmembers()
        self.assertEqual({(each.uid, each.gid, each.uname) for each in entries}, {(0, 0, "root")})
        self.assertEqual(len({each.mtime for each in entries}), 1)
        self.assertEqual([(each.name, each.linkname) for each in entries if each.issym()], [(f"{NAME}/labask", "ask/labask")])
        names = {each.name.removeprefix(f"{NAME}/") for each in entries}
        due = {"labsys", "README.md", "LICENSE", "docs/labsys.1", "docs/labask.1", "completion/_labsys", "editor/labsys.vim",
               "docs/version.txt", f"{EXAMPLE}.txt", "examples/programs/covert_channel.txt", "ask/src/labask/page.css"}
        self.assertEqual(due - names, set())
        self.assertEqual([name for name in names if "__pycache__" in name or name.startswith("crates")], [])

    @unittest.skipUnless(os.geteuid() == 0 and shutil.which("ldd"), "chroot is for root, and ldd finds the C library")
    def test_bare_root_with_a_c_library_alone(self):
        root = self.room.room / "root"
        release = self.unpacked(root)
        libraries = subprocess.run(["ldd", release / "labsys"], stdout=subprocess.PIPE, text=True, check=True).stdout.split()
        for library in [word for word in libraries if word.startswith("/")]:
            (root / library[1:]).parent.mkdir(parents=True, exist_ok=True)
            shutil.copy(library, root / library[1:])
        self.plays(f"/{NAME}/labsys", "/trail", preexec_fn=lambda: os.chroot(root))
        self.assertEqual((root / "trail").read_bytes(), self.example("trail"))

    def test_folder_of_another_user(self):
        begun = time.monotonic()
        release = self.unpacked(self.room.room / "theirs")
        user = {"user": NOBODY, "group": NOBODY, "extra_groups": []} if os.geteuid() == 0 else {}
        home = self.room.room / "home"
        home.mkdir(mode=0o777)
        home.chmod(0o777)
        self.plays(release / "labsys", "trail", cwd=home, **user)
        self.assertLess(time.monotonic() - begun, FIRST_REPLY)
        self.assertEqual((home / "trail").read_bytes(), self.example("trail"))
        (home / "link").symlink_to(release / "labask")
        asked = [home / "link", "who", release / f"{EXAMPLE}.txt", "/a"]
        done = subprocess.run(asked, cwd=home, capture_output=True, text=True, check=False, env={"PATH": first_use.SYSTEM}, **user)
        self.assertIn("by cap_mac_read", done.stdout, done.stderr)
        self.assertEqual([path for path in release.rglob("*") if path.lstat().st_mode & stat.S_IWOTH and not path.is_symlink()], [])

    @programs_there("dpkg", "dpkg-deb")
    def test_package_for_debian(self):
        package, = self.out.glob("*.deb")
        root = self.room.room / "debian"
        for folder in ("updates", "info"):
            (root / "var/lib/dpkg" / folder).mkdir(parents=True)
        for file in ("status", "available"):
            (root / "var/lib/dpkg" / file).touch()
        words = ["dpkg", f"--root={root}", "--force-depends", "--force-not-root", "--force-bad-path", "--log=/dev/null"]
        quiet = {"stdout": subprocess.DEVNULL, "stderr": subprocess.DEVNULL, "check": True}
        subprocess.run([*words, "--install", package], **quiet)
        self.plays(root / "usr/bin/labsys", self.room.room / "trail")
        asked = [root / "usr/bin/labask", "who", root / f"usr/share/doc/labsys/{EXAMPLE}.txt", "/a"]
        self.assertIn("by cap_mac_read", subprocess.run(asked, stdout=subprocess.PIPE, text=True, check=False).stdout)
        for name in ("man/man1/labsys.1.gz", "man/man1/labask.1.gz", "doc/labsys/copyright", "doc/labsys/changelog.gz"):
            self.assertTrue((root / "usr/share" / name).exists(), name)
        owners = subprocess.run(["dpkg-deb", "--contents", package], stdout=subprocess.PIPE, text=True, check=True).stdout.splitlines()
        self.assertEqual({line.split()[1] for line in owners}, {"root/root"})
        subprocess.run([*words, "--purge", "labsys"], **quiet)
        self.assertEqual([path for path in (root / "usr").rglob("*") if not path.is_dir()], [])


@programs_there("git", "make")
class Refusals(unittest.TestCase):
    """The tests of programs and sources that are not packed."""

    def setUp(self):
        folder = tempfile.TemporaryDirectory()
        self.addCleanup(folder.cleanup)
        self.room = Packed(folder.name)
        self.room.passes()

    def refused(self, why):
        done = self.room.dist()
        self.assertNotEqual(done.returncode, 0)
        self.assertIn(why, done.stderr)
        self.assertFalse((self.room.top / "out").exists())

    def test_other_programs_and_sources_are_refused(self):
        program = self.room.top / "crates" / "labsys" / "out" / "labsys"
        before = program.read_bytes()
        program.write_bytes(before + b"\0")
        self.refused("is not the program that the gate has built")
        program.write_bytes(before)
        source = self.room.top / "crates" / "labsys" / "src" / "main.rt"
        source.touch()
        os.utime(source, (time.time() + 5, time.time() + 5))
        self.refused("main.rt has changed since")
        source.write_text(source.read_text() + "// a comment\n")
        self.refused("main.rt is not as in the commit")
        self.room.commit()
        self.refused("the gate has passed on other sources")
        (program.parent / "labsys.gate").unlink()
        self.refused("the gate has not passed here")

    def test_sources_that_are_no_checkout(self):
        shutil.rmtree(self.room.top / ".git")
        self.refused("the gate has passed on other sources")
        self.room.passes()
        self.assertEqual(self.room.dist().returncode, 0)
        self.assertIn("commit       none\n", (self.room.top / "out" / "ORIGIN").read_text())

    def test_uncommitted_sources_are_not_noted(self):
        (self.room.top / "docs" / "help.txt").write_text("other\n")
        with self.assertRaises(subprocess.CalledProcessError):
            self.room.passes()
        self.refused("the gate has not passed here")


def main():
    arguments = argparse.ArgumentParser(description=__doc__, formatter_class=argparse.RawDescriptionHelpFormatter)
    arguments.add_argument("--program", type=pathlib.Path, required=True, help="the program that is packed")
    arguments.add_argument("names", nargs="*", metavar="NAME", help="a test, as test_sums_and_origin")
    given = arguments.parse_args()
    first_use.program_given = given.program.resolve()
    unittest.main(argv=[sys.argv[0]], defaultTest=[f"{case.__name__}.{name}" for name in given.names for case in (Release, Refusals) if hasattr(case, name)] or None)


if __name__ == "__main__":
    main()
