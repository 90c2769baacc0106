"""`trace`: programs are traced, and their logs played on the world of the same tree with all labels the lowest.

Each call that the script plays has the reply that Linux gave, but for known differences, and in the end the world has what the
tree has. The logs that are kept beside the test are played too, also where strace is not there; `pytest --record` records them anew.
"""
import json
import os
import pathlib
import shutil
import stat
import subprocess
import tarfile

import pytest
from support import HERE
from system import PLAIN, USER, as_user, give, labask, own_ids, play, strace

from labask.strace.comparing import Verdict, known_texts
from labask.worlds import path_word, read_world, split_words

LOGS = HERE / "logs"
KEPT = pathlib.Path("/srv/site")
KINDS = {stat.S_IFDIR: "dir", stat.S_IFREG: "file", stat.S_IFIFO: "fifo"}
PERL = r"""
$SIG{TERM} = 'DEFAULT'; umask 027;
open(my $f, '+>', 'dst/new') or die; syswrite($f, "one two"); sysseek($f, 4, 0); sysread($f, my $x, 10);
open(my $g, '>>', 'dst/new'); syswrite($g, " three"); close $g; open(my $h, '<&', $f); close $f; close $h;
link('dst/new', 'dst/second'); rename('dst/second', 'src/third'); chmod 0604, 'src/third'; mkdir 'dst/d'; rmdir 'dst/d';
chdir 'src'; open($f, '<', 'none'); open($f, '<', '../src/a'); close $f; mkdir 'sub'; rmdir 'sub'; unlink 'sub'; chdir '..';
pipe(my $r, my $w); my $p = fork;
if (!$p) { close $r; syswrite($w, "from the child"); exit 5 }
close $w; sysread($r, $x, 100); sysread($r, $x, 100); waitpid($p, 0);
$p = fork; if (!$p) { sleep 9; exit } kill 0, $p; kill 'TERM', $p; waitpid($p, 0); kill 0, $p;
chown $<, $( + 0, 'src/third'; open($f, '<', 'closed/f'); opendir(my $d, 'closed'); chmod 0, 'src/none'; unlink 'src/third';
"""
SHELL = ("cat src/a src/b | sort > dst/sorted; mkdir new && mv dst/sorted new/; rm -r src/sub; chmod 600 new/sorted; (exit 3); "
         "cat src/none closed/f; cp src/a new; cd new; cat < ../src/b > c; ln c d; mkfifo p; cat p & echo x > p; wait; rm c")
# calls that programs make at their start, and that are left out of the logs that are kept
UNRECORDED = ("mmap", "mprotect", "munmap", "brk", "arch_prctl", "rseq", "set_robust_list", "set_tid_address", "rt_sigaction",
              "rt_sigprocmask", "futex", "getrandom", "prlimit64")
PIPES = "cat src/big | cat > dst/copy; cat src/big src/big | wc -c > dst/n; cat src/big | head -c 10 > dst/head"
TAR_PIPE = "tar --numeric-owner -cf - src | cat | cat > all.tar; cat all.tar all.tar | cat > twice"
# programs whose logs are too long to be kept
UNKEPT = ("tar_pipe",)
# programs with the calls that their scripts have at least
SCENARIOS = {
    "cp": (["cp", "-r", "src", "copy"], "open read write close fstat stat readdir mkdir exit"),
    "cp_p": (["cp", "-p", "src/a", "src/set", "dst"], "open read write close fstat stat chmod exit"),
    "mv": (["mv", "src/a", "src/sub", "dst"], "rename stat exit"),
    "tar_c": (["tar", "--numeric-owner", "-cf", "all.tar", "src"], "open read write close fstat stat readdir exit"),
    "tar_x": (["tar", "--numeric-owner", "-xf", "kept.tar", "-C", "dst"], "open read write close mkdir exit"),
    "sh": (["sh", "-c", SHELL],
           "open read write close dup pipe fork wait exit mkdir rename unlink rmdir chmod chdir link mkfifo"),
    "pipes": (["sh", "-c", PIPES], "open read write close dup pipe fork wait exit"),
    "tar_pipe": (["sh", "-c", TAR_PIPE], "open read write close dup pipe fork wait exit"),
    "perl": (["perl", "-e", PERL], "open read write lseek dup pipe fork wait kill exit umask link rename chmod chown mkdir rmdir "
                                   "unlink chdir"),
}


def make_tree(tree, name):
    """The tree in which a program runs."""
    for folder in ("src/sub/deep", "dst", "closed"):
        (tree / folder).mkdir(parents=True)
    (tree / "src/a").write_bytes(b"pear\napple\n")
    (tree / "src/b").write_bytes(bytes(range(256)) * 12)
    (tree / "src/set").write_bytes(b"run")
    if name == "pipes":
        (tree / "src/big").write_bytes(b"".join(b"%07d\n" % number for number in range(1500)))
    (tree / "src/sub/empty").write_bytes(b"")
    (tree / "src/sub/deep/a b").write_bytes(b"a quote \" and a backslash \\\n")
    (tree / "closed/f").write_bytes(b"closed")
    if name == "tar_x":
        with tarfile.open(tree / "kept.tar", "w", format=tarfile.USTAR_FORMAT) as kept:
            kept.add(tree / "src", "src", filter=plain)
    for path in tree.rglob("*"):
        path.chmod(0o755 if path.is_dir() else 0o644)
    give(tree)
    (tree / "src/set").chmod(0o4755)
    (tree / "closed/f").chmod(0)
    (tree / "closed").chmod(0)


def plain(member):
    """A member of the archive as it is on any system."""
    member.uid = member.gid = USER
    member.uname = member.gname = ""
    member.mtime = 0
    member.mode = 0o755 if member.isdir() else 0o640
    return member


def write_world(tree):
    """The world of the tree, with the process that runs, and one that looks at the end."""
    user, group, groups = own_ids()
    return labask("world", tree, "--bytes", "65536", "--proc", f"{user}:{group}:{groups}:=",
                  "--proc", "7:7:-:cap_dac_read_search=ep")[0]


def record(program, words, tree, log, *options):
    """Runs a program in the tree below strace."""
    command = [program, "-f", "-y", "-s", "65536", *options, "-o", str(log), *words]
    with open(log, "wb"):
        pass
    os.chmod(log, 0o666)
    subprocess.run(command, cwd=tree, env=PLAIN, stdin=subprocess.DEVNULL, stdout=subprocess.DEVNULL, stderr=subprocess.DEVNULL,
                   preexec_fn=as_user, check=False, timeout=900)


def compared(world, log, folder):
    """The run of a log in a world, and how its replies compare with the log."""
    (folder / "world").write_bytes(world)
    run, messages = labask("trace", folder / "world", log)
    (folder / "run").write_bytes(run)
    return run, json.loads(labask("why", folder / "run", "--against", log, "--json", status=None)[0])


def judge(run, found, due):
    """Fails where a reply differs from the log in what is not known, or where a call is lacking."""
    wrong = [each for each in found["calls"] if each["verdict"] in (Verdict.DENIED.value, Verdict.OTHER.value)]
    assert not wrong, f"{len(wrong)} replies differ"
    assert {each["text"] for each in found["calls"] if each["verdict"] == Verdict.KNOWN.value} <= set(known_texts())
    assert set(due.split()) <= {line.call for line in read_world(run).script}, "calls that no line plays"


def compare_end(run, tree):
    """In the end each object of the tree is in the world, with its attributes and bytes."""
    reals = [os.path.join(folder, each) for folder, names, files in os.walk(os.fsencode(tree)) for each in sorted(names + files)]
    paths = [path_word(real[len(os.fsencode(tree)):]) for real in reals]
    calls = [call for path in paths for call in (f"stat {path}", f"open {path} r", "read 0 65536", "close 0")]
    before = len(read_world(run).script)
    replies = [split_words(line)[0][2:] for line in play(run + b"".join(f"2@base {call}\n".encode() for call in calls))][before:]
    for real, found, read in zip(reals, replies[::4], replies[2::4]):
        status, words = os.lstat(real), [word.text for word in found]
        kind = KINDS[stat.S_IFMT(status.st_mode)]
        assert words[:5] == ["ok", kind, f"{status.st_mode & 0o6777:04o}", str(status.st_uid), str(status.st_gid)], real
        if kind == "file":
            assert (int(words[6]), read[1].value) == (status.st_nlink, real_bytes(real)), real


def real_bytes(real):
    """The bytes of a file of the tree, also of one that nobody may read."""
    mode = os.lstat(real).st_mode
    os.chmod(real, 0o600)
    with open(real, "rb") as file:
        content = file.read()
    os.chmod(real, stat.S_IMODE(mode))
    return content


def make_removable(tree):
    """Lets a user without privilege remove the tree."""
    for folder, names, files in os.walk(tree):
        for name in names:
            os.chmod(os.path.join(folder, name), 0o755)


@pytest.fixture(scope="module")
def tracer(program, request):
    """The path of strace. With --record the logs that are kept are recorded first."""
    found = strace()
    if found is None:
        pytest.skip("there is no strace that may trace, which Debian has in its package strace")
    if request.config.getoption("--record"):
        record_all(found)
    return found


@pytest.mark.parametrize("name", SCENARIOS)
def test_traced_now(name, open_folder, tracer):
    """A program is traced in a tree of its own."""
    (words, due), tree = SCENARIOS[name], open_folder / "tree"
    if shutil.which(words[0]) is None:
        pytest.skip(f"there is no {words[0]}")
    tree.mkdir()
    make_tree(tree, name)
    world = write_world(tree)
    record(tracer, words, tree, open_folder / "log", "-e", "abbrev=execve")
    run, found = compared(world, open_folder / "log", open_folder)
    judge(run, found, due)
    compare_end(run, tree)
    make_removable(tree)


@pytest.mark.parametrize("name", sorted(set(SCENARIOS) - set(UNKEPT)))
def test_kept_log(name, tmp_path, program):
    run, found = compared((LOGS / f"{name}.txt").read_bytes(), LOGS / f"{name}.log", tmp_path)
    judge(run, found, SCENARIOS[name][1])


def record_all(tracer):
    """Records the logs that are kept, of a tree at a path that says nothing of this system."""
    LOGS.mkdir(exist_ok=True)
    for name in sorted(set(SCENARIOS) - set(UNKEPT)):
        shutil.rmtree(KEPT, ignore_errors=True)
        KEPT.mkdir(parents=True)
        make_tree(KEPT, name)
        (LOGS / f"{name}.txt").write_bytes(write_world(KEPT))
        record(tracer, SCENARIOS[name][0], KEPT, LOGS / f"{name}.log", "-e", "trace=!" + ",".join(UNRECORDED))
        (LOGS / f"{name}.log").chmod(0o644)
    shutil.rmtree(KEPT)
