"""`world`: a world of a tree that the test makes, whose objects `labsys` answers as the tree has them."""
import json
import os
import pathlib
import shutil
import socket
import stat
import struct
import subprocess

import pytest
from system import labask, play, root

from labask.file_caps import read_attribute
from labask.worlds import path_word, read_world, split_words

ASKER = "7:7:-:cap_dac_read_search=ep"
KINDS = {stat.S_IFDIR: "dir", stat.S_IFREG: "file", stat.S_IFIFO: "fifo"}
NAMES = [b"plain", b"a b", b'quote"d', b"back\\slash", b"#number", b"\xff\x01\xe4", b"-dash", b"..."]
# the attribute as Linux keeps it: bits by the numbers of capabilities in Linux, and what the profile makes of them
CHOWN, DAC_OVERRIDE, KILL, SETUID, NET_RAW, SETFCAP = 1 << 0, 1 << 1, 1 << 5, 1 << 7, 1 << 13, 1 << 31
ATTRIBUTES = {
    "second": (struct.pack("<5I", 0x02000001, CHOWN | KILL, 0, 0, 0), "cap_chown,cap_kill=ep"),
    "inherits": (struct.pack("<5I", 0x02000000, SETUID, KILL | SETUID, 0, 0), "cap_kill=i cap_setuid=ip"),
    "split": (struct.pack("<5I", 0x02000001, DAC_OVERRIDE | SETFCAP, 0, 0, 0),
              "cap_dac_execute,cap_dac_read_search,cap_dac_write,cap_setfcap=ep"),
    "network": (struct.pack("<5I", 0x02000001, NET_RAW, 0, 0, 0), None),
    "partly": (struct.pack("<5I", 0x02000001, NET_RAW | KILL, 0, 0, 0), "cap_kill=ep"),
}
pytestmark = pytest.mark.usefixtures("program")


def make_tree(tree):
    """A tree with modes, owners, set-id bits, names that are quoted, FIFOs, a hard link, and what no world has."""
    tree.chmod(0o755)
    for index, name in enumerate(NAMES):
        folder = os.path.join(os.fsencode(tree), name)
        os.mkdir(folder)
        pathlib.Path(os.fsdecode(folder), "f").write_bytes(bytes(range(256)) * index)
    for mode in (0o000, 0o400, 0o640, 0o755, 0o4755, 0o2755, 0o6711):
        path = tree / f"mode{mode:04o}"
        path.write_bytes(b"x" * mode)
        if root():
            os.chown(path, mode % 7, mode % 5)
        path.chmod(mode)
    (tree / "group").mkdir()
    (tree / "group").chmod(0o2775)
    (tree / "sticky").mkdir()
    (tree / "sticky").chmod(0o1777)
    os.mkfifo(tree / "fifo", 0o600)
    os.link(tree / "plain" / "f", tree / "group" / "second name")
    os.link(tree / "fifo", tree / "group" / "fifo2")
    os.symlink("plain", tree / "symbolic")
    listening = socket.socket(socket.AF_UNIX)
    listening.bind(str(tree / "socket"))
    listening.close()
    (tree / "long").write_bytes(bytes((index * 7) % 256 for index in range(20000)))
    os.utime(tree / "long")
    if root():
        (tree / "long").chmod(0o4755)


def set_attributes(tree):
    """Files with capability sets, and the texts that are due; none where this test may not set them."""
    due = {}
    for name, (value, text) in ATTRIBUTES.items():
        path = tree / f"caps_{name}"
        path.write_bytes(b"")
        try:
            os.setxattr(path, "security.capability", value)
        except OSError:
            continue
        due[path] = text
    return due


def objects_of(tree):
    """The paths in the world and in the system of all that a world has of a tree."""
    yield b"/", os.fsencode(tree)
    for folder, names, files in os.walk(os.fsencode(tree)):
        for name in sorted(names + files):
            real = os.path.join(folder, name)
            if stat.S_IFMT(os.lstat(real).st_mode) in KINDS:
                yield real[len(os.fsencode(tree)):], real


def replies_to(world, calls):
    """The replies to calls of the process that asks, each as its words."""
    script = b"".join(f"1@base {call}\n".encode() for call in calls)
    before = len(read_world(world).script)
    return [split_words(line)[0][2:] for line in play(world + script)[before:before + len(calls)]]


@pytest.fixture(scope="module")
def tree(tmp_path_factory, program):
    """A tree of all that there may be in one."""
    found = tmp_path_factory.mktemp("whole") / "tree"
    found.mkdir()
    make_tree(found)
    return found


@pytest.fixture(scope="module")
def attributes(tree):
    """The texts that are due of the files of the tree with capability sets."""
    return set_attributes(tree)


@pytest.fixture(scope="module")
def whole(tree, attributes):
    """The world of the tree with all of its contents."""
    world, messages = labask("world", tree, "--bytes", "65536", "--proc", ASKER)
    assert messages == ""
    return world


def test_status_of_each_object(tree, whole):
    paths = sorted(objects_of(tree))
    for (_, real), reply in zip(paths, replies_to(whole, [f"stat {path_word(path)}" for path, _ in paths])):
        there = os.lstat(real)
        kind = KINDS[stat.S_IFMT(there.st_mode)]
        due = ["ok", kind, f"{there.st_mode & 0o6777:04o}", str(there.st_uid), str(there.st_gid)]
        assert [word.text for word in reply[:5]] == due, real
        if kind == "file":
            assert [word.text for word in reply[5:7]] == [str(there.st_size), str(there.st_nlink)], real


def test_content_of_each_file(tree, whole):
    files = [(path, real) for path, real in sorted(objects_of(tree)) if stat.S_ISREG(os.lstat(real).st_mode)]
    calls = [call for path, _ in files for call in (f"open {path_word(path)} r", "read 0 65536", "close 0")]
    for (_, real), reply in zip(files, replies_to(whole, calls)[1::3]):
        assert reply[1].value == (pathlib.Path(os.fsdecode(real)).read_bytes() if os.access(real, os.R_OK) else b""), real


def test_names_of_each_directory(tree, whole):
    paths = dict(sorted(objects_of(tree)))
    folders = [path for path, real in paths.items() if os.path.isdir(real)]
    for path, reply in zip(folders, replies_to(whole, [f"readdir {path_word(path)}" for path in folders])):
        due = sorted(name for name in os.listdir(paths[path]) if path.rstrip(b"/") + b"/" + name in paths)
        assert [word.value for word in reply[1:]] == due, path


def test_capabilities_of_files(tree, whole, attributes):
    if not attributes:
        pytest.skip("this user may not set capabilities of files")
    calls = [f"cap_get_file {path_word(os.fsencode(path)[len(os.fsencode(tree)):])}" for path in attributes]
    assert [reply[1].text for reply in replies_to(whole, calls)] == [text or "=" for text in attributes.values()]
    assert b"/caps_network: the profile does not have cap_net_raw\n" in whole
    assert b"capabilities 2" in whole, "files with capabilities left out are counted"


def test_capabilities_that_setcap_sets(tmp_path):
    setcap = shutil.which("setcap")
    if setcap is None or not root():
        pytest.skip("setcap, which Debian has in its package libcap2-bin, needs root")
    path = tmp_path / "f"
    path.write_bytes(b"")
    subprocess.run([setcap, "cap_fowner,cap_audit_write+ep", str(path)], check=True)
    world = labask("world", tmp_path, "--proc", ASKER)[0]
    assert replies_to(world, ["cap_get_file /f"])[0][1].text == "cap_fowner,cap_audit_write=ep"


@pytest.mark.parametrize("text", (b"symbolic link /symbolic", b"socket /socket", b"sticky bit /sticky"))
def test_what_is_left_out(text, whole):
    """It is named and counted."""
    kind = text.rpartition(b" ")[0]
    assert b"# left out: " + text + b"\n" in whole and kind + b" 1" in whole


@pytest.fixture
def hello(tmp_path, program):
    """A folder with a file of five bytes."""
    (tmp_path / "hello").mkdir()
    (tmp_path / "hello" / "f").write_bytes(b"hello")
    return tmp_path / "hello"


@pytest.mark.parametrize("words, shown, content", [
    ((), "none is here", ""), (("--bytes", "2"), "2 are here", "he"), (("--bytes", "5"), "", "hello"),
], ids=["none", "2", "all"])
def test_bytes(words, shown, content, hello):
    """Without --bytes no content is there, and a comment says how much there is; with N it is cut."""
    world = labask("world", hello, "--proc", ASKER, *words)[0].decode()
    assert (f"# left out: content /f: 5 bytes, of which {shown}\n" in world) == bool(shown)
    assert f' base "{content}"\n' in world


def test_wrong_words(hello):
    labask("world", hello, "--bytes", "65537", status=1)
    labask("world", hello / "none", status=1)


@pytest.mark.parametrize("text", ("1:2:3", "a:1:-:=", "1:1:-:", f"1:1:{','.join(['1'] * 17)}:="))
def test_wrong_processes(text, hello):
    labask("world", hello, "--proc", text, status=1)


def test_json(hello):
    found = json.loads(labask("world", hello, "--proc", ASKER, "--json")[0])
    assert found["world"].encode() == labask("world", hello, "--proc", ASKER)[0]
    assert (found["objects"], found["processes"], found["left_out"]) == (2, 1, {"content": 1})


def test_own_process(hello):
    """Without --proc the process is that of who asks."""
    (process,) = read_world(labask("world", hello)[0]).processes
    assert (process.user, process.group, process.groups) == (os.geteuid(), os.getegid(), tuple(os.getgroups()[:16]))
    status = pathlib.Path("/proc/self/status").read_text(encoding="ascii")
    effective = next(int(line.split()[1], 16) for line in status.splitlines() if line.startswith("CapEff"))
    assert ("cap_kill" in process.caps) == bool(effective & KILL)


def test_names_and_paths_at_the_limits(tmp_path):
    """The longest names and deepest trees that fit are written; longer ones are named, and nothing is written."""
    deepest = tmp_path.joinpath(*["d"] * 32)
    deepest.mkdir(parents=True)
    (tmp_path / ("n" * 63)).write_bytes(b"")
    assert len(read_world(labask("world", tmp_path, "--proc", ASKER)[0]).objects) == 34
    (tmp_path / ("m" * 64)).write_bytes(b"")
    (deepest / "e").mkdir()
    world, messages = labask("world", tmp_path, "--proc", ASKER, status=2)
    assert world == b""
    assert f"/{'m' * 64}: the name has 64 bytes" in messages
    assert f"{'/d' * 32}/e: the path has 33 names" in messages


@pytest.mark.parametrize("name, depth, message", [
    (b"\xff" * 60, 9, "its line would have"), (b"n" * 60, 17, "the path has 1037 bytes"),
], ids=["line", "path"])
def test_long_paths(name, depth, message, tmp_path):
    """A path whose line is too long, and one of more than 1,023 bytes."""
    os.makedirs(os.path.join(os.fsencode(tmp_path), *[name] * depth))
    world, messages = labask("world", tmp_path, "--proc", ASKER, status=2)
    assert world == b"" and message in messages


def test_objects_at_the_limit(tmp_path):
    """All objects that a label may have, and one more."""
    for number in range(65534):
        os.close(os.open(tmp_path / str(number), os.O_CREAT | os.O_WRONLY, 0o600))
    assert labask("world", tmp_path, "--proc", ASKER)[0].count(b"\nfile ") == 65534
    (tmp_path / "zlast").write_bytes(b"")
    world, messages = labask("world", tmp_path, "--proc", ASKER, status=2)
    assert (world, messages) == (b"", "labask: /zlast: label base: refused, too_many\n")
    shutil.rmtree(tmp_path)


NAMES_OF_LABELS = "levels public secret\ncategories eng legal\nbound cap_kill\n"


@pytest.fixture
def plans(tmp_path, program):
    """A tree to be labelled, and the map of labels to be written."""
    (tmp_path / "tree" / "eng" / "plans").mkdir(parents=True)
    (tmp_path / "tree" / "engine").mkdir()
    (tmp_path / "tree" / "eng" / "plans" / "a b").write_bytes(b"")
    return tmp_path / "tree", tmp_path / "labels.txt"


def test_labels(plans):
    """The longest beginning of a path decides."""
    tree, labels = plans
    labels.write_text(NAMES_OF_LABELS + "label / public\nlabel /eng public:eng\n"
                      'label "/eng/plans/a b" secret:legal,eng\nlabel /none secret\n')
    world, messages = labask("world", tree, "--labels", labels, "--proc", "5:6:7,8:=", "--proc", "5:6:-:cap_kill=p:secret:eng")
    assert messages == f"labask: {labels}:7: the world has nothing at /none or below\n"
    read = read_world(world)
    assert {each.path: each.label for each in read.objects} == {
        b"/": "public", b"/eng": "public:eng", b"/eng/plans": "public:eng", b"/engine": "public",
        b"/eng/plans/a b": "secret:eng,legal"}
    assert [each.written.decode() for each in read.processes] == \
        ['proc public 5 6 7,8 "="', 'proc secret:eng 5 6 - "cap_kill=p"']
    assert read.bound == "cap_kill"
    assert play(world + b"1@public mac_get_file /eng\n")[0] == b"1@public mac_get_file EACCES mac_read p1"


@pytest.mark.parametrize("lines, message", [
    ("label /eng secret\nlabel /eng/plans public\n", "/eng/plans: label public of {0}:5: refused, label_order"),
    ("label /eng top\n", "/eng: label top of {0}:4: refused, unknown_name"), ("label eng public\n", "{0}:4: expected"),
    ("levels a a\n", "{0}:4: expected"), ("label /eng\tpublic\n", "{0}:4: column 11: tab"),
])
def test_refused_labels(lines, message, plans):
    """What `labsys` refuses is named by its path and the line of the map."""
    tree, labels = plans
    labels.write_text(NAMES_OF_LABELS + lines)
    world, messages = labask("world", tree, "--labels", labels, status=2)
    assert world == b"" and message.format(labels) in messages


@pytest.fixture
def linked(tmp_path, program):
    """A file of 5,120 bytes with two names, and the map of labels to be written."""
    tree, labels = tmp_path / "links", tmp_path / "links.txt"
    for folder in ("high", "zz"):
        (tree / folder).mkdir(parents=True)
    (tree / "high" / "f").write_bytes(bytes(range(256)) * 20)
    os.link(tree / "high" / "f", tree / "name")
    (tree / "high" / "f").chmod(0o4755)
    return tree, labels


def test_links(linked):
    """A further name across labels, and a long content at a label, which calls of the script make."""
    tree, labels = linked
    labels.write_text("levels base top\ncategories\nlabel /high top\n")
    asker = "0:0:-:cap_dac_read_search,cap_mac_read=ep"
    world, _ = labask("world", tree, "--labels", labels, "--bytes", "65536", "--proc", asker)
    status, _, read = replies_to(world, ["stat /name", "open /name r", "read 0 65536"])
    words = [word.text for word in status]
    assert [*words[1:3], *words[5:7]] == ["file", "4755", "5120", "2"]
    assert read[1].value == bytes(range(256)) * 20
    assert not any(line.startswith(b"end 1@top") for line in play(world)), "the process that made them has ended"


def test_links_that_no_call_makes(linked):
    tree, labels = linked
    labels.write_text("levels base top\ncategories\nlabel /zz top\n")
    os.link(tree / "name", tree / "zz" / "g")
    world, messages = labask("world", tree, "--labels", labels, status=2)
    assert world == b"" and "/zz/g" in messages and "EPERM label_order" in messages


ODD = os.fsdecode(b"\xff\n")


@pytest.mark.parametrize("text, line", [
    (f"1:2:3:{ODD}", 'proc base 1 2 3 "\\xff\\x0a"'), (f"1:2:-:=:{ODD}", 'proc "\\xff\\x0a" 1 2 - "="'),
    ("1:2:-:\u00e9", 'proc base 1 2 - "\\xc3\\xa9"'), ("1:2:-:=:base 0", 'proc "base 0" 1 2 - "="'),
], ids=["capabilities", "label", "letter", "space"])
def test_bytes_of_words(text, line, hello):
    """Bytes of the command line that no label and no capability has: `labsys` refuses their line."""
    world, messages = labask("world", hello, "--proc", text, status=2)
    assert world == b"" and messages.startswith(f"labask: {line}: refused, ") and messages.count("\n") == 1


def test_bytes_of_labels(hello, tmp_path):
    labels = tmp_path / "odd.txt"
    labels.write_text("levels base\ncategories\nlabel / \"\\xff b\"\n")
    world, messages = labask("world", hello, "--labels", labels, "--proc", "1:2:-:=", status=2)
    assert world == b"" and messages.startswith(f'labask: /: label "\\xff b" of {labels}:3: refused, ')


@pytest.mark.parametrize("attribute, text, root_user", [
    (struct.pack("<3I", 0x01000001, KILL, 0), "cap_kill=ep", 0),
    (struct.pack("<6I", 0x03000000, KILL, SETUID, 0, 0, 1000), "cap_kill=p cap_setuid=i", 1000),
], ids=["1", "3"])
def test_versions(attribute, text, root_user):
    """The first version of the attribute, and the third, whose sets count where their user is root."""
    found = read_attribute(attribute)
    assert (found.sets.text, found.root) == (text, root_user)


def test_second_word_of_a_set():
    high = read_attribute(struct.pack("<5I", 0x02000001, KILL, 0, 1 << 7, 1 << 8)).sets
    assert (high.text, high.left_out) == ("cap_kill=ep", ("cap_bpf", "cap_checkpoint_restore"))


def test_sets_of_another_root(hello):
    try:
        os.setxattr(hello / "f", "security.capability", struct.pack("<6I", 0x03000001, KILL, 0, 0, 0, 1000))
    except OSError:
        pytest.skip("this user may not set capabilities of files")
    world, _ = labask("world", hello, "--proc", ASKER)
    assert b"# left out: capabilities /f: cap_kill=ep counts only where the user 1000 is root\n" in world
    world, _ = labask("world", hello, "--proc", ASKER, "--root-user", "1000")
    assert b'base "" "cap_kill=ep"\n' in world, "the root that is named"
