"""`check`: it names the line that `labsys` names, and finds a fault there of the kind of the refusal.

The usual mistakes are those of docs/FORMATS.md; a thousand more texts are examples with a random change.
"""
import collections
import json
import re

import mistakes
import pytest
from hypothesis import given, settings
from strategies import faulty_texts
from support import EXAMPLES, TOP, labask

from labask import check, elsewhere
from labask.playing import Refused
from labask.signatures import CALLS, CAPABILITIES, LINES, UTILITIES

REFUSED = 1000
FORMATS = (TOP / "docs" / "FORMATS.md").read_text(encoding="utf-8")
WORLD = mistakes.world_of(FORMATS)
NOTHING = "no fault was found that this word names"
# the messages that the question promises: a line of a world or of a script, how its message ends, and what is marked
MESSAGES = [
    ("world", "directory /a 0755 0 0 public", 'word 1 "directory": expected dir, file, fifo, proc or script', "directory"),
    ("world", "dir /a 0755 0 0 public\r", "carriage return; lines end with a line feed alone", "?"),
    ("script", "1@secret:eng open /a wr", 'FLAGS "wr": letters in the order rwcxta', "wr"),
    ("script", "1@secret:eng open /a rwc", "FLAGS has c, so MODE is due", "rwc"),
    ("world", 'proc public 0 0 - "cap_kill=e"', "effective but not permitted: cap_kill", '"cap_kill=e"'),
]
TAG = "1@secret:eng"
NO_TAG = "the tag n@label is missing before the call"
COMMENT = "a comment is a line of its own"
OF_WORLD = "a line of the world, which stands before the line script, line 9"
OF_PROGRAMS = "a line of programs, which labsys sched reads"
SPACED = "with a space is quoted"
NO_NUMBER = "the number is missing before the label; expected n@label"
LABEL_FORM = "a label is a level, a colon and categories with commas, without spaces"
# usual slips: a line of a world or of a script, a part of the message, what is marked, and the lines to write
SLIPS = [
    ("script", "open /a r", NO_TAG, "open", [f"{TAG} open /a r"]),
    ("script", "getpid", NO_TAG, "getpid", [f"{TAG} getpid"]),
    ("script", "rename stat /b", NO_TAG, "rename", [f"{TAG} rename stat /b"]),
    ("script", "open /a wr", NO_TAG, "open", []),
    ("script", "ls /eng", f"{NO_TAG}; here it is readdir PATH", "ls", [f"{TAG} readdir /eng"]),
    ("script", f"{TAG} getpid # who", COMMENT, "# who", ["# who", f"{TAG} getpid"]),
    ("script", f"{TAG} open /a r # read it", COMMENT, "# read it", ["# read it", f"{TAG} open /a r"]),
    ("script", f"{TAG} mkdir #a u+x", "expected 1 to 4 octal digits", "u+x", []),
    ("world", "dir /a 0755 0 0 public # news", COMMENT, "# news", ["# news", "dir /a 0755 0 0 public"]),
    ("world", 'file /a 0644 0 0 public "x" # news', COMMENT, "# news", ["# news", 'file /a 0644 0 0 public "x"']),
    ("script", "dir /a 0755 0 0 public", OF_WORLD, "dir", []),
    ("script", "levels a b", OF_WORLD, "levels", []),
    ("script", "script", OF_WORLD, "script", []),
    *(("script", line, OF_PROGRAMS, line.split()[0], []) for line in
      ("slices public", "rounds 3", "program 1@public", "do getpid", "jump always 0", "stop")),
    ("world", f"{TAG} getpid", "a call, which stands after the line script", TAG, []),
    ("world", "slices public", "a line of programs, which stands after the line script", "slices", []),
    ("script", f"{TAG} write 0 'two words'", "a word is quoted by \", and not by '", "'two words'", [f'{TAG} write 0 "two words"']),
    ("script", f"{TAG} write 0 \u201ctwo words\u201d", "not by curved quotes", "???", [f'{TAG} write 0 "two words"']),
    ("world", "file /a 0644 0 0 public 'two words'", "not by '", "'two words'", ['file /a 0644 0 0 public "two words"']),
    ("world", "file /a 0644 0 0 public two words", f"a content {SPACED}", "two words", ['file /a 0644 0 0 public "two words"']),
    ("world", "file /a 0644 0 0 public so  many words", f"a content {SPACED}", "so  many words",
     ['file /a 0644 0 0 public "so  many words"']),
    ("world", 'file /a 0644 0 0 public two words "cap_kill=p"', f"a content {SPACED}", "two words",
     ['file /a 0644 0 0 public "two words" "cap_kill=p"']),
    ("world", "dir /a b 0755 0 0 public", f"a path {SPACED}", "/a b", ['dir "/a b" 0755 0 0 public']),
    ("script", f"{TAG} open /a b r", f"a path {SPACED}", "/a b", [f'{TAG} open "/a b" r']),
    ("script", f"{TAG} write 0 two words", f"a content {SPACED}", "two words", [f'{TAG} write 0 "two words"']),
    ("script", f"{TAG} stat /a /b", "one too many", "/b", []),
    ("script", f"{TAG} chmod /a 0644 0", "one too many", "0", []),
    ("script", f"{TAG} cap_set_proc cap_kill=p cap_chown=p", "more than one clause is quoted", "cap_kill=p cap_chown=p",
     [f'{TAG} cap_set_proc "cap_kill=p cap_chown=p"']),
    ("script", f"{TAG} cap_set_proc cap_kill, cap_chown=p", "a list has commas without spaces", "cap_kill,",
     [f"{TAG} cap_set_proc cap_kill,cap_chown=p"]),
    ("world", 'proc public 0 0 2, 3 "="', "groups have commas between them, without spaces", "2, 3", ['proc public 0 0 2,3 "="']),
    ("world", 'proc public 0 0 2 3 4 "="', "groups have commas between them", "2 3 4", ['proc public 0 0 2,3,4 "="']),
    ("world", 'proc secret:eng, legal 0 0 - "="', LABEL_FORM, "secret:eng, legal", ['proc secret:eng,legal 0 0 - "="']),
    ("world", '"file" /a 0644 0 0 public "x"', "a keyword is not quoted", '"file"', ['file /a 0644 0 0 public "x"']),
    ("script", f'"{TAG}" getpid', "a tag is not quoted", f'"{TAG}"', [f"{TAG} getpid"]),
    ("script", f'{TAG} "getpid"', "the word of a call is not quoted", '"getpid"', [f"{TAG} getpid"]),
    ("script", f"{TAG} kill @secret:eng 0", "the number is missing before @; expected n@label", "@secret:eng",
     [f"{TAG} kill {TAG} 0"]),
    ("script", f"{TAG} kill @secret 0", "the number is missing before @; expected n@label", "@secret", []),
    ("script", "@secret:eng getpid", "the number is missing before @; expected n@label", "@secret:eng", [f"{TAG} getpid"]),
    ("script", f"{TAG} kill {TAG} SIGTERM", "the signal is written TERM here", "SIGTERM", [f"{TAG} kill {TAG} TERM"]),
    ("script", f"{TAG} kill -9 {TAG}", "the number of the process comes before the signal", "-9", [f"{TAG} kill {TAG} KILL"]),
    ("script", f"{TAG} open /a O_WRONLY|O_CREAT 0600", "flags are letters here: wc", "O_WRONLY|O_CREAT",
     [f"{TAG} open /a wc 0600"]),
    ("script", f'{TAG} open("/a", r);', "without parentheses and commas", 'open("/a", r);', [f'{TAG} open "/a" r']),
    ("script", f"{TAG} cap_set_proc cap-kill=p", "unknown capability cap-kill; the name is cap_kill", "cap-kill", []),
    ("world", 'proc public 0 0 - "cap_dac-read-search=p"', "the name is cap_dac_read_search", "cap_dac-read-search", []),
    ("script", f"{TAG} OPEN /a r", "letter case counts; the call is open", "OPEN", [f"{TAG} open /a r"]),
    ("script", "secret:eng getpid", NO_NUMBER, "secret:eng", [f"{TAG} getpid"]),
    ("script", f"{TAG} kill secret:eng 0", NO_NUMBER, "secret:eng", [f"{TAG} kill {TAG} 0"]),
    ("script", f"{TAG} kill secret 0", NO_NUMBER, "secret", []),
    ("script", "1 getpid", "the label is missing behind the number", "1", [f"{TAG} getpid"]),
    ("script", f"{TAG} kill 1 TERM", "the label is missing behind the number", "1", [f"{TAG} kill {TAG} TERM"]),
    ("script", f"{TAG}: getpid", "no colon stands behind it", f"{TAG}:", [f"{TAG} getpid"]),
    ("script", f"{TAG} open /a r# read it", COMMENT, "# read it", ["# read it", f"{TAG} open /a r"]),
    ("world", "file /a 0644 0 0 public is#1 here", f"a content {SPACED}", "is#1 here", ['file /a 0644 0 0 public "is#1 here"']),
    ("script", f"{TAG} getpid;", "a line ends without a semicolon", ";", [f"{TAG} getpid"]),
    ("script", f"{TAG} do getpid", "do stands in programs", "do", [f"{TAG} getpid"]),
    ("script", f"{TAG} write 0 hello, world", f"a content {SPACED}", "hello, world", [f'{TAG} write 0 "hello, world"']),
    ("script", f"{TAG} read 0, 5", "words have spaces between them, and no commas", "0,", [f"{TAG} read 0 5"]),
    ("script", f"{TAG} mkdir -p /a 0755", "a call has no options", "-p", [f"{TAG} mkdir /a 0755"]),
    ("script", f"{TAG} chmod 0644 /a", "the path comes first; the line is chmod PATH MODE", "/a", [f"{TAG} chmod /a 0644"]),
    ("script", f"{TAG} chmod u+x /a", "the path comes first", "/a", []),
    ("script", f"{TAG} chown 5:6 /a", "the path comes first; the line is chown PATH UID GID", "/a", [f"{TAG} chown /a 5 6"]),
    ("script", f"{TAG} chown /a 5:6", "a user and a group are two words", "5:6", [f"{TAG} chown /a 5 6"]),
    ("script", f"{TAG} mac_set_file secret /a", "the path comes first", "/a", [f"{TAG} mac_set_file /a secret"]),
    ("script", f"{TAG} setfcap /a cap_kill=p", "the paths come last; the line is setfcap CAPS PATH ...", "/a",
     [f"{TAG} setfcap cap_kill=p /a"]),
    ("script", f"{TAG} setfmac /a secret", "the paths come last", "/a", [f"{TAG} setfmac secret /a"]),
    ("script", f"{TAG} open /a r w", "flags are one word, without spaces", "r w", [f"{TAG} open /a rw"]),
    ("script", f"{TAG} open /a cw 0600", "letters in the order rwcxta", "cw", [f"{TAG} open /a wc 0600"]),
    ("script", f"{TAG} kill -TERM {TAG}", "the number of the process comes before the signal", "-TERM", [f"{TAG} kill {TAG} TERM"]),
    ("script", f"{TAG} lseek 0 SEEK_SET 0", "it is written set here", "SEEK_SET", [f"{TAG} lseek 0 set 0"]),
    ("script", f"{TAG} aud_switch ON", "it is written on here", "ON", [f"{TAG} aud_switch on"]),
    ("script", f"{TAG} exec /a b c", "a program has no arguments here", "b c", [f"{TAG} exec /a"]),
    ("script", f"{TAG} mac_set_proc secret eng", LABEL_FORM, "secret eng", [f"{TAG} mac_set_proc secret:eng"]),
    ("world", "dir /a 0755 0 0 secret eng", LABEL_FORM, "secret eng", ["dir /a 0755 0 0 secret:eng"]),
    ("world", "dir /a 0755 0 0 secret:eng:legal", LABEL_FORM, "secret:eng:legal", ["dir /a 0755 0 0 secret:eng,legal"]),
    ("world", 'proc secret eng 0 0 - "="', LABEL_FORM, "secret eng", ['proc secret:eng 0 0 - "="']),
    ("world", "dir /a 0755 root root public", "that of root is 0", "root", ["dir /a 0755 0 0 public"]),
    ("world", "dir /a 0755 0:0 public", "a user and a group are two words", "0:0", ["dir /a 0755 0 0 public"]),
    ("world", "file /a 0644 0 0 public", "is the content of an empty file", "", ['file /a 0644 0 0 public ""']),
    ("world", 'proc public 0 0 "="', "GROUPS is missing before CAPS; - stands for none", '"="', ['proc public 0 0 - "="']),
    ("world", 'PROC public 0 0 - "="', "letter case counts; it is proc", "PROC", ['proc public 0 0 - "="']),
    ("world", "dir: /a 0755 0 0 public", "a keyword has no colon; it is dir", "dir:", ["dir /a 0755 0 0 public"]),
]
# names elsewhere with arguments, a part of the message, and the calls to write
ELSEWHERE = [
    ("creat /a 0600", "here it is open PATH wct MODE", ["open /a wct 0600"]),
    ("cat /a", "read FD N and close FD", ["open /a r"]),
    ("ls -l /a", "here it is readdir PATH", ["readdir /a"]),
    ("rm -f /a /b", "here it is unlink PATH", ["unlink /a", "unlink /b"]),
    ("touch /a", "here it is open PATH wc MODE", ["open /a wc 0644"]),
    ("mv /a /b", "here it is rename PATH PATH", ["rename /a /b"]),
    ("ln /a /b", "here it is link PATH PATH", ["link /a /b"]),
    ("getuid", "here it is getids", ["getids"]),
    ("getgid", "here it is getids", ["getids"]),
    ("setcap cap_kill=p /a", "here it is setfcap CAPS PATH ...", ["setfcap cap_kill=p /a"]),
    ("getcap /a", "here it is getfcap PATH ...", ["getfcap /a"]),
    ("setfacl -m u:1:r /a", "no access control lists", []),
    ("chcon secret /a", "here it is setfmac LABEL PATH ...", ["setfmac secret /a"]),
    ("sleep 1", "there are no times", []),
    ("execve /a x y", "here it is exec PATH", ["exec /a"]),
    ("openat AT_FDCWD /a O_RDONLY", "here it is open PATH FLAGS", ["open /a r"]),
    ("stat64 /a", "here it is stat PATH", ["stat /a"]),
    ("waitpid 2", "here it is wait", ["wait"]),
    ("_exit 1", "here it is exit N", ["exit 1"]),
    ("_exit", "here it is exit N", []),
    ("chgrp 5 /a", "here it is chown PATH UID GID", []),
    ("symlink /a /b", "no symbolic links", []),
]
SLIPS += [("script", f"{TAG} {call}", message, call.split()[0], [f"{TAG} {line}" for line in lines])
          for call, message, lines in ELSEWHERE]


LOWERS = "lowers what no action before it has raised; to raise it, write cap_chown=ep"
AS_PATH = "setfcap takes it for a path; a capability text of more than one clause is one word, "
# lines that are accepted, with what is noted of each and what is marked
NOTES = [
    ("world", 'proc public 0 0 - "cap_chown-ep"', [(f'CAPS "cap_chown-ep": -ep {LOWERS}', "-ep")]),
    ("world", "file /a 0644 0 0 public a-e cap_chown-ep", [(LOWERS, "-ep")]),
    ("world", "file /a 0644 0 0 public a-e all=p", []),
    ("world", 'proc public 0 0 - "all=ep cap_chown-ep"', []),
    ("world", 'proc public 0 0 - "cap_chown=eip-i"', []),
    ("script", f"{TAG} cap_set_proc cap_chown-ep", [(LOWERS, "-ep")]),
    ("script", f"{TAG} setfcap cap_chown=p cap_kill=p /a", [(f'"cap_kill=p": {AS_PATH}"cap_chown=p cap_kill=p"', "cap_kill=p")]),
    ("script", f"{TAG} setfcap cap_chown-ep /a", [(LOWERS, "-ep")]),
    ("script", f'{TAG} setfcap "cap_chown=p cap_kill=p" /a', []),
    ("script", f"{TAG} setfcap cap_chown=p /a-e b=p", []),
]
# worlds with faults in several lines: the numbers of these, and what the last line before the refusal says
FAULTY = """\
world 2
levels public, secret
categories
bound cap_kill cap_chown
dir / 0755 root root public
dir /a 0755 0 0 public # news
directory /b 0755 0 0 public
file /b/c 0644 0 0 public two words
file /b/d 0644 0 0 public "x"
proc public 0 0 "="
script
1@public ls /
# a comment
1@public stat /b/d
open /a r
1@public getpid
1@public open /a wr
"""
FOLLOW = "to judge those behind it, so later faults may follow from earlier ones."
ALL = [
    (FAULTY, [2, 4, 5, 6, 7, 8, 10, 12, 15, 17], f"10 lines are refused. Each was mended or left out {FOLLOW}"),
    (FAULTY[:-1], [2, 4, 5, 6, 7, 8, 10, 12, 15, 17], FOLLOW),
    (FAULTY.replace("bound cap_kill cap_chown\n", ""), [2, 4], FOLLOW),
    (FAULTY.replace("levels public, secret", "levels public").replace("bound cap_kill cap_chown\n", ""), [4],
     "The lines behind line 4 were not judged, since they depend on it."),
    (FAULTY.split("script")[0], [2, 4, 5, 6, 7, 8, 10, 11], FOLLOW),
    (FAULTY.split("1@public ls")[0] + "open\n" * 200, [2, 4, 5, 6, 7, 8, 10, *range(12, 105)], FOLLOW),
]


pytestmark = pytest.mark.usefixtures("program")


def around(part):
    """What stands before and behind a line of the world, or of the script, of the usual mistakes."""
    return (WORLD, "") if part == "script" else (WORLD[:-len("script\n")], "script\n")


@pytest.fixture
def asked(tmp_path):
    """Asks about a text: gives the exit status of `check`, and its lines."""
    path = tmp_path / "world.txt"

    def ask(text, *options):
        path.write_bytes(text if isinstance(text, bytes) else text.encode())
        status, out, _ = labask("check", *options, path)
        return status, out.replace(str(path), "world.txt").splitlines()

    return ask


def marked(lines):
    """The part of the shown line that stands above the mark."""
    return lines[1][lines[2].index("^"):len(lines[2])]


def case_id(case):
    """The name of a test of a line."""
    return ascii(case[1])[1:-1]


@pytest.mark.parametrize("part, line, message, below", MESSAGES, ids=map(case_id, MESSAGES))
def test_messages(part, line, message, below, asked):
    before, behind = around(part)
    status, lines = asked(f"{before}{line}\n{behind}")
    assert status == 2 and lines[0] == f"world.txt:{before.count(chr(10)) + 1}: {message}" and marked(lines) == below


@pytest.mark.parametrize("part, line, message, below, due", SLIPS, ids=map(case_id, SLIPS))
def test_slips(part, line, message, below, due, asked):
    """The usual slips are explained, and the lines to write are accepted."""
    before, behind = around(part)
    status, lines = asked(f"{before}{line}\n{behind}")
    written = [text[len("  write: "):] for text in lines[3:-1]]
    assert status == 2 and message in lines[0] and marked(lines) == below and written == due, lines
    if written:
        status, lines = asked("".join([before, *(text + "\n" for text in written), behind]))
        assert status == 0, lines


def test_names_elsewhere_are_no_calls():
    assert not elsewhere.NAMES & {*CALLS, *UTILITIES}


def test_calls_to_be_written_are_calls():
    assert set(elsewhere.RENAMED.values()) <= {*CALLS, *UTILITIES}


@pytest.mark.parametrize("part, line, due", NOTES, ids=map(case_id, NOTES))
def test_notes(part, line, due, asked):
    """What an accepted line seems not to mean is noted, and nothing else."""
    before, behind = around(part)
    status, lines = asked(f"{before}{line}\n{behind}")
    shown = [(lines[at].partition(": ")[2], marked(lines[at:])) for at in range(1, len(lines), 3)]
    assert status == 0 and [below for _, below in shown] == [below for _, below in due], lines
    assert all(text in note for (note, _), (text, _) in zip(shown, due)), lines


ASKING = ["cap_get_file /eng", 'cap_set_file /eng "="', "cap_get_fd 0", 'cap_set_fd 0 "="', "cap_get_proc", 'cap_set_proc "="',
          "getfcap /eng", 'setfcap "=" /eng']


def test_least(asked):
    """It is explained what `least` alone refuses: every call that asks for capability sets, and no other."""
    text = "".join([WORLD, *(f"{TAG} getpid\n{TAG} {call}\n" for call in ASKING), "getpid\n"])
    status, lines = asked(text, "--least", "--all")
    due = [f'world.txt:{11 + 2 * at}: word 2 "{call.split()[0]}": it asks for capability sets' for at, call in enumerate(ASKING)]
    assert status == 2 and lines[-1] == "labsys: refused 11 script caps_asked"
    assert all(map(str.startswith, lines[::3], [*due, "world.txt:26: "])), lines
    status, lines = asked(text)
    assert status == 2 and lines[0].startswith("world.txt:26: "), "without --least"


def test_least_accepts(asked):
    status, lines = asked(f"{WORLD}{TAG} getpid\n", "--least")
    assert status == 0 and ": labsys least accepts it, with " in lines[0]


@pytest.mark.parametrize("text, numbers, last", ALL, ids=map(str, range(len(ALL))))
def test_all(text, numbers, last, asked):
    """`check --all` shows each faulty line, and says where it went no further."""
    status, lines = asked(text, "--all")
    shown = [int(found[1]) for found in (re.match(r"world\.txt:(\d+): ", line) for line in lines) if found]
    assert status == 2 and shown == numbers
    assert last in lines[-2] and lines[-1].startswith(f"labsys: refused {numbers[0]} ")
    status, lines = asked(text, "--all", "--json")
    assert status == 2 and [fault["line"] for fault in json.loads("\n".join(lines))["faults"]] == numbers


MISTAKES = list(mistakes.mistakes_of(FORMATS))


@pytest.mark.parametrize("text, last, shown", MISTAKES, ids=[shown for _, _, shown in MISTAKES])
def test_usual_mistakes(text, last, shown, asked):
    """The line and the kind of fault are found."""
    found = re.match(r"refused (\d+) ", last)
    status, lines = asked(text)
    assert NOTHING not in lines[0]
    if found:
        assert status == 2 and lines[0].startswith(f"world.txt:{found[1]}: ") and lines[-1] == f"labsys: {last}"
    else:
        assert status == 0


def judge_all(faults):
    """The faults are in the order of their lines, and each is explained."""
    numbers = [refusal.line for refusal, _ in faults.found]
    assert numbers == sorted(set(numbers))
    assert not [found.message for _, found in faults.found if NOTHING in found.message]


def test_faulty_texts(player):
    """The line and the kind of fault are found in examples with a random change; of some every fault is shown."""
    counts = collections.Counter()

    @settings(max_examples=2 * REFUSED)
    @given(faulty_texts([path.read_bytes() for path in EXAMPLES]))
    def judge(text):
        try:
            player.check(text)
        except Refused as refused:
            counts["refused"] += 1
            found = check.explain(text, refused.refusal, "world.txt", player)
            assert found[0].startswith(f"world.txt:{refused.refusal.line}: ") and NOTHING not in found[0], found
            if len(text) % 20 == 0:
                judge_all(check.every_fault(text, refused.refusal, player, player.check))

    judge()
    assert counts["refused"] >= REFUSED


CALLS_PAGE = (TOP / "docs" / "CALLS.md").read_text(encoding="utf-8")


def test_calls_of_the_page():
    cells = [cell for row in re.findall(r"^\| (`.*?`) \|", CALLS_PAGE, re.M) for cell in re.findall(r"`([^`]+)`", row)]
    documented = {cell.split()[0]: " ".join(cell.replace("\\|", "|").split()[1:]) for cell in cells if cell.split()[0] in CALLS}
    assert documented == CALLS


def test_utilities_of_the_page():
    assert dict(re.findall(r"^\| `TAG (\w+) ([^`]*)` \|", FORMATS, re.M)) == UTILITIES


def test_lines_of_the_page():
    assert dict(re.findall(r"^\| `(dir|file|fifo|proc) ((?:PATH|LABEL) [^`]*)` \|", FORMATS, re.M)) == LINES


def test_capabilities_of_the_page():
    profile = (TOP / "docs" / "PROFILE.md").read_text().split("## Capabilities")[1].split("The five")[0]
    assert tuple(dict.fromkeys(re.findall(r"`(cap_\w+)`", profile))) == CAPABILITIES


def test_no_process(asked):
    """A reply ESRCH is explained: by who lives at the label when the call is made."""
    world = b"world 2\nlevels a b\ncategories\nbound all\ndir / 0755 0 0 a\n" + b'proc a 1 1 - "="\n' * 2 + b"script\n"
    script = b"3@a getpid\n1@a fork\n3@a exit 0\n3@a getpid\n1@a kill 4@a 0\n1@b getpid\n"
    assert asked(world + script)[1][1:] == [
        "world.txt:9: ESRCH: 3@a is no living process; those of a are: 1@a, 2@a",
        "world.txt:12: ESRCH: 3@a is no living process; those of a are: 1@a, 2@a",
        "world.txt:13: ESRCH: 4@a is no living process; those of a are: 1@a, 2@a",
        "world.txt:14: ESRCH: 1@b is no living process; those of b are: none"]
