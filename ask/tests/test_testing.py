"""The question test says which rules hold of a world and by what, and shows a script of each that is broken."""
import json
import pathlib
import re
import tempfile
from typing import Any, Dict, Tuple
from xml.etree import ElementTree

import pytest
from hypothesis import given, settings
from hypothesis import strategies as st
from support import labask

from labask.rule_texts import RuleFault, read_groups

pytestmark = pytest.mark.usefixtures("program")
HEAD = "world 2\nlevels low high\ncategories\nbound all\ndir / 0755 0 0 low\n"
# a reader of all at the higher label, a vault there, a board below, and a tool that gives a capability to who may execute it
WORLD = (HEAD + 'dir /d 0755 0 0 low\nfile /d/board 0666 9 9 low "welcome"\nfile /d/tool 0710 0 12 low "" "cap_audit_write=ep"\n'
         'dir /vault 0755 9 9 high\nfile /vault/gold 0600 9 9 high "gold"\nfifo /d/bell 0622 9 9 low\n'
         '# name guest\nproc low 10 10 - "="\n# name clerk\nproc low 11 12 - "="\n# name keeper\nproc high 9 9 - "="\nscript\n'
         '1@low open /d/board r\n# expect ok 0\n1@low stat /vault\n')
READS_ALL = WORLD.replace('proc low 11 12 - "="', 'proc low 11 12 - "cap_mac_read,cap_dac_read_search=p"')


# a process gets bytes of its own /a by a chmod before, and those of /z without one
SEVERAL = HEAD + 'file /a 0000 11 11 low "a"\nfile /z 0644 9 9 low "z"\nproc low 11 11 - "="\nscript\n'


def asked(folder: pathlib.Path, rules: str, world: str = WORLD, *words: object) -> Tuple[int, Dict[str, Dict[str, Any]], str]:
    """The status, the answers by their rules, and the messages."""
    (folder / "world.txt").write_text(world)
    (folder / "rules").write_text(f"world world.txt\n{rules}\n")
    status, out, messages = labask("test", folder / "rules", "--json", *words)
    return status, {each["rule"]: each for each in json.loads(out)["rules"]} if out else {}, messages


HELD = [
    ("uncrossed low", "proof"), ("uncrossed high", "proof"), ("confined", "proof"), ("never exercise cap_mac_read", "proof"),
    ("never flow label:high -> label:low", "proof"), ("never flow /vault/* -> guest", "proof"),
    ("never exercise cap_audit_write except by clerk", "model"), ("never exercise cap_link_dir", "proof"),
    ("may guest read /d/board", "play"), ("may label:low write /d/b*", "play"), ("may keeper write /vault", "play"),
    ("may label:low execute /d", "play"), ("deny label:low read /vault/**", "play"), ("deny guest execute /d/tool by dac_execute", "play"),
    ("deny guest write /d/tool by dac_write", "play"), ("call 1 ok", "play"), ("call 2 EACCES mac_read p1", "play"), ("call 2 EACCES", "play"),
    ("never flow /d/tool -> guest", "model"),
]


def test_rules_that_hold_and_by_what(tmp_path: pathlib.Path) -> None:
    status, found, messages = asked(tmp_path, "\n".join(rule for rule, _ in HELD))
    assert {rule: (each["answer"], each["by"]) for rule, each in found.items()} == {rule: ("holds", by) for rule, by in HELD}
    assert (status, messages) == (0, "")


BROKEN = [
    ("never flow /vault/gold -> label:low", 3, "2@low read 0 4"), ("never exercise cap_mac_read", 2, "2@low stat /vault"),
    ("never exercise cap_audit_write", 2, "2@low aud_write"), ("uncrossed low", 2, "2@low stat /vault"), ("confined", 2, "2@low stat /vault"),
    ("may guest execute /d/tool", 1, "1@low exec /d/tool"), ("deny guest read /d/board", 1, "1@low open /d/board r"),
    ("deny guest execute /d/tool by mac_read", 1, "1@low exec /d/tool"), ("may guest read /vault", 1, "1@low readdir /vault"),
    ("call 1 EACCES", 1, "1@low open /d/board r"), ("call 2 ok", 1, "1@low stat /vault"),
]


def test_broken_rules_have_a_script_that_is_played(tmp_path: pathlib.Path) -> None:
    status, found, _ = asked(tmp_path, "\n".join(rule for rule, *_ in BROKEN), READS_ALL, "--scripts", tmp_path / "scripts")
    assert status == 3 and set(found) == {rule for rule, *_ in BROKEN}
    for rule, count, last in BROKEN:
        each = found[rule]
        assert (each["answer"], each["by"]) == ("broken", "play"), each
        assert len(each["calls"]) == count and each["calls"][-1]["text"].startswith(last), each["calls"]
    assert len(list((tmp_path / "scripts").iterdir())) == len(BROKEN)
    assert all(labask("check", path)[0] == 0 for path in (tmp_path / "scripts").iterdir())


def test_an_exception_is_no_flow_and_no_exercise(tmp_path: pathlib.Path) -> None:
    rules = ["never flow /vault/gold -> label:low except by cap_mac_read", "never exercise cap_mac_read except by clerk"]
    assert asked(tmp_path, "\n".join(rules), READS_ALL)[0] == 0


def test_a_rule_that_is_not_decided_says_so(tmp_path: pathlib.Path) -> None:
    status, found, _ = asked(tmp_path, "never flow /vault/gold -> guest", READS_ALL, "--depth", 1, "--states", 1)
    assert (status, found["never flow /vault/gold -> guest"]["answer"]) == (4, "undecided")
    assert asked(tmp_path, "never flow /d/tool -> guest", WORLD, "--time", 0)[0] == 4


BAD = [
    ("nevr flow /a -> /b", 'the word "nevr": expected'), ("never flow /d/board guest", 'the word "guest": expected ->'),
    ("never flow /d/board ->", "TO is missing"), ("never exercise cap_all", "there is none of this name"),
    ("may guest look /d", "expected read, write or execute"), ("may guest read /d by dac_read", "one too many"),
    ("deny guest read /d by dac_none", "there is none of this name"), ("confined now", "one too many"), ("call x ok", "expected the number"),
    ("call 9 ok", "there is no call 9"), ("may guest read /none", "no line of the world has the path /none"),
    ("may nobody read /d", "the world has no process nobody"), ("uncrossed mid", "no process of the world has the label mid"),
    ("may guest execute /d/bell", "nothing is executed"), ("never flow /d -> guest", "the world has no file /d"),
    ('may guest read "/d', "the closing quote is missing"), ("world none other", "one too many"), ("call 1 ENONE", 'REPLY "ENONE"'),
    (r'world "a\x00"', "FILE is no name of a file"), ("confined # all", "a comment is a line of its own"), ("never flow /d/board -> /d/board", "FROM and TO are the same object"),
]


@pytest.mark.parametrize("line, message", BAD, ids=[line for line, _ in BAD])
def test_a_bad_rule_is_named_with_its_line(line: str, message: str, tmp_path: pathlib.Path) -> None:
    status, found, messages = asked(tmp_path, f"# a comment\n{line}")
    assert status == 2 and not found and "Traceback" not in messages
    assert "rules:3: " in messages and message in messages, messages


def test_worlds_are_named_by_the_file_or_the_command_line(tmp_path: pathlib.Path) -> None:
    (tmp_path / "rules").write_text("confined\n")
    status, _, messages = labask("test", tmp_path / "rules")
    assert status == 2 and "no world is named" in messages
    for name, text in (("a.txt", WORLD), ("b.txt", READS_ALL)):
        (tmp_path / name).write_text(text)
    status, out, _ = labask("test", tmp_path / "rules", "--world", tmp_path / "a.txt", "--world", tmp_path / "b.txt", "--json")
    assert status == 3 and [each["answer"] for each in json.loads(out)["rules"]] == ["holds", "broken"]
    (tmp_path / "a.txt").write_text("world 3\n")
    status, out, messages = labask("test", tmp_path / "rules", "--world", tmp_path / "a.txt")
    assert status == 2 and not out and "refused 1 world syntax" in messages


def test_comments_of_a_script_say_what_is_expected(tmp_path: pathlib.Path) -> None:
    path = tmp_path / "world.txt"
    path.write_text(WORLD)
    assert labask("test", path)[0] == 0
    path.write_text(WORLD + "# expect ENOENT\n1@low getfmac /d /none\n# expect ok low\n# expect ENOENT\n")
    status, out, _ = labask("test", path, "--json")
    assert status == 3 and [each["answer"] for each in json.loads(out)["rules"]] == ["holds", "broken", "holds", "holds"]
    path.write_text(WORLD + "# expect EACCES\n# expect EACCES\n")
    assert labask("test", path)[0] == 2
    path.write_text(HEAD + "script\n")
    status, _, messages = labask("test", path)
    assert status == 1 and "has no rule" in messages


def test_tap_and_junit(tmp_path: pathlib.Path) -> None:
    status, _, _ = asked(tmp_path, "confined\ncall 1 ok\nmay guest read /vault", WORLD)
    assert status == 3
    report = tmp_path / "report.xml"
    status, out, _ = labask("test", tmp_path / "rules", "--tap", "--junit", report)
    lines = out.splitlines()
    assert lines[:2] == ["TAP version 14", "1..3"]
    assert [line.split(" - ")[0] for line in lines if re.match("(not )?ok ", line)] == ["ok 1", "ok 2", "not ok 3"]
    assert '  calls: ["1@low readdir /vault: EACCES mac_read p1"]' in lines
    root = ElementTree.parse(report).getroot()
    assert (root.tag, root.get("tests"), root.get("failures"), root.get("errors")) == ("testsuites", "3", "1", "0")
    failure = root.find("./testsuite/testcase[@line='4']/failure")
    assert failure is not None and failure.text is not None and "1@low readdir /vault" in failure.text
    assert labask("test", tmp_path / "rules", "--junit", tmp_path / "rules")[0] == 1


def test_one_job_answers_as_many_do(tmp_path: pathlib.Path) -> None:
    rules = "\n".join(rule for rule, *_ in BROKEN[1:4])
    assert asked(tmp_path, rules, READS_ALL, "--jobs", 1) == asked(tmp_path, rules, READS_ALL, "--jobs", 3)


def test_an_undecided_rule_is_skipped(tmp_path: pathlib.Path) -> None:
    world = HEAD + 'proc low 9 9 - "cap_kill=ep"\nscript\n'  # it has nobody to kill but its children
    status, found, _ = asked(tmp_path, "never exercise cap_kill", world)
    assert (status, found["never exercise cap_kill"]["answer"], found["never exercise cap_kill"]["calls"]) == (4, "undecided", [])
    report = tmp_path / "report.xml"
    status, out, _ = labask("test", tmp_path / "rules", "--tap", "--junit", report)
    assert status == 4 and out.splitlines()[2].startswith("ok 1 - ") and out.splitlines()[2].endswith(" # SKIP undecided")
    root = ElementTree.parse(report).getroot()
    assert (root.get("failures"), root.get("errors"), root.get("skipped")) == ("0", "0", "1")
    assert root.find("./testsuite/testcase/skipped") is not None
    assert labask("test", tmp_path / "rules")[1].count(" undecided: ") == 1


def test_the_shortest_script_of_all_pairs_is_shown(tmp_path: pathlib.Path) -> None:
    for jobs in (1, 3):
        status, found, _ = asked(tmp_path, "never flow label:low -> 1@low", SEVERAL, "--jobs", jobs)
        calls = found["never flow label:low -> 1@low"]["calls"]
        assert status == 3 and [call["text"] for call in calls] == ["1@low open /z r", "1@low read 0 1"], calls


@settings(max_examples=30)
@given(st.one_of(st.binary(max_size=80), st.binary(max_size=80).map(lambda text: WORLD.encode("ascii") + b"# expect " + text)))
def test_any_text_has_an_answer(text: bytes) -> None:
    with tempfile.TemporaryDirectory() as folder:
        path = pathlib.Path(folder) / "rules"
        path.write_bytes(text)
        status, out, messages = labask("test", path)
        assert status in (0, 1, 2, 3) and "Traceback" not in messages and (out or messages)


@given(st.lists(st.sampled_from(["never", "flow", "exercise", "may", "deny", "->", "read", "/d", "cap_kill", "by", "except", "call", "1", "ok",
                                 "world", '"', "#", "confined", "uncrossed", "EACCES", "\xff", "dac_read"]), max_size=7))
def test_any_line_is_a_rule_or_a_fault(words: "list[str]") -> None:
    try:
        groups = list(read_groups("rules", " ".join(words).encode("latin-1") + b"\n"))
    except RuleFault as fault:
        assert str(fault).startswith("rules:1: ")
    else:
        assert len(groups) == 1
