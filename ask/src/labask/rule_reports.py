"""How the verdicts about rules are written: for people, as TAP, as JUnit XML, and as JSON."""
import json
import re
from typing import Any, Dict, Iterator, List, Sequence
from xml.etree import ElementTree

from labask.answers import table
from labask.rule_answers import Basis, Case, Holding, counted
from labask.shortening import short

HOLDING_WORDS = {Holding.HOLDS: "holds", Holding.BROKEN: "BROKEN", Holding.UNDECIDED: "undecided"}
PLAYED_WORDS = "What is by play was played by labsys, and so was each script."
MODEL_WORDS = "What is by the model holds of scripts of any length, by labask's model of labsys, as of flow."
NO_XML = re.compile("[^\t\n\r\x20-\x7e\x80-\ud7ff\ue000-\ufffd\U00010000-\U0010ffff]")


def name_of(case: Case) -> str:
    """Where the rule of a case stands."""
    return f"{case.file}:{case.rule.line.number}"


def call_lines(case: Case, indent: str) -> List[str]:
    """The calls of the script of a broken rule, with their replies."""
    return table([[short(call.text), short(call.reply), call.means] for call in case.verdict.calls], indent)


def counts(cases: Sequence[Case]) -> str:
    """How many rules hold, and by what, in words."""
    holding = {each: sum(case.verdict.holding is each for case in cases) for each in Holding}
    bases = {each: sum(case.verdict.holding is Holding.HOLDS and case.verdict.basis is each for case in cases) for each in Basis}
    by = ", ".join(f"{bases[each]} by {each.value}" for each in (Basis.PROOF, Basis.PLAY, Basis.MODEL))
    return (f"{counted(len(cases), 'rule')}: {holding[Holding.HOLDS]} hold, {by}; {holding[Holding.BROKEN]} broken; "
            f"{holding[Holding.UNDECIDED]} undecided.")


def report(cases: Sequence[Case]) -> Iterator[str]:
    """The lines of the answer for people: a table for each file and world, and then what is broken or undecided."""
    groups: Dict[Any, List[Case]] = {}
    for case in cases:
        groups.setdefault((case.file, case.subject.file), []).append(case)
    for (file, world), group in groups.items():
        yield f"{file}, world {world}:" if file != world else f"{file}:"
        rows = [["LINE", "ANSWER", "BY", "RULE"]]
        rows += [[str(case.rule.line.number), HOLDING_WORDS[case.verdict.holding], case.verdict.basis.value, case.rule.text]
                 for case in group]
        yield from table(rows)
    for case in cases:
        if case.verdict.holding is not Holding.HOLDS:
            yield f"{name_of(case)}: {case.rule.text}: {HOLDING_WORDS[case.verdict.holding]}: {case.verdict.why}"
            yield f"  world: {case.subject.file}"
            yield from call_lines(case, "  ")
    yield f"{counts(cases)} {PLAYED_WORDS}"
    if any(case.verdict.basis is Basis.MODEL for case in cases):
        yield MODEL_WORDS


# ---- TAP

def tap(cases: Sequence[Case]) -> Iterator[str]:
    """The lines of the answer as TAP of version 14: a rule that is undecided is skipped."""
    yield "TAP version 14"
    yield f"1..{len(cases)}"
    for number, case in enumerate(cases, 1):
        broken, skipped = case.verdict.holding is Holding.BROKEN, case.verdict.holding is Holding.UNDECIDED
        text = re.sub(r"([\\#])", r"\\\1", f"{name_of(case)} {case.subject.file} {case.rule.text}")
        yield f"{'not ok' if broken else 'ok'} {number} - {text}" + (" # SKIP undecided" if skipped else "")
        yield "  ---"
        yield from (f"  {key}: {json.dumps(value)}" for key, value in tap_values(case).items())
        yield "  ..."


def tap_values(case: Case) -> Dict[str, Any]:
    """What the block behind a line of TAP says, in values that YAML reads as JSON does."""
    found: Dict[str, Any] = {"answer": case.verdict.holding.value, "by": case.verdict.basis.value, "message": case.verdict.why}
    if case.verdict.calls:
        found["calls"] = [f"{call.text}: {call.reply}" for call in case.verdict.calls]
    return found


# ---- JUnit

def xml_text(text: str) -> str:
    """A text without the characters that no XML has."""
    return NO_XML.sub(lambda found: f"\\x{ord(found[0]) & 0xff:02x}", text)


def junit(cases: Sequence[Case]) -> bytes:
    """The answer as JUnit XML: a suite for each file; a broken rule is a failure, and an undecided one is skipped."""
    root = ElementTree.Element("testsuites", {"name": "labask test", **junit_counts(cases)})
    for file in dict.fromkeys(case.file for case in cases):
        group = [case for case in cases if case.file == file]
        suite = ElementTree.SubElement(root, "testsuite", {"name": xml_text(file), **junit_counts(group)})
        for case in group:
            add_case(suite, case)
    ElementTree.indent(root)
    written: bytes = ElementTree.tostring(root, encoding="utf-8", xml_declaration=True)
    return written + b"\n"


def junit_counts(cases: Sequence[Case]) -> Dict[str, str]:
    """The attributes that count cases."""
    failures, skipped = (sum(case.verdict.holding is each for case in cases) for each in (Holding.BROKEN, Holding.UNDECIDED))
    return {"tests": str(len(cases)), "failures": str(failures), "errors": "0", "skipped": str(skipped)}


def add_case(suite: ElementTree.Element, case: Case) -> None:
    """Adds a case to its suite, with the script of a broken rule and the world to play it in."""
    found = ElementTree.SubElement(suite, "testcase", name=xml_text(case.rule.text), classname=xml_text(case.subject.file),
                                   file=xml_text(case.file), line=str(case.rule.line.number))
    if case.verdict.holding is Holding.HOLDS:
        ElementTree.SubElement(found, "system-out").text = f"by {case.verdict.basis.value}: {xml_text(case.verdict.why)}"
        return
    if case.verdict.holding is Holding.UNDECIDED:
        ElementTree.SubElement(found, "skipped", message=xml_text(f"undecided: {case.verdict.why}"))
        return
    fault = ElementTree.SubElement(found, "failure", type=case.verdict.holding.value, message=xml_text(case.verdict.why))
    fault.text = xml_text("\n".join([*call_lines(case, ""), "", case.verdict.world.decode("latin-1")])) if case.verdict.calls else None


# ---- JSON

def as_json(cases: Sequence[Case]) -> Dict[str, Any]:
    """The answer as JSON has it."""
    return {"played": True, "rules": [case_as_json(case) for case in cases]}


def case_as_json(case: Case) -> Dict[str, Any]:
    """A case as JSON has it."""
    verdict = case.verdict
    return {"file": case.file, "line": case.rule.line.number, "rule": case.rule.text, "world": case.subject.file,
            "answer": verdict.holding.value, "by": verdict.basis.value, "message": verdict.why,
            "calls": [{"text": call.text, "reply": call.reply, "used": list(call.used), "gave": call.gave} for call in verdict.calls],
            "played_world": verdict.world.decode("latin-1") if verdict.calls else None}
