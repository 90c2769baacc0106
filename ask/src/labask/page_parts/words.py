"""What a page says in words: of checks, places, capability sets and records. The words judge nothing."""
import re
from typing import Any, Callable, Dict, List, Optional

from labask.reasons import check_in_words
from labask.worlds import World, path_word

from .markup import code, text
from .run import Call, Record

# of the checks that never stop a call, what the call does where they are denied
SOFT = {
    "setuid_all": "only the effective user is set",
    "setgid_all": "only the effective group is set",
    "fsetid": "set-id bits and the capability sets of a file are cleared or left out",
}
SETS = {"permitted": "p", "effective": "e", "inheritable": "i"}


def check_text(check: str) -> str:
    """What it says that the rule of a check fails."""
    return f"without a capability {SOFT[check]}" if check in SOFT else check_in_words(check)


def path_at(call: Call, place: str) -> Optional[str]:
    """The path of a place: the names up to there of the call's first path, p0 and so on, or of its second one, q0 and so on."""
    if not re.fullmatch(r"[pq]\d+", place):
        return None
    words = [word.value for word in call.line.arguments]
    which = words[1] if place[0] == "q" else words[0] if call.reply.path is None else call.reply.path
    names = [name for name in which.split(b"/") if name not in (b"", b".")][: int(place[1:])]
    return path_word(b"/" + b"/".join(names) if which.startswith(b"/") else b"/".join(names) or b".")


def place_text(call: Call, place: str) -> str:
    """A place of a call, with what is there by the words of the call."""
    path = path_at(call, place)
    if path is not None:
        return f"{code(place)} ({code(path)})"
    first = call.line.arguments[0].text if call.line.arguments else ""
    known = {"fd": f"descriptor {first}", "pid": f"process {first}", "self": "the caller"}
    return code(place) + (f" ({text(known[place])})" if place in known else "")


def object_text(world: World, number: str) -> str:
    """An object by its number, with the path that it has in the world."""
    known = world.objects_by_number.get(number)
    return f"object {code(number)}" + (f" {code(path_word(known.path))}" if known else "")


def caps_of(caps: str) -> Dict[str, str]:
    """The sets of a capability text in its canonical form, by their names, each as names with commas between them."""
    found: Dict[str, List[str]] = {name: [] for name in SETS}
    for clause in caps.split():
        names, _, flags = clause.partition("=")
        for name, flag in SETS.items():
            if flag in flags and names:
                found[name] += names.split(",")
    return {name: ", ".join(names) for name, names in found.items()}


def same_sets(caps: str) -> str:
    """A capability text as code, or that there is no capability."""
    return "no capability" if caps == "=" else code(caps)


def thing_text(world: World, thing: str) -> str:
    """The thing of a check, by its number."""
    what, _, number = thing.partition(":")
    return object_text(world, number) if what == "obj" else f"process {code(number)}"


def exercise_text(world: World, call: Call, members: Dict[str, Any]) -> str:
    """An exercise in words."""
    place = members["place"]
    thing = "" if path_at(call, place) or place == "self" else f" {thing_text(world, members['thing'])}"
    given = "" if members["new"] is None else f", which would get {code(members['new'])}"
    return (f"<b>{text(members['cap'])}</b> exercised: {code(members['check'])} at {place_text(call, place)}{thing}, label "
            f"{code(members['thing_label'])}{given}")


def denial_text(world: World, call: Call, members: Dict[str, Any]) -> str:
    """A denial in words."""
    return f"<b>denied</b> by {code(members['check'])} at {place_text(call, members['place'])}"


def exec_text(world: World, call: Call, members: Dict[str, Any]) -> str:
    """An exec in words."""
    return f"<b>exec</b> of {object_text(world, members['object'])}; sets from now on: {same_sets(members['caps'])}"


def exit_text(world: World, call: Call, members: Dict[str, Any]) -> str:
    """An end in words."""
    return f"<b>end</b> of process {code(members['pid'])}: {code(members['kind'] + ' ' + members['value'])}"


def sets_text(world: World, call: Call, members: Dict[str, Any]) -> str:
    """Sets of a process or file that were set, in words."""
    whose = f" of {object_text(world, members['object'])}" if "object" in members else ""
    return f"<b>sets</b>{whose} from now on: {same_sets(members['caps'])}"


def label_text(world: World, call: Call, members: Dict[str, Any]) -> str:
    """A label that was set, in words."""
    whose = f" of {object_text(world, members['object'])}" if "object" in members else ""
    return f"<b>label</b>{whose} from {code(members['old'])} to {code(members['new'])}"


TEXTS: Dict[str, Callable[[World, Call, Dict[str, Any]], str]] = {
    "fork": lambda world, call, members: f"<b>fork</b>: the child is {code(members['child'])}",
    "exec": exec_text,
    "exit": exit_text,
    "cap_set_proc": sets_text,
    "cap_set_file": sets_text,
    "mac_set_proc": label_text,
    "mac_set_file": label_text,
    "exercise": exercise_text,
    "deny": denial_text,
    "switch": lambda world, call, members: f"<b>audit switch</b> {text(members['state'])}",
    "note": lambda world, call, members: f"<b>note</b> {code(members['bytes'])}",
}


def record_text(world: World, call: Call, record: Record) -> str:
    """A record in words."""
    return TEXTS[record.event](world, call, record.members)
