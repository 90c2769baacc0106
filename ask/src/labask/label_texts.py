"""Label texts: where a text is no text of a label of a policy."""
import re
from typing import Iterator, List, Optional, Sequence

from labask.capability_texts import TextFault
from labask.kernel_profile import MAX_LABEL_NAME
from labask.worlds import Policy

NAME = re.compile(r"[A-Za-z][A-Za-z0-9_-]*")
# what may stand behind a name, by what stands before it
FOLLOWING = {"": ":/", ":": ",/", ",": ",/", "/": ""}


def name_fault(name: str, column: int) -> Optional[TextFault]:
    """What is wrong with the name at a column, which is empty where none begins there."""
    if not name:
        return TextFault(column, 1, False, f"the name of a label begins with a letter, and none is at byte {column}")
    if len(name) > MAX_LABEL_NAME:
        return TextFault(column, len(name), False, f"a name has at most {MAX_LABEL_NAME} bytes")
    return None


def fault_of_form(text: str) -> Optional[TextFault]:
    """The first place at which a text has not the form level:category,category/grade; None where it has."""
    column, before = 0, ""
    while True:
        found = NAME.match(text, column)
        name = found[0] if found else ""
        fault, end = name_fault(name, column), column + len(name)
        if fault or end == len(text):
            return fault
        if text[end] not in FOLLOWING[before]:
            due = " or ".join(["a byte of the name", *FOLLOWING[before]])
            return TextFault(end, 1, False, f"expected {due} at byte {end}")
        column, before = end + 1, text[end]


def form_fault(text: str) -> Iterator[TextFault]:
    """What is wrong with the form of a text of a label; nothing where it has the form."""
    fault = fault_of_form(text)
    if fault:
        yield fault


def unknown_names(text: str, policy: Policy) -> Iterator[TextFault]:
    """The names of a text in the form of a label that the policy does not have."""
    rest, slash, grade = text.partition("/")
    level, colon, categories = rest.partition(":")
    if level not in policy.levels:
        yield TextFault(0, len(level), True, f"unknown level {level}; levels are {listed(policy.levels)}")
    column = len(level) + 1
    for name in categories.split(",") if colon else ():
        if name not in policy.categories:
            yield TextFault(column, len(name), True, f"unknown category {name}; categories are {listed(policy.categories)}")
        column += len(name) + 1
    if slash and grade not in policy.grades:
        yield TextFault(len(rest) + 1, len(grade), True, f"unknown grade {grade}; grades are {listed(policy.grades)}")


def listed(names: Sequence[str]) -> str:
    """Names with commas between them."""
    return ", ".join(names) or "none"


def label_faults(text: str, policy: Policy) -> List[TextFault]:
    """What is wrong with the text of a label; nothing where it is one of the policy."""
    return list(form_fault(text)) or list(unknown_names(text, policy))
