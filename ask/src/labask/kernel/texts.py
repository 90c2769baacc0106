"""Calls and replies of the model as text: as a script and the output of `labsys` have them."""
from typing import Any, List, Tuple

from labask.kernel.calls import Call, Mode, Path, Reply
from labask.kernel.state import Caps, Kind, Label, Labels, Number, caps_text, read_caps
from labask.signatures import arguments_of
from labask.worlds import Word, path_word, quoted

NUMBERS = ("FD", "UID", "GID", "N", "OFFSET")


def read_path(value: bytes) -> Path:
    """The path of a word."""
    names = tuple(name for name in value.split(b"/") if name not in (b"", b"."))
    return Path(value.startswith(b"/"), names)


def path_text(path: Path) -> str:
    """The word of a path."""
    return path_word((b"/" if path.absolute else b"") + b"/".join(path.names) or b".")


def read_argument(name: str, word: Word, labels: Labels) -> Any:
    """An argument of a call, which the call table names so."""
    if name == "PATH":
        return read_path(word.value)
    if name in NUMBERS:
        return int(word.value)
    if name == "MODE":
        return int(word.value, 8)
    readers = {"LABEL": labels.read, "CAPS": read_caps, "PID": labels.number}
    if name in readers:
        return readers[name](word.text)
    return word.value if name == "BYTES" else word.text


def read_call(name: str, words: Tuple[Word, ...], labels: Labels) -> Call:
    """The call of the words of a line of a script."""
    return Call(name, tuple(read_argument(*each, labels) for each in zip(arguments_of(name, len(words)), words)))


def call_text(call: Call, labels: Labels) -> str:
    """The call as a line of a script has it, without the tag."""
    names = arguments_of(call.name, len(call.arguments))
    return " ".join([call.name, *(argument_text(*each, labels) for each in zip(names, call.arguments))])


def argument_text(name: str, value: Any, labels: Labels) -> str:
    """An argument of a call as a word."""
    if name == "PATH":
        return path_text(value)
    if name == "MODE":
        return f"{value:04o}"
    if name == "CAPS":
        return quoted(caps_text(value).encode("ascii"))
    if name == "LABEL":
        return labels.text(value)
    if name == "PID":
        return labels.number_text(value)
    return quoted(value) if name == "BYTES" else str(value)


def answer_texts(value: Any, labels: Labels) -> List[str]:
    """A part of an answer as words."""
    if value is None:
        return ["none"]
    if isinstance(value, bytes):
        return [quoted(value)]
    if isinstance(value, Caps):
        return [quoted(caps_text(value).encode("ascii"))]
    if isinstance(value, Label):
        return [labels.text(value)]
    if isinstance(value, Number):
        return [labels.number_text(value)]
    if isinstance(value, Kind):
        return [value.value]
    if isinstance(value, Mode):
        return [f"{value:04o}"]
    if isinstance(value, tuple):
        return [",".join(map(str, value)) or "-"]
    return [str(value)]


def reply_text(reply: Reply, labels: Labels) -> str:
    """The reply as `labsys` writes it, without its tag and call."""
    if not reply.done:
        return " ".join(part for part in (reply.error, reply.check, reply.place) if part)
    return " ".join(["ok", *(word for value in reply.answer for word in answer_texts(value, labels))])
