"""A program that plays worlds by the model of the kernel, with one fault in it: `python3 faulty_kernel.py FAULT play FILE < INPUT`.

It writes the output of `labsys play`, and no trail. FAULT is the number of a fault, or `none`. Faults are changes of the sources of the
model, one place each: a check that is left out, a condition that is turned round, another operator, error or bit. With `list` in place
of `play FILE` it writes all of them.
"""
import ast
import importlib
import pathlib
import signal
import sys
import types
from typing import Any, Callable, Dict, Iterator, List, NamedTuple, Optional

SOURCES = pathlib.Path(__file__).resolve().parent.parent / "src"
sys.path.insert(0, str(SOURCES))

from labask.fuzzing.comparing import Driver  # noqa: E402  pylint: disable=wrong-import-position
from labask.kernel.state import Labels, State, caps_text, first_state  # noqa: E402  pylint: disable=wrong-import-position
from labask.playing import Played  # noqa: E402  pylint: disable=wrong-import-position
from labask.worlds import quoted, read_world  # noqa: E402  pylint: disable=wrong-import-position

MODULES = ("rules", "calls")
COPIED = (*MODULES, "texts")
SECONDS = 1.0  # within which a text is played
LIMITS = ("MOST_", "may_number", "may_describe", "free_descriptors")  # no short script comes to these
ALIKE = (  # changes that the output of no short script shows
    "call_write: ENODEV for 'EFBIG'", "call_link: ENODEV for 'EMLINK'", "call_fork: ENODEV for 'EAGAIN'",
    "__init__: without super().__init__(error)",
    "call_setuid: another attribute in ids.euid",  # where only the effective id is another one, both ways set it alone
    "call_setgid: another attribute in ids.egid",
    "call_aud_switch: without asked.change(audited=to == 'on')", "call_aud_switch: other operator in to == 'on'",  # no trail is written
)
OTHER = {ast.Lt: ast.LtE, ast.LtE: ast.Lt, ast.Gt: ast.GtE, ast.GtE: ast.Gt, ast.Eq: ast.NotEq, ast.NotEq: ast.Eq, ast.Is: ast.IsNot,
         ast.IsNot: ast.Is, ast.In: ast.NotIn, ast.NotIn: ast.In}
BITS = {"READ": "WRITE", "WRITE": "EXECUTE", "EXECUTE": "READ", "SET_USER": "SET_GROUP", "SET_GROUP": "SET_USER"}
IDS = {"euid": "ruid", "ruid": "euid", "suid": "ruid", "egid": "rgid", "rgid": "egid", "sgid": "rgid", "owner": "group", "group": "owner"}
SETS = {"effective": "permitted", "permitted": "inheritable", "inheritable": "permitted"}
ATTRIBUTES = {**BITS, **IDS, **SETS}


class Change(NamedTuple):
    """A change of a place of a source: what it does in words, which has a `{}` for the place as it is, the place, and what does it."""
    words: str
    place: ast.AST
    make: Callable[[], None]

    @property
    def plain(self) -> str:
        """What it does."""
        return self.words.format(ast.unparse(self.place))

    @property
    def text(self) -> str:
        """What it does, with the place."""
        return f"line {self.place.lineno}: {self.plain}"  # type: ignore[attr-defined]


def negated(node: ast.AST, name: str) -> None:
    """Turns a condition round."""
    setattr(node, name, ast.copy_location(ast.UnaryOp(ast.Not(), getattr(node, name)), getattr(node, name)))


def changes_of(function: ast.AST) -> Iterator[Change]:
    """The changes of a function, each with what it does in words; a change is made by calling it."""
    for node in ast.walk(function):
        body = getattr(node, "body", None)
        for place, statement in enumerate(body if isinstance(body, list) else ()):
            if isinstance(statement, ast.Expr) and isinstance(statement.value, ast.Call):
                gone = ast.copy_location(ast.Pass(), statement)
                yield Change("without {}", statement, lambda b=body, p=place, g=gone: b.__setitem__(p, g))
        if isinstance(node, ast.If):
            yield Change("not {}", node.test, lambda n=node: negated(n, "test"))
        elif isinstance(node, ast.Compare) and type(node.ops[0]) in OTHER:
            yield Change("other operator in {}", node, lambda n=node: n.ops.__setitem__(0, OTHER[type(n.ops[0])]()))
        elif isinstance(node, ast.BoolOp):
            yield Change("and for or, or or for and, in {}", node,
                         lambda n=node: setattr(n, "op", ast.Or() if isinstance(n.op, ast.And) else ast.And()))
        elif isinstance(node, ast.Attribute) and isinstance(node.ctx, ast.Load) and node.attr in ATTRIBUTES:
            yield Change("another attribute in {}", node, lambda n=node: setattr(n, "attr", ATTRIBUTES[n.attr]))
        elif isinstance(node, ast.Constant) and isinstance(node.value, str) and node.value.startswith("E") and node.value.isupper():
            yield Change("ENODEV for {}", node, lambda n=node: setattr(n, "value", "ENODEV"))


class Fault(NamedTuple):
    """A change of a function of a module, with the tree of the module."""
    module: str
    function: str
    tree: ast.Module
    change: Change

    @property
    def text(self) -> str:
        """What it is."""
        return f"{self.module}.{self.function}, {self.change.text}"


def is_about_a_limit(node: ast.AST) -> bool:
    """Whether a place is about a limit to which no script comes."""
    names = (getattr(each, "id", getattr(each, "attr", "")) for each in ast.walk(node))
    return any(name.startswith(LIMITS) for name in names)


def all_faults() -> List[Fault]:
    """The changes of all functions, but those about limits."""
    found = []
    for name in MODULES:
        tree = source_tree(name)
        for function in ast.walk(tree):
            if isinstance(function, ast.FunctionDef) and not function.name.startswith(LIMITS):
                found += [Fault(name, function.name, tree, change) for change in changes_of(function)
                          if not is_about_a_limit(change.place) and f"{function.name}: {change.plain}" not in ALIKE]
    return found


def source_tree(name: str) -> ast.Module:
    """The tree of a module of the model."""
    return ast.parse((SOURCES / "labask" / "kernel" / f"{name}.py").read_text("utf-8"))


def copies_of(trees: Dict[str, ast.Module]) -> Dict[str, Any]:
    """Modules of the model, each made of its tree; they import one another, and the modules of the package stay as they are."""
    package = importlib.import_module("labask.kernel")
    kept = {name: importlib.import_module(f"labask.kernel.{name}") for name in trees}
    copies: Dict[str, Any] = {}
    try:
        for name, tree in trees.items():
            copies[name] = types.ModuleType(f"labask.kernel.{name}")
            sys.modules[f"labask.kernel.{name}"] = copies[name]
            setattr(package, name, copies[name])
            exec(compile(ast.fix_missing_locations(tree), name, "exec"), copies[name].__dict__)  # pylint: disable=exec-used
    finally:
        for name, module in kept.items():
            sys.modules[f"labask.kernel.{name}"] = module
            setattr(package, name, module)
    return copies


def end_play(*_: object) -> None:
    """Ends a play, as a handler of SIGALRM."""
    raise TimeoutError


class FaultyKernel(Driver):
    """A copy of the model with a fault, or with none where the number is None; it plays texts as a program does, in this process."""

    def __init__(self, number: Optional[int]):
        super().__init__(())
        trees = {name: source_tree(name) for name in COPIED}
        if number is not None:
            fault = all_faults()[number]
            fault.change.make()
            trees[fault.module] = fault.tree
        copies = copies_of(trees)
        object.__setattr__(self, "call", copies["calls"].play)
        object.__setattr__(self, "texts", copies["texts"])

    def play(self, text: bytes) -> Played:
        """What the copy writes of a text. One that has not ended in time is ended, and a fault of Python ends it with status 1."""
        lines: List[str] = []
        before = signal.signal(signal.SIGALRM, end_play)
        signal.setitimer(signal.ITIMER_REAL, SECONDS)
        try:
            for line in self.lines(text):
                lines.append(line)
            status, said = 0, b""
        except TimeoutError:
            status, said = 1, b"not ended in time"
        except Exception:  # pylint: disable=broad-exception-caught
            status, said = 1, b""
        finally:
            signal.setitimer(signal.ITIMER_REAL, 0)
            signal.signal(signal.SIGALRM, before)
        return Played(status, "".join(f"{line}\n" for line in lines).encode("ascii"), b"", said)

    def lines(self, text: bytes) -> Iterator[str]:
        """The lines of the output."""
        world = read_world(text)
        labels = Labels(world.policy)
        state = first_state(world, labels)
        for line in world.script:
            call = self.texts.read_call(line.call, line.arguments, labels)  # type: ignore[attr-defined]
            state, reply = self.call(state, labels.number(line.tag), call)  # type: ignore[attr-defined]
            yield f"{line.tag} {line.call} {self.texts.reply_text(reply, labels)}"  # type: ignore[attr-defined]
        yield from end_lines(state, labels)
        yield f"done {len(world.script)}"


def end_lines(state: State, labels: Labels) -> Iterator[str]:
    """The lines of the processes that live at the end."""
    order = sorted(state.processes, key=lambda each: (each.label.level, each.label.categories, -each.label.grade, each.n))
    for number in order:
        process = state.processes[number]
        yield f"end {labels.number_text(number)} {labels.text(process.label)} {quoted(caps_text(process.caps).encode('ascii')).strip()}"


def main() -> None:
    """Plays an input with a fault, or lists the faults."""
    if sys.argv[2] == "list":
        print("\n".join(f"{number} {fault.text}" for number, fault in enumerate(all_faults())))
        return
    played = FaultyKernel(None if sys.argv[1] == "none" else int(sys.argv[1])).play(sys.stdin.buffer.read())
    sys.stdout.buffer.write(played.out)
    sys.stdout.flush()
    sys.exit(played.status)


if __name__ == "__main__":
    main()
