"""What the tests of `labask` share: running it, and the examples and cases of the repository."""
import contextlib
import functools
import io
import pathlib
from typing import Dict, Tuple

from run_cases import BadCase, find, read_case

from labask import main as labask_main
from labask.answers import Status

ANSWERED = (Status.NO, Status.YES)
HERE = pathlib.Path(__file__).resolve().parent
TOP = HERE.parent.parent
LABASK = HERE.parent / "labask"
EXAMPLES = sorted((TOP / "examples").glob("*.txt"))


def labask(*words: object) -> Tuple[int, str, str]:
    """The exit status of a command line, its output and its messages, in this process."""
    out, messages = io.StringIO(), io.StringIO()
    with contextlib.redirect_stdout(out), contextlib.redirect_stderr(messages):
        try:
            status = labask_main.main([str(word) for word in words])
        except SystemExit as end:
            status = end.code if isinstance(end.code, int) else 1
    return status, out.getvalue(), messages.getvalue()


@functools.lru_cache(maxsize=None)
def case_inputs() -> Dict[str, bytes]:
    """The inputs of the cases by the paths of the first cases that have them."""
    found: Dict[bytes, str] = {}
    for path in map(pathlib.Path, find([str(TOP / "tests" / "cases")])):
        with contextlib.suppress(BadCase):
            found.setdefault(read_case(path)["input"], str(path.relative_to(TOP / "tests" / "cases").with_suffix("")))
    found.pop(b"", None)
    return {name: text for text, name in found.items()}
