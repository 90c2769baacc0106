"""What the tests of `page` share: the inputs of the repository, pages made of them, and what `labsys` says of them."""
import contextlib
import hashlib
import io
import os
import pathlib
import subprocess
from typing import Dict, List, Tuple, Union

from run_cases import read_case

from labask import main as labask_main

TOP = pathlib.Path(__file__).resolve().parent.parent.parent
ASK, EXAMPLES, CASES = TOP / "ask", TOP / "examples", TOP / "tests" / "cases"

HOSTILE = b"""# </script><script>window.hacked=1</script> <!-- \xe2\x80\xae \x01 &amp; caf\xc3\xa9 \xff
world 2
levels unc sec
categories
bound all
dir / 0777 0 0 unc
file "/<img src=x onerror=window.hacked=1>" 0644 0 0 unc "</td></table><script>window.hacked=1</script>"
file "/\\x22&quot;'" 0644 0 0 sec "x"
proc unc 0 0 - "cap_audit_write=ep"
script
# <b onmouseover=window.hacked=1>comment</b> ]]> --> */
1@unc open "/<img src=x onerror=window.hacked=1>" r
1@unc read 0 100
1@unc stat "/\\x22&quot;'"
1@unc aud_write "</script><script>window.hacked=1</script>"
1@unc stat "/<svg onload=window.hacked=1>"
"""


def labsys(*words: str, given: bytes = b"") -> Tuple[int, bytes]:
    """The exit status of a command of `labsys`, and its output."""
    done = subprocess.run([os.environ["LABSYS"], *words], input=given, stdout=subprocess.PIPE, stderr=subprocess.DEVNULL, check=False)
    return done.returncode, done.stdout


def labask(*words: Union[str, bytes]) -> Tuple[int, bytes, str]:
    """The exit status of a command of `labask`, its output and its messages, in this process."""
    written, messages = io.BytesIO(), io.StringIO()
    out = io.TextIOWrapper(written, encoding="utf-8")
    with contextlib.redirect_stdout(out), contextlib.redirect_stderr(messages):
        try:
            status = labask_main.main([os.fsdecode(word) for word in words])
        except SystemExit as end:
            status = int(end.code or 0)
        out.flush()
    return status, written.getvalue(), messages.getvalue()


def make_page(path: pathlib.Path, folder: pathlib.Path, *words: str) -> pathlib.Path:
    """The page of a world."""
    page = folder / f"{path.stem}.html"
    status, _, messages = labask("page", str(path), "--output", str(page), *words)
    assert status == 0, f"{path.name}: status {status}: {messages}"
    return page


def reply_lines(view: bytes) -> List[str]:
    """The lines of replies of an output."""
    lines = view.decode("ascii").split("\n")
    return [line for line in lines if "@" in line.partition(" ")[0]]


def trail_of(text: bytes, folder: pathlib.Path) -> List[str]:
    """The lines of the trail of a world that is played."""
    trail = folder / "trail"
    assert labsys("play", str(trail), given=text)[0] == 0, "the world is refused"
    return trail.read_text(encoding="ascii").split("\n")[:-1]


def examples() -> List[pathlib.Path]:
    """The worlds of the examples."""
    return sorted(EXAMPLES.glob("*.txt"))


def input_of(path: pathlib.Path) -> bytes:
    """The input of an example or of a case."""
    if path.suffix == ".txt":
        return path.read_bytes()
    text: bytes = read_case(str(path))["input"]  # type: ignore[no-untyped-call]
    return text


def inputs() -> List[pathlib.Path]:
    """The examples and the cases, each input once. Inputs that are trails are among them."""
    found: Dict[bytes, pathlib.Path] = {}
    for path in [*examples(), *sorted(CASES.rglob("*.case"))]:
        found.setdefault(hashlib.sha256(input_of(path)).digest(), path)
    return list(found.values())


def world_of_many(processes: int, labels: int) -> Tuple[bytes, List[str]]:
    """A world with processes in turn of so many labels, each of which asks for its number; and their tags."""
    levels = [f"l{number}" for number in range(16)]
    names = [f"{level}:{'c' + str(number)}" for number in range(8) for level in levels][:labels]
    tags = [f"{count // labels + 1}@{names[count % labels]}" for count in range(processes)]
    lines = ["world 2", "levels " + " ".join(levels), "categories " + " ".join(f"c{number}" for number in range(8)), "bound all",
             "dir / 0777 0 0 l0", *(f'proc {names[count % labels]} 1 1 - "="' for count in range(processes)), "script",
             *(f"{tag} getpid" for tag in tags)]
    return "\n".join(lines).encode("ascii") + b"\n", tags
