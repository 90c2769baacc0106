"""The program that the repository's script `labsys` starts, so that it is started without the script from then on.

The script looks for newer sources at each start, and builds the program where there are some. A question that plays a thousand
worlds has it do so once.
"""
import os
import pathlib
import subprocess
import tempfile
from typing import Optional

from labask.playing import ANSWERED, SMALL_WORLD, PlayingFault, require_answer


def program_behind(path: str) -> str:
    """The program that a script of the repository starts, by which it is played once; another program is that program itself."""
    if not is_script(pathlib.Path(path).resolve()):
        require_answer(path)
        return path
    with tempfile.TemporaryDirectory(prefix="labask-") as folder:
        try:
            with subprocess.Popen([path, "play", os.path.join(folder, "trail")], stdin=subprocess.PIPE, stdout=subprocess.PIPE) as run:
                found = answering_program(run)
                run.communicate()
        except OSError as fault:
            raise PlayingFault(f"{path}: {fault.strerror}") from fault
    if run.returncode not in ANSWERED:
        raise PlayingFault(f"{path} ended with status {run.returncode}")
    return found or path


def is_script(path: pathlib.Path) -> bool:
    """Whether a file is the script of a checkout, or the one that is installed."""
    with path.open("rb") as file:
        begins = file.read(2)
    return begins == b"#!" and ((path.parent / "build.sh").exists() or (path.parent.parent / "libexec" / "labsys").exists())


def answering_program(run: "subprocess.Popen[bytes]") -> Optional[str]:
    """The file that a process executes when it answers a call, where its name is that of `labsys`."""
    assert run.stdin is not None and run.stdout is not None
    try:
        run.stdin.write(SMALL_WORLD)
        run.stdin.flush()
        answered = run.stdout.readline()
        found = os.readlink(f"/proc/{run.pid}/exe") if answered else ""
    except OSError:
        return None  # it ended, or there is no /proc
    return found if os.path.basename(found) == "labsys" and os.access(found, os.X_OK) else None
