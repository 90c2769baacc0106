"""`tests/setup.sh`, with stand-ins for the programs of Debian: it installs what is missing, where it may, and never fails."""
import os
import subprocess

import pytest
from support import TOP

SETUP = TOP / "tests" / "setup.sh"
PACKAGES = ["python3-pytest", "python3-hypothesis", "python3-selenium", "chromium", "chromium-driver", "python3-rich", "python3-dask",
            "python3-distributed", "mypy", "strace", "shellcheck"]
# stand-ins: a package is installed where a file has its name
DPKG_QUERY = '#!/bin/sh\nfor name do :; done\n[ -e "{0}/installed/$name" ] && printf installed\n'
APT_GET = """#!/bin/sh
echo "$*" >>{0}/asked
case "$*" in *" install "*) ;; *) exit 0 ;; esac
for name do
    case $name in -*|install) ;; {1}) exit 100 ;; *) echo >"{0}/installed/$name" ;; esac
done
"""


def run(folder, missing, user=0, failing="none"):
    """What the script writes where some packages are missing, and the words with which apt-get was called."""
    stand_ins = {"dpkg-query": DPKG_QUERY.format(folder), "apt-get": APT_GET.format(folder, failing), "id": f"#!/bin/sh\necho {user}\n"}
    (folder / "bin").mkdir()
    (folder / "installed").mkdir()
    for name, text in stand_ins.items():
        (folder / "bin" / name).write_text(text)
        (folder / "bin" / name).chmod(0o755)
    for name in set(PACKAGES) - set(missing):
        (folder / "installed" / name).touch()
    done = subprocess.run([str(SETUP)], env={**os.environ, "PATH": f"{folder}/bin:/usr/bin:/bin"}, stdout=subprocess.PIPE, check=True)
    asked = folder / "asked"
    return done.stdout.decode(), asked.read_text().splitlines() if asked.exists() else []


def test_nothing_is_missing(tmp_path):
    assert run(tmp_path, []) == ("", [])


def test_what_is_missing_is_installed(tmp_path):
    said, asked = run(tmp_path, ["mypy", "strace"])
    assert said == "" and len(asked) == 2
    assert asked[0].endswith(" update") and asked[1].endswith(" install --no-install-recommends mypy strace")


def test_another_user_installs_nothing(tmp_path):
    said, asked = run(tmp_path, ["mypy", "strace"], user=1000)
    assert said == "tests/setup.sh: not installed here: mypy strace; tests that use them are skipped\n" and not asked


@pytest.mark.parametrize("failing", PACKAGES[2:4])
def test_what_fails_is_named(failing, tmp_path):
    """Where one package can't be installed the others are."""
    said, _ = run(tmp_path, [failing, "strace"], failing=failing)
    assert said == f"tests/setup.sh: not installed here: {failing}; tests that use them are skipped\n"
    assert (tmp_path / "installed" / "strace").exists()
