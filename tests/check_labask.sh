#!/bin/sh
# Runs the tests of `labask` with the program that the variable LABSYS names, by a python3 that has pytest and hypothesis. The words
# are those of pytest.
cd "$(dirname "$0")/.." || exit 1
for python in python3 /usr/bin/python3; do
    if "$python" -c 'import pytest, hypothesis' 2>/dev/null; then
        exec env PYTHONDONTWRITEBYTECODE=1 "$python" -m pytest -q ask/tests "$@"
    fi
done
echo "tests of labask: skipped, since no python3 has pytest and hypothesis, which Debian has in its packages python3-pytest and" \
    "python3-hypothesis"
