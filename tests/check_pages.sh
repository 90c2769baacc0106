#!/bin/sh
# The checks that need no program: pages against sources, how labels are built, and the types of `labask`. They take some seconds.
cd "$(dirname "$0")/.." || exit 1
tests/labels_are_closed.sh || exit $?
python3 tests/definitions.py --check || exit $?
python3 tests/answers.py || exit $?
python3 tests/differences.py || exit $?
python3 tests/call_index.py --check || exit $?
python3 tests/labask_profile.py --check || exit $?
python3 tests/command_table.py --check || exit $?
tests/check_types.sh || exit $?
python3 tests/pages.py
