#!/bin/sh
# The checks that play the built program: help and messages, examples of pages, prefixes of cases, trails, narrowed worlds, programs
# in turns, the cases, and the questions of `ask/labask`. They take some minutes.
cd "$(dirname "$0")/.." || exit 1
# one use before the cases run in parallel: were there no program, it would be built here, and a failure shown
./labsys play /dev/null <examples/read_by_capability.txt || exit $?
tests/help.sh || exit $?
python3 tests/first_use.py || exit $?
python3 tests/release.py --program crates/labsys/out/labsys || exit $?
python3 tests/messages.py --cmd ./labsys || exit $?
python3 tests/examples.py --cmd ./labsys || exit $?
python3 tests/man_page.py --cmd ./labsys || exit $?
python3 tests/mistakes.py --cmd ./labsys || exit $?
python3 tests/prefixes.py --cmd ./labsys || exit $?
python3 tests/trails.py --cmd ./labsys || exit $?
python3 tests/least.py --cmd ./labsys || exit $?
python3 tests/never.py --cmd ./labsys || exit $?
python3 tests/programs.py --cmd ./labsys || exit $?
python3 tests/run_cases.py --cmd ./labsys tests/cases || exit $?
LABSYS=crates/labsys/out/labsys tests/check_labask.sh
