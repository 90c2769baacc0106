#!/bin/sh
# Compares docs/help.txt and docs/version.txt, by which the script labsys answers, with what the built program itself answers.
#
#     tests/help.sh [PROGRAM]            fails where a text differs, and prints the difference
#     tests/help.sh --write [PROGRAM]    writes both files
#
# Without PROGRAM it asks crates/labsys/out/labsys.
top=$(cd "$(dirname "$0")/.." && pwd) || exit 1
is_writing=
if [ "$1" = --write ]; then
    is_writing=yes
    shift
fi
program=${1:-$top/crates/labsys/out/labsys}
answer=$(mktemp) || exit 1
trap 'rm -f "$answer"' EXIT
status=0
for word in help version; do
    "$program" "--$word" >"$answer" || exit 1
    if [ -n "$is_writing" ]; then
        cat "$answer" >"$top/docs/$word.txt" || exit 1
    elif ! diff -u "$top/docs/$word.txt" "$answer"; then
        echo "docs/$word.txt is not what the program answers to --$word; tests/help.sh --write writes it"
        status=1
    fi
done
exit $status
