#!/bin/sh
# Compares the library with the second machine and solver on as many generated units as the program does without words, and
# what it prints with the file `expected`. Run it at any place, once the program is built.
set -u

here=$(cd "$(dirname "$0")" && pwd) || exit 2
program=$here/../../crates/compare/out/compare
if [ ! -x "$program" ]; then
    echo "there is no program $program: build it first" >&2
    exit 2
fi
output=$(mktemp) || exit 2
trap 'rm -f "$output"' EXIT
trap 'exit 1' HUP INT TERM

"$program" >"$output"
status=$?
if ! diff "$here/expected" "$output"; then
    echo "the comparison prints otherwise than tests/compare/expected"
    exit 1
fi
if [ "$status" != 0 ]; then
    echo "the comparison ends with status $status"
    exit 1
fi
echo "the comparison prints what is expected"
