#!/bin/sh
# Makes the edits that must not compile, proves every crate, tries the edits that must be refused, runs the program and the
# tests, then the program's command-line cases, the comparison with the second machine and solver, and the cases of the
# clock. Fails where an edit could not be tried. Its last line is rt's own.
cd "$(dirname "$0")/.." || exit 2
log=$(mktemp) || exit 2
trap 'rm -f "$log" "$log.status"' EXIT
sh compile-fail/run.sh || exit 1
{ rt ci; echo $? >"$log.status"; } 2>&1 | tee "$log"
[ "$(cat "$log.status")" = 0 ] || exit 1
if grep -Eq '^rt: ok.*, [0-9]+ bad' "$log"; then
    echo "an edit that must be refused could not be tried"
    exit 1
fi
sh tests/cli/run.sh crates/derricksage/out/derricksage || exit 1
sh tests/compare/run.sh || exit 1
sh tests/clock/run.sh crates/clock/out/clock || exit 1
tail -n 1 "$log"
