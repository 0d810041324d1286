#!/bin/sh
# Runs the program that is named on the command line: measures each task once, which must print one number with one decimal and
# nothing else, since times vary; then compares what each task answers with the files NAME.expected of this folder.
set -u

if [ $# -ne 1 ]; then
    echo "usage: $0 PROGRAM" >&2
    exit 2
fi
here=$(cd "$(dirname "$0")" && pwd) || exit 2
program=$(cd "$(dirname "$1")" && pwd)/$(basename "$1") || exit 2
crate=$here/../../crates/clock
samples=$here/../../samples
work=$(mktemp -d) || exit 2
trap 'rm -rf "$work"' EXIT
trap 'exit 1' HUP INT TERM
passed=0
failed=0

pass() {
    passed=$((passed + 1))
}

fail() {
    echo "clock $1: $2"
    failed=$((failed + 1))
}

# Runs the program with these words.
run_program() {
    words=$*
    "$program" "$@" >"$work/stdout" 2>"$work/stderr"
    status=$?
}

# The words are TASK FILE TIMES [POLICY].
measures() {
    run_program "$@"
    if [ "$status" != 0 ] || [ -s "$work/stderr" ]; then
        fail "$words" "status $status, and it says \"$(cat "$work/stderr")\""
    elif [ "$(wc -l <"$work/stdout")" -ne 1 ] || ! grep -Eqx '[0-9]+\.[0-9]' "$work/stdout"; then
        fail "$words" "it prints no number with one decimal"
    else
        pass
    fi
}

# The first word is a file of what must be printed; the others are TASK FILE TIMES [POLICY].
answers() {
    expected=$1
    shift
    run_program answers "$@"
    if [ "$status" != 0 ] || [ -s "$work/stderr" ]; then
        fail "$words" "status $status, and it says \"$(cat "$work/stderr")\""
    elif ! diff "$expected" "$work/stdout"; then
        fail "$words" "it prints otherwise than $(basename "$expected")"
    else
        pass
    fi
}

# The first word is the message that must be printed; the others are what the program is run with.
refuses() {
    message=$1
    shift
    run_program "$@"
    if [ "$status" != 1 ] || [ -s "$work/stdout" ]; then
        fail "$words" "status $status, and it prints \"$(cat "$work/stdout")\""
    elif [ "$(cat "$work/stderr")" != "$message" ]; then
        fail "$words" "it says \"$(cat "$work/stderr")\""
    else
        pass
    fi
}

cp "$crate/data/sum.unit" "$samples/countdown.unit" "$samples/flow-meter.unit" "$work" && cd "$work" || exit 2

for policy in first-in highest; do
    for task in load tidy abandon write run solve; do
        measures "$task" flow-meter.unit 20 "$policy"
    done
    measures propose sum.unit 20 "$policy"
done
measures load countdown.unit 20

answers "$here/load.expected" load sum.unit 1
answers "$here/load-highest.expected" load sum.unit 1 highest
answers "$crate/stdout" tidy sum.unit 1 first-in
answers "$here/load.expected" abandon sum.unit 1
answers "$here/propose.expected" propose sum.unit 1
answers "$here/write.expected" write sum.unit 1
answers "$here/run.expected" run flow-meter.unit 30
answers "$here/solve.expected" solve sum.unit 1
answers "$here/solve-highest.expected" solve sum.unit 1 highest

printf '' >empty.unit
refuses "clock: refused 3 place 0" load empty.unit 1
refuses "clock: refused 3 place 0" answers solve empty.unit 1
refuses "clock: no rule yields anything at any place of the unit" propose countdown.unit 1
refuses "clock: TIMES 0 leaves nothing to measure" load sum.unit 0
refuses "clock: TIMES \"many\" is not an unsigned 32-bit number" load sum.unit many
refuses "clock: TASK \"fold\" is not load, tidy, abandon, propose, write, run or solve" fold sum.unit 1
refuses "clock: POLICY \"lowest\" is not first-in or highest" load sum.unit 1 lowest
refuses "clock: the words must be \"clock [answers] TASK FILE TIMES [POLICY]\"" load sum.unit

if [ "$failed" -gt 0 ]; then
    echo "$failed cases of the clock failed, $passed passed"
    exit 1
fi
echo "$passed cases of the clock passed"
