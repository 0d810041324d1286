#!/bin/sh
# Compares the library's program, crates/clock, with two programs in Rust, bench/baseline (plain) and bench/packed (packed
# by hand): first what they answer, and then how long they take. It stops with status 1 at the first difference between
# answers.
#
# usage: bench/run.sh [quick]
#
# Standard output gets a Markdown report, and standard error what is being done. `quick` measures a few rows in 3 rounds.
# The first run in a clone proves the library's crates before it can build the program, which takes some minutes.
#
# From the environment:
#   ROUNDS=N         measurements of each row by each program, instead of 27
#   BUDGET=N         steps of a run, instead of 4000000
#   OUT=FILE         keeps the raw numbers in this file, which bench/plot.py draws
#   CLOCK=PROGRAM    takes this program, by its path, for the library's, and does not build that
#   BASELINE=PROGRAM takes this program, by its path, for bench/baseline, and does not build that
#   PACKED=PROGRAM   takes this program, by its path, for bench/packed, and does not build that
set -eu

here=$(cd "$(dirname "$0")" && pwd)
top=$(dirname "$here")
target=8000000 # nanoseconds that one measurement should take: short, since a shared machine changes its speed
budget=${BUDGET:-4000000}
sizes='8 32 64 128'
shapes='straight branching loops'
interpreted='countdown stores division'
sides='clock baseline packed'

say() {
    echo "bench: $*" >&2
}

stop() {
    say "$*"
    exit 1
}

# Puts the path of the library's program into clock, and builds that where no path was given.
build_clock() {
    clock=${CLOCK:-$top/crates/clock/out/clock}
    if [ -n "${CLOCK:-}" ]; then
        return
    fi
    say "building the library's program"
    # rt builds a program to run it, so it is given something to do.
    (cd "$top/crates/clock" && rt run -- answers write "$units/straight-8.unit" 1) >&2 ||
        stop "the library's program cannot be built"
}

# rust_program SIDE GIVEN prints the path of a program in Rust, which it builds where no path is given.
rust_program() {
    if [ -n "$2" ]; then
        echo "$2"
        return
    fi
    say "building bench/$1"
    (cd "$here/$1" && env -u RUSTFLAGS -u CARGO_BUILD_TARGET cargo build --release --offline --target-dir target) >&2 ||
        stop "bench/$1 cannot be built"
    echo "$here/$1/target/release/$1"
}

build() {
    build_clock
    baseline=$(rust_program baseline "${BASELINE:-}")
    packed=$(rust_program packed "${PACKED:-}")
}

# program SIDE prints the path of a side's program.
program() {
    case $1 in
    clock) echo "$clock" ;;
    baseline) echo "$baseline" ;;
    packed) echo "$packed" ;;
    esac
}

# --- Answers ---

# Every task, unit and policy, one a line.
all_rows() {
    for policy in first-in highest; do
        for shape in $shapes; do
            for size in $sizes; do
                for task in load tidy abandon propose write solve run; do
                    echo "$task $shape-$size $policy"
                done
            done
        done
        for unit in $interpreted; do
            for task in load tidy abandon write solve run; do
                echo "$task $unit $policy"
            done
        done
    done
}

# answer SIDE TASK UNIT POLICY puts what a side answers into a file of its name.
answer() {
    "$(program "$1")" answers "$2" "$units/$3.unit" "$budget" "$4" >"$work/$1" </dev/null ||
        stop "$2 $3 $4: $1 ends with status $?"
}

same_answers() {
    for side in $sides; do
        answer "$side" "$1" "$2" "$3"
        if ! diff "$work/clock" "$work/$side" >"$work/difference"; then
            cat "$work/difference" >&2
            stop "$1 $2 $3: the answers differ (< clock, > $side)"
        fi
    done
}

compare_answers() {
    all_rows >"$work/all"
    say "comparing $(wc -l <"$work/all") answers"
    while read -r task unit policy; do
        same_answers "$task" "$unit" "$policy"
    done <"$work/all"
}

# --- Time ---

# The rows that are measured. What write-out and the solver's line do depends on a unit's length alone: one shape is enough.
full_rows() {
    for task in load tidy abandon propose; do
        for shape in $shapes; do
            for size in $sizes; do
                echo "$task $shape-$size first-in"
            done
        done
    done
    for task in write solve; do
        for size in $sizes; do
            echo "$task straight-$size first-in"
        done
    done
    for unit in $interpreted loops-128; do
        echo "run $unit first-in"
    done
    for shape in $shapes; do
        for size in $sizes; do
            echo "load $shape-$size highest"
        done
    done
}

quick_rows() {
    for task in load tidy; do
        for shape in $shapes; do
            echo "$task $shape-128 first-in"
        done
    done
    echo "write straight-128 first-in"
    echo "solve straight-128 first-in"
    echo "run countdown first-in"
    echo "load loops-128 highest"
}

# note WHAT TASK UNIT POLICY TIMES SIDE ROUND VALUE adds a line to the raw numbers.
note() {
    printf '%s\t%s\t%s\t%s\t%s\t%s\t%s\t%s\n' "$@" >>"$raw"
}

# nanoseconds SIDE TASK UNIT TIMES POLICY prints how long one time takes.
nanoseconds() {
    found=$("$(program "$1")" "$2" "$units/$3.unit" "$4" "$5" </dev/null) || stop "$2 $3 $5: $1 ends with status $?"
    case $found in
    '' | .* | *. | *[!0-9.]* | *.*.*) stop "$2 $3 $5: $1 prints no number: $found" ;;
    esac
    echo "$found"
}

# The times that fill one measurement, of a task that takes $1 nanoseconds.
fill() {
    awk -v one="$1" -v target="$target" 'BEGIN { n = int(target / (one < 1 ? 1 : one)); printf "%d\n", n < 1 ? 1 : n }'
}

# Chooses the times of a row by the library's program, first from a few times and then from a measurement of full length. A
# run's length is its budget.
choose_times() {
    if [ "$1" = run ]; then
        times=$budget
        return
    fi
    one=$(nanoseconds clock "$1" "$2" 20 "$3")
    one=$(nanoseconds clock "$1" "$2" "$(fill "$one")" "$3")
    times=$(fill "$one")
}

# The steps that a run takes, and the takes of a load: what a time can be divided by.
note_counts() {
    case $1 in
    run) count=$("$clock" answers run "$units/$2.unit" "$budget" "$3" </dev/null | awk '{ print $5 }') ;;
    load) count=$("$clock" answers load "$units/$2.unit" 1 "$3" </dev/null | awk '$1 == "takes" { print $2 + $3 + $4 }') ;;
    *) return ;;
    esac
    note count "$1" "$2" "$3" "$times" all 0 "$count"
}

measure_row() {
    choose_times "$1" "$2" "$3"
    note_counts "$1" "$2" "$3"
    turn=$sides
    round=1
    while [ "$round" -le "$rounds" ]; do
        for side in $turn; do
            one=$(nanoseconds "$side" "$1" "$2" "$times" "$3")
            note time "$1" "$2" "$3" "$times" "$side" "$round" "$one"
        done
        turn="${turn#* } ${turn%% *}" # each side begins a third of the rounds
        round=$((round + 1))
    done
}

measure() {
    say "measuring $(wc -l <"$work/rows") rows in $rounds rounds"
    while read -r task unit policy; do
        measure_row "$task" "$unit" "$policy"
    done <"$work/rows"
}

# --- Machine instructions ---

# collected SIDE TASK UNIT TIMES POLICY prints the machine instructions of a whole process, or nothing.
collected() {
    valgrind --tool=callgrind --callgrind-out-file=/dev/null \
        "$(program "$1")" "$2" "$units/$3.unit" "$4" "$5" 2>&1 </dev/null |
        sed -n 's/.*Collected *: *\([0-9][0-9]*\).*/\1/p'
}

# count_side SIDE TASK UNIT POLICY LESS MORE notes the instructions of one time: what MORE times take above LESS.
count_side() {
    less=$(collected "$1" "$2" "$3" "$5" "$4")
    more=$(collected "$1" "$2" "$3" "$6" "$4")
    if [ -z "$less" ] || [ -z "$more" ]; then
        say "$2 $3 $4: valgrind counts nothing for $1"
        return
    fi
    one=$(awk -v less="$less" -v more="$more" -v times="$(($6 - $5))" 'BEGIN { printf "%.1f\n", (more - less) / times }')
    note instructions "$2" "$3" "$4" "$(($6 - $5))" "$1" 0 "$one"
}

count_row() {
    # What a process takes besides varies by some thousand instructions, so that short tasks are done more often.
    case "$1 $2" in
    run*) set -- "$@" 100000 200000 ;;
    write* | solve* | *-8) set -- "$@" 100 1100 ;;
    *) set -- "$@" 10 60 ;;
    esac
    for side in $sides; do
        count_side "$side" "$@"
    done
}

# Counts rows of the least and the most instructions, and the runs.
count_instructions() {
    if ! command -v valgrind >/dev/null; then
        say "there is no valgrind, so machine instructions are not counted"
        return
    fi
    grep -E -e '^run |-(8|128) ' "$work/rows" >"$work/counted" || return 0
    say "counting the machine instructions of $(wc -l <"$work/counted") rows"
    while read -r task unit policy; do
        count_row "$task" "$unit" "$policy"
    done <"$work/counted"
}

# --- Report ---

machine() {
    model=$(lscpu 2>/dev/null | sed -n 's/^Model name: *//p' | head -n 1)
    echo "Machine: ${model:-unknown}, $(getconf _NPROCESSORS_ONLN) cores."
    echo "Plain Rust and packed are built by $(rustc --version 2>/dev/null || echo unknown),"
    echo "and the library by $(rt version 2>/dev/null || echo unknown)."
}

# Makes the temporary folder, with the units, the rows to measure and the raw numbers' first line.
prepare() {
    work=$(mktemp -d)
    trap 'rm -rf "$work"' EXIT
    trap 'exit 1' HUP INT TERM
    units=$work/units
    raw=${OUT:-$work/raw}
    : >"$raw"
    python3 "$here/units.py" "$units"
    "$rows" >"$work/rows"
    note what task unit policy times side round value
}

main() {
    case $#${1:-} in
    0) rows=full_rows rounds=${ROUNDS:-27} ;;
    1quick) rows=quick_rows rounds=${ROUNDS:-3} ;;
    *)
        echo "usage: $0 [quick]" >&2
        exit 2
        ;;
    esac
    prepare
    build
    compare_answers
    measure
    count_instructions
    python3 "$here/report.py" "$raw"
    machine
}

main "$@"
