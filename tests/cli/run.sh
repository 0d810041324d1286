#!/bin/sh
# Runs every NAME.case of this folder with the program that is named on the command line.
#
# A case is run in a new folder, line by line:
#   # TEXT            a comment
#   sample NAME       copies a file of samples/ at the repository's root
#   bytes NAME HEX .. makes a file of these bytes
#   nops NAME N       makes a listing of N instructions: NOP, and a HALT at the end
#   text NAME         makes a file of the lines "| TEXT" that follow
#   input NAME        the next run reads this file from standard input, and else nothing
#   $ WORD ..         runs the program with these words
#   > TEXT            the next line that it must have written to standard output
#   ! TEXT            the next line that it must have written to standard error
#   = STATUS          its status; what it wrote must be the lines above and no more
#   keep NAME         makes a file of what the last run wrote to standard output
#   same NAME NAME    two files must have the same bytes
#   absent NAME       there must be no such file
set -u

if [ $# -ne 1 ]; then
    echo "usage: $0 PROGRAM" >&2
    exit 2
fi
here=$(cd "$(dirname "$0")" && pwd) || exit 2
program=$(cd "$(dirname "$1")" && pwd)/$(basename "$1") || exit 2
samples=$here/../../samples
work=$(mktemp -d) || exit 2
trap 'rm -rf "$work"' EXIT
trap 'exit 1' HUP INT TERM
set -- "$here"/*.case
set -f
passed=0
failed=0

fail() {
    echo "$name:$number: $1"
    good=no
}

make_bytes() {
    target=$1
    shift
    for byte; do
        printf "\\$(printf '%03o' "0x$byte")"
    done >"$target"
}

make_nops() {
    echo "locals 0"
    left=$1
    while [ "$left" -gt 1 ]; do
        echo NOP
        left=$((left - 1))
    done
    echo HALT
}

run_program() {
    command="derricksage $*"
    "$program" "$@" >"$work/stdout" 2>"$work/stderr" <"$input"
    status=$?
    input=/dev/null
    : >"$work/want-stdout"
    : >"$work/want-stderr"
    pending=yes
}

one_line() {
    tr '\n' '/' <"$1"
}

compare() {
    pending=no
    [ "$status" = "$1" ] || fail "$command: status $status, not $1"
    cmp -s "$work/stdout" "$work/want-stdout" || fail "$command: standard output is \"$(one_line "$work/stdout")\""
    cmp -s "$work/stderr" "$work/want-stderr" || fail "$command: standard error is \"$(one_line "$work/stderr")\""
}

# $1 is the line; the words of a line are split at spaces.
perform() {
    rest=${1#? }
    case $1 in
    '' | '#'*) ;;
    '$'*) run_program ${1#?} ;;
    '>'*) echo_line "$1" >>"$work/want-stdout" ;;
    '!'*) echo_line "$1" >>"$work/want-stderr" ;;
    '|'*) echo_line "$1" >>"$text" ;;
    '='*) compare "$rest" ;;
    'sample '*) cp "$samples/${1#* }" . || fail "no such sample" ;;
    'bytes '*) make_bytes ${1#* } ;;
    'nops '*)
        set -- $1
        make_nops "$3" >"$2"
        ;;
    'input '*) input=${1#* } ;;
    'text '*)
        text=${1#* }
        : >"$text"
        ;;
    'keep '*) cp "$work/stdout" "${1#* }" ;;
    'same '*) cmp -s ${1#* } || fail "the files ${1#* } differ" ;;
    'absent '*) [ ! -e "${1#* }" ] || fail "there is a file ${1#* }" ;;
    *) fail "no such line is known: $1" ;;
    esac
}

# The text of a line after its mark and a space.
echo_line() {
    line=${1#?}
    printf '%s\n' "${line# }"
}

for file; do
    name=$(basename "$file")
    number=0
    good=yes
    pending=no
    input=/dev/null
    mkdir "$work/$name" && cd "$work/$name" || exit 2
    while IFS= read -r content; do
        number=$((number + 1))
        perform "$content"
    done <"$file"
    [ "$pending" = no ] || fail "$command: its status is not compared"
    if [ "$good" = yes ]; then
        passed=$((passed + 1))
    else
        failed=$((failed + 1))
    fi
done

if [ "$failed" -gt 0 ]; then
    echo "$failed command-line cases failed, $passed passed"
    exit 1
fi
echo "$passed command-line cases passed"
