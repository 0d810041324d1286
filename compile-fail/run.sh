#!/bin/sh
# Makes each edit of this folder in a copy of the crates: the compiler must refuse it, with the one error that the edit names.
# Ends with status 1 where one compiles or is refused otherwise, and with 2 where one could not be tried.
cd "$(dirname "$0")/.." || exit 2
copy=$(mktemp -d) || exit 2
trap 'rm -rf "$copy"' EXIT
trap 'exit 2' HUP INT TERM
tar cf - --exclude='crates/*/out' crates.txt crates | tar xf - -C "$copy" || exit 2
status=0
for edit in compile-fail/*.edit; do
    field() { sed -n "s/^$1: //p" "$edit"; }
    folder=crates/$(field crate) file=$(field file) error=$(field error)
    if ! OLD=$(field old) NEW=$(field new) awk 'BEGIN { old = ENVIRON["OLD"]; new = ENVIRON["NEW"] }
        { at = index($0, old); if (at) { hits++; $0 = substr($0, 1, at - 1) new substr($0, at + length(old)) } print }
        END { exit hits != 1 }' "$folder/$file" >"$copy/$folder/$file"; then
        echo "$edit: its old text does not stand once"
        exit 2
    fi
    if (cd "$copy/$folder" && rt check) >"$copy/log" 2>&1; then
        echo "$edit: COMPILES"
        status=1
    elif [ "$(grep -c 'error\[' "$copy/log")" = 1 ] && grep -q "^$file:.* error\[$error\]" "$copy/log"; then
        echo "$edit: refused with $error"
    else
        echo "$edit: refused, but not with $error alone:"
        grep -E -m 3 'error|no proof' "$copy/log"
        status=1
    fi
    cp "$folder/$file" "$copy/$folder/$file"
done
exit $status
