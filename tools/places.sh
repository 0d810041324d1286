#!/bin/sh
# Lists the lines of the sources at which an older form of the language may stand, by the points of docs/DESIGN-PASS.md.
# A line is a place to look at, not a verdict. With an argument, only that point.
cd "$(dirname "$0")/.." || exit 2

look() {
    if [ -n "$only" ] && [ "$only" != "$1" ]; then
        return
    fi
    echo "== $1. $2"
    grep -rnE "$3" crates/*/src | grep -vE "$4" | sort
}

only=${1:-}
none='^$'
look 1 'shapes of Option or Result, flags, numbers for kinds' \
    'enum [A-Z]|Option<\(\)>|Option<(Flow|Ending)>|\(u8, usize\)|op(code)?: u8| as u8;' "$none"
look 2 'functions, to be read for twins' '\bfn [a-z_]+' 'impl Fn'
look 3 'loops' 'while |loop \{|\bfor .* in ' '//|ghost|ensures|requires'
look 4 'equality, order, copies, conversions, printing' \
    '^ *impl.* for |\bfn (number|place|of|instruction|described|ending_name|layer|new|default|eq|cmp|clone)\b|\bfn (to|as|into|from)_[a-z]+' "$none"
look 5 'facts of states and buffers in contracts, and parameters' \
    '(requires|ensures).*(held_of|stack_of|state_of|length outputs|\.written)|\bfn .*(locals|outputs|inputs|heap|rt): ' "$none"
look 6 'fixed arrays, lengths and tables' \
    '\[[A-Za-z0-9:<>(), ]+; *[A-Za-z0-9]+\]|\b(len|height|written|used): usize|\bstatic [A-Z]' "/tests.rt:|\[u8; 6\]"
look 7 'switches and tables of functions' 'dyn |impl Fn|: Fn|\bmatch ' "$none"
if [ -z "$only" ] || [ "$only" = 8 ]; then
    echo "== 8. answers, and lines of proofs/"
    for crate in crates/*/; do
        answers=$(find "$crate/proofs" -name Answers.antt -exec cat {} + 2>/dev/null | grep -cE '^pub [a-z].* : goal')
        lines=$(find "$crate/proofs" -name '*.antt' -exec cat {} + | wc -l)
        echo "$crate: $answers answers, $lines lines"
    done
fi
