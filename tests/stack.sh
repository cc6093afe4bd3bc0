#!/bin/sh
# Runs `stand` and `serve` with no more stack than README.md says that they take: on their stored input, and on a register in which
# a question descends as deep as 1,024 spells allow, each spell inside the one before and all of them left of the last.
#
#     tests/stack.sh [STAND [SERVE]]        the programs of target/bin where none are named
set -u
here=$(cd "$(dirname "$0")" && pwd)
stand=${1:-$here/../target/bin/stand}
serve=${2:-$here/../target/bin/serve}
stand_kb=512
serve_kb=1536
work=$(mktemp -d)
trap 'rm -rf "$work"' EXIT

fail() {
    echo "stack.sh: $1" >&2
    exit 1
}

# limited KB PROGRAM INPUT EXPECTED: with so much stack the program prints what is expected
limited() {
    (ulimit -s "$1" && exec "$2") < "$3" > "$work/out"
    cmp "$work/out" "$4" >&2 || fail "$(basename "$2") with $1 KB of stack on $3: the output differs"
}

[ -x "$stand" ] || fail "no program at $stand"
[ -x "$serve" ] || fail "no program at $serve"
awk 'BEGIN {
    for (n = 1; n < 1024; n++) printf "%d\t1\t%d\t%d\tG\t1\n", n, n, 3000 - n
    printf "1024\t1\t1500\t3500\tG\t1\n"
}' > "$work/deep"
{
    printf 'read\t%d\n' "$(wc -c < "$work/deep")"
    cat "$work/deep"
    printf 'publish\t1\nday\t1600\nspan\t1600\t1700\ncover\t500\ndays\t1600\t1700\nwrite\n'
} > "$work/requests"
"$here/check" account serve < "$work/requests" > "$work/answers" || fail "the plain account failed"
"$stand" < "$work/deep" > "$work/days"

limited "$stand_kb" "$stand" "$here/../crates/stand/stdin" "$here/../crates/stand/stdout"
limited "$stand_kb" "$stand" "$here/stand/full.register" "$here/stand/full.expected"
limited "$stand_kb" "$stand" "$work/deep" "$work/days"
limited "$serve_kb" "$serve" "$here/../crates/serve/stdin" "$here/../crates/serve/stdout"
limited "$serve_kb" "$serve" "$work/requests" "$work/answers"
grep -q "^1600	1024	" "$work/days" || fail "the deep register is not as deep as it should be"

echo "stack.sh: ok, stand with $stand_kb KB and serve with $serve_kb KB"
