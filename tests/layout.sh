#!/usr/bin/env bash
# Builds tests/layout.c as C and as C++ and tests/layout.rs in both editions over the archive, and runs each: every field of every
# struct goes there and back, and the version is the archive's. The refusals' words must be those of docs/PROTOCOL.md.
set -euo pipefail
cd "$(dirname "$0")"
../bin/archive
archive=../target/staticlib
build=$(mktemp -d)
trap 'rm -rf "$build"' EXIT

{
    sed -n 's/^#define PHAYAKLIT_VERSION /version /p' ../include/phayaklit.h
    sed -n '/^## The refusal numbers/,/^## Beginning/s/^| *\([0-9]\{1,\}\) | \([^|]*\) |.*/\1 \2/p' ../docs/PROTOCOL.md
} >"$build/expected"
[ "$(wc -l <"$build/expected")" -eq 15 ] || { echo "layout.sh: docs/PROTOCOL.md has no table of 14 words" >&2; exit 1; }

cc -std=c11 -Wall -Wextra -Werror -I ../include layout.c "$archive/libphayaklit.a" -o "$build/c"
c++ -Wall -Wextra -Werror -I ../include -x c++ layout.c -x none "$archive/libphayaklit.a" -o "$build/c++"
for edition in 2021 2024; do
    rustc --edition "$edition" -D warnings layout.rs -L "$archive" -o "$build/rust-$edition"
done
for program in c c++ rust-2021 rust-2024; do
    "$build/$program" >"$build/said" || { cat "$build/said" >&2; echo "layout.sh: $program failed" >&2; exit 1; }
    cmp "$build/said" "$build/expected"
done
echo "layout.sh: ok"
