#!/bin/sh
# Runs the program `repair` on the texts of tests/repair and compares every byte that it prints, and that it tells on standard error, with
# what is stored beside each; then on texts of empty lines, cut short or too long, where its input or output fails, and with wrong
# arguments. At each run the exit status that bin/run-program gives is looked at. The exit status is 1, with a message, at the first
# difference.
#
#     tests/repair.sh [PROGRAM]        PROGRAM is target/bin/repair where none is named
set -u
here=$(cd "$(dirname "$0")" && pwd)
program=${1:-$here/../target/bin/repair}
full=$here/stand/full.register
. "$here/failures.sh"

# prints WHAT EXPECTED: what was printed is the file EXPECTED
prints() {
    cmp "$work/out" "$2" >&2 || fail "$1: the output differs"
}

# repairs WHAT INPUT EXPECTED: of the file INPUT the file EXPECTED is printed, and what is told is in $well
repairs() {
    run "$program" < "$2" > "$work/out" 2> "$work/told"
    done_well "$1" $?
    prints "$1" "$3"
}

# passes WHAT REGISTER: it passes through unaltered, and nothing is said of it but its length
passes() {
    well=$work/well
    printf 'repaired\t%d\t0\t0\n' "$(wc -c < "$2")" > "$well"
    repairs "$1" "$2" "$2"
}

# refuses WHAT INPUT: the file INPUT is too long
refuses() {
    run "$program" < "$2" > "$work/out" 2> "$work/told"
    told "$1" $? 'refused\t12\t0'
    prints "$1" /dev/null
}

last_word=repaired
[ -x "$program" ] || fail "no program at $program"
count=0
for damaged in "$here"/repair/*.damaged; do
    name=$(basename "$damaged" .damaged)
    stored=$here/repair/$name
    well=$stored.told
    repairs "$name" "$damaged" "$stored.expected"
    passes "$name, once more" "$stored.expected"
    count=$((count + 1))
done

# a pipe that hands over a byte at a time
well=$here/repair/around-1024.told
dd if="$here/repair/around-1024.damaged" bs=1 2> /dev/null | run "$program" > "$work/out" 2> "$work/told"
done_well "a byte at a time" $?
prints "a byte at a time" "$here/repair/around-1024.expected"

# a full register; without its last LF; cut inside a line
passes "full" "$full"
head -n 1023 "$full" > "$work/expected"
printf 'dropped\t1024\t12\nrepaired\t%d\t1\t0\n' "$(wc -c < "$work/expected")" > "$work/well"
for missing in 1 5; do
    head -c "-$missing" "$full" > "$work/damaged"
    repairs "the last $missing bytes missing" "$work/damaged" "$work/expected"
done

# as many lines as there can be, one byte more, and far more
head -c 65536 /dev/zero | tr '\0' '\n' > "$work/damaged"
{ seq 65536 | sed 's/.*/dropped\t&\t12/'; printf 'repaired\t0\t65536\t0\n'; } > "$work/well"
repairs "65,536 empty lines" "$work/damaged" /dev/null
echo >> "$work/damaged"
refuses "65,537 empty lines" "$work/damaged"
cat "$full" "$full" "$full" > "$work/damaged"
refuses "a register three times" "$work/damaged"
head -c 3000000 /dev/zero > "$work/damaged"
refuses "three million bytes" "$work/damaged"

# where its input or output fails, and arguments. All of its output goes into a pipe that nobody has closed.
passes "full" "$full"
reader=:
disk=16k
failures repair "$full" "$full"
for argument in --help -x register; do
    usage repair "$full" "$argument"
done

echo "repair.sh: ok, $count texts"
