#!/bin/sh
# Runs the program `stand` on the registers of tests/stand and compares every byte that it prints with what is stored beside
# each; then where its input or output fails. At each run the message and the exit status that bin/run-program gives are looked
# at. The exit status is 1, with a message, at the first difference.
#
#     tests/stand.sh [PROGRAM]        PROGRAM is target/bin/stand where none is named
set -u
here=$(cd "$(dirname "$0")" && pwd)
program=${1:-$here/../target/bin/stand}
full=$here/stand/full.register
. "$here/failures.sh"

# same NAME WHAT: what was printed is what is stored for NAME
same() {
    cmp "$work/out" "$here/stand/$1.expected" >&2 || fail "$2: the output differs from tests/stand/$1.expected"
}

[ -x "$program" ] || fail "no program at $program"
count=0
for register in "$here"/stand/*.register; do
    name=$(basename "$register" .register)
    run "$program" < "$register" > "$work/out" 2> "$work/told"
    status=$?
    same "$name" "$name"
    case $name in
        refused-*) told "$name" "$status" "$(awk '{ print "stand: the register is refused: " $2 " at line " $3 }' "$work/out")" ;;
        *) done_well "$name" "$status" ;;
    esac
    count=$((count + 1))
done

# a pipe that hands over a byte at a time
dd if="$full" bs=1 2> /dev/null | run "$program" > "$work/out" 2> "$work/told"
done_well "full, a byte at a time" $?
same full "full, a byte at a time"

# where its input or output fails, and arguments
failures stand "$full" "$here/stand/full.expected"
for argument in --help -x register; do
    usage stand "$full" "$argument"
done

# bin/run-program: what is told comes at once, an end by a signal is passed on both ways, and a status of the program's own is kept
mkfifo "$work/fifo"
"$runner" sh -c 'echo first >&2; read -r line; echo "$line" >&2' < "$work/fifo" 2> "$work/told" &
running=$!
exec 3> "$work/fifo"
tries=0
until [ -s "$work/told" ]; do
    tries=$((tries + 1))
    [ "$tries" -lt 100 ] || fail "run-program: nothing is told before the program's end"
    sleep 0.1
done
echo second >&3
exec 3>&-
wait "$running"
told "run-program" $? "$(printf 'first\nsecond')"
"$runner" sleep 60 2> /dev/null &
running=$!
sleep 0.5
kill -TERM "$running"
wait "$running"
[ $? -eq 143 ] || fail "run-program: the signal did not end the program"
run sh -c 'exit 3'
[ $? -eq 3 ] || fail "run-program: the program's status is lost"

echo "stand.sh: ok, $count registers"
