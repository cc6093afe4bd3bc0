#!/bin/sh
# Runs the program `serve` on the protocol's example, and on the stored conversation in ways that the gate's own run does not: a byte
# at a time, begun on a file, with input cut short, where its input or output fails, with wrong arguments. Where something fails the
# message and the exit status that bin/run-program gives are looked at. The exit status is 1, with a message, at the first difference.
#
#     tests/serve.sh [PROGRAM]        PROGRAM is target/bin/serve where none is named
set -u
here=$(cd "$(dirname "$0")" && pwd)
program=${1:-$here/../target/bin/serve}
stored=$here/../crates/serve
. "$here/failures.sh"

# says WHAT EXPECTED: what was printed is this
says() {
    printf '%b' "$2" | cmp - "$work/out" >&2 || fail "$1: the output differs"
}

[ -x "$program" ] || fail "no program at $program"

# the protocol's example; `tests/check documents` sees that the document says the same
"$program" < "$here/../examples/conversation.requests" | cmp - "$here/../examples/conversation.answers" >&2 || fail "the protocol's example: the output differs"

# a pipe that hands over a byte at a time
head -c 20000 "$stored/stdin" | dd bs=1 2> /dev/null | "$program" > "$work/out"
head -c 20000 "$stored/stdin" | "$program" | cmp - "$work/out" >&2 || fail "a byte at a time: the output differs"

# a caller that waits for each answer before it sends the next request
mkfifo "$work/in" "$work/answers"
"$program" < "$work/in" > "$work/answers" &
exec 3> "$work/in" 4< "$work/answers"
for request in 'enter\t1\t1\t1\t9\tG\t1' 'publish\t1' 'day\t9' 'read\t0' 'day\t9'; do
    printf "$request\n" >&3
    read -r answer <&4 || fail "no answer to $request"
    printf '%s\n' "$answer"
done > "$work/out"
exec 3>&- 4<&-
wait
says "one request at a time" 'ok\nok\nlisted\t1\t0\t1\nok\nlisted\t0\t0\n'

# begun on a file
"$program" "$here/stand/full.register" < /dev/null > "$work/out"
says "begun on a register" 'ok\n'
{ echo ok; printf 'text\t%s\n' "$(wc -c < "$here/stand/full.register")"; cat "$here/stand/full.register"; } > "$work/expected"
printf 'write\n' | "$program" "$here/stand/full.register" | cmp - "$work/expected" >&2 || fail "a register read and written: it differs"
printf 'day\t5\npublish\t1\nday\t5\ntake-back\n' | "$program" "$here/stand/register-a.register" > "$work/out"
says "begun on a register and published" 'ok\nlisted\t0\t0\nok\nlisted\t3\t2\t11\t14\t13\nrefused\t9\n'
printf '1\t1\t1\t9\tG\t1\n1\t1\t1\t9\tG\t1\n' > "$work/bad"
printf 'take-back\n' | run "$program" "$work/bad" > "$work/out" 2> "$work/told"
told "begun on a bad register" $? "serve: $work/bad: the register is not taken: refused\t6\t2"
says "begun on a bad register" 'refused\t6\t2\n'
head -c 65537 /dev/zero > "$work/long"
run "$program" "$work/long" < /dev/null > "$work/out" 2> "$work/told"
told "begun on a long text" $? "serve: $work/long: the register is not taken: refused\t12\t0"
says "begun on a long text" 'refused\t12\t0\n'

# input that ends inside a request
printf 'publish\t1\nday\t5' | "$program" > "$work/out"
says "a line cut short" 'ok\n'
printf 'read\t5\nabcd' | "$program" > "$work/out"
says "a text cut short" ''
head -c 200000 /dev/zero | "$program" > "$work/out"
says "a line with no end" ''

# where its input or output fails
failures serve "$stored/stdin" "$stored/stdout"

# files that can't be taken: a message, and nothing on standard output
run "$program" "$work/none" < "$stored/stdin" > "$work/out" 2> "$work/told"
told "a missing file" $? "serve: $work/none: No such file or directory"
says "a missing file" ''
run "$program" "$work" < "$stored/stdin" > "$work/out" 2> "$work/told"
told "a directory as the register" $? "serve: $work: Is a directory"
says "a directory as the register" ''
run "$program" "$(head -c 5000 /dev/zero | tr '\0' a)" < "$stored/stdin" > "$work/out" 2> "$work/told"
told "a name longer than a path" $? "serve: the name of the file: File name too long"
says "a name longer than a path" ''
run "$program" "$(printf '%b' 'a\0377')" < "$stored/stdin" > "$work/out" 2> "$work/told"
told "a name that is not UTF-8" $? 'serve: a\0377: invalid filename'
says "a name that is not UTF-8" ''

# arguments
for arguments in --help -x 'a b'; do
    usage serve "$stored/stdin" "$arguments"
done

echo "serve.sh: ok"
