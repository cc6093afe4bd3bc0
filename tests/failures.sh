# What the tests of `stand`, `serve` and `repair` share: runs by bin/run-program, and each way in which a program's input or output fails.
# It is read by tests/stand.sh, tests/serve.sh and tests/repair.sh, which set here and program.
runner=$here/../bin/run-program
work=$(mktemp -d)
mounted=
trap '[ -z "$mounted" ] || umount "$mounted"; rm -rf "$work"' EXIT

# fail WHY: ends the test
fail() {
    echo "$(basename "$0"): $1" >&2
    exit 1
}

# What another test may set: the file of what is told where all is done, the reader that closes an output early, and the bytes of a disk
# that the output fills; the word with which the last line begins that is told where all is done.
well=/dev/null
last_word=
reader='head -n 1'
disk=64k

# run COMMAND: by bin/run-program, and no longer than two minutes
run() {
    timeout 120 "$runner" ${last_word:+--done "$last_word"} "$@"
}

# done_well WHAT STATUS: nothing was told but what is told where all is done, and the status is 0
done_well() {
    cmp "$work/told" "$well" >&2 || fail "$1: told on standard error: $(cat "$work/told")"
    [ "$2" -eq 0 ] || fail "$1: the status is $2"
}

# told WHAT STATUS MESSAGE: the message alone was told, and the status is 1
told() {
    printf '%b\n' "$3" | cmp - "$work/told" >&2 || fail "$1: told on standard error: $(cat "$work/told")"
    [ "$2" -eq 1 ] || fail "$1: the status is $2"
}

# begins WHAT EXPECTED: what was printed is a beginning of the file EXPECTED, and not all of it
begins() {
    bytes=$(wc -c < "$work/out")
    [ "$bytes" -lt "$(wc -c < "$2")" ] || fail "$1: all of the output is there"
    head -c "$bytes" "$2" | cmp - "$work/out" >&2 || fail "$1: the output differs"
}

# late FILE: its bytes, when a reader that takes nothing has long ended
late() {
    sleep 0.5
    cat "$1" 2> /dev/null
}

# failures NAME INPUT EXPECTED: the program NAME on the file INPUT, which prints the file EXPECTED where nothing fails
failures() {
    # pipes that do not wait, with a slow writer and a slow reader
    timeout 120 "$here/check" nonblocking "$runner" ${last_word:+--done "$last_word"} "$program" < "$2" > "$work/out" 2> "$work/told"
    done_well "pipes that do not wait" $?
    cmp "$work/out" "$3" >&2 || fail "pipes that do not wait: the output differs"

    # an output that is closed early: the signal of it is ignored, and the write fails
    late "$2" | { run "$program" 2> "$work/told"; echo $? > "$work/status"; } | $reader > "$work/out"
    $reader < "$3" | cmp - "$work/out" >&2 || fail "an output that is closed early: the output differs"
    told "an output that is closed early" "$(cat "$work/status")" "$1: standard output: Broken pipe"

    # the same where that signal is ignored from the start, and an output that was never open
    (trap '' PIPE; late "$2" | { run "$program" 2> "$work/told"; echo $? > "$work/status"; } | $reader > "$work/out")
    told "a closed output" "$(cat "$work/status")" "$1: standard output: Broken pipe"
    run "$program" < "$2" >&- 2> "$work/told"
    told "no output" $? "$1: standard output: Bad file descriptor"

    # an output that is full from the start, or becomes full
    run "$program" < "$2" > /dev/full 2> "$work/told"
    told "a full device" $? "$1: standard output: No space left on device"
    (trap '' XFSZ; ulimit -f 40; run "$program" < "$2" > "$work/out" 2> "$work/told")
    told "a file that may not grow" $? "$1: standard output: File too large"
    begins "a file that may not grow" "$3"
    mkdir "$work/disk"
    if mount -t tmpfs -o size=$disk tmpfs "$work/disk" 2> /dev/null; then
        mounted=$work/disk
        run "$program" < "$2" > "$work/disk/out" 2> "$work/told"
        told "a full disk" $? "$1: standard output: No space left on device"
        cp "$work/disk/out" "$work/out"
        begins "a full disk" "$3"
    else
        echo "$1: a full disk: not tried, since nothing can be mounted here"
    fi

    # an input that can't be read: nothing on standard output
    run "$program" < "$here" > "$work/out" 2> "$work/told"
    told "a directory as input" $? "$1: standard input: Is a directory"
    [ ! -s "$work/out" ] || fail "a directory as input: something is printed"
}

# usage NAME INPUT ARGUMENTS: the use is told, and nothing else is done
usage() {
    # shellcheck disable=SC2086
    run "$program" $3 < "$2" > "$work/out" 2> "$work/told"
    [ $? -eq 1 ] || fail "$1 $3: the status is not 1"
    [ ! -s "$work/out" ] || fail "$1 $3: something is printed"
    grep -q "^usage: $1" "$work/told" || fail "$1 $3: no use is told"
}
