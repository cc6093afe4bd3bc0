#!/usr/bin/env bash
# tests/office.sh [NAME [OPTION..]]: phayaklitd, proved and built first where that is needed, tried by one of these, or by all, two at a time:
#
#     manners                      how it begins and ends: register, lock, limit, sockets, arguments, a folder that can't be written, systemd
#     record                       status, history, the users and times of changes, and what another user may do
#     kept                         the words after some thousand changes, a copy that is made meanwhile, an end in the midst of changes
#     clients                      slow, silent and rude clients, half-closed connections, bursts, no descriptors left
#     order                        by its system calls: folders synchronised before it serves, a commit before its answer, one commit and few writes
#     damage                       a damaged, forged, foreign or other journal is refused, and nothing is changed
#     log                          a damaged write-ahead log is refused, one whose last commit is cut off is not
#     failures                     a write or a synchronisation that fails, a file of the journal that goes, a connection that can't be taken, another program that holds the journal
#     disk                         a full disk, and a limit on the size of files with messages that can't be written
#     many [--length N --seed N]   16 connections that edit and ask at once, N requests each
#     kills [--length N --seed N]  killed N times at random moments, with requests in flight, and compared with the plain account
set -euo pipefail
top=$(cd "$(dirname "$0")/.." && pwd)
"$top/bin/phayaklitd" --build
(cd "$top/rust" && cargo build --quiet --release --package office)
try() {
    timeout 600 "$top/target/rust/release/office" "$1" --program "$top/target/rust/release/phayaklitd" "${@:2}"
}
if [ $# -gt 0 ]; then
    try "$@"
    exit
fi

# What the command needs and does not find is told by its package.
work=$(mktemp -d)
trap 'wait; rm -rf "$work"' EXIT
ln -s "$(type -P bash)" "$(type -P dirname)" "$work"
# missing PACKAGE: with the programs of $work alone, it asks for this package
missing() {
    ! PATH=$work "$top/bin/phayaklitd" --build 2> "$work/told" || { echo "office.sh: built without $1" >&2; exit 1; }
    grep -qF "$1" "$work/told" || { cat "$work/told" >&2; exit 1; }
}
missing cargo
ln -s "$(type -P true)" "$work/cargo"
missing gcc
ln -s "$(type -P false)" "$work/cc"
missing libsqlite3-dev

{
    try kills --length 50
    try many --length 200
} > "$work/said" 2>&1 &
others=$!
(cd "$top/rust" && cargo test --quiet --release --package daemon > /dev/null)
for name in manners record kept clients order damage log failures disk; do
    try "$name"
done
came=0
wait "$others" || came=1
cat "$work/said"
exit "$came"
