#!/usr/bin/env bash
# Runs the commands of README.md and docs/PROTOCOL.md that begin with bin/stand, bin/repair, bin/serve on a file, or printf, as they stand
# there, and compares what they print. The commands run in a folder of links, so that what they keep does not stay here.
set -euo pipefail
top=$(cd "$(dirname "$0")/.." && pwd)
"$top/bin/build" stand
"$top/bin/build" repair
"$top/bin/build" serve
work=$(mktemp -d)
trap 'rm -rf "$work"' EXIT
ln -s "$top"/* "$work"
cd "$work"

fail() {
    echo "readme.sh: $1" >&2
    exit 1
}

# the commands that are tried, each with the file of what it prints
commands() {
    sed -n 's/^    \(bin\/stand <.*\|bin\/repair <.*\|bin\/serve <.*\|printf .*\)$/\1/p' README.md docs/PROTOCOL.md | sort -u
}

tried=0
while IFS= read -r command; do
    bash -c "set -o pipefail; $command" >said || fail "$command: failed"
    case $command in
    'bin/stand < tests/stand/register-a.register') cat tests/stand/register-a.expected ;;
    'bin/repair < crates/repair/stdin > repaired.register') cmp repaired.register crates/repair/stdout >&2 && : ;;
    'bin/serve < examples/conversation.requests') cat examples/conversation.answers ;;
    *'day\t130\n'*) printf 'ok\nok\nlisted\t1\t0\t31\n' ;;
    *'publish\t1\nday\t5\n'*) printf 'ok\nok\nlisted\t3\t2\t11\t14\t13\n' ;;
    *'> kept.register') cmp kept.register tests/stand/register-a.register >&2 && : ;;
    *) fail "$command: nothing says what it should print" ;;
    esac | cmp - said || fail "$command: prints something else"
    tried=$((tried + 1))
done < <(commands)
[ "$tried" -eq 6 ] || fail "$tried commands are tried, and not 6"

# Proofs that go through with another kit are proofs: that the README names one is told and refuses nothing.
grep -qF "    $(rt version)" README.md || echo "readme.sh: README.md names another kit than $(rt version)" >&2
echo "readme.sh: ok, $tried commands"
