#!/usr/bin/env bash
# Measures the first steps of someone who clones the repository, in a fresh clone of what is committed, on two processors if
# taskset is there: `./fws --help` within 5 seconds, the first command of the README within two minutes and with the answer
# that the README has, and `./fws --test` within three. It isn't part of the gate, since the time depends on what else the machine does.
set -u
top=$(cd "$(dirname "$0")/.." && pwd) || exit 1
command -v rt >/dev/null || { echo 'skipped: the first commands: no rt'; exit 0; }
work=$(mktemp -d) || exit 1
trap 'rm -rf "$work"' EXIT
git clone -q "$top" "$work/clone" || exit 1
cd "$work/clone" || exit 1
on=()
if command -v taskset >/dev/null; then on=(taskset -c '0,1'); fi
cat /proc/loadavg 2>/dev/null
status=0

measure() { # name, the most seconds, command: its output goes to the file `got`
    local begin seconds
    begin=$(date +%s)
    XDG_CACHE_HOME=$work/cache "${on[@]}" bash -c "$3" >"$work/got" 2>"$work/errors" </dev/null || { status=1 && cat "$work/errors"; }
    seconds=$(($(date +%s) - begin))
    echo "$1: $seconds seconds"
    [ "$seconds" -le "$2" ] || status=1
}

compare() { # a file with what is wanted
    cmp -s "$1" "$work/got" || { status=1 && echo 'another answer is wanted:' && diff "$1" "$work/got" | head; }
}

measure help 5 './fws --help'
compare crates/fws_test_commands/data/help.text
command=$(sed -n 's/^\$ \(\.\/fws .*\)/\1/p' README.md | head -n 1)
sed -n '/^\$ \.\/fws /,/^```\|^\$ /p' README.md | sed '1d;/^```\|^\$ /,$d' >"$work/wanted"
measure "$command" 120 "$command"
compare "$work/wanted"
measure test 180 './fws --test'
cat "$work/got"
exit "$status"
