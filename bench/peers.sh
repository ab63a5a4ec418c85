#!/usr/bin/env bash
# Measures the table of new packets of the 4,000 rules of `load 4000` beside what other programs do with the same rules, where
# they are installed: z3, which answers the one question of bench/question.py, and iptables-restore, which tries the text in a
# network namespace of its own and loads nothing. Prints a line `peer seconds seconds ratio` for each: the best times of the
# table and of the peer, and how many times as long the table takes. Exit status 1 where that is more than a quarter of z3's
# time, or more than 8 times that of iptables-restore. Build first: ./fws --build
set -u
top=$(cd "$(dirname "$0")/.." && pwd)
program=$top/crates/fws/out/fws
[ -x "$program" ] || { echo "not built yet: $top/fws --build" >&2; exit 1; }
work=$(mktemp -d) || exit 1
trap 'rm -rf "$work"' EXIT
status=0
python3 "$top/bench/make.py" 4000 loaded >"$work/rules" || exit 1
python3 "$top/bench/question.py" "$work/rules" >"$work/question" || exit 1

beside() { # peer times command words..
    local peer=$1 times=$2
    shift 2
    if command -v "$peer" >/dev/null; then
        python3 "$top/bench/beside.py" "$peer" "$times" "$program" synth iptables "$top/examples/site.txt" "$work/rules" new -- "$@" || status=1
    else
        echo "$peer is not installed: passed over"
    fi
}

echo 'peer seconds seconds ratio'
beside z3 0.25 z3 "$work/question"
namespace=(unshare -n)
[ "$(id -u)" -eq 0 ] || namespace=(unshare -rn)
if "${namespace[@]}" true 2>/dev/null; then
    beside iptables-restore 8 "${namespace[@]}" iptables-restore --test "$work/rules"
else
    echo 'iptables-restore: no network namespace can be made here: passed over'
fi
exit "$status"
