#!/usr/bin/env bash
# Tries the built program on the outside as it is: full devices, closed and open pipes, folders, endless files and
# odd names; and that a query for everything lists the rows of the table. Prints a line for each try that goes wrong, and
# last how many went right.
set -u
top=$(cd "$(dirname "$0")/.." && pwd)
program=$top/crates/fws/out/fws
[ -x "$program" ] || { echo "not built yet: $top/fws --build" >&2; exit 1; }
work=$(mktemp -d) || exit 1
trap 'rm -rf "$work"' EXIT
cd "$work" || exit 1
cp "$top/examples/site.txt" S
cp "$top/examples/open.rules" F
table=$'table new 1\n* * * * * * * * : accept'
right=0 wrong=0

check() { # what wanted got
    if [ "$2" = "$3" ]; then right=$((right + 1)); else wrong=$((wrong + 1)); printf '%s: %q, not %q\n' "$1" "$3" "$2"; fi
}

told() { # the output and the status, in one text
    local out
    out=$("$@" 2>/dev/null </dev/null)
    printf '%s\nstatus %s' "$out" "$?"
}

check 'a plain run' "$table"$'\nstatus 0' "$(told "$program" synth iptables S F new)"

"$program" synth iptables S F new >/dev/full 2>/dev/null
check 'a full device' 5 "$?"

# the other end is closed before the program writes
{ sleep 1; "$program" synth iptables S F new; echo "$?" >code; } 2>/dev/null | true
check 'a closed pipe' 5 "$(cat code)"

"$program" synth iptables S F new >&- 2>/dev/null
check 'a closed standard output' 5 "$?"

got=$("$program" synth iptables S /dev/stdin new <F)
check 'standard input as a file' "$table" "$got"

got=$("$program" synth iptables S /dev/stdin new < <(cat F))
check 'a pipe as a file' "$table" "$got"

mkfifo pipe && { cat F >pipe & }
got=$("$program" synth iptables S pipe new)
check 'a named pipe as a file' "$table" "$got"

# it waits for more of a file, or for room, while it is stopped, goes on, and gets a signal that it doesn't heed
disturb() { # a process
    sleep 0.3
    kill -STOP "$1" && sleep 0.1 && kill -CONT "$1" && kill -WINCH "$1" && sleep 0.1
}
mkfifo slow
"$program" synth iptables S slow new >told 2>/dev/null &
exec 7>slow
disturb "$!"
cat F >&7
exec 7>&-
wait "$!"
code=$?
check 'signals while it reads' "$table"$'\nstatus 0' "$(cat told)"$'\n'"status $code"
{ echo '*filter' && echo ':FORWARD DROP' && seq -f '-A FORWARD -s 10.0.0.0/8 -p tcp -m tcp --dport %.0f -j ACCEPT' 1 2 40000; echo COMMIT; } >many
"$program" synth iptables S many new >wanted 2>/dev/null
mkfifo full
"$program" synth iptables S many new >full 2>/dev/null &
exec 7<full
disturb "$!"
cat <&7 >told
exec 7<&-
wait "$!"
code=$?
check 'signals while it writes' "$(cksum <wanted)"$'\nstatus 0' "$(cksum <told)"$'\n'"status $code"
check 'signals while it writes: more than a pipe holds' 1 "$(($(wc -c <wanted) > 65536))"

check 'an endless file' $'refused /dev/zero over 4194304 bytes\nstatus 3' "$(told "$program" synth iptables S /dev/zero new)"
check 'an endless site' $'refused /dev/zero over 4194304 bytes\nstatus 3' "$(told "$program" synth iptables /dev/zero F new)"

mkdir folder
check 'a folder as a file' $'cannot read folder\nstatus 4' "$(told "$program" synth iptables S folder new)"
check 'a folder as a site' $'cannot read folder\nstatus 4' "$(told "$program" synth iptables folder F new)"
check 'an absent file' $'cannot read G\nstatus 4' "$(told "$program" synth iptables S G new)"
check 'an absent site before an absent file' $'cannot read T\nstatus 4' "$(told "$program" synth iptables T G new)"
check 'an empty name' $'cannot read \nstatus 4' "$(told "$program" synth iptables S '' new)"

odd=$'-a name\nwith a line feed'
cp -- F "$odd"
check 'an odd name' "$table"$'\nstatus 0' "$(told "$program" synth iptables S "$odd" new)"
printf '*nat\n' >"$odd"
check 'an odd name that is refused' "refused $odd line 2 syntax"$'\nstatus 3' "$(told "$program" synth iptables S "$odd" new)"
rm -- "$odd"
check 'an odd name that is absent' "cannot read $odd"$'\nstatus 4' "$(told "$program" synth iptables S "$odd" new)"

check 'an argument that is no UTF-8' $'\nstatus 2' "$(told "$program" synth iptables S $'\xff' new)"
check 'no words' "$(cat "$top/crates/fws_test_commands/data/usage.text")"$'\nstatus 2' "$(told "$program")"

for rules in "$top"/examples/*.rules; do
    wanted=$("$program" synth iptables S "$rules" new | sed '1s/^table/query/')$'\nstatus 0'
    check "a query without words of ${rules##*/}" "$wanted" "$(told "$program" query iptables S "$rules" new)"
    check "a query for everything of ${rules##*/}" "$wanted" \
        "$(told "$program" query iptables S "$rules" new 'entry=*' dst=0.0.0.0-255.255.255.255)"
done

echo "outside: $right passed, $wrong failed"
[ "$wrong" -eq 0 ]
