#!/usr/bin/env bash
# Runs the built programs over growing inputs, and prints a line `family size seconds megabytes counts` for each:
# filter files of growing length, files with user-defined chains and with rules of nat and mangle, an instance of ipfw with
# many redirects, the same rules in ipfw, pf or Cisco IOS and in iptables, and in pf of OpenBSD and of FreeBSD, lists of pf that make
# many rules, 400 rules at sites of growing size, the writing of these sites by the command site2, translations, the command load, runs of events,
# comparisons of two texts, rules that packets use and rules that none uses, texts of up to 4 MiB that are read and not executed,
# in all four languages, execution alone and that of established packets, trees that are made of rows or recoloured, and diagrams
# that are unfolded or refused. Exit status 1 where a bound is passed. Build first: ./fws --build
set -u
top=$(cd "$(dirname "$0")/.." && pwd)
program=$top/crates/fws/out/fws
trees=$top/crates/fws_bench/out/fws_bench
[ -x "$program" ] || { echo "not built yet: $top/fws --build" >&2; exit 1; }
[ -x "$trees" ] || (cd "$top/crates/fws_bench" && rt run -- fields 8) >/dev/null 2>&1 </dev/null
work=$(mktemp -d) || exit 1
trap 'rm -rf "$work"' EXIT
status=0
site=$top/examples/site.txt
sed 's,10\.0\.0\.1/24,10.0.0.1/8,' "$site" >"$work/wide" || exit 1

measure() { # family count seconds megabytes command words..
    python3 "$top/bench/measure.py" "$@" || status=1
}

rules_in() { # language family seconds count..
    local lang=$1 family=$2 seconds=$3 count
    shift 3
    for count in "$@"; do
        python3 "$top/bench/make.py" "$count" "$family" "$lang" >"$work/file" || exit 1
        measure "$family" "$count" "$seconds" 2048 "$program" synth "$lang" "$site" "$work/file" "${state:-new}"
    done
}

rules() { # family seconds count..
    rules_in iptables "$@"
}

echo 'family rules seconds megabytes rows'
rules overlapping 0.5 50 100 200 400
rules apart 0.5 4000
rules partial 0.1 200
rules partial 0.4 1000
rules partial 1.5 4000
rules blocked 0.8 40000
rules listed 0.25 4000
rules rewritten 0.6 1000
rules services 0.5 500
rules called 1.5 2000
rules shared 4 2000
rules unfolded 10 998
rules marked 2.2 400 1000
state=est rules marked 2.2 1000
rules sourced 1.4 400 1000
rules mapped 2.4 100 200
site=$work/wide rules mapped_by_way 6.4 200 1000
rules balanced 4.5 500 1000
rules published 2.6 500 1000
rules rewritten 12 4000
rules blocked 2.3 106000
rules dropped 3 1280
asked() { # family rules seconds megabytes words..: what is asked of a table that is far larger
    python3 "$top/bench/make.py" "$2" "$1" >"$work/file" || exit 1
    measure "$1" "$2" "$3" "$4" "$program" query iptables "$site" "$work/file" new "${@:5}"
}
asked independent 640 0.3 50 dport=80
python3 "$top/bench/growth.py" listed 15 "$program" "$site" || status=1
python3 "$top/bench/growth.py" partial 15 "$program" "$site" || status=1

doubled() { # language family large [site]: at most three times as long for twice as many
    python3 "$top/bench/growth.py" "$2" 3 "$program" "${4:-$site}" "$1" $(($3 / 2)) "$3" || status=1
}

doubled iptables marked 1000
doubled iptables sourced 1000
doubled iptables mapped_by_way 1000 "$work/wide"
doubled iptables balanced 1000
doubled iptables published 1000
doubled iptables rewritten 4000
doubled iptables blocked 106000

echo 'family redirects seconds megabytes rows'
rules_in ipfw redirected 1.5 1000
rules_in ipfw redirected 4 2000
site=$work/wide rules_in ipfw addressed 1.5 1000
rules_in ipfw instanced 1.5 1000
rules_in ipfw tagged 1.5 1000
rules_in ipfw counted 0.3 1000
for family in redirected instanced tagged; do doubled ipfw "$family" 1000; done
doubled ipfw addressed 1000 "$work/wide"
python3 "$top/bench/ratio.py" ipfw skipping 4000 2 "$program" "$site" || status=1
python3 "$top/bench/ratio.py" ipfw sources 65534 2 "$program" "$site" || status=1

echo 'family sources seconds megabytes rows'
python3 "$top/bench/make.py" 400 expanded pf >"$work/file" || exit 1
measure expanded 400 3 300 "$program" synth pf "$site" "$work/file" new
sharing() { # language family rules seconds megabytes site: rules that share a set of addresses
    python3 "$top/bench/make.py" "$3" "$2" "$1" >"$work/file" || exit 1
    measure "$2" "$3" "$4" "$5" "$program" synth "$1" "$6" "$work/file" new
}
sharing pf tabled 4000 3 200 "$site"
python3 "$top/bench/make_site.py" 3968 >"$work/site.992" || exit 1
sharing pf own 2000 2 200 "$work/site.992"
sharing ipfw own 2000 2 200 "$work/site.992"
for family in redirected translated tagged; do
    rules_in pf "$family" 1.5 1000
    doubled pf "$family" 1000
done
rules_in pf chained 2 800
rules_in pf circled 0.5 1000
doubled pf circled 1000
python3 "$top/bench/ratio.py" pf decided 4000 4 "$program" "$site" || status=1

sharing openbsd tabled 4000 3 200 "$site"
sharing openbsd own 2000 2 200 "$work/site.992"
for family in redirected translated tagged; do
    rules_in openbsd "$family" 1.5 1000
    doubled openbsd "$family" 1000
done
rules_in openbsd held 1.5 200
rules_in openbsd circled 0.5 1000
doubled openbsd circled 1000
python3 "$top/bench/make.py" 400 expanded openbsd >"$work/file" || exit 1
measure expanded 400 3 300 "$program" synth openbsd "$site" "$work/file" new
for family in decided overridden redirected translated tagged circled; do
    python3 "$top/bench/ratio.py" openbsd "$family" 1000 1.3 "$program" "$site" pf || status=1
done
python3 "$top/bench/ratio.py" openbsd chained 800 1.3 "$program" "$site" pf || status=1
python3 "$top/bench/ratio.py" openbsd expanded 400 1.3 "$program" "$site" pf || status=1
python3 "$top/bench/ratio.py" openbsd tabled 4000 1.3 "$program" "$site" pf || status=1
python3 "$top/bench/ratio.py" openbsd own 2000 1.3 "$program" "$work/site.992" pf || status=1

echo 'family uses seconds megabytes'
for family in repeated joined defined typed; do
    python3 "$top/bench/refused.py" pf "$family" 100000 2 1024 'line 2 expand' "$program" "$site" || status=1
done
python3 "$top/bench/refused.py" pf passed 100000 2 1024 'line 2 syntax' "$program" "$site" || status=1

rules_in ios mapped 1.5 400 1000
doubled ios mapped 1000
python3 "$top/bench/ratio.py" ios applied 4000 2 "$program" "$site" || status=1
python3 "$top/bench/make_site.py" 256 >"$work/site" || exit 1
python3 "$top/bench/ratio.py" ios bordered 64 2 "$program" "$work/site" || status=1

echo 'family routes seconds megabytes rows'
python3 "$top/bench/make.py" 400 routed >"$work/file" || exit 1
for routes in 256 1024 4096; do
    python3 "$top/bench/make_site.py" "$routes" >"$work/site.$routes" || exit 1
    measure routed "$routes" 2 1024 "$program" synth iptables "$work/site.$routes" "$work/file" new
done

echo 'family routes seconds megabytes'
for routes in 256 1024 4096; do
    python3 "$top/bench/respelled.py" "$routes" 1 1024 "$program" "$work/site.$routes" || status=1
done

translated() { # family count language target bytes [file]
    local family=$1 count=$2 language=$3 target=$4 bytes=$5
    shift 5
    python3 "$top/bench/translated.py" "$family" "$count" "$language" "$target" "$bytes" "${times:-10}" "$program" "$site" "$@" || status=1
}

echo 'family rules language target seconds times bytes parts'
translated router 13 iptables iptables 5540 "$top/examples/router.saved"
translated loaded 400 iptables iptables 124616
translated loaded 4000 iptables iptables 984632
translated rewritten 1000 iptables iptables /300
translated skipping 1000 ipfw iptables /300
translated decided 1000 pf iptables /300
translated applied 1000 ios iptables /300
translated router 13 iptables ipfw 5736 "$top/examples/router.saved"
translated loaded 400 iptables ipfw 136000
translated loaded 4000 iptables ipfw 1154000
translated router 13 iptables pf 5518 "$top/examples/router.saved"
translated loaded 400 iptables pf 120000
translated loaded 4000 iptables pf /70
translated decided 1000 pf pf /150
translated loaded 400 iptables ios 59418
translated loaded 4000 iptables ios /40

answered() { # family count language target seconds megabytes status: an answer that is short, however long the text is
    python3 "$top/bench/answered.py" "$@" "$program" "$site" || status=1
}

echo 'family rules language target seconds megabytes lines'
answered unfolded 998 iptables ios 3 1024 1
answered dropped 1280 iptables ios 6 1024 1
answered webbed 500 ipfw pf 3 1024 0

echo 'command rules seconds megabytes counts'
measure load 400 5 4096 "$program" load 400
measure load 4000 60 4096 "$program" load 4000

running() { # family connections seconds megabytes
    python3 "$top/bench/running.py" "$@" "$program" "$site" "$top/examples/router.saved" || status=1
}

echo 'family connections seconds megabytes events listed'
running answered 10000 5 1024
running renewed 10000 5 1024
running expired 80000 5 1024
running crossed 40000 5 1024
running paired 40000 5 1024

compared() { # family rules other answer: at most twice as long as both tables of both texts
    python3 "$top/bench/comparing.py" "$1" "$2" "$3" "$4" 2 "$program" "$site" || status=1
}

echo 'family rules other seconds times answer'
compared listed 4000 shorter differ
compared partial 4000 shorter same
compared loaded 4000 shorter differ
compared loaded 400 pf same
compared loaded 400 ipfw same

explained() { # family rules packets seconds megabytes
    python3 "$top/bench/explaining.py" "$@" "$program" "$site" || status=1
}

echo 'family rules packets seconds megabytes used'
explained listed 1000 10000 5 1024
explained rewritten 500 10000 5 1024
explained services 250 10000 5 1024
explained logged 1000 1000 5 1024

unused() { # language family rules: at most four times as long as both tables
    python3 "$top/bench/unused.py" "$1" "$2" "$3" 4 "$program" "$site" || status=1
}

echo 'language family rules seconds times told'
unused iptables listed 4000
unused iptables blocked 40000
unused iptables services 500
unused iptables rewritten 1000

echo 'family rules seconds megabytes told'
python3 "$top/bench/make.py" 2000 overridden pf >"$work/file" || exit 1
measure overridden 2000 3 2048 "$program" dead pf "$site" "$work/file"

placed() { # language family rules times: the diagram that tells which rules are used beside that which is executed
    python3 "$top/bench/placed.py" "$@" "$trees" "$site" || status=1
}

echo 'language family rules instructions placed times'
placed iptables rewritten 1000 1
placed iptables services 500 1
placed ipfw kept 4000 2
placed ipfw redirected 1000 1.1
placed pf decided 4000 2
placed pf overridden 2000 2
placed ios applied 4000 1
placed ios asked 200 200

echo 'family mebibytes seconds megabytes'
for size in 0.5 1 2 4; do
    python3 "$top/bench/reading.py" "$size" 10 2048 "$program" "$site" || status=1
done

echo 'language lines seconds microseconds nanoseconds'
python3 "$top/bench/readers.py" 4 2 "$program" "$site" || status=1

echo 'family rules state seconds instructions nodes'
python3 "$top/bench/execution.py" listed 4000 new 0.1 "$trees" "$site" || status=1

echo 'family rules seconds megabytes instructions nodes'
python3 "$top/bench/make.py" 800 crossing >"$work/file" || exit 1
measure crossing 800 1 2048 "$trees" execute "$site" "$work/file" est

echo 'family rows seconds paths'
python3 "$top/bench/fields.py" "$trees" || status=1

echo 'family rows seconds megabytes nodes'
measure product 600 1 2048 "$trees" product 600

echo 'family marks seconds megabytes values nodes'
measure recolour 4000 1 2048 "$trees" recolour 4000

echo 'family calls seconds megabytes instructions'
measure unfold 998 10 2048 "$trees" unfold 998
python3 "$top/bench/growth.py" unfold 15 "$trees" 99 990 || status=1

echo 'family chains seconds megabytes refusal'
measure chains 100000 0.5 1024 "$trees" chains 100000
measure ring 100000 0.5 1024 "$trees" ring 100000
python3 "$top/bench/growth.py" chains 15 "$trees" 20000 200000 || status=1
python3 "$top/bench/growth.py" ring 15 "$trees" 20000 200000 || status=1
exit "$status"
