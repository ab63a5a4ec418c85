#!/usr/bin/env bash
# Tries that the compiler refuses a box which is used after its arena was dropped, and that it accepts the same program
# with the arena alive. Prints a line for each try that goes wrong, and last how many went right.
set -u
top=$(cd "$(dirname "$0")/.." && pwd)
command -v rt >/dev/null || { echo "no rt to try lifetimes with" >&2; exit 1; }
work=$(mktemp -d) || exit 1
trap 'rm -rf "$work"' EXIT
below='fws_num fws_iv fws_box'
right=0 wrong=0

check() { # what wanted file
    if grep -qF -- "$2" "$3"; then right=$((right + 1)); else
        wrong=$((wrong + 1))
        printf '%s: no line with %s in what rt says:\n' "$1" "$2"
        cat "$3"
    fi
}

program() { # what stands between the making of a box and its use
    cat <<END
//! A box and its arena.
#![tactic(auto)]

use bumpalo::Bump;
use fws_box::{Point, full};
use fws_num::Memory;
use std::alloc::Global;

/// The least point of the box of all points.
fn least(alloc: Global) -> Result<Point, Memory> {
    let bump = Bump::new(alloc);
    let all = full(&bump, &[9; 12])?;
    $1
    Ok(all.pick())
}

fn main(rt: HostRuntime) {
    let _ = match least(rt.alloc()) {
        Ok(point) => println!(rt; "{}", point[0]),
        Err(_) => println!(rt; "no memory"),
    };
}
END
}

attempt() { # folder, what stands between the making of a box and its use
    mkdir -p "$work/$1/crates/kept/src"
    for crate in $below; do
        mkdir "$work/$1/crates/$crate"
        cp -r "$top/crates/$crate"/{src,specs,proofs} "$work/$1/crates/$crate/"
        grep "^$crate:" "$top/crates.txt" >>"$work/$1/crates.txt"
    done
    echo "kept: bumpalo $below" >>"$work/$1/crates.txt"
    program "$2" >"$work/$1/crates/kept/src/main.rt"
    (cd "$work/$1/crates/kept" && timeout 300 rt try) >"$work/$1.log" 2>&1
}

attempt dropped 'drop(bump);' &
attempt alive '' &
wait

check 'a box after its arena' "cannot move out of \`bump\` because it is borrowed" "$work/dropped.log"
check 'a box beside its arena' 'run=ended status=0' "$work/alive.log"

echo "lifetimes: $right passed, $wrong failed"
[ "$wrong" -eq 0 ]
