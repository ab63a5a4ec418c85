#!/usr/bin/env bash
# Tries the edits in crates/NAME/edits: wrong bodies, which the prover has to refuse. The gate tries none of them; here they are
# tried where something that their verdict depends on has changed since they were refused.
#
#   checks/edits.sh            tries the edits of each crate that is due, lowest crates first
#   checks/edits.sh NAME..     those of these crates, whatever their records say
#   checks/edits.sh --all      those of every crate, whatever the records say: so a record that was written without a try is found
#   checks/edits.sh --list     says which crates are due, one a line, and tries nothing; status 1 where one is
#
# --minutes N: after N minutes no further crate is begun, what still runs two minutes later is stopped, and both stay due.
# --jobs N: how many crates are tried at a time, by itself as many as there are processors, and four at most.
#
# A crate is due where crates/NAME/edits/tried, its record, doesn't hold the sum over all that a verdict on its edits depends on: the
# toolchain's line (`rt version`); the crate's line of crates.txt, its src, specs, proofs and edits, every byte; of each crate below
# it the statements of src, as checks/statements.py tells them; and each file of specs below that the crate's files name, or those
# statements, or such a file itself. Bodies below aren't in it, since no crate above sees them; nor are proofs below, since no statement
# changes with them; nor definitions that nothing of this names.
#
# A try happens in a copy of the crate and those below, in which edits stands as must-fail. Where out/ holds what `rt check` kept of the
# crate, and of all below it as they stand, the copy gets it by links and runs `rt must-fail`: what is proved there isn't proved again.
# Else, as in a fresh clone in which `rt ci` passed, the copy runs `rt ci`, which takes the proofs of all crates from where it keeps them on
# this machine, or proves them; and then the prover is asked for the edited functions alone, many edits at a time and with all other
# proofs left open, as the head of checks/alone.py says: that takes a third of the time, since nothing is proved that no edit changes.
# What it doesn't plainly refuse there is tried by `rt ci` itself, which checks the crate once for its edits to begin with.
#
# It prints what rt says of each edit and last how many were refused. Status 1 where one isn't, or can't be tried; such a crate gets no
# record, and loses one that says otherwise. Where all edits of a crate are refused, its record is written, unless a file of the sum
# changed meanwhile.
cd "$(dirname "$0")/.." || exit 1
command -v rt >/dev/null || { echo 'no rt to try edits with' >&2; exit 1; }
exec python3 -B checks/edits.py "$@"
