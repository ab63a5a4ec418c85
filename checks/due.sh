#!/usr/bin/env bash
# Tries checks/edits.sh itself, without a proof: which changes of a source change the statements by which it knows whose edits are due,
# and, over three small crates and a stand-in for rt, which crates are due after which change, and what it makes of what rt says.
# Prints a line for each thing that goes wrong, and last how many went right.
cd "$(dirname "$0")/.." || exit 1
python3 -B checks/changes.py
status=$?
python3 -B checks/due.py || status=1
exit "$status"
