#!/usr/bin/env bash
# Runs the command lines of checks/cases and compares their answers with the expected ones. Without further words the
# toolchain builds the program once, without proofs and with its own checks on, so that a fresh clone is enough; with
# `--program PATH` the program at PATH answers. Further words, such as `'pf-*'`, name the cases to run. Prints a
# line for each case that differs, and last how many passed and failed. The status is 0 if all passed, 1 if one didn't,
# 2 if the words or the files of a case are wrong, and 7 if the toolchain isn't found. `./fws --test` runs this.
exec python3 "$(dirname "$0")/quick.py" "$@"
