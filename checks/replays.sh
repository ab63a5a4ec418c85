#!/usr/bin/env bash
# Replays events over translations of the examples and the worked configurations with the built program: their answers have to be the same.
# Build first: ./fws --build. FWS_PROGRAM, where it is set, names a program that is run in place of the built one. A word is the seed.
cd "$(dirname "$0")/.." || exit 1
exec python3 checks/replays.py "$@"
