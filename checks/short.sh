#!/usr/bin/env bash
# Translates the files of checks/real with the built program, which look like those of real hosts, and sees that the texts do the same,
# load, and are short. Build first: ./fws --build. FWS_PROGRAM, where it is set, names a program that is run in place of the built one.
# checks/short.py says which words it takes.
cd "$(dirname "$0")/.." || exit 1
exec python3 checks/short.py "$@"
