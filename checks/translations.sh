#!/usr/bin/env bash
# Translates the examples and the worked configurations with the built program, and reads the texts back. Build first:
# ./fws --build. FWS_PROGRAM, where it is set, names a program that is run in place of the built one.
cd "$(dirname "$0")/.." || exit 1
exec python3 checks/translations.py
