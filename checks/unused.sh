#!/usr/bin/env bash
# Takes out the rules that the command `dead` of the built program lists, and compares the tables; and tries packets, for which `why`
# may list none of these rules. Build first: ./fws --build. FWS_PROGRAM, where it is set, names a program that is run in
# place of the built one. A word is the seed.
cd "$(dirname "$0")/.." || exit 1
exec python3 checks/unused.py "$@"
