#!/usr/bin/env bash
# Offers wrong texts in place of short ones: none would be emitted, but where it changes nothing. Build first: ./fws --build. FWS_PROGRAM,
# where it is set, names a program that is run in place of the built one. With the word --build the step that decides is asked itself, in a
# changed copy that is built without proofs. checks/spoiled.py says more.
cd "$(dirname "$0")/.." || exit 1
exec python3 checks/spoiled.py "$@"
