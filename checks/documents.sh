#!/usr/bin/env bash
# Checks README.md, CONTRIBUTING.md, CHANGELOG.md, crates/README.md, checks/cases/README.md and docs/*.md against the
# repository and the built program: what commands are shown to write, the page of the definitions, paths, crates,
# numbers that can be counted, and examples; and the manual page and the completions against what ./fws --help says.
# Prints a line `FILE:LINE: ..` for each thing that is wrong, and last how many checks there were and how many went
# wrong. Exit status 1 where one did.
# Build first: ./fws --build. FWS_PROGRAM, where it is set, names a program that is run in place of ./fws.
cd "$(dirname "$0")/.." || exit 1
exec python3 -B checks/documents.py
