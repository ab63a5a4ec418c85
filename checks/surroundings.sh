#!/usr/bin/env bash
# Tries what comes with the program: ./fws --install and --package, the manual pages, the completions in real shells,
# tools/site-of-host in network namespaces and on saved outputs, tools/view in terminals and in a browser, and tools/ask. Prints a line for
# each check that goes wrong, one for each that can't be tried here, such as without zsh or a browser, and last how many there were. Words
# name the parts to run: starting, installing, packaging, manual, shells, hosts, viewing, asking. Build first: ./fws --build.
# FWS_PROGRAM, where it is set, names a program that is run in place of the built one; FWS_PICTURE a file for a picture of the router's page.
cd "$(dirname "$0")/.." || exit 1
[ -x "${FWS_PROGRAM:-crates/fws/out/fws}" ] || { echo "not built yet: ./fws --build" >&2; exit 1; }
exec python3 checks/surroundings.py "$@"
