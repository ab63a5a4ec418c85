#!/usr/bin/env bash
# Loads iptables' translations of files of all languages into routers that are network namespaces of this machine, and sends packets
# through. Build first: ./fws --build. FWS_PROGRAM, where it is set, names a program that is run in place of the built one. It needs
# iproute2 and iptables, and has to be root or allowed to make namespaces of users; if not, it says what is refused and passes.
# checks/namespaces.py says what is tried, and which words it takes.
cd "$(dirname "$0")/.." || exit 1
exec python3 checks/namespaces.py "$@"
