"""Runs the parts of checks/surroundings; checks/surroundings.sh says how it is called and what it prints."""

import importlib
import os
import sys

sys.dont_write_bytecode = True  # of the parts, into the checkout
sys.path.insert(0, os.path.join(os.path.dirname(os.path.abspath(__file__)), 'surroundings'))

Tally = importlib.import_module('common').Tally
PARTS = {name: importlib.import_module(name) for name in ('starting', 'installing', 'packaging', 'manual', 'shells', 'hosts', 'viewing', 'asking')}


def main():
    names = sys.argv[1:] or list(PARTS)
    unknown = [name for name in names if name not in PARTS]
    if unknown:
        print('no part %s: there are %s' % (unknown[0], ', '.join(PARTS)))
        return 2
    tally = Tally()
    for name in names:
        PARTS[name].check(tally)
    print('surroundings: %d passed, %d failed, %d skipped' % (tally.right, tally.wrong, tally.skipped))
    return 1 if tally.wrong or not tally.right else 0


sys.exit(main())
