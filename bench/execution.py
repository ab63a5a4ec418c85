"""python3 execution.py FAMILY COUNT STATE SECONDS PROGRAM SITE

Runs the program's word `execute` over the file of so many rules of a family of make.py: three times for the packets of
STATE, and three times in turn for none, where the file is read and unfolded alone. The difference of the best times is that
of execution. Prints a line `FAMILY COUNT STATE seconds instructions nodes`. Exit status 1 past the seconds, or where a run
ends otherwise.
"""

import sys
import tempfile

from timing import Best, made


def main(family, count, state, seconds, program, site):
    best = Best()
    with tempfile.TemporaryDirectory() as work:
        name = made(work, count, family)
        texts = best.turns(3, {asked: (program, 'execute', site, name, asked) for asked in (state, 'none')})
    taken = best[state] - best['none']
    print(family, count, state, '%.2f' % taken, *min(texts[state]).split()[1:])
    if taken <= seconds:
        return 0
    print(family, count, state, 'is past %g seconds' % seconds)
    return 1


sys.exit(main(*sys.argv[1:4], float(sys.argv[4]), *sys.argv[5:]))
