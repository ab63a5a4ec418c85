"""python3 growth.py FAMILY TIMES PROGRAM SITE [LANGUAGE SMALL LARGE]
python3 growth.py FAMILY TIMES PROGRAM SMALL LARGE

The first form makes the tables of new packets of a family of make.py with SMALL and LARGE rules, else of 1,000 and 10,000 in
iptables; the second runs the program with the words FAMILY SMALL and FAMILY LARGE; five times each in turn. Prints a line
`FAMILY takes N times as long for LARGE as for SMALL` of the best times. Exit status 1 where that is more than TIMES.
"""

import sys
import tempfile

from timing import Best, made, table


def compare(family, most, commands):
    """Runs a command for each of two sizes."""
    best = Best()
    best.turns(5, commands)
    small, large = commands
    times = best[large] / best[small]
    print(family, 'takes %.1f times as long for %d as for %d' % (times, large, small))
    return 0 if times <= most else 1


def main(family, most, program, *given):
    if len(given) == 2:
        return compare(family, most, {int(size): (program, family, size) for size in given})
    site, lang, *sizes = given if len(given) == 4 else (given[0], 'iptables', '1000', '10000')
    with tempfile.TemporaryDirectory() as work:
        return compare(family, most, {int(size): table(program, lang, site, made(work, size, family, lang, size)) for size in sizes})


sys.exit(main(sys.argv[1], float(sys.argv[2]), *sys.argv[3:]))
