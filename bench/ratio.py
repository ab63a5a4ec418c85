"""python3 ratio.py LANG FAMILY COUNT TIMES PROGRAM SITE [FIRST]

Makes the tables of a family of make.py from its file in FIRST, iptables if it is left out, and from its file in LANG, three times each
in turn. Prints a line `FAMILY takes N times as long in LANG as in FIRST for COUNT` of the best times. Exit status 1 where that is more than
TIMES, or where the two tables aren't the same.
"""

import sys
import tempfile

from timing import Best, made, table


def main(other, family, count, most, program, site, first='iptables'):
    best = Best()
    with tempfile.TemporaryDirectory() as work:
        commands = {lang: table(program, lang, site, made(work, count, family, lang, lang)) for lang in (first, other)}
        texts = best.turns(3, commands)
    times = best[other] / best[first]
    print(family, 'takes %.2f times as long in %s as in %s for %s' % (times, other, first, count))
    if len(texts[first] | texts[other]) > 1:
        print(family, count, 'has other tables in', other, 'than in', first)
        return 1
    return 0 if times <= most else 1


sys.exit(main(*sys.argv[1:4], float(sys.argv[4]), *sys.argv[5:]))
