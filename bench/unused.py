"""python3 unused.py LANG FAMILY COUNT TIMES PROGRAM SITE

Asks the command `dead` three times which rules of a family of make.py no packet uses, and makes both of its tables as often. Prints a line
`LANG FAMILY COUNT seconds times told`: the best time of an answer, how many times as long it takes as both tables, and how many rules
are told. Exit status 1 where it takes more than TIMES times as long.
"""

import sys
import tempfile

from timing import Best, made, right, tables


def main(language, family, count, most, program, site):
    best = Best()
    with tempfile.TemporaryDirectory() as work:
        name = made(work, count, family, language)
        for _ in range(3):
            ended = right(program, 'dead', language, site, name)
            best.take('dead', ended.seconds)
            best.take('tables', tables(program, language, site, name)[1])
    times = best['dead'] / best['tables']
    print(language, family, count, '%.2f' % best['dead'], '%.1f' % times, ended.text.split()[1])
    return 0 if times <= float(most) else 1


sys.exit(main(*sys.argv[1:]))
