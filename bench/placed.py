"""python3 placed.py LANG FAMILY COUNT TIMES PROGRAM SITE

Runs the program's word `placed` over the file of so many rules of a family of make.py. Prints a line `LANG FAMILY COUNT instructions placed
times`: how many instructions the file unfolds to by its control diagram, how many by the diagram that tells which rules packets use, and
how many times as many these are. Exit status 1 where they are more than TIMES times as many.
"""

import sys
import tempfile

from timing import made, right


def main(language, family, count, most, program, site):
    with tempfile.TemporaryDirectory() as work:
        ended = right(program, 'placed', language, site, made(work, count, family, language), timeout=120)
    instructions, placed = (int(word) for word in ended.text.split()[1:])
    times = placed / instructions
    print(language, family, count, instructions, placed, '%.2f' % times)
    return 0 if times <= float(most) else 1


sys.exit(main(*sys.argv[1:]))
