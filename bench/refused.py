"""python3 refused.py LANG FAMILY COUNT SECONDS MEGABYTES WORDS PROGRAM SITE

Runs the command synth over a file of make.py that is refused with these words behind its name, within these bounds. Prints a
line `FAMILY COUNT seconds megabytes`. Exit status 1 past the bounds, or where the command says something else.
"""

import sys
import tempfile

from timing import judged, made, run, table, wrong


def main(lang, family, count, seconds, megabytes, words, program, site):
    head = family, count
    with tempfile.TemporaryDirectory() as work:
        name = made(work, count, family, lang)
        ended = run(*table(program, lang, site, name))
    if ended is None or ended.text != 'refused %s %s\n' % (name, words):
        return wrong(head, ended, 300)
    return judged(head, ended.seconds, seconds, megabytes)


sys.exit(main(*sys.argv[1:4], *map(float, sys.argv[4:6]), *sys.argv[6:]))
