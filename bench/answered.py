"""python3 answered.py FAMILY COUNT LANG TARGET SECONDS MEGABYTES STATUS PROGRAM SITE

Translates a family of make.py in the language LANG to the language TARGET, which is to end with this status within these bounds. Prints a
line `FAMILY COUNT LANG TARGET seconds megabytes lines`, with the lines of the answer. Exit status 1 past the bounds, or where the command ends
otherwise.
"""

import sys
import tempfile

from timing import judged, made, run, wrong


def main(family, count, lang, target, seconds, megabytes, status, program, site):
    head, timeout = (family, count, lang, target), 4 * float(seconds) + 10
    with tempfile.TemporaryDirectory() as work:
        ended = run(program, 'translate', lang, target, site, made(work, count, family, lang), timeout=timeout)
    if ended is None or ended.status != int(status):
        return wrong(head, ended, timeout)
    return judged(head, ended.seconds, float(seconds), float(megabytes), ended.text.count('\n'))


sys.exit(main(*sys.argv[1:]))
