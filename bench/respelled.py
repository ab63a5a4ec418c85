"""python3 respelled.py ROUTES SECONDS MEGABYTES PROGRAM SITE

Runs the command `site2` over the site of make_site.py, which is to write the same lines, the addresses by their
interfaces, within these bounds; and over what was written, which is to write the same text. Prints a line
`site2 routes seconds megabytes`. Exit status 1 past the bounds, or where a run ends otherwise.
"""

import sys
import tempfile

from timing import judged, run, wrong, written


def main(routes, seconds, megabytes, program, site):
    head = 'site2', routes
    first = run(program, 'site2', site, timeout=60)
    if first is None or first.status != 0:
        return wrong(head, first, 60)
    status = judged(head, first.seconds, seconds, megabytes)
    with tempfile.TemporaryDirectory() as work:
        second = run(program, 'site2', written(work, 'site', first.text), timeout=60)
    if second is None or second.status != 0:
        return wrong(head, second, 60)
    with open(site, encoding='utf-8') as file:
        lines = file.read().splitlines()
    if sorted(first.text.splitlines()) != sorted(lines):
        print(*head, 'other lines than those of the site')
        return 1
    if second.text != first.text:
        print(*head, 'another text the second time')
        return 1
    return status


sys.exit(main(int(sys.argv[1]), float(sys.argv[2]), float(sys.argv[3]), sys.argv[4], sys.argv[5]))
