"""python3 measure.py FAMILY COUNT SECONDS MEGABYTES COMMAND WORDS..

Runs the command, which is to end with status 0 within these bounds. Its first line is to be `table new N`, `table est N`,
`query new N`, `query est N`, `dead N`, `execute N..`, `load COUNT N..` or `COUNT N..`; prints a line
`FAMILY COUNT seconds megabytes N..`. Exit status 1 past the bounds, or where the command ends otherwise.
"""

import sys

from timing import judged, run, wrong


def counted(first, count):
    """What the first line counts; None where it is another line."""
    words = first.split()
    for head in (['table', 'new'], ['table', 'est'], ['query', 'new'], ['query', 'est'], ['dead'], ['execute'], ['load', count], [count]):
        if words[:len(head)] == head and len(words) > len(head):
            return words[len(head):]
    return None


def main(family, count, seconds, megabytes, command):
    head, timeout = (family, count), 2 * seconds + 10
    ended = run(*command, timeout=timeout)
    counts = ended and counted(ended.text.split('\n', 1)[0], count)
    if ended is None or ended.status != 0 or counts is None:
        return wrong(head, ended, timeout)
    return judged(head, ended.seconds, seconds, megabytes, *counts)


sys.exit(main(sys.argv[1], sys.argv[2], float(sys.argv[3]), float(sys.argv[4]), sys.argv[5:]))
