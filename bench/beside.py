"""python3 beside.py PEER MOST WORDS.. -- WORDS..

Runs the command ahead of `--` and the peer's command behind it five times each, in turn; both are to end with status 0. Prints a
line `PEER seconds seconds ratio`: the best times of the command and of the peer, and how many times as long the command
takes. Exit status 1 where that is more than MOST, or where one ends otherwise.
"""

import sys

from timing import Best


def main(peer, most, words):
    at = words.index('--')
    best = Best()
    best.turns(5, {'own': words[:at], 'peer': words[at + 1:]}, timeout=300)
    ratio = best['own'] / best['peer']
    print(peer, '%.2f' % best['own'], '%.2f' % best['peer'], '%.2f' % ratio)
    if ratio <= most:
        return 0
    print(peer, 'is past %g times' % most)
    return 1


sys.exit(main(sys.argv[1], float(sys.argv[2]), sys.argv[3:]))
