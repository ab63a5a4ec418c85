"""python3 running.py FAMILY COUNT SECONDS MEGABYTES PROGRAM SITE FILE

Runs the command `run` over events of a family, which is to answer each of them and to list as many connections at the end as the
family leaves, within these bounds; FILE is a configuration of iptables at SITE that accepts what a host of lan sends to other networks.
Prints a line `FAMILY COUNT seconds megabytes events listed`. Exit status 1 past the bounds, or where the answer is another one.

answered: COUNT connections are opened, and a packet of each comes nine times more.
renewed: COUNT connections are opened, then four times as many, and for each of these the first of the list expires.
expired: COUNT connections are opened, and expire from the first to the last, so that each expiry moves what is left of the first chunk.
crossed: the same, but two of them come from different hosts and are sent on as one, so that each expiry also asks the other chunks.
paired: the same, but half of them come from another host, and each of these is sent on as one of the others.
"""

import sys
import tempfile

from timing import judged, run, wrong, written


def packet(number, flags, host=7):
    """A packet of the connection with this number, from a host of lan."""
    return 'lan 6 9.9.%d.9 443 10.0.0.%d %d %d 0\n' % (number // 50000, host, 10000 + number % 50000, flags)


def answered(count):
    opened, more = ([packet(number, flags) for number in range(count)] for flags in (2, 16))
    return opened + 9 * more, count


def renewed(count):
    events = [packet(number, 2) for number in range(count)]
    for number in range(count, 5 * count):
        events += [packet(number, 2), 'expire 0\n']
    return events, count


def expired(count):
    return [packet(number, 2) for number in range(count)] + count * ['expire 0\n'], 0


def crossed(count):
    events, listed = expired(count - 1)
    return [packet(count - 2, 2, host=8)] + events + ['expire 0\n'], listed


def paired(count):
    half = count // 2
    return [packet(number, 2, host) for host in (8, 7) for number in range(half)] + 2 * half * ['expire 0\n'], 0


FAMILIES = {'answered': answered, 'renewed': renewed, 'expired': expired, 'crossed': crossed, 'paired': paired}


def main(family, count, seconds, megabytes, program, site, rules):
    events, listed = FAMILIES[family](int(count))
    head, timeout = (family, count), 2 * seconds + 10
    with tempfile.TemporaryDirectory() as work:
        ended = run(program, 'run', 'iptables', site, rules, written(work, 'events', ''.join(events)), timeout=timeout)
    lines = ended.text.splitlines() if ended else []
    if len(lines) != len(events) + 1 + listed or ended.status != 0 or lines[len(events)] != 'conns %d' % listed:
        return wrong(head, ended, timeout)
    return judged(head, ended.seconds, seconds, megabytes, len(events), listed)


sys.exit(main(*sys.argv[1:3], *map(float, sys.argv[3:5]), *sys.argv[5:]))
