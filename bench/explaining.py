"""python3 explaining.py FAMILY COUNT PACKETS SECONDS MEGABYTES PROGRAM SITE

Runs the command `why` over the file of a family of make.py in iptables and so many packets, which it is to answer within these bounds. Half
of the packets have the source, destination and port for which some rule asks, by wan or by lan; the others are drawn. One in ten belongs to
one of 1,000 connections. Prints a line `FAMILY COUNT PACKETS seconds megabytes used`, where `used` is how many rules are told. Exit status 1
past the bounds, or where the answer has another number of lines for packets.
"""

import ipaddress
import random
import re
import sys
import tempfile

from timing import judged, made, run, wrong, written

CONNECTIONS = 1000


def quad(number):
    return str(ipaddress.ip_address(number))


def drawn_address(rng):
    return quad(rng.getrandbits(32))


def asked(rng, rule, option, other):
    """An address or a port for which a rule asks with this option; another one where it doesn't."""
    found = re.search(r'%s (\S+)' % option, rule)
    if not found:
        return other
    if '/' not in found[1]:
        return found[1].partition(':')[0]
    network = ipaddress.ip_network(found[1])
    return quad(int(network.network_address) + rng.randrange(network.num_addresses))


def packet(rng, rules):
    rule = rng.choice(rules) if rng.random() < 0.5 else ''
    return ' '.join((
        rng.choice(('wan', 'lan')), '17' if '-p udp' in rule else '6', asked(rng, rule, '-d', drawn_address(rng)),
        asked(rng, rule, '--dport', str(rng.randrange(65536))), asked(rng, rule, '-s', drawn_address(rng)), str(rng.randrange(65536)), '2', '0'))


def connected(number):
    """A connection, and a packet of it."""
    ends = '198.51.100.9 443 10.0.0.7 %d' % (20000 + number)
    return '6 %s 10.0.0.7 %d 198.51.100.9 443' % (ends, 20000 + number), 'lan 6 %s 16 0' % ends


def lined(lines):
    return ''.join(line + '\n' for line in lines)


def main(family, count, packets, seconds, megabytes, program, site):
    rng = random.Random(4711)
    head, timeout = (family, count, packets), 2 * seconds + 10
    connections = [connected(number) for number in range(CONNECTIONS)]
    with tempfile.TemporaryDirectory() as work:
        name = made(work, count, family)
        with open(name, encoding='utf-8') as file:
            rules = [line.rstrip('\n') for line in file if line.startswith('-A ')]
        sent = [rng.choice(connections)[1] if rng.random() < 0.1 else packet(rng, rules) for _ in range(int(packets))]
        names = [name, written(work, 'connections', lined(line for line, _ in connections)), written(work, 'packets', lined(sent))]
        ended = run(program, 'why', 'iptables', site, *names, timeout=timeout)
    lines = ended.text.splitlines() if ended else []
    told = sum(line.startswith('  ') for line in lines)
    if ended is None or ended.status != 0 or len(lines) - told != len(sent):
        return wrong(head, ended, timeout)
    return judged(head, ended.seconds, seconds, megabytes, told)


sys.exit(main(*sys.argv[1:4], *map(float, sys.argv[4:6]), *sys.argv[6:]))
