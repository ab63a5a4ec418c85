"""python3 make_site.py ROUTES

Writes a site file of the second form with 62 interfaces, so many routes and a quarter as many addresses, the same one
each time. Every other network lies within an earlier one; the addresses go round the interfaces in turn.
"""

import random
import sys

FACES = 62


def quad(address):
    return '.'.join(str(address >> shift & 255) for shift in (24, 16, 8, 0))


def network(rng, earlier):
    """A network within an earlier one, or one of its own, of which some lie within others too."""
    if len(earlier) % 2 == 1:
        base, length = rng.choice(earlier)
        inner = min(length + rng.randint(1, 8), 30)
        base |= rng.getrandbits(32 - length)
    else:
        inner = rng.randint(16, 26)
        base = rng.choice([10, 100, 172, 192, 198, 203]) << 24 | rng.getrandbits(24)
    return base >> (32 - inner) << (32 - inner), inner


def networks(rng, count):
    """So many networks, of which no two are the same."""
    found, known = [], set()
    while len(found) < count:
        drawn = network(rng, found)
        if drawn not in known:
            known.add(drawn)
            found.append(drawn)
    return found


def address_in(rng, drawn, known):
    """An address in the network that no earlier line has."""
    while True:
        address = drawn[0] | rng.getrandbits(32 - drawn[1])
        if address not in known:
            known.add(address)
            return address


def main(routes):
    rng = random.Random(20182)
    drawn = networks(rng, routes + routes // 4)
    rng.shuffle(drawn)
    known = set()
    lines = ['site 2']
    for k in range(FACES):
        lines.append('interface if%d ipt=eth%d ipfw=em%d pf=em%d ios=GigabitEthernet0/%d nat=%s' % (
            k, k, k, k, k, ('inside', 'outside', 'none')[k % 3]))
    for k, own in enumerate(drawn[routes:]):
        lines.append('address if%d %s/%d' % (k % FACES, quad(address_in(rng, own, known)), own[1]))
    for base, length in drawn[:routes]:
        lines.append('route %s/%d if%d' % (quad(base), length, rng.randrange(FACES)))
    lines += ['loopback ipt=lo ipfw=lo0 pf=lo0 ios=Loopback0', 'default if0', 'forwarding yes', 'one_pass 1']
    print('\n'.join(lines))


main(int(sys.argv[1]))
