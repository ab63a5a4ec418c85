"""python3 codes.py PROGRAM [COUNT [SEED]]

Makes COUNT random flat codes (2,000) and hands them to PROGRAM, the built crates/fws_test_diagrams/out/fws_test_diagrams: it executes
each for new and for established packets, and walks the packets at the ends of the intervals of every row. The codes put, test and take away
tags, hold verdicts, jump, and write ends of all lengths, in up to eight parts. Prints how many points were walked. Exit status 1 where one
differs from its row, and the file with the code stays then; or where more than one code in twenty takes over a minute, since its rows are
many.
"""

import os
import random
import re
import subprocess
import sys
import tempfile

SITE = os.path.join(os.path.dirname(os.path.abspath(__file__)), '..', 'crates', 'fws_test_diagrams', 'data', 'S')
ADDRESSES = ['10.0.0.1', '10.0.0.7', '10.0.0.8', '10.0.0.255', '203.0.113.1', '203.0.113.2', '198.51.100.9', '198.18.0.1', '127.0.0.1']
PORTS = ['22', '53', '80', '4000', '65535']
TAGS = range(6)
SECONDS = 60


def network(rng):
    length = rng.randint(1, 32)
    address = rng.choice(ADDRESSES)
    value = 0
    for part in address.split('.'):
        value = value * 256 + int(part)
    value = value >> (32 - length) << (32 - length)
    return '%s/%d' % ('.'.join(str(value >> shift & 255) for shift in (24, 16, 8, 0)), length)


def span(rng, values):
    lo, hi = sorted(rng.choices(values, k=2), key=lambda text: [int(n) for n in text.split('.')])
    return lo if rng.random() < 0.5 else '%s-%s' % (lo, hi)


def literal(rng):
    entries = ['lan', 'wan', 'host']
    kinds = {
        'src': lambda: 'src=' + span(rng, ADDRESSES),
        'dst': lambda: 'dst=' + span(rng, ADDRESSES),
        'sport': lambda: 'sport=' + span(rng, PORTS),
        'dport': lambda: 'dport=' + span(rng, PORTS),
        'proto': lambda: 'proto=' + rng.choice(['1', '6', '17', '6-17']),
        'recv': lambda: 'recv=' + rng.choice(entries),
        'xmit': lambda: 'xmit=' + rng.choice(entries),
        'tag': lambda: 'tag=%d' % rng.choice(TAGS),
        'outward': lambda: 'outward',
        'est': lambda: 'est',
    }
    names = list(kinds)
    weights = [3, 3, 1, 2, 1, 1, 1, 4, 1, 1]
    return ('!' if rng.random() < 0.25 else '') + kinds[rng.choices(names, weights)[0]]()


def end(rng):
    """An end that is written: an address, an address and a port, or a network."""
    return rng.choice([rng.choice(ADDRESSES), rng.choice(ADDRESSES) + ':' + rng.choice(PORTS), network(rng)])


def act(rng, place, past):
    """An act of the instruction at a place of a part that ends ahead of the place past."""
    kinds = {
        'accept': lambda: 'accept',
        'drop': lambda: 'drop',
        'hold': lambda: rng.choice(['hold-accept', 'hold-drop']),
        'jump': lambda: 'jump %d' % rng.randint(place + 1, past),
        'src': lambda: 'src ' + end(rng),
        'dst': lambda: 'dst ' + end(rng),
        'rec': lambda: rng.choice(['rec-src', 'rec-dst']),
        'add': lambda: 'add-tag %d' % rng.choice(TAGS),
        'only': lambda: 'only-tag %d' % rng.choice(TAGS),
        'del': lambda: 'del-tag %d' % rng.choice(TAGS),
    }
    return kinds[rng.choices(list(kinds), [2, 2, 2, 3, 2, 2, 1, 5, 2, 2])[0]]()


def code(rng, name):
    lines, parts, place = ['code ' + name], [], 0
    for _ in range(rng.randint(2, 4)):
        first, past = place, place + rng.randint(2, 6)
        for at in range(first, past):
            literals = [literal(rng) for _ in range(rng.choice([0, 1, 1, 2]))]
            lines.append(' '.join([str(at), *literals, '->', act(rng, at, past)] if literals else [str(at), act(rng, at, past)]))
        parts.append((first, past))
        place = past
    for way in ('arrive', 'deliver', 'forward', 'send'):
        for first, past in rng.sample(parts, rng.randint(0, min(2, len(parts)))):
            shown = [word for word in ('recv', 'xmit', 'outward') if rng.random() < 0.4]
            lines.append(' '.join([way, str(first), str(past), *shown, rng.choice(['accept', 'drop'])]))
    return lines


def try_code(program, name, lines):
    """How many points were walked, and how many of them differ; None where the program takes too long, and 0 and 1 where it ends
    otherwise."""
    with open(name, 'w') as f:
        f.write('\n'.join(lines) + '\n')
    groups = name + '.groups'
    with open(groups, 'w') as f:
        f.write('codes %s %s\n' % (SITE, name))
    try:
        ended = subprocess.run([program, groups], stdout=subprocess.PIPE, check=False, timeout=SECONDS)
    except subprocess.TimeoutExpired:
        return None
    counted = re.search(rb' (\d+) points, (\d+) differences', ended.stdout)
    if ended.returncode != 0 or counted is None:
        print(name, 'ended with status', ended.returncode, ended.stdout.decode()[:200])
        return 0, 1
    if int(counted[2]):
        print(ended.stdout.decode(), end='')
    return int(counted[1]), int(counted[2])


def main(program, count=2000, seed=1):
    rng = random.Random(seed)
    folder = tempfile.mkdtemp()
    walked = differing = long = 0
    for number in range(count):
        name = os.path.join(folder, 'code%d.runs' % number)
        tried = try_code(program, name, code(rng, 'random %d' % number))
        if tried is None:
            long += 1
        elif tried[1]:
            print('kept:', name)
            differing += tried[1]
        else:
            walked += tried[0]
            os.remove(name)
            os.remove(name + '.groups')
    print(count, 'codes,', long, 'of them too long,', walked, 'points,', differing, 'differences')
    return 1 if differing or not walked or 20 * long > count else 0


sys.exit(main(sys.argv[1], *(int(word) for word in sys.argv[2:])))
