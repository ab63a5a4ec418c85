"""python3 checks/unused.py [SEED], at the top of the repository; checks/unused.sh says how it is called

Takes out the rules of which the command `dead` says that no packet uses them. Of each configuration of examples/, of those of which
crates/fws_test_configs/data/rows.jobs has a table, of those of the cases of `dead`, and of files that bench/make.py makes, at its site:

- Each rule that is told is the one of the file that has this number and this label. Files of pf with lists are left out of this and
  of what follows, as a statement with lists stands for several rules.
- Without a rule that is told, one at a time, both tables are the same; and so are they without all of these at once, when no other rule
  is told. Where a rule can't go, since its being there matters, one that no packet uses takes its place: a list of Cisco IOS without
  an entry isn't defined; and a rule of ipfw that keeps state ends the pass of packets of connections whether or not its condition holds,
  which `check-state` does too.
- No rule that is told is used by any of 400 packets, new ones and those of connections that these open, as the command `why` says. Its other
  lines are those of `trace`.

Prints a line for each thing that is wrong, and last how many rules were told, how many of these were taken out, and of how many others it was
seen that they are used. Exit status 1 where something was wrong, or where fewer than 100 rules were taken out. The seed is 1, unless one is
given.
"""

import os
import random
import re
import subprocess
import sys
import tempfile

import quick
import replays
import translations

PACKETS = 400
LEAST_RULES = 100
MAKE = os.path.join(translations.TOP, 'bench/make.py')

# Families of bench/make.py, each with a language and how many rules it has.
MADE = (
    ('overlapping', 'iptables', 120), ('partial', 'iptables', 80), ('crossing', 'iptables', 60), ('services', 'iptables', 10),
    ('decided', 'iptables', 30), ('decided', 'pf', 80), ('tagged', 'pf', 10), ('skipping', 'ipfw', 40), ('tagged', 'ipfw', 10),
    ('applied', 'ios', 60), ('mapped', 'ios', 10),
)


# Which lines of a file are its rules


class Rule:
    """A rule of a file: the number of its line, its label, and the line that takes its place where it is taken out, or None."""

    def __init__(self, line, label, instead=None):
        self.line = line
        self.label = label
        self.instead = instead


def rules_of_iptables(lines):
    table, order, found = None, [], {}
    for number, line in enumerate(lines):
        words = line.split()
        if line.startswith('*'):
            table = line[1:]
        elif line.startswith(':'):
            order.append((table, words[0][1:]))
            found[order[-1]] = []
        elif '-A' in words[:2]:
            found[table, words[words.index('-A') + 1]].append(number)
    return [Rule(number, '%s %s %d' % (*chain, place)) for chain in order for place, number in enumerate(found[chain], 1)]


def rules_of_ipfw(lines):
    found, greatest = [], 0
    for number, line in enumerate(lines):
        words = re.sub(r'(#|//).*', '', line).split()
        words = [word for word in words if word not in ('ipfw', '-q', '-f')]
        if words[:1] == ['add'] or (words[:1] and words[0].isdigit() and words[0] != '65535'):
            words = words[words[0] == 'add':]
            named = int(words[0]) if words[0].isdigit() else greatest + 100 if greatest + 100 < 65535 else greatest
            greatest = max(greatest, named)
            instead = 'add %d check-state' % named if 'keep-state' in words else None
            found.append((named, len(found), Rule(number, 'rule %d' % named, instead)))
    return [rule for _, _, rule in sorted(found, key=lambda one: one[:2])]


def rules_of_pf(lines):
    found = {'rdr': [], 'nat': [], 'filter': []}
    for number, line in enumerate(lines):
        words = re.sub(r'#.*', '', line).split()
        kind = next((word for word in words[:2] if word in ('rdr', 'nat', 'pass', 'block')), None)
        if line.endswith('\\'):
            return None
        if kind and '=' not in words[:2] and words[0] not in ('set', 'scrub', 'table'):
            if '{' in line or '$' in line:
                return None
            found[kind if kind in found else 'filter'].append(number)
    return [Rule(number, '%s %d' % (kind, place)) for kind, numbers in found.items() for place, number in enumerate(numbers, 1)]


def rules_of_ios(lines):
    lists, nats, opened = {}, [], None
    for number, line in enumerate(lines):
        words = line.split()
        indented = line[:1] in (' ', '\t')
        if not words or line.startswith('!'):
            continue
        if indented and opened and words[0] != 'remark':
            lists.setdefault(opened, []).append(number)
        elif words[0] == 'access-list' and words[2] != 'remark':
            lists.setdefault(words[1].lstrip('0'), []).append(number)
        elif words[:4] == ['ip', 'nat', 'inside', 'source']:
            nats.append(number)
        if not indented:
            opened = words[3] if words[:2] == ['ip', 'access-list'] else None
    found = []
    for name, numbers in lists.items():
        for place, number in enumerate(numbers, 1):
            instead = None
            if len(numbers) == 1:
                instead = re.sub(r'(permit|deny|evaluate).*', 'deny 0.0.0.0', lines[number])
                if not name.isdigit() or int(name) >= 100:
                    instead = re.sub(r'deny.*', 'deny tcp any lt 0 any', instead)
            found.append(Rule(number, 'list %s %d' % (name, place), instead))
    return found + [Rule(number, 'nat %d' % place) for place, number in enumerate(nats, 1)]


RULES_OF = {'iptables': rules_of_iptables, 'ipfw': rules_of_ipfw, 'pf': rules_of_pf, 'ios': rules_of_ios}


def without(lines, rules):
    """The lines without these rules."""
    instead = {rule.line: rule.instead for rule in rules}
    kept = (instead.get(number, line) for number, line in enumerate(lines))
    return [line for line in kept if line is not None]


# Configurations


def of_cases(work):
    """The configurations that the cases of `dead` name, with their sites, as files below a folder."""
    cases = quick.all_cases()
    asked = [case for case in cases if case.words[:1] == ['dead'] and len(case.words) == 4 and case.status == 0]
    for name, text in quick.files_of(asked, cases).items():
        path = os.path.join(work, name)
        os.makedirs(os.path.dirname(path), exist_ok=True)
        with open(path, 'wb') as file:
            file.write(text)
    return [(case.words[1], os.path.join(work, case.words[2]), os.path.join(work, case.words[3])) for case in asked]


def made(work):
    found = []
    for family, language, count in MADE:
        path = os.path.join(work, '%s.%s' % (family, language))
        with open(path, 'wb') as file:
            subprocess.run([sys.executable, MAKE, str(count), family, language], stdout=file, check=True)
        found.append((language, os.path.join(translations.EXAMPLES, 'site.txt'), path))
    return found


def jobs(work):
    found = [(language, os.path.join(translations.EXAMPLES, site), os.path.join(translations.EXAMPLES, name))
             for language, site, name in translations.EXAMPLE_FILES]
    return found + translations.worked() + of_cases(work) + made(work)


# Packets


def opened_by(words, line):
    """The connection that an accepted packet opens, as a line of its nine words, and the packet that answers it."""
    ends = re.search(r'src=([\d.]+)(?::(\d+))? dst=([\d.]+)(?::(\d+))?', line)
    source, source_port, destination, port = ends.groups('0')
    _, proto, to, to_port, by, by_port, _, _ = words
    reply = [source, source_port if ends[2] else by_port, destination, port if ends[4] else to_port]
    return ' '.join([proto, to, to_port, by, by_port, *reply]), [proto, *reply]


def drawn(rng, work, language, site, name):
    """Connections and packets that are drawn with the addresses and ports of the files: new ones, and those of connections."""
    ways, (addresses, ports) = replays.entries(site), replays.named([site, name])
    packets = [replays.packet(rng, ways, addresses, ports) for _ in range(PACKETS // 2)]
    none = replays.written(work, 'none', [])
    first = replays.written(work, 'first', [' '.join(words) for words in packets])
    connections, more = [], []
    for words, line in zip(packets, translations.run('trace', language, site, name, none, first)[1].splitlines()):
        if line.startswith('new accept') and rng.random() < 0.5:
            connection, answer = opened_by(words, line)
            connections.append(connection)
            more.append(' '.join([rng.choice(ways), *answer, rng.choice(('18', '16')), words[7]]))
        else:
            more.append(' '.join(replays.packet(rng, ways, addresses, ports)))
    return (replays.written(work, 'connections', connections),
            replays.written(work, 'packets', [' '.join(words) for words in packets] + more))


# What is checked of a configuration


class Tally:
    """How many rules were told and taken out, of how many others it was seen that packets use them, and how many things were wrong."""

    def __init__(self):
        self.told = self.taken = self.used = self.others = self.wrong = 0

    def check(self, holds, job, text):
        if not holds:
            self.wrong += 1
            print('%s at %s: %s' % (job[2], job[1], text))


def tables(language, site, name):
    return [translations.run('synth', language, site, name, state) for state in ('new', 'est')]


def told(language, site, name):
    """The numbers and labels that `dead` tells, or None where it refuses the file."""
    status, text = translations.run('dead', language, site, name)
    lines = text.splitlines()
    if status != 0:
        return None
    return [(int(number), label) for number, _, label in (line.partition(' ') for line in lines[1:])] if lines[0] == 'dead %d' % (
        len(lines) - 1) else None


def check_labels(tally, job, rules, dead):
    for number, label in dead:
        tally.check(number <= len(rules) and rules[number - 1].label == label, job, 'rule %d is not %s' % (number, label))


def check_taken_out(tally, work, job, lines, rules, dead):
    language, site, name = job
    wanted = tables(*job)
    chosen = [rules[number - 1] for number, _ in dead if number <= len(rules)]
    for rule in chosen:
        path = replays.written(work, 'shorter', without(lines, [rule]))
        tally.taken += 1
        tally.check(tables(language, site, path) == wanted, job, 'other tables without %s' % rule.label)
    if chosen:
        path = replays.written(work, 'shortest', without(lines, chosen))
        tally.check(tables(language, site, path) == wanted, job, 'other tables without all rules that are told')
        left = told(language, site, path)
        replaced = {rule.label for rule in chosen if rule.instead is not None}
        tally.check(left is not None and {label for _, label in left} <= replaced, job, 'without these rules %s are told' % left)


def check_used(tally, rng, work, job, dead):
    """What `why` says of packets; gives the numbers of the rules that these use."""
    language, site, name = job
    connections, packets = drawn(rng, work, language, site, name)
    status, text = translations.run('why', language, site, name, connections, packets)
    lines = text.splitlines()
    traced = translations.run('trace', language, site, name, connections, packets)
    tally.check((status, [line for line in lines if not line.startswith('  ')]) == (traced[0], traced[1].splitlines()), job,
                '`why` has other lines than `trace`')
    used = {(int(number), label) for number, _, label in (line[2:].partition(' ') for line in lines if line.startswith('  '))}
    tally.check(not used & set(dead), job, 'told, and used by a packet: %s' % sorted(used & set(dead)))
    return {number for number, _ in used}


def check(tally, rng, work, job):
    language, _, name = job
    dead = told(*job)
    if dead is None:
        tally.check(translations.run('synth', *job, 'new')[0] == 3, job, 'no list is told, though the tables are')
        return
    with open(name, encoding='latin-1') as file:
        lines = file.read().splitlines()
    rules = RULES_OF[language](lines)
    tally.told += len(dead)
    used = check_used(tally, rng, work, job, dead)
    if rules is not None:
        check_labels(tally, job, rules, dead)
        check_taken_out(tally, work, job, lines, rules, dead)
        tally.used += len(used)
        tally.others += len(rules) - len(dead)


def main(seed):
    rng, tally = random.Random(seed), Tally()
    with tempfile.TemporaryDirectory() as work:
        for job in jobs(work):
            check(tally, rng, work, job)
    print('unused: seed %d, %d rules told, %d taken out, %d of %d others seen in use; %d wrong' % (
        seed, tally.told, tally.taken, tally.used, tally.others, tally.wrong))
    return 0 if tally.wrong == 0 and tally.taken >= LEAST_RULES else 1


sys.exit(main(int(sys.argv[1]) if len(sys.argv) > 1 else 1))
