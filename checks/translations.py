"""python3 checks/translations.py, at the top of the repository; checks/translations.sh says how it is called

Translates to iptables, ipfw, pf and Cisco IOS the configurations of examples/ and those of which
crates/fws_test_configs/data/rows.jobs has a table, from the language that each has, with the built program. What is checked of each:

- The status is 0; or it is 1 with a line that names packets, where the target, the site and the configuration stand in UNPLACED.
  Any other configuration is placed on pf exactly where its table of established packets drops none but lost ones: else a packet is
  named that this table drops.
  What of the condition of Cisco IOS can be told by the rows of the tables alone is told by them: source ports, sources of what is delivered,
  rewritten packets of the host, destinations, dropped packets of connections, and mapped networks; of the other clauses UNPLACED has the
  configurations that break one first.
- The text, read back, has the two tables of the configuration that it was made of.
- A text of ipfw keeps what its tool asks for: at most 31 networks and 30 ranges of ports in a list, and lines of at most 4,095 bytes.
- A text of pf keeps what pf.conf(5) asks for: options of a line in their order, translations ahead of filter rules, names of tags
  of at most 63 bytes, `static-port` behind each end of `nat`, and `flags` and `keep state` on each rule that passes packets.
- A text of Cisco IOS keeps the forms of its manuals, each entry in a list that stands ahead of the translations, and each list that is named is
  defined.
- A text of iptables keeps what iptables-restore asks for: no blank behind COMMIT; at most 15 ports in a list, where a range counts as two,
  and none of port 0 alone; no -i in OUTPUT and POSTROUTING, no -o in PREROUTING and INPUT; names of chains of at most 28 bytes.
- Where iptables-restore or iptables-nft-restore is installed and may be tried, it takes the text with --test; unless an interface
  of the site has a name of more than 15 bytes.

Prints a line for each check that goes wrong, and last how many went right. Exit status 1 where one went wrong. Further
translations, traces of texts, and policies that can't be placed are cases of checks/cases.
"""

import ipaddress
import os
import re
import shutil
import subprocess
import sys
import tempfile

TOP = os.path.dirname(os.path.dirname(os.path.abspath(__file__)))
DATA = os.path.join(TOP, 'crates/fws_test_configs/data')
EXAMPLES = os.path.join(TOP, 'examples')
PROGRAM = os.environ.get('FWS_PROGRAM', os.path.join(TOP, 'crates/fws/out/fws'))

# Of a site and a configuration that can't be placed, what the line of status 1 begins with, and words behind it by their places.
UNPLACED = {
    ('iptables', 'S', 'marked-established.rules'): ('not placeable on iptables clause 5: ', {2: '203.0.113.2', 8: '10.0.0.5'}),
    # what the host sends of a connection is dropped by the source that the connection writes
    ('iptables', 'S-no-pass', 'masked.ipfw'): ('not placeable on iptables clause 5: ', {0: 'host'}),
    ('ipfw', 'S-no-pass', 'masked.ipfw'): ('not placeable on ipfw clause 7: ', {0: 'host'}),
    ('ipfw', 'S', 'marked-established.rules'): ('not placeable on ipfw clause 7: ', {2: '203.0.113.2', 8: '10.0.0.5'}),
    # what is delivered of a connection is dropped, though other connections may send the same packet
    ('ipfw', 'site.txt', 'server.rules'): ('not placeable on ipfw clause 7: ', {}),
    ('ipfw', 'S', 'last-address.rules'): ('not placeable on ipfw clause 7: ', {}),
    ('ipfw', 'S', 'goto.rules'): ('not placeable on ipfw clause 7: ', {}),
    ('ipfw', 'S', 'port-forward.rules'): ('not placeable on ipfw clause 7: ', {}),
    # what comes from the inner end of a redirect of ports gets its outer port
    ('ipfw', 'office.site', 'office.ipfw'): ('not placeable on ipfw clause 2: ', {1: '6', 4: '10.0.0.5', 5: '8080'}),
    ('ipfw', 'site.txt', 'office.ipfw'): ('not placeable on ipfw clause 2: ', {1: '6', 4: '10.0.0.5', 5: '8080'}),
    ('ipfw', 'branch.site', 'branch.ios'): ('not placeable on ipfw clause 2: ', {1: '6', 4: '10.0.0.5', 5: '8080'}),
    ('ipfw', 'branch', 'branch.ios'): ('not placeable on ipfw clause 2: ', {1: '6', 4: '10.0.0.5', 5: '8080'}),
    ('ipfw', 'S', 'router.ios'): ('not placeable on ipfw clause 2: ', {1: '6', 4: '10.0.0.5', 5: '8080'}),
    ('ipfw', 'S', 'static-port.ios'): ('not placeable on ipfw clause 2: ', {1: '6', 4: '10.0.0.5', 5: '8080'}),
    ('ipfw', 'S', 'static-filtered.ios'): ('not placeable on ipfw clause 2: ', {1: '6', 4: '10.0.0.5', 5: '8080'}),
    ('ipfw', 'S', 'static-first.ios'): ('not placeable on ipfw clause 2: ', {4: '10.0.0.5', 5: '53'}),
    # the host's own packets to port 80 go to the router
    ('ipfw', 'S', 'redirect.rules'): ('not placeable on ipfw clause 3: ', {0: 'host', 3: '80'}),
    # every destination at a port leads to the router, 0.0.0.0 among them
    ('ipfw', 'S', 'to-the-host.pf'): ('not placeable on ipfw clause 6: ', {3: '25'}),
    # networks are mapped
    ('ipfw', 'S', 'mapped.rules'): ('not placeable on ipfw clause 17: ', {}),
    ('ipfw', 'S', 'mapped-drop.rules'): ('not placeable on ipfw clause 17: ', {}),
    ('ipfw', 'S', 'mapped.pf'): ('not placeable on ipfw clause 17: ', {}),
    ('ipfw', 'S', 'mapped-source.pf'): ('not placeable on ipfw clause 17: ', {}),
    # the same redirects of ports, and the host's own packets to port 80, on pf
    ('pf', 'office.site', 'office.ipfw'): ('not placeable on pf clause 2: ', {1: '6', 4: '10.0.0.5', 5: '8080'}),
    ('pf', 'site.txt', 'office.ipfw'): ('not placeable on pf clause 2: ', {1: '6', 4: '10.0.0.5', 5: '8080'}),
    ('pf', 'branch.site', 'branch.ios'): ('not placeable on pf clause 2: ', {1: '6', 4: '10.0.0.5', 5: '8080'}),
    ('pf', 'branch', 'branch.ios'): ('not placeable on pf clause 2: ', {1: '6', 4: '10.0.0.5', 5: '8080'}),
    ('pf', 'S', 'router.ios'): ('not placeable on pf clause 2: ', {1: '6', 4: '10.0.0.5', 5: '8080'}),
    ('pf', 'S', 'static-port.ios'): ('not placeable on pf clause 2: ', {1: '6', 4: '10.0.0.5', 5: '8080'}),
    ('pf', 'S', 'static-filtered.ios'): ('not placeable on pf clause 2: ', {1: '6', 4: '10.0.0.5', 5: '8080'}),
    ('pf', 'S', 'static-first.ios'): ('not placeable on pf clause 2: ', {4: '10.0.0.5', 5: '53'}),
    ('pf', 'S', 'redirect.rules'): ('not placeable on pf clause 3: ', {0: 'host', 3: '80'}),
    # flags tell packets apart that have ACK or RST both, or neither
    ('ios', 'S', 'stateless.pf'): ('not placeable on ios clause 14: ', {1: '6', 8: 'with', 10: '6'}),
    ('ios', 'S', 'flag-tests.pf'): ('not placeable on ios clause 14: ', {1: '6', 8: 'with', 10: '6'}),
}

# How many words name what breaks a clause, beside those on packets of connections.
PACKET_WORDS = {'2': 8, '3': 8, '4': 8, '6': 8, '14': 17, '17': 8}

TARGETS = ('iptables', 'ipfw', 'pf', 'ios')

# The examples: language, site and configuration.
EXAMPLE_FILES = [
    ('iptables', 'site.txt', 'router.saved'),
    ('iptables', 'site.txt', 'open.rules'),
    ('iptables', 'site.txt', 'server.rules'),
    ('iptables', 'site.txt', 'ssh.rules'),
    ('iptables', 'site.txt', 'forward.rules'),
    ('iptables', 'routed.site', 'outbound.rules'),
    ('iptables', 'site.txt', 'lan.rules'),
    ('ipfw', 'office.site', 'office.ipfw'),
    ('ipfw', 'site.txt', 'office.ipfw'),
    ('pf', 'site.txt', 'gateway.pf'),
    ('ios', 'branch.site', 'branch.ios'),
]


def run(*words):
    ended = subprocess.run([PROGRAM, *words], stdout=subprocess.PIPE, check=False)
    return ended.returncode, ended.stdout.decode()


def worked():
    """The configurations of which fws_test_configs knows a table: language, site and file."""
    with open(os.path.join(DATA, 'rows.jobs'), encoding='utf-8') as file:
        site, *jobs = file.read().splitlines()
    found = []
    for job in jobs:
        kind, *words = job.split()
        if kind in ('table', 'table-at'):
            at, language, rules = words[:3] if kind == 'table-at' else [site, *words[:2]]
            if (language, at, rules) not in found:
                found.append((language, at, rules))
    return [(language, os.path.join(DATA, at), os.path.join(DATA, rules)) for language, at, rules in found]


def places(ports):
    return sum(2 if ':' in part else 1 for part in ports.split(','))


def faults(text):
    """What iptables-restore would not take of the text."""
    for line in text.split('\n'):
        words = line.split(' ')
        if line.startswith('COMMIT') and line != 'COMMIT':
            yield 'something stands behind COMMIT'
        if line.startswith(':') and len(words[0]) > 29:
            yield 'a long name: ' + line
        for option, word in zip(words, words[1:]):
            if option in ('--sports', '--dports') and (places(word) > 15 or word in ('0', '0:0')):
                yield 'a list of ports: ' + line
        if words[0] == '-A':
            if '-i' in words and words[1] in ('OUTPUT', 'POSTROUTING') or '-o' in words and words[1] in ('INPUT', 'PREROUTING'):
                yield 'an interface that is not shown: ' + line


def ipfw_faults(text):
    """What ipfw's tool would not take of the text."""
    for line in text.split('\n'):
        if line.startswith('#'):
            continue
        if len(line) > 4095:
            yield 'a long line: ' + line[:80]
        words = line.split(' ')
        for option, word in zip(words, words[1:]):
            if option in ('from', 'to') and word.count(',') > 30 or option in ('src-port', 'dst-port') and word.count(',') > 29:
                yield 'a long list: ' + line[:80]


# The forms of pf.conf(5): macros and tables, then translations and rules, each with its options behind the hosts, in any order.
PF_ITEM = r'(?:any|self|(?:\d+(?:\.\d+){3}|\$\w+|\w+)(?:/\d+)?(?::network|:0)?(?: - \d+(?:\.\d+){3})?|\((?:\$\w+|\w+)(?::network|:0)?\)|<\w+>)'
PF_HOST = r'(?:(?:! )?%s|\{ %s(?:, %s)* \})' % ((PF_ITEM,) * 3)
PF_PORT = r'(?: port (?:(?:= )?\w+(?::\w+)?|\{ \w+(?::\w+)?(?:, \w+(?::\w+)?)* \}))?'
PF_INTERFACE = r'(?:"[^"]+"|[^\s{},]+)'
PF_ON = r'(?: on (?:(?:! )?%s|\{ %s(?:, %s)* \}))?' % ((PF_INTERFACE,) * 3)
PF_HEAD = PF_ON + r'(?: inet)?(?: proto (?:\w+|\{ \w+(?:, \w+)* \}))?(?: all| from %s%s to %s%s| from %s%s| to %s%s)?' % (
    (PF_HOST, PF_PORT) * 4)
PF_TAG = r'(?:"[^"]+"|[A-Za-z_]\w{0,62})'
PF_FLAGS = r'flags (?:any|[FSRPAU]*/[FSRPAU]+)'
PF_OPTIONS = r'(?: %s| icmp-type (?:\w+|\{ \w+(?:, \w+)* \})| keep state| (?:! )?tagged %s| tag %s)*' % (PF_FLAGS, PF_TAG, PF_TAG)
PF_FORMS = [
    ('macro', r'[a-z_]\w* = "[^"]+"'),
    ('table', r'table <\w+> const \{ %s(?:, %s)* \}' % (PF_ITEM, PF_ITEM)),
    ('translation', r'no (?:rdr|nat)%s(?: tag %s)?(?: tagged %s)?' % (PF_HEAD, PF_TAG, PF_TAG)),
    ('translation', r'rdr(?: pass)?%s(?: tag %s)?(?: tagged %s)? -> \S+(?: bitmask| port \S+)?' % (PF_HEAD, PF_TAG, PF_TAG)),
    ('translation', r'nat%s(?: tag %s)?(?: tagged %s)? -> \S+(?: bitmask)? static-port' % (PF_HEAD, PF_TAG, PF_TAG)),
    ('filter', r'block(?: drop)?(?: in| out)?(?: quick)?%s%s' % (PF_HEAD, PF_OPTIONS)),
    ('filter', r'pass(?: in| out)?(?: quick)?%s%s' % (PF_HEAD, PF_OPTIONS)),
]


def pf_faults(text):
    """What pf's tool would not take of the text."""
    sections = []
    for line in text.splitlines():
        if line and not line.startswith('#'):
            found = [section for section, form in PF_FORMS if re.fullmatch(form, line)]
            if not found:
                yield 'a line of no form: ' + line[:80]
            sections += found
            if line.startswith('pass') and 'keep state' not in line:
                yield 'a rule that keeps no state: ' + line[:80]
    if sections != sorted(sections, key=('macro', 'table', 'translation', 'filter').index):
        yield 'sections that are out of order'


# The forms of the manuals of Cisco IOS: of entries of extended lists, and of the lines of sections.
IOS_HOST = r'(?:any|host \d+(?:\.\d+){3}|\d+(?:\.\d+){3} \d+(?:\.\d+){3})'
IOS_PORT = r'(?: (?:eq|neq|lt|gt) \d+| range \d+ \d+)?'
IOS_PROTOCOL = r'(?:ip|\d+|ahp|eigrp|esp|gre|igmp|ipinip|ospf|pim)'
IOS_ENTRY = r' (?:permit|deny) (?:%s %s %s|(?:tcp|udp) %s%s %s%s(?: established)?|icmp %s %s(?: \d+)?)(?: reflect [A-Z]\S*)?' % (
    IOS_PROTOCOL, IOS_HOST, IOS_HOST, IOS_HOST, IOS_PORT, IOS_HOST, IOS_PORT, IOS_HOST, IOS_HOST)
IOS_FORMS = [
    ('interface', r'interface \S+'),
    ('interface', r' ip nat (?:inside|outside)'),
    ('interface', r' ip access-group \S+ (?:in|out)'),
    ('list', r'ip access-list extended \S+'),
    ('list', IOS_ENTRY),
    ('list', r' evaluate [A-Z]\S*'),
    ('nat', r'ip nat pool \S+ (\d+(?:\.\d+){3}) \1 prefix-length 24'),
    ('nat', r'ip nat inside source list \S+ (?:pool \S+|interface \S+) overload'),
    ('nat', r'ip nat inside source static (?:tcp|udp) \d+(?:\.\d+){3} \d+ (?:\d+(?:\.\d+){3}|interface \S+) \d+(?: extendable)?'),
    ('nat', r'ip nat inside source static \d+(?:\.\d+){3} \d+(?:\.\d+){3}(?: extendable)?'),
]


def ios_faults(text):
    """What Cisco IOS would not take of the text."""
    sections = []
    for line in text.splitlines():
        if not line.startswith('!'):
            found = [section for section, form in IOS_FORMS if re.fullmatch(form, line)]
            if not found:
                yield 'a line of no form: ' + line[:80]
            if line.startswith(' deny') and 'reflect' in line:
                yield 'a denial that keeps state: ' + line
            sections += found
    if sections != sorted(sections, key=('interface', 'list', 'nat').index):
        yield 'sections that are out of order'
    defined = re.findall(r'^ip access-list extended (\S+)$', text, re.MULTILINE)
    named = re.findall(r'^ ip access-group (\S+) (?:in|out)$', text, re.MULTILINE)
    named += re.findall(r'^ip nat inside source list (\S+) ', text, re.MULTILINE)
    if set(named) != set(defined) or len(set(defined)) != len(defined):
        yield 'lists that are not named or not defined: ' + ' '.join(sorted(set(named) ^ set(defined)))


FAULTS = {'iptables': faults, 'ipfw': ipfw_faults, 'pf': pf_faults, 'ios': ios_faults}


def long_names(site):
    with open(site, encoding='utf-8') as file:
        return any(len(name) > 15 for name in re.findall(r' ipt=(\S+)', file.read()))


def loaders():
    """The commands that are installed and take a text without rules here."""
    for name in ('iptables-restore', 'iptables-nft-restore'):
        if shutil.which(name) and subprocess.run([name, '--test'], input=b'*filter\nCOMMIT\n', capture_output=True, check=False).returncode == 0:
            yield name


class Tally:
    """How many checks went right and wrong."""

    def __init__(self):
        self.right = self.wrong = 0

    def check(self, holds, *told):
        if holds:
            self.right += 1
        else:
            self.wrong += 1
            print(*told)


def unplaced(tally, job, status, text):
    begins, words = UNPLACED[job]
    name = job[2]
    named = text[len(begins):].split()
    tally.check(status == 1 and text.startswith(begins), name, 'has status', status, text[:80])
    wanted = PACKET_WORDS.get(re.search(r'clause (\d+)', begins).group(1), 12)
    tally.check(len(named) == wanted and all(named[place] == word for place, word in words.items()), name, 'names', *named)


def numbers(side):
    """The ranges of a side of addresses."""
    for part in side.split(','):
        first, _, last = part.partition('-')
        yield tuple(int(ipaddress.IPv4Address(word)) for word in (first, last or first))


def local(site):
    """The ranges of the addresses of a site, and whether it forwards packets."""
    with open(site, encoding='utf-8') as file:
        text = file.read()
    named = re.findall(r'^(?:interface \S+|address \S+) (\d+\.\d+\.\d+\.\d+)/', text, re.MULTILINE)
    own = [(int(ipaddress.IPv4Address(word)),) * 2 for word in named]
    return own + list(numbers('127.0.0.0-127.255.255.255')), 'forwarding yes' in text


def drops_established(job):
    """Whether the table of established packets drops one that isn't lost: on a host that doesn't forward, one of the host or to it."""
    language, site, name = job
    own, forwards = local(site)
    for line in run('synth', language, site, name, 'est')[1].splitlines()[1:]:
        sides, outcome = line.split(' : ')
        words = sides.split(' ')
        to_it = words[8] == '*' or any(low <= last and first <= high for first, last in numbers(words[8]) for low, high in own)
        if outcome == 'drop' and (forwards or to_it or 'host' in words[0].split(',')):
            return True
    return False


def row_sides(line):
    """The sides of a row as sets of names or lists of ranges; none where a side is everything."""
    sides = []
    for place, word in enumerate(line.split(' : ')[0].split(' ')):
        if word == '*':
            sides.append(None)
        elif place == 0:
            sides.append(set(word.split(',')))
        elif place in (2, 4, 8, 10):
            sides.append(list(numbers(word)))
        else:
            sides.append([(int(low), int(high or low)) for low, _, high in (part.partition('-') for part in word.split(','))])
    return sides


def meet(side, other):
    if side is None or other is None:
        return True
    if isinstance(side, set):
        return bool(side & other)
    return any(low <= last and first <= high for low, high in side for first, last in other)


def keeps_packets(job):
    """Whether some packet is dropped in one connection that isn't lost, and accepted in another one or as a new one."""
    language, site, name = job
    own, forwards = local(site)
    tables = {state: run('synth', language, site, name, state)[1].splitlines()[1:] for state in ('new', 'est')}
    accepted = [row_sides(line)[:8] for lines in tables.values() for line in lines if ' : accept' in line]
    for line in tables['est']:
        if line.endswith(' : drop'):
            sides = row_sides(line)
            if not forwards and not meet(sides[8], own):
                if sides[0] is not None and 'host' not in sides[0]:
                    continue
                sides[0] = {'host'}
            if any(all(meet(side, other) for side, other in zip(sides[:8], row)) for row in accepted):
                return True
    return False


def ios_clause(job):
    """The first clause of Cisco IOS that a row of the tables breaks by itself, if one does."""
    language, site, name = job
    own, _ = local(site)
    broken = set()
    for line in run('synth', language, site, name, 'new')[1].splitlines()[1:]:
        sides, outcome = line.split(' : ')
        entries = sides.split(' ')[0].split(',')
        ends = dict(word.split('=') for word in outcome.split(' ')[1:])
        if ':' in ends.get('src', ''):
            broken.add(2)
        if ('host' in entries or entries == ['*']) and 'dst' in ends:
            broken.add(3)
        if ('host' in entries or entries == ['*']) and (ends or outcome == 'drop'):
            broken.add(11)
        if 'dst' in ends:
            broken.add(12)
        if entries != ['host'] and 'src' in ends and 'dst' not in ends:
            words = sides.split(' ')[2]
            if words == '*' or any(low <= last and first <= high for first, last in numbers(words) for low, high in own):
                broken.add(4)
        if any('/' in end for end in ends.values()):
            broken.add(17)
    for line in run('synth', language, site, name, 'est')[1].splitlines()[1:]:
        sides, outcome = line.split(' : ')
        entries = sides.split(' ')[0].split(',')
        if ('host' in entries or entries == ['*']) and outcome == 'drop':
            broken.add(11)
    if not broken and keeps_packets(job):
        broken.add(16)
    return min(broken, default=None)


def shown(tally, job, clause, status, text):
    """The line names this clause of Cisco IOS, and a packet of a row that the tables have."""
    language, site, name = job
    begins = 'not placeable on ios clause %d: ' % clause
    tally.check(status == 1 and text.startswith(begins), name, 'has status', status, text[:80])
    words = text[len(begins):].split()
    fields = ('entry', 'proto', 'dst', 'dport', 'src', 'sport', 'flags', 'icmp', 'rdst', 'rdport', 'rsrc', 'rsport')
    kind = 'new' if len(words) == 8 else 'est'
    asked = run('query', language, site, name, kind, *('%s=%s' % pair for pair in zip(fields, words)))[1]
    outcome = asked.partition(' : ')[2]
    wanted = {2: r'accept .*src=[^ /]+:.*', 3: r'accept .*dst=.*', 4: r'accept .*src=.*', 11: r'(?!accept$).*',
              12: r'accept .*dst=.*', 16: r'drop', 17: r'accept .*/.*'}[clause]
    tally.check(len(words) in (8, 12) and re.fullmatch(wanted, outcome.strip()), name, 'names', *words)
    tally.check(clause not in (3, 11) or words[:1] == ['host'], name, 'names a packet that is not of the host', *words)
    if clause == 16:
        kept = [run('query', language, site, name, state, *('%s=%s' % pair for pair in zip(fields, words[:8])))[1] for state in ('new', 'est')]
        tally.check(any(' : accept' in text for text in kept), name, 'names a packet that is always dropped', *words)


def dropped(tally, job, status, text):
    """The line names an established packet that is dropped and isn't lost."""
    language, site, name = job
    begins = 'not placeable on pf clause 8: '
    tally.check(status == 1 and text.startswith(begins), name, 'has status', status, text[:80])
    words = text[len(begins):].split()
    fields = ('entry', 'proto', 'dst', 'dport', 'src', 'sport', 'flags', 'icmp', 'rdst', 'rdport', 'rsrc', 'rsport')
    asked = run('query', language, site, name, 'est', *('%s=%s' % pair for pair in zip(fields, words)))[1]
    tally.check(len(words) == 12 and asked == 'query est 1\n%s : drop\n' % ' '.join(words), name, 'names', *words)
    own, forwards = local(site)
    arrives_here = words[8:] and any(low <= int(ipaddress.IPv4Address(words[8])) <= high for low, high in own)
    tally.check(forwards or arrives_here or words[:1] == ['host'], name, 'names a lost packet', *words)


def placed(tally, tools, work, target, job, text):
    language, site, name = job
    again = os.path.join(work, 'again')
    with open(again, 'w', encoding='utf-8') as file:
        file.write(text)
    for state in ('new', 'est'):
        same = run('synth', language, site, name, state) == run('synth', target, site, again, state)
        tally.check(same, name, 'has another table of', state, 'packets when it is translated')
    found = list(FAULTS[target](text))
    tally.check(not found, name, *found[:1])
    for tool in () if target != 'iptables' or long_names(site) else tools:
        ended = subprocess.run([tool, '--test'], input=text.encode(), capture_output=True, check=False)
        tally.check(ended.returncode == 0, name, tool, ended.stderr.decode())


def main():
    tally, tools = Tally(), list(loaders())
    jobs = [(language, os.path.join(EXAMPLES, site), os.path.join(EXAMPLES, name)) for language, site, name in EXAMPLE_FILES]
    with tempfile.TemporaryDirectory() as work:
        for target, job in ((target, job) for target in TARGETS for job in jobs + worked()):
            language, site, name = job
            status, text = run('translate', language, target, site, name)
            bare = target, os.path.basename(site), os.path.basename(name)
            if bare in UNPLACED:
                unplaced(tally, bare, status, text)
            elif target == 'pf' and drops_established(job):
                dropped(tally, job, status, text)
            elif target == 'ios' and ios_clause(job):
                shown(tally, job, ios_clause(job), status, text)
            else:
                tally.check(status == 0, name, 'has status', status, text[:80])
                placed(tally, tools, work, target, job, text)
    print('translations: %d right, %d wrong; loaded by %s' % (tally.right, tally.wrong, ', '.join(tools) or 'none, as none is installed'))
    return 1 if tally.wrong or not tally.right else 0


if __name__ == '__main__':
    sys.exit(main())
