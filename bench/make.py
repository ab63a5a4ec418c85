"""python3 make.py N FAMILY [LANG]

Writes a file of a family in the language LANG, which is `iptables` if it is left out, `ipfw`, `pf`, `ios`, or `openbsd` for pf of
OpenBSD; the same one each time. Of these, N is the number of rules of the chain FORWARD:

overlapping: sources and destinations are drawn from 64 networks, so that rules overlap.
apart: each rule has a source and a destination of its own.
routed: a rule tests the interface that a packet goes to, the one that it came from, and a destination drawn from the 64
networks, or some of the three; the interfaces are the 62 of make_site.py.
partial: of a source, a destination, a protocol with a port, and an interface each rule tests about half, and one at least,
so that each rule overlaps many others in the fields that it leaves open.
blocked: each rule drops the packets of one source address.
listed: each rule accepts TCP from a network of its own to one of 256 networks at a port of its own.
logged: each rule logs every packet.
called: each rule calls a chain of its own, of 10 rules, for a network of its own.
shared: each rule calls one of 50 chains, of 10 rules, for one of the 64 networks.

And of these:

rewritten: N ports of the host are mapped to hosts of their own, and N rules of FORWARD accept packets to these.
services: N addresses have a chain each, which calls one that maps them to a host, as Kubernetes does; packets of the host
go there too.
loaded: behind a rule that accepts what belongs to a connection, the rules of listed.
mixed: behind the same rule, N rules of which each tests about half of a source and a destination drawn from the 64 networks, a
protocol with a port, and an interface.
hosts: behind the same rule, N rules of which each tests about half of a source, a destination, and a protocol with a port; the
sources and destinations are hosts of their own, and each rule tests one at least.
unfolded: N calls of one chain of 1,000 rules, each of which drops the packets of one host.
marked: N rules of mangle mark packets of sources of their own, and N rules of FORWARD accept some destination by mark.
sourced: N rules of mangle mark packets of sources of their own, and each mark has a source of its own in POSTROUTING.
mapped: N hosts have a public address each, one-to-one: DNAT by that address, and SNAT by the host's.
mapped_by_way: the same, where each rule tests the interface outside too; the hosts lie behind another one at a site where that has
10.0.0.0/8.
balanced: N addresses have a chain each, which maps them to one of three hosts by the source's port; packets of a host to its own
address are marked before, and masqueraded behind.
published: N ports of the host are mapped to hosts of their own, packets of a host to its own port are masqueraded, and N rules of
FORWARD accept packets to these, as Docker writes them.
crossing: N rules, of which half stand in mangle PREROUTING, before what tracked connections write, and half in FORWARD,
and each tests a source, a destination, a protocol with ports, and an interface, or some of these.
dropped: N rules of mangle FORWARD that accept or drop packets by a source, a destination, and ranges of ports at both ends, or some of
the four, behind which FORWARD drops everything: so rules are many, and rows few.

These two are written in iptables and ipfw, with the same table; in iptables INPUT, FORWARD and OUTPUT have the same rules, as
each pass of ipfw goes through all of them:

skipping: N rules in groups of ten. The first rule of a group skips the others but for the packets of a network of the
group's own, and these accept TCP to one of 256 networks at a port of their own; in iptables the nine are a chain that is called.
sources: N rules, at most 65,534, of which each accepts the packets of one source address; in iptables they are one chain.

This one is written in iptables and pf, with the same table; in iptables INPUT, FORWARD and OUTPUT have the same rules:

decided: N rules that pass or block packets of a source and a destination drawn from the 64 networks, or some of the two, of
TCP at a port or of any protocol; about half of them are quick. In iptables the quick ones stand first, in their order, and
the others behind them, the last one first.

These are written in iptables and Cisco IOS, with the same table; in iptables the lists are chains that mangle PREROUTING calls
for what comes in by an interface, and FORWARD for what goes out by one:

applied: one list of N entries, which permit or deny as those of decided do; it is applied to what comes in by wan.
bordered: each of the 62 interfaces of make_site.py has a list of N entries for what comes in, by sources of their own, and
another one for what goes out, by destinations of their own.

These are in ipfw alone:

redirected: one instance with N redirects of ports to hosts of the LAN, which translates what comes in and goes out by em1.
addressed: one with N redirects of addresses, whose hosts lie behind another interface at a site with 10.0.0.0/8 there.
instanced: N instances, each of which translates the packets of one network that go out by em1 to an address of its own.
tagged: N rules tag the packets of sources of their own, and N accept or drop packets by tag.
counted: N rules tag the packets of sources that overlap, and no rule tests a tag.
kept: N rules of which each keeps state of TCP from a source of its own.
webbed: N rules of which each skips to a later one, drawn among all, for packets of one source or to one destination.

These are in Cisco IOS alone:

mapped: N static translations, one-to-one, and a list at the outside that permits packets to the public addresses.
asked: one list of N entries, which N translations ask, each behind the others.

And these in pf alone:

redirected: N redirects of ports to hosts of their own, which a rule for each accepts.
translated: N rules that write a source each for the packets of one network.
tagged: N rules tag the packets of sources of their own, and N pass some destination by tag.
overridden: N rules that pass or block what those of decided do, none of them quick, so that the last that matches decides.
expanded: one rule with a list of N sources and one of 500 ports, which stands for a rule for each choice.
chained: N rules that pass what comes in with the tag of the rule before, and put one of their own.
tabled: N rules, each of which uses the same table of N addresses.
own: N rules that name every address of the host; in ipfw too.
circled: N tables, of which each has an address and the next one, and the last one the first, and a rule for each.

Of these, decided, redirected, translated, tagged, overridden, expanded, chained, tabled, own and circled are written for OpenBSD's pf
too, with the same tables; where the others translate, a `match` rule writes. And this one is in OpenBSD's pf alone:

held: N rules, 255 at most, of which each redirects a port to a host of its own, held till the pass ends, and puts one of 50 tags, by
which what goes out is passed.

These are refused in their second line, since it stands for too many rules or too large a macro; the first one defines a macro
of 4,000 addresses:

repeated: one rule whose list uses the macro N times.
joined: one rule whose list uses it N times, each time with the rest of an address joined to its last word.
defined: a macro of N times the first one.
typed: one rule whose list of types of ICMP messages uses a macro of 4,000 types N times.

And this one, since its last word lacks a closing quote:

passed: one statement without effect that uses the macro N times.
"""

import random
import sys


def networks(rng):
    """64 networks, of which some lie within others."""
    found = []
    while len(found) < 64:
        length = rng.choice([8, 12, 16, 20, 24, 28])
        base = rng.choice([10, 172, 192]) << 24 | rng.getrandbits(24)
        network = (base >> (32 - length) << (32 - length), length)
        if network not in found:
            found.append(network)
    return found


def quad(address):
    return '.'.join(str(address >> shift & 255) for shift in (24, 16, 8, 0))


def spelled(network):
    return '%s/%d' % (quad(network[0]), network[1])


def accept_or_drop(rng):
    return rng.choice(['ACCEPT', 'DROP'])


def network_or_host(rng):
    length = rng.choice([8, 16, 24, 32])
    return rng.getrandbits(32) >> (32 - length) << (32 - length), length


# Rules of FORWARD


def overlapping(rng, drawn, k):
    return '-s %s -d %s -j %s' % (spelled(rng.choice(drawn)), spelled(rng.choice(drawn)), accept_or_drop(rng))


def apart(rng, drawn, k):
    source, destination = ((10 << 24) + 256 * k, 24), ((172 << 24) + (16 << 16) + 16 * k, 28)
    return '-s %s -d %s -j ACCEPT' % (spelled(source), spelled(destination))


def routed(rng, drawn, k):
    tests = ('-i eth%d' % rng.randrange(62), '-o eth%d' % rng.randrange(62), '-d ' + spelled(rng.choice(drawn)))
    chosen = ((1,), (0, 1), (1, 2), (0, 2), (0, 1, 2))[k % 5]
    return '%s -j %s' % (' '.join(tests[place] for place in chosen), accept_or_drop(rng))


def partial(rng, drawn, k):
    tests = [
        '-s ' + spelled(network_or_host(rng)),
        '-d ' + spelled(network_or_host(rng)),
        '-p {0} -m {0} --dport {1}'.format(rng.choice(['tcp', 'udp']), rng.randrange(65536)),
        '-i ' + rng.choice(['eth0', 'eth1', 'lo']),
    ]
    chosen = [test for test in tests if rng.random() < 0.5] or [rng.choice(tests)]
    return '%s -j %s' % (' '.join(chosen), accept_or_drop(rng))


def blocked(rng, drawn, k):
    return '-s %s/32 -j DROP' % quad(rng.getrandbits(32))


def listed(rng, drawn, k):
    return '-s 10.%d.%d.0/24 -d 172.16.%d.0/24 -p tcp -m tcp --dport %d -j ACCEPT' % (k // 256, k % 256, 7 * k % 256, 1000 + k)


def logged(rng, drawn, k):
    return '-j LOG'


RULES = {family.__name__: family for family in (overlapping, apart, routed, partial, blocked, listed, logged)}


# Whole files


def table(name, chains, rules):
    return ['*' + name] + [':%s [0:0]' % chain for chain in chains] + ['-A ' + rule for rule in rules] + ['COMMIT']


def filtering(policy, chains, rules):
    return table('filter', ['INPUT DROP', 'FORWARD ' + policy, 'OUTPUT ACCEPT'] + [chain + ' -' for chain in chains], rules)


NAT = ['PREROUTING ACCEPT', 'INPUT ACCEPT', 'OUTPUT ACCEPT', 'POSTROUTING ACCEPT']


def ten_rules(rng, chain):
    """10 rules of a chain that calls come back from, if no rule holds."""
    return [
        '%s -s %s -p tcp -m tcp --dport %d -j %s' % (chain, spelled(network_or_host(rng)), rng.randrange(65536), accept_or_drop(rng))
        for _ in range(10)
    ]


def called(rng, count):
    chains = ['C%d' % k for k in range(count)]
    rules = ['FORWARD -d %s -j %s' % (spelled(((10 << 24) + 256 * k, 24)), chain) for k, chain in enumerate(chains)]
    return filtering('DROP', chains, rules + [rule for chain in chains for rule in ten_rules(rng, chain)])


def shared(rng, count):
    drawn = networks(rng)
    chains = ['C%d' % k for k in range(50)]
    rules = ['FORWARD -d %s -j %s' % (spelled(rng.choice(drawn)), rng.choice(chains)) for _ in range(count)]
    return filtering('DROP', chains, rules + [rule for chain in chains for rule in ten_rules(rng, chain)])


def host(k):
    return '10.%d.%d.10' % (1 + k // 250, k % 250)


def loaded(rng, count):
    rules = ['FORWARD -m state --state RELATED,ESTABLISHED -j ACCEPT']
    rules += ['FORWARD ' + listed(rng, None, k) for k in range(count)]
    return table('filter', ['INPUT ACCEPT', 'FORWARD DROP', 'OUTPUT ACCEPT'], rules)


def stateful(rules):
    """A filter of these rules of FORWARD, behind one that accepts what belongs to a connection."""
    behind = ['FORWARD ' + rule for rule in ['-m state --state RELATED,ESTABLISHED -j ACCEPT'] + rules]
    return table('filter', ['INPUT ACCEPT', 'FORWARD DROP', 'OUTPUT ACCEPT'], behind)


def some_of(rng, tests):
    return [test for test in tests if rng.random() < 0.5]


def port_of_its_own(rng):
    return '-p {0} -m {0} --dport {1}'.format(rng.choice(['tcp', 'udp']), rng.randrange(65536))


def mixed(rng, count):
    drawn = networks(rng)

    def rule():
        tests = ['-s ' + spelled(rng.choice(drawn)), '-d ' + spelled(rng.choice(drawn)), port_of_its_own(rng)]
        tests += ['-i ' + rng.choice(['eth0', 'eth1'])]
        return '%s -j %s' % (' '.join(some_of(rng, tests) or [rng.choice(tests)]), accept_or_drop(rng))

    return stateful([rule() for _ in range(count)])


def hosts(rng, count):
    def drawn():
        return '10.%d.%d.%d/32' % (rng.randrange(4), rng.randrange(250), rng.randrange(1, 250))

    def rule():
        tests = ['-s ' + drawn(), '-d ' + drawn(), port_of_its_own(rng)]
        chosen = []
        while not any(test[:2] in ('-s', '-d') for test in chosen):
            chosen = some_of(rng, tests)
        return '%s -j %s' % (' '.join(chosen), accept_or_drop(rng))

    return stateful([rule() for _ in range(count)])


def rewritten(rng, count):
    maps = ['PREROUTING -d 203.0.113.2/32 -p tcp -m tcp --dport %d -j DNAT --to-destination %s:80' % (2000 + k, host(k)) for k in range(count)]
    rules = ['FORWARD -d %s/32 -p tcp -m tcp --dport 80 -j ACCEPT' % host(k) for k in range(count)]
    return table('nat', NAT, maps) + filtering('DROP', [], rules)


def services(rng, count):
    chains = ['KUBE-SERVICES -'] + ['KUBE-%s-%d -' % (kind, k) for k in range(count) for kind in ('SVC', 'SEP')]
    rules = ['PREROUTING -j KUBE-SERVICES', 'OUTPUT -j KUBE-SERVICES']
    rules += ['KUBE-SERVICES -d 10.96.%d.%d/32 -p tcp -m tcp --dport 80 -j KUBE-SVC-%d' % (k // 250, 1 + k % 250, k) for k in range(count)]
    for k in range(count):
        rules += ['KUBE-SVC-%d -j KUBE-SEP-%d' % (k, k), 'KUBE-SEP-%d -p tcp -m tcp -j DNAT --to-destination %s:8080' % (k, host(k))]
    return table('nat', NAT + chains, rules) + filtering('ACCEPT', [], ['FORWARD -p udp -j DROP'])


def unfolded(rng, count):
    dropping = ['LONG -s 10.0.0.9/32 -j DROP'] * 1000
    return filtering('ACCEPT', ['LONG'], ['FORWARD -j LONG'] * count + dropping)


def marked(rng, count):
    marks = ['PREROUTING -s 10.%d.%d.0/24 -j MARK --set-mark %d' % (k // 250, k % 250, k + 1) for k in range(count)]
    rules = ['FORWARD -d 172.16.%d.%d/32 -m mark --mark %d -j ACCEPT' % (k // 250, k % 250, k + 1) for k in range(count)]
    return table('mangle', MANGLE, marks) + filtering('DROP', [], rules)


MANGLE = ['PREROUTING ACCEPT', 'INPUT ACCEPT', 'FORWARD ACCEPT', 'OUTPUT ACCEPT', 'POSTROUTING ACCEPT']


def public(k):
    return '198.18.%d.%d' % (k // 250, 1 + k % 250)


def sourced(rng, count):
    marks = ['PREROUTING -s 10.%d.%d.0/24 -j MARK --set-mark %d' % (k // 250, k % 250, k + 1) for k in range(count)]
    rules = ['POSTROUTING -m mark --mark %d -j SNAT --to-source %s' % (k + 1, public(k)) for k in range(count)]
    return table('mangle', MANGLE, marks) + table('nat', NAT, rules)


def mapped(rng, count, arriving='', leaving=''):
    rules = ['PREROUTING %s-d %s/32 -j DNAT --to-destination %s' % (arriving, public(k), host(k)) for k in range(count)]
    rules += ['POSTROUTING -s %s/32 %s-j SNAT --to-source %s' % (host(k), leaving, public(k)) for k in range(count)]
    return table('nat', NAT, rules)


def mapped_by_way(rng, count):
    return mapped(rng, count, '-i eth1 ', '-o eth1 ')


def service(k):
    return '10.96.%d.%d' % (k // 250, 1 + k % 250)


def balanced(rng, count):
    ends = [(k, end, host(3 * k + end)) for k in range(count) for end in range(3)]
    marks = ['PREROUTING -s %s/32 -d %s/32 -j MARK --set-mark 16384' % (address, service(k)) for k, _, address in ends]
    chains = ['KUBE-SERVICES -'] + ['KUBE-SVC-%d -' % k for k in range(count)] + ['KUBE-SEP-%d-%d -' % (k, end) for k, end, _ in ends]
    rules = ['PREROUTING -j KUBE-SERVICES', 'OUTPUT -j KUBE-SERVICES', 'POSTROUTING -m mark --mark 16384 -j MASQUERADE']
    rules += ['KUBE-SERVICES -d %s/32 -p tcp -m tcp --dport 80 -j KUBE-SVC-%d' % (service(k), k) for k in range(count)]
    tests = ('--sport 0:21845 ', '--sport 21846:43690 ', '')
    rules += ['KUBE-SVC-%d -p tcp -m tcp %s-j KUBE-SEP-%d-%d' % (k, tests[end], k, end) for k, end, _ in ends]
    rules += ['KUBE-SEP-%d-%d -p tcp -m tcp -j DNAT --to-destination %s:8080' % end for end in ends]
    return table('mangle', MANGLE, marks) + table('nat', NAT + chains, rules)


def published(rng, count):
    maps = ['PREROUTING -d 203.0.113.2/32 -j DOCKER', 'OUTPUT -d 203.0.113.2/32 -j DOCKER']
    maps += ['POSTROUTING -s {0}/32 -d {0}/32 -p tcp -m tcp --dport 80 -j MASQUERADE'.format(host(k)) for k in range(count)]
    maps += ['DOCKER -p tcp -m tcp --dport %d -j DNAT --to-destination %s:80' % (2000 + k, host(k)) for k in range(count)]
    rules = ['FORWARD -d %s/32 -o eth0 -p tcp -m tcp --dport 80 -j ACCEPT' % host(k) for k in range(count)]
    return table('nat', NAT + ['DOCKER -'], maps) + filtering('DROP', [], rules)


def crossing(rng, count):
    def rule(chain):
        tests = ['-s ' + spelled(network_or_host(rng)), '-d ' + spelled(network_or_host(rng))]
        tests += ['-p {0} -m {0} --sport {1}:{2} --dport {3}'.format(
            rng.choice(['tcp', 'udp']), *sorted(rng.sample(range(65536), 2)), rng.randrange(65536))]
        if chain == 'FORWARD':
            tests += ['-i ' + rng.choice(['eth0', 'eth1'])]
        chosen = [test for test in tests if rng.random() < 0.5] or [rng.choice(tests)]
        return '%s %s -j %s' % (chain, ' '.join(chosen), accept_or_drop(rng))

    before, behind = [rule('PREROUTING') for _ in range(count // 2)], [rule('FORWARD') for _ in range(count - count // 2)]
    return table('mangle', ['PREROUTING ACCEPT'], before) + filtering('DROP', [], behind)


def drawn_fields(rng, count):
    """Rules of which each tests some of four fields, whatever the others test."""
    def ports():
        first = rng.randrange(65536)
        return '%d:%d' % (first, min(65535, first + rng.randrange(4000)))

    def rule():
        tests = ['-d ' + spelled(network_or_host(rng)), '-s ' + spelled(network_or_host(rng)), '--dport ' + ports(), '--sport ' + ports()]
        chosen = [test for test in tests if rng.random() < 0.5] or tests[:1]
        of_tcp = ['-p tcp -m tcp'] if any('port' in test for test in chosen) else []
        return 'FORWARD %s -j %s' % (' '.join(of_tcp + chosen), accept_or_drop(rng))

    return [rule() for _ in range(count)]


def independent(rng, count):
    return filtering('DROP', [], drawn_fields(rng, count))


def dropped(rng, count):
    return table('mangle', ['FORWARD ACCEPT'], drawn_fields(rng, count)) + table('filter', ['FORWARD DROP'], [])


# Files with the same rules in iptables and ipfw

BUILT_IN = ('INPUT', 'FORWARD', 'OUTPUT')


def everywhere(rules, chains, inner):
    """A filter whose three chains have the same rules; the rules of its other chains are the inner ones."""
    return table('filter', [name + ' DROP' for name in BUILT_IN] + [chain + ' -' for chain in chains],
                 ['%s %s' % (name, rule) for name in BUILT_IN for rule in rules] + inner)


def grouped(count):
    """The places of the first rules of the groups, each with its network and the places of its other rules."""
    return [(k, '10.%d.%d.0/24' % (k // 2560, k // 10 % 256), range(k + 1, min(k + 10, count))) for k in range(0, count, 10)]


def group_target(k):
    return '172.16.%d.0/24' % (7 * k % 256), 1000 + k


def skipping(rng, count):
    groups = grouped(count)
    chains = ['G%d' % k for k, _, _ in groups]
    rules = ['-s %s -j G%d' % (source, k) for k, source, _ in groups]
    inner = ['G%d -d %s -p tcp -m tcp --dport %d -j ACCEPT' % (k, *group_target(other)) for k, _, others in groups for other in others]
    return everywhere(rules, chains, inner)


def skipping_ipfw(rng, count):
    lines = []
    for k, source, others in grouped(count):
        lines.append('add %d skipto %d ip from not %s to any' % (10 * k + 10, 10 * k + 110, source))
        lines += ['add %d allow tcp from any to %s dst-port %d' % (10 * other + 10, *group_target(other)) for other in others]
    return lines


def drawn_addresses(rng, count):
    return [quad(address) for address in rng.sample(range(1 << 32), count)]


def sources(rng, count):
    return everywhere(['-j SOURCES'], ['SOURCES'], ['SOURCES -s %s -j ACCEPT' % address for address in drawn_addresses(rng, count)])


def sources_ipfw(rng, count):
    return ['add %d allow ip from %s to any' % (k, address) for k, address in enumerate(drawn_addresses(rng, count), 1)]


TRANSLATED = ['add 100 nat 1 ip from any to any in recv em1', 'add 200 nat 1 ip from any to any out xmit em1', 'add 300 allow ip from any to any']


def redirected_ipfw(rng, count):
    redirects = ['redirect_port tcp 10.0.0.%d:%d %d' % (2 + k % 250, 8000 + k, 2000 + k) for k in range(count)]
    return [
        'nat 1 config if em1 ' + ' '.join(redirects),
        *TRANSLATED,
    ]


def addressed_ipfw(rng, count):
    return ['nat 1 config if em1 ' + ' '.join('redirect_addr %s %s' % (host(k), public(k)) for k in range(count))] + TRANSLATED


def instanced_ipfw(rng, count):
    lines = ['nat %d config ip %s' % (k + 1, public(k)) for k in range(count)]
    lines += ['add %d nat %d ip from 10.%d.%d.0/24 to any out xmit em1' % (10 * k + 10, k + 1, k // 250, k % 250) for k in range(count)]
    return lines + ['add 65000 allow ip from any to any']


def tagged_ipfw(rng, count):
    lines = ['add %d count tag %d ip from 10.%d.%d.0/24 to any' % (k + 1, k + 1, k // 250, k % 250) for k in range(count)]
    lines += ['add %d %s ip from any to any tagged %d' % (20000 + k, rng.choice(['allow', 'deny']), k + 1) for k in range(count)]
    return lines


def counted_ipfw(rng, count):
    lines = ['add %d count tag %d ip from %s to any' % (k + 1, k + 1, spelled(network_or_host(rng))) for k in range(count)]
    return lines + ['add 65000 allow ip from any to any']


def kept_ipfw(rng, count):
    return ['add %d allow tcp from %s to any keep-state' % (k, address) for k, address in enumerate(drawn_addresses(rng, count), 1)]


def webbed_ipfw(rng, count):
    lines = []
    for k in range(count):
        network = spelled(network_or_host(rng))
        ends = 'from %s to any' % network if rng.random() < 0.5 else 'from any to %s' % network
        lines.append('add %d skipto %d ip %s' % (k + 1, rng.randrange(k + 2, count + 2), ends))
    return lines + ['add %d allow ip from any to any' % (count + 1)]


# Files with the same rules in iptables and pf


def decisions(rng, count):
    """What rules decide: whether they are quick, whether they pass, and what they test."""
    drawn = networks(rng)
    found = []
    for _ in range(count):
        source = spelled(rng.choice(drawn))
        destination = spelled(rng.choice(drawn)) if rng.random() < 0.7 else None
        port = rng.randrange(65536) if rng.random() < 0.5 else None
        if port is not None and rng.random() < 0.3:
            source = None
        found.append((rng.random() < 0.5, rng.random() < 0.5, source, destination, port))
    return found


def decided(rng, count):
    def rule(passes, source, destination, port):
        tests = ['-s ' + source] if source else []
        tests += ['-d ' + destination] if destination else []
        tests += ['-p tcp -m tcp --dport %d' % port] if port is not None else []
        return ' '.join(tests + ['-j ' + ('ACCEPT' if passes else 'DROP')])

    drawn = decisions(rng, count)
    ordered = [found for found in drawn if found[0]] + [found for found in reversed(drawn) if not found[0]]
    return everywhere([rule(*found[1:]) for found in ordered] + ['-j ACCEPT'], [], [])


def decided_pf(rng, count):
    def rule(quick, passes, source, destination, port):
        words = ['pass' if passes else 'block'] + (['quick'] if quick else []) + (['proto tcp'] if port is not None else [])
        words += ['from ' + (source or 'any'), 'to ' + (destination or 'any')] + (['port %d' % port] if port is not None else [])
        return ' '.join(words + (['flags any'] if passes else []))

    return [rule(*found) for found in decisions(rng, count)]


def overridden_pf(rng, count):
    return [line.replace(' quick', '', 1) for line in decided_pf(rng, count)]


# Files with the same rules in iptables and Cisco IOS

FACES = 62


def iptables_entry(permits, source, destination, port):
    tests = ['-s ' + source] if source else []
    tests += ['-d ' + destination] if destination else []
    tests += ['-p tcp -m tcp --dport %d' % port] if port is not None else []
    return ' '.join(tests + ['-j ' + ('ACCEPT' if permits else 'DROP')])


def wildcard(network):
    """A network as Cisco IOS writes it in lists."""
    address, length = network.split('/')
    return '%s %s' % (address, quad((1 << 32 - int(length)) - 1))


def ios_entry(permits, source, destination, port):
    words = ['permit' if permits else 'deny', 'ip' if port is None else 'tcp']
    words += [wildcard(network) if network else 'any' for network in (source, destination)]
    return ' '.join(words + (['eq %d' % port] if port is not None else []))


def chain_of(name, entries):
    return ['%s %s' % (name, iptables_entry(*entry)) for entry in entries] + [name + ' -j DROP']


def list_of(name, entries):
    return ['ip access-list extended ' + name] + [' ' + ios_entry(*entry) for entry in entries]


def applied(rng, count):
    entries = [found[1:] for found in decisions(rng, count)]
    return table('mangle', ['PREROUTING ACCEPT', 'EDGE -'], ['PREROUTING -i eth1 -j EDGE'] + chain_of('EDGE', entries))


def applied_ios(rng, count):
    entries = [found[1:] for found in decisions(rng, count)]
    return ['interface GigabitEthernet0/1', ' ip access-group EDGE in'] + list_of('EDGE', entries)


def borders(rng, count):
    """For each interface its number, and the entries of its two lists."""
    def drawn():
        return rng.random() < 0.5, spelled(network_or_host(rng))

    def entry(place):
        permits, network = drawn()
        return (permits, network, None, None) if place == 0 else (permits, None, network, None)

    return [(face, [entry(0) for _ in range(count)], [entry(1) for _ in range(count)]) for face in range(FACES)]


def bordered(rng, count):
    drawn = borders(rng, count)
    arriving = ['PREROUTING -i eth%d -j IN%d' % (face, face) for face, _, _ in drawn]
    leaving = ['FORWARD -o eth%d -j OUT%d' % (face, face) for face, _, _ in drawn]
    for face, inward, outward in drawn:
        arriving += chain_of('IN%d' % face, inward)
        leaving += chain_of('OUT%d' % face, outward)
    return (table('mangle', ['PREROUTING ACCEPT'] + ['IN%d -' % face for face, _, _ in drawn], arriving)
            + table('filter', ['FORWARD ACCEPT'] + ['OUT%d -' % face for face, _, _ in drawn], leaving))


def bordered_ios(rng, count):
    lines = []
    for face, inward, outward in borders(rng, count):
        lines += ['interface GigabitEthernet0/%d' % face, ' ip access-group IN%d in' % face, ' ip access-group OUT%d out' % face]
        lines += list_of('IN%d' % face, inward) + list_of('OUT%d' % face, outward)
    return lines


def mapped_ios(rng, count):
    lines = ['interface GigabitEthernet0/0', ' ip nat inside', 'interface GigabitEthernet0/1', ' ip nat outside', ' ip access-group EDGE in']
    lines += ['ip nat inside source static %s %s' % (host(k), public(k)) for k in range(count)]
    return lines + ['ip access-list extended EDGE'] + [' permit ip any host %s' % public(k) for k in range(count)]


def asked_ios(rng, count):
    lines = ['interface GigabitEthernet0/0', ' ip nat inside', 'interface GigabitEthernet0/1', ' ip nat outside']
    lines += ['ip nat inside source list LAN interface GigabitEthernet0/1 overload'] * count
    return lines + ['ip access-list standard LAN'] + [' permit 10.%d.%d.0 0.0.0.255' % (k // 250, k % 250) for k in range(count)]


def redirected_pf(rng, count):
    rules = ['rdr on em1 proto tcp from any to 203.0.113.2 port %d -> %s port 80' % (2000 + k, host(k)) for k in range(count)]
    return rules + ['block all'] + ['pass proto tcp from any to %s port 80 flags any' % host(k) for k in range(count)]


def translated_pf(rng, count):
    return ['nat on em1 from 10.%d.%d.0/24 to any -> %s' % (k // 250, k % 250, public(k)) for k in range(count)]


def tagged_pf(rng, count):
    rules = ['pass in from 10.%d.%d.0/24 to any flags any tag T%d' % (k // 250, k % 250, k) for k in range(count)]
    return rules + ['block out all'] + ['pass out from any to 172.16.%d.%d flags any tagged T%d' % (k // 250, k % 250, k) for k in range(count)]


def expanded_pf(rng, count):
    sources = ' '.join(drawn_addresses(rng, count))
    ports = ', '.join(str(port) for port in rng.sample(range(65536), 500))
    return ['pass proto tcp from { %s } to any port { %s }' % (sources, ports)]


def chained_pf(rng, count):
    rules = ['pass in from 10.0.0.0/8 to any flags any tag T0']
    rules += ['pass in from any to %s flags any tagged T%d tag T%d' % (spelled(network_or_host(rng)), k, k + 1) for k in range(count)]
    return rules + ['block out all tagged T%d' % count]


def circled_pf(rng, count):
    addresses = drawn_addresses(rng, count)
    tables = ['table <t%d> { %s <t%d> }' % (k, address, (k + 1) % count) for k, address in enumerate(addresses)]
    return tables + ['pass in quick proto tcp from <t%d> to any port %d flags any' % (k, k + 1) for k in range(count)] + ['block all']


def macro_of(rng, *ends):
    return 'm = "%s"' % ', '.join([*drawn_addresses(rng, 4000), *ends])


def tabled_pf(rng, count):
    """As many rules as the table that each of them uses has addresses."""
    table = ' '.join('198.%d.%d.%d' % (18 + (k >> 14), k >> 6 & 255, (k & 63) * 4 + 1) for k in range(count))
    return ['table <t> { %s }' % table] + [
        'pass in quick proto tcp from <t> to any port %d' % (k + 1) for k in range(count)] + ['block all']


def own_pf(rng, count):
    """Rules that name every address of the host."""
    return ['block in quick proto tcp from any to self port %d' % (k + 1) for k in range(count)] + ['pass all']


def own_ipfw(rng, count):
    return ['add %d deny tcp from any to me %d' % (k + 1, k + 1) for k in range(count)] + ['add 65000 allow ip from any to any']


def repeated_pf(rng, count):
    return [macro_of(rng), 'pass from { %s } to any' % ', '.join(['$m'] * count)]


def joined_pf(rng, count):
    uses = ['$m.%d.%d' % divmod(k % 65536, 256) for k in range(count)]
    return [macro_of(rng, '10.0'), 'pass from { %s } to any' % ', '.join(uses)]


def defined_pf(rng, count):
    return [macro_of(rng), 'n = %s' % ' '.join(['$m'] * count)]


def typed_pf(rng, count):
    types = ', '.join(str(rng.randrange(256)) for _ in range(4000))
    return ['m = "%s"' % types, 'pass proto icmp icmp-type { %s }' % ', '.join(['$m'] * count)]


def passed_pf(rng, count):
    return [macro_of(rng), 'scrub %s "' % ' '.join(['$m'] * count)]


# Files of OpenBSD's pf: most are those of pf word for word


def redirected_openbsd(rng, count):
    rules = ['match in on em1 proto tcp from any to 203.0.113.2 port %d rdr-to %s port 80' % (2000 + k, host(k)) for k in range(count)]
    return rules + ['block all'] + ['pass proto tcp from any to %s port 80 flags any' % host(k) for k in range(count)]


def translated_openbsd(rng, count):
    rules = ['match out on em1 from 10.%d.%d.0/24 to any nat-to %s' % (k // 250, k % 250, public(k)) for k in range(count)]
    return rules + ['pass all flags any']


def held_openbsd(rng, count):
    """Rules whose ends are held, 255 at most, beside 50 tags."""
    rules = ['pass in on em1 proto tcp from any to 203.0.113.2 port %d tag T%d rdr-to %s port 80 flags any' % (2000 + k, k % 50, host(k))
             for k in range(count)]
    return ['block all'] + rules + ['pass out from any to 10.%d.0.0/16 flags any tagged T%d' % (k, k) for k in range(50)]


FILES = {
    'iptables': {family.__name__: family for family in (
        called, shared, loaded, mixed, hosts, rewritten, services, unfolded, marked, sourced, mapped, mapped_by_way, balanced, published, crossing,
        independent, dropped, skipping, sources, decided, applied, bordered)},
    'ipfw': {'skipping': skipping_ipfw, 'sources': sources_ipfw, 'redirected': redirected_ipfw, 'addressed': addressed_ipfw,
             'instanced': instanced_ipfw, 'tagged': tagged_ipfw, 'counted': counted_ipfw, 'kept': kept_ipfw, 'own': own_ipfw,
             'webbed': webbed_ipfw},
    'pf': {'decided': decided_pf, 'redirected': redirected_pf, 'translated': translated_pf, 'tagged': tagged_pf, 'expanded': expanded_pf,
           'tabled': tabled_pf, 'own': own_pf, 'overridden': overridden_pf, 'chained': chained_pf, 'circled': circled_pf,
           'repeated': repeated_pf, 'joined': joined_pf, 'defined': defined_pf, 'typed': typed_pf, 'passed': passed_pf},
    'openbsd': {'decided': decided_pf, 'redirected': redirected_openbsd, 'translated': translated_openbsd, 'tagged': tagged_pf,
                'expanded': expanded_pf, 'tabled': tabled_pf, 'own': own_pf, 'overridden': overridden_pf, 'chained': chained_pf,
                'circled': circled_pf, 'held': held_openbsd},
    'ios': {'applied': applied_ios, 'bordered': bordered_ios, 'mapped': mapped_ios, 'asked': asked_ios},
}


def main(count, family, lang='iptables'):
    rng = random.Random(20181)
    if lang != 'iptables' or family in FILES[lang]:
        lines = FILES[lang][family](rng, count)
    else:
        drawn = networks(rng)
        rules = ['FORWARD ' + RULES[family](rng, drawn, k) for k in range(count)]
        lines = filtering('ACCEPT' if family == 'blocked' else 'DROP', [], rules)
    print('\n'.join(lines))


main(int(sys.argv[1]), *sys.argv[2:])
