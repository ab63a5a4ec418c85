"""Tries tools/site-of-host on network namespaces, on saved outputs and on running configurations: those of Linux are made here, and
those of FreeBSD, OpenBSD and Cisco IOS in hosts/ are written from their manuals. What is expected was worked out by hand from the
same. Each site file is read by `fws site2`, which has to give its lines without the comments.
"""

import json
import os
import shlex
import shutil
import tempfile

from common import EXAMPLES, HERE, PROGRAM, SITE_OF_HOST, read, run, write

# Namespaces: how each is set up, the lines of its site file, and comment lines that are among the others.
NAMESPACES = {
    'addresses, a bridge and a gateway': ('''
echo 1 >/proc/sys/net/ipv6/conf/default/addr_gen_mode # no addresses but those below
for face in lan0 wan0 p1 off0; do ip link add name $face type veth peer name $face-end; done
ip link add name br0 type bridge
ip link set p1 master br0
ip addr add 10.0.0.1/24 dev lan0
ip addr add 10.0.0.9/24 dev lan0
ip addr add 10.0.8.1/24 dev lan0
ip addr add 2001:db8::1/64 dev lan0 nodad
ip addr add 203.0.113.2/30 dev wan0
ip addr add 192.168.30.1/24 dev br0
ip addr add 192.168.99.1/24 dev off0
ip addr add 192.0.2.1/32 dev lo
for face in lo lan0 lan0-end wan0 wan0-end p1 p1-end br0; do ip link set $face up; done
ip route add default via 203.0.113.1
ip route add default via 10.0.0.254 metric 200
ip route add 10.9.0.0/16 via 10.0.0.254
ip route add 10.50.0.0/16 nexthop via 10.0.0.254 dev lan0 nexthop via 203.0.113.1 dev wan0
ip route add 10.60.0.0/16 nexthop via 10.0.0.253 dev lan0 nexthop via 10.0.0.254 dev lan0
ip route add blackhole 10.99.0.0/16
ip route add 198.18.0.7 via 203.0.113.1
echo 1 >/proc/sys/net/ipv4/ip_forward
''', '''site 2
interface lan0 ipt=lan0 ipfw=em0 pf=em0 ios=GigabitEthernet0/0 nat=inside
interface wan0 ipt=wan0 ipfw=em1 pf=em1 ios=GigabitEthernet0/1 nat=outside
interface br0 ipt=br0 ipfw=em2 pf=em2 ios=GigabitEthernet0/2 nat=inside
address lan0 10.0.0.1/24
address lan0 10.0.8.1/24
address lan0 10.0.0.9/32
address wan0 203.0.113.2/30
address br0 192.168.30.1/24
route 10.9.0.0/16 lan0
route 10.60.0.0/16 lan0
route 198.18.0.7/32 wan0
loopback ipt=lo ipfw=lo0 pf=lo0 ios=Loopback0
default wan0
forwarding yes
one_pass 1
''', ('# guessed: the names behind ipfw= and pf= and ios=, by the order of the interfaces',
      '# guessed: one_pass 1, with which ipfw begins',
      '# left out: 2 addresses of IPv6',
      '# left out: the interface p1: it has no IPv4 address, and is a port of br0',
      '# left out: the interface off0: it is down',
      '# left out: the interface wan0-end: it has no IPv4 address',
      '# left out: the address 192.0.2.1 of loopback, which has no address line: where packets to it count, write it with /32 as an '
      'address of another interface',
      '# left out: a route to 0.0.0.0/0 by lan0: another one to this network is preferred',
      '# left out: the network of the address 10.0.0.9/24, which is written with /32: that network is above, for lan0',
      '# left out: the route to 10.50.0.0/16: it leads to several interfaces, lan0 and wan0; a shorter one counts in its place',
      '# left out: the route to 10.99.0.0/16: its packets are dropped (blackhole); a shorter one counts in its place')),
    'one interface and no default route': ('''
ip link add name eth7 type veth peer name end
ip addr add 192.0.2.7/24 dev eth7
for face in lo eth7 end; do ip link set $face up; done
''', '''site 2
interface eth7 ipt=eth7 ipfw=em0 pf=em0 ios=GigabitEthernet0/0 nat=none
address eth7 192.0.2.7/24
loopback ipt=lo ipfw=lo0 pf=lo0 ios=Loopback0
default eth7
forwarding no
one_pass 1
''', ('# guessed: default eth7: the host has no default route. Packets without a route go there in the tables, where the host '
      'drops or sends them otherwise',)),
    'a link to a peer, and networks that two interfaces have': ('''
for face in a0 b0 tun0; do ip link add name $face type veth peer name $face-end; done
ip addr add 10.8.0.1 peer 10.8.0.2/32 dev tun0
ip addr add 192.168.1.2/24 dev a0 metric 100
ip addr add 192.168.1.3/24 dev b0 metric 600
for face in lo a0 a0-end b0 b0-end tun0 tun0-end; do ip link set $face up; done
ip route add 0.0.0.0/1 dev tun0
ip route add 128.0.0.0/1 dev tun0
ip route add default via 192.168.1.1 dev a0
''', '''site 2
interface a0 ipt=a0 ipfw=em0 pf=em0 ios=GigabitEthernet0/0 nat=outside
interface b0 ipt=b0 ipfw=em1 pf=em1 ios=GigabitEthernet0/1 nat=inside
interface tun0 ipt=tun0 ipfw=em2 pf=em2 ios=GigabitEthernet0/2 nat=inside
address a0 192.168.1.2/24
address b0 192.168.1.3/32
address tun0 10.8.0.1/32
route 0.0.0.0/1 tun0
route 10.8.0.2/32 tun0
route 128.0.0.0/1 tun0
loopback ipt=lo ipfw=lo0 pf=lo0 ios=Loopback0
default a0
forwarding no
one_pass 1
''', ('# left out: the network of the address 192.168.1.3/24, which is written with /32: that network is above, for a0',)),
}
VLAN = ('''
ip link add name eth0 type veth peer name end
ip link add link eth0 name eth0.20 type vlan id 20
ip addr add 10.0.0.1/24 dev eth0
ip addr add 192.168.20.1/24 dev eth0.20
for face in lo eth0 end eth0.20; do ip link set $face up; done
ip route add default via 10.0.0.254
''', '''site 2
interface eth0 ipt=eth0 ipfw=em0 pf=em0 ios=GigabitEthernet0/0 nat=outside
interface eth0.20 ipt=eth0.20 ipfw=em1 pf=em1 ios=GigabitEthernet0/1 nat=inside
address eth0 10.0.0.1/24
address eth0.20 192.168.20.1/24
loopback ipt=lo ipfw=lo0 pf=lo0 ios=Loopback0
default eth0
forwarding no
one_pass 1
''', ())


def lines_of(text):
    """The lines of a site file without its comments, and these."""
    lines = text.splitlines()
    return [line for line in lines if not line.startswith('#')], [line for line in lines if line.startswith('#')]


def is_read(tally, what, text):
    """Checks that `fws site2` reads the text as it is, and gives the lines without comments."""
    status, said, _ = run(PROGRAM, 'site2', '/dev/stdin', told=text)
    tally.check('%s: what site2 says' % what, (0, lines_of(text)[0]), (status, said.splitlines()))


def check_namespace(tally, what, setup, wanted, comments):
    script = 'set -e\n%s\nexec %s' % (setup, shlex.quote(SITE_OF_HOST))
    status, text, said = run('unshare', '-rn' if os.getuid() else '-n', 'sh', '-c', script)
    if not tally.check('%s: status' % what, 0, status):
        print(said)
        return
    lines, notes = lines_of(text)
    tally.check('%s: lines' % what, wanted.splitlines(), lines)
    for comment in comments:
        tally.holds(what, comment in notes, 'no line %r in %r' % (comment, notes))
    is_read(tally, what, text)


def can_make(*types):
    """Whether namespaces can be made here, and in them links of these types."""
    script = 'set -e; %s; ip -j addr' % '; '.join('ip link add name x%d type %s' % pair for pair in enumerate(types))
    return run('unshare', '-rn' if os.getuid() else '-n', 'sh', '-c', script)[0] == 0


def check_namespaces(tally):
    if not shutil.which('ip') or not shutil.which('unshare'):
        tally.skip('namespaces', 'no ip or no unshare')
    elif not can_make('veth', 'bridge'):
        tally.skip('namespaces', 'none can be made here, or not with links of veth and bridges')
    else:
        for what, case in NAMESPACES.items():
            check_namespace(tally, what, *case)
        if can_make('veth', 'bridge', 'vlan id 20 link x0'):
            check_namespace(tally, 'a VLAN', *VLAN)
        else:
            tally.skip('a VLAN in a namespace', 'the kernel has none')


# Saved outputs


def made(addresses, routes, *options):
    """What the tool says of two texts."""
    with tempfile.TemporaryDirectory() as folder:
        names = [os.path.join(folder, name) for name in ('an addr', 'a route')]
        write(names[0], addresses)
        write(names[1], routes)
        return run(SITE_OF_HOST, '--addr', names[0], '--route', names[1], *options)


def face(name, *addresses, flags=('UP',), **further):
    return {'ifname': name, 'flags': list(flags), 'addr_info': [
        {'family': 'inet', 'local': address.split('/')[0], 'prefixlen': int(address.split('/')[1])} for address in addresses], **further}


def route(destination, device, **further):
    return {'dst': destination, 'dev': device, 'flags': [], **further}


def check_saved(tally):
    for system in ('freebsd', 'openbsd'):
        place = os.path.join(HERE, 'hosts', system)
        status, text, said = run(SITE_OF_HOST, '--addr', place + '.addr', '--route', place + '.route')
        tally.check('%s: status and errors' % system, (0, ''), (status, said))
        tally.check('%s: the site file' % system, read(place + '.site'), text.partition('\n')[2])
        is_read(tally, system, text)
    place = os.path.join(HERE, 'hosts/edge')
    for words, told in (((place + '.ios',), ''), (('-',), read(place + '.ios'))):
        status, text, said = run(SITE_OF_HOST, '--ios', *words, told=told)
        tally.check('a running configuration', (0, read(place + '.site'), ''), (status, text.partition('\n')[2], said))
    is_read(tally, 'a running configuration', text)
    place = os.path.join(EXAMPLES, 'router')
    status, text, said = run(SITE_OF_HOST, '--addr', place + '.addr', '--route', place + '.route')
    tally.check('the router of the examples', (0, read(place + '.site'), ''), (status, text, said))
    is_read(tally, 'the router of the examples', text)


LOOPBACK = face('lo', '127.0.0.1/8', flags=('LOOPBACK', 'UP'))

# Saved outputs of Linux: addresses, routes, options, and lines that have to be among those of the answer.
LINES = (
    ('a VLAN', [LOOPBACK, face('eth0', '10.0.0.1/24'), face('eth0.20', '192.168.20.1/24', link='eth0')],
     [route('default', 'eth0', gateway='10.0.0.254'), route('10.0.0.0/24', 'eth0'), route('192.168.20.0/24', 'eth0.20')], (),
     ('interface eth0.20 ipt=eth0.20 ipfw=em1 pf=em1 ios=GigabitEthernet0/1 nat=inside', 'address eth0.20 192.168.20.1/24')),
    ('a host whose one interface has no network below it', [LOOPBACK, face('eth0'), face('eth0.20', '192.168.20.1/24', link='eth0')],
     [route('192.168.20.0/24', 'eth0.20')], (), ('# left out: the interface eth0: it has no IPv4 address',)),
    ('settings that are told', [LOOPBACK, face('eth0', '10.0.0.1/24')], [route('10.0.0.0/24', 'eth0')],
     ('--forwarding', 'yes', '--one-pass', '0'), ('forwarding yes', 'one_pass 0', 'default eth0')),
    ('a forwarding that is guessed', [face('a', '10.0.0.1/24'), face('b', '10.0.1.1/24')],
     [route('10.0.0.0/24', 'a'), route('10.0.1.0/24', 'b')], (),
     ('forwarding yes', '# guessed: forwarding yes, by the number of interfaces')),
    ('a name that is taken', [face('host', '10.0.0.1/24')], [route('10.0.0.0/24', 'host')], (),
     ('interface host-if ipt=host ipfw=em0 pf=em0 ios=GigabitEthernet0/0 nat=none', 'address host-if 10.0.0.1/24', 'default host-if')),
    ('a name that is no name', [face('eth0', '10.0.0.1/24'), face('0net\n#', '10.0.1.1/24')],
     [route('10.0.0.0/24', 'eth0'), route('10.0.1.0/24', '0net\n#')], (),
     ('# left out: the interface 0net\\n#: a site file has names of 1 to 30 letters, digits and _./- alone, with a letter in front',
      '# left out: the route to 10.0.1.0/24: its interface 0net\\n# was left out; a shorter one counts in its place')),
    ('a default route over several interfaces', [face('a', '10.0.0.1/24'), face('b', '203.0.113.2/30')],
     [{'dst': 'default', 'flags': [], 'nexthops': [{'gateway': '10.0.0.2', 'dev': 'a'}, {'gateway': '203.0.113.1', 'dev': 'b'}]},
      route('10.0.0.0/24', 'a'), route('203.0.113.0/30', 'b')], (),
     ('default a', '# guessed: default a: the default route leads to a and b')),
    ('an unreachable default', [face('a', '10.0.0.1/24')],
     [{'type': 'unreachable', 'dst': 'default', 'flags': []}, route('10.0.0.0/24', 'a')], (),
     ('default a', '# guessed: default a: the default route has no place here (unreachable). Packets without a route go there in '
      'the tables, where the host drops or sends them otherwise')),
    ('an address of two interfaces', [face('a', '10.0.0.1/24'), face('b', '10.0.0.1/24', '10.0.1.1/24')],
     [route('10.0.0.0/24', 'a'), route('10.0.1.0/24', 'b')], (),
     ('address a 10.0.0.1/24', 'address b 10.0.1.1/24', '# left out: the address 10.0.0.1 of b: another line has it')),
    ('a network without a route', [face('a', '10.0.0.1/24')], [], (),
     ('address a 10.0.0.1/32', '# left out: the network of the address 10.0.0.1/24, which is written with /32: no route to that network '
      'leads to a alone')),
    ('an address of loopback', [face('lo', '127.0.0.1/8', '192.0.2.1/32', flags=('LOOPBACK', 'UP')), face('a', '10.0.0.1/24')],
     [route('10.0.0.0/24', 'a')], (),
     ('# left out: the address 192.0.2.1 of loopback, which has no address line: where packets to it count, write it with /32 as an '
      'address of another interface',)),
    ('an address that is one of loopback', [face('a', '127.0.0.9/8', '10.0.0.1/24'), face('b', '127.0.0.10/32')],
     [route('10.0.0.0/24', 'a')], (),
     ('address a 10.0.0.1/24', '# left out: the address 127.0.0.9 of a: it is one of loopback anyway',
      '# left out: the interface b: its addresses are those of interfaces above or of loopback')),
    ('a network that holds loopback', [face('a', '100.0.0.1/2')], [route('64.0.0.0/2', 'a')], (),
     ('address a 100.0.0.1/32', 'route 64.0.0.0/2 a')),
    ('a link that is down', [face('a', '10.0.0.1/24', flags=('NO-CARRIER', 'UP'))], [route('10.0.0.0/24', 'a', flags=['linkdown'])], (),
     ('address a 10.0.0.1/24', '# guessed: that a, which has no link now, counts as one that has')),
    ('a route by TOS, and one of another table', [face('a', '10.0.0.1/24')],
     [route('10.0.0.0/24', 'a'), route('10.1.0.0/16', 'a', tos='0x10'), route('10.2.0.0/16', 'a', table='100')], (),
     ('# left out: the route to 10.1.0.0/16: it is for packets with a TOS alone', '# left out: 1 routes of tables other than the main one')),
)


def check_lines(tally):
    for what, addresses, routes, options, wanted in LINES:
        status, text, said = made(json.dumps(addresses), json.dumps(routes), *options)
        tally.check('%s: status and errors' % what, (0, ''), (status, said))
        for line in wanted:
            tally.holds(what, line in text.splitlines(), 'no line %r in %r' % (line, text))
        is_read(tally, what, text)


# The same of FreeBSD and OpenBSD, in short.
BSD_LINES = (
    ('prefixes behind a slash, a name that is cut off, and the columns of an older netstat',
     'em0: flags=8843<UP> metric 0 mtu 1500\n\tinet 10.0.0.1/24 broadcast 10.0.0.255\n'
     'verylongname0: flags=8843<UP> metric 0 mtu 1500\n\tinet 192.0.2.1 netmask 255.255.255.0\n',
     'Internet:\nDestination Gateway Flags Refs Use Netif Expire\n10.0.0.0/24 link#1 U 0 0 em0\n192.0.2.0/24 link#2 U 0 0 verylong\n'
     'default 192.0.2.9 UGS 0 5 verylong\n',
     ('address em0 10.0.0.1/24', 'address verylongname0 192.0.2.1/24', 'default verylongname0')),
    ('a table without a heading of its family, and networks with zeros left out',
     'em0: flags=8843<UP> mtu 1500\n\tinet 10.0.0.1 netmask 0xff000000\n',
     'Destination Gateway Flags Iface\n10/8 10.0.0.1 UCn em0\n172.16 10.0.0.9 UGS em0\n198.51.100.7 10.0.0.9 UGHS em0\n0/0 10.0.0.9 UGS em0\n',
     ('address em0 10.0.0.1/8', 'route 172.16.0.0/16 em0', 'route 198.51.100.7/32 em0', 'default em0')),
    ('a network of loopback that is rejected, and one that leads there',
     'lo0: flags=8049<UP,LOOPBACK> mtu 1500\n\tinet 127.0.0.1 netmask 0xff000000\nem0: flags=8843<UP> mtu 1500\n'
     '\tinet 10.0.0.1 netmask 0xffffff00\n',
     'Destination Gateway Flags Iface\n10.0.0/24 10.0.0.1 UCn em0\n127/8 127.0.0.1 UGRS lo0\n198.18/15 127.0.0.1 UGS lo0\n',
     ('address em0 10.0.0.1/24', '# left out: the route to 198.18.0.0/15: it leads to loopback; a shorter one counts in its place')),
)


def check_bsd_lines(tally):
    for what, addresses, routes, wanted in BSD_LINES:
        status, text, said = made(addresses, routes)
        tally.check('%s: status and errors' % what, (0, ''), (status, said))
        for line in wanted:
            tally.holds(what, line in text.splitlines(), 'no line %r in %r' % (line, text))
        is_read(tally, what, text)


INTERFACE = 'interface FastEthernet0/0\n ip address 10.0.0.1 255.255.255.0\n'

# Running configurations: options, and lines that have to be among those of the answer.
IOS_LINES = (
    ('a router that does not route', INTERFACE + 'no ip routing\nip default-gateway 10.0.0.254\n', (),
     ('interface FastEthernet0/0 ipt=eth0 ipfw=em0 pf=em0 ios=FastEthernet0/0 nat=outside', 'default FastEthernet0/0', 'forwarding no')),
    ('a forwarding that is told', INTERFACE, ('--forwarding', 'no', '--one-pass', '0'), ('forwarding no', 'one_pass 0')),
    ('two routes of one kind', INTERFACE + 'interface FastEthernet0/1\n ip address 10.0.1.1 255.255.255.0\n'
     'ip route 172.16.0.0 255.240.0.0 10.0.0.2\nip route 172.16.0.0 255.240.0.0 10.0.1.2\n', (),
     ('# left out: the route to 172.16.0.0/12: it leads to several interfaces, FastEthernet0/0 and FastEthernet0/1; a shorter one '
      'counts in its place',)),
    ('a next hop that nothing leads to', INTERFACE + 'ip route 172.16.0.0 255.240.0.0 192.0.2.9\n', (),
     ('# left out: the route to 172.16.0.0/12: it names no interface that is up; a shorter one counts in its place',)),
    ('a default that comes with the address', INTERFACE + 'interface FastEthernet0/1\n ip address dhcp\nip route 0.0.0.0 0.0.0.0 dhcp\n', (),
     ('default FastEthernet0/1', 'address FastEthernet0/1 192.0.2.1/32',
      '# guessed: that the route to 0.0.0.0/0 by dhcp leads to FastEthernet0/1, which gets its address from elsewhere')),
    ('line ends of another kind, and comments', INTERFACE.replace('\n', '\r\n! a comment\r\n'), (), ('address FastEthernet0/0 10.0.0.1/24',)),
)


def made_of_ios(text, *options):
    return run(SITE_OF_HOST, '--ios', '-', *options, told=text)


def check_ios_lines(tally):
    for what, text, options, wanted in IOS_LINES:
        status, text, said = made_of_ios(text, *options)
        tally.check('%s: status and errors' % what, (0, ''), (status, said))
        for line in wanted:
            tally.holds(what, line in text.splitlines(), 'no line %r in %r' % (line, text))
        is_read(tally, what, text)


IOS_FAULTS = (
    ('no interface', 'hostname branch\n', 'the text is no running configuration: it has no interface'),
    ('no address', 'interface FastEthernet0/0\n no ip address\n',
     'the host has no interface that is up and has an IPv4 address, apart from loopback'),
    ('a bad mask of an address', 'interface FastEthernet0/0\n ip address 10.0.0.1 255.0.255.0\n',
     "the line 'ip address 10.0.0.1 255.0.255.0' of FastEthernet0/0 has no address that can be read"),
    ('a bad mask of a route', INTERFACE + 'ip route 10.1.0.0 255.0.255.0 10.0.0.2\n',
     "the line 'ip route 10.1.0.0 255.0.255.0 10.0.0.2' has no network that can be read"),
)


def check_limits(tally):
    many = [face('a', '10.0.0.1/24'), face('b', '203.0.113.2/30')]
    own = [route('default', 'b'), route('10.0.0.0/24', 'a'), route('203.0.113.0/30', 'b')]
    # 8,192 routes, of which every other one leads where the default does
    routes = [route('20.%d.%d.0/24' % (k >> 8, k & 255), 'ab'[k & 1]) for k in range(8192)]
    status, text, _ = made(json.dumps(many), json.dumps(own + routes))
    tally.check('many routes: status', 0, status)
    tally.check('many routes: lines', ['route 20.%d.%d.0/24 a' % (k >> 8, k & 255) for k in range(0, 8192, 2)],
                [line for line in text.splitlines() if line.startswith('route')])
    is_read(tally, 'many routes', text)
    routes = [route('20.%d.%d.0/24' % (k >> 8, k & 255), 'a') for k in range(4097)]
    tally.check('too many routes', (1, '', 'site-of-host: the host has 4097 routes that differ from shorter ones, and a site file has '
                                    '4096 at most\n'), made(json.dumps(many), json.dumps(own + routes)))
    faces = [face('eth%d' % k, '10.0.%d.1/24' % k) for k in range(63)]
    tally.check('too many interfaces', (1, '', 'site-of-host: the host has 63 interfaces with addresses, and a site file has 62 at '
                                        'most\n'), made(json.dumps(faces), '[]'))


FAULTS = (
    ('no JSON', '[{', '[]', 'what was said of addresses is no output of ip -j: it is no JSON'),
    ('no objects', '[1]', '[]', 'what was said of addresses is no output of ip -j: it is no list of objects'),
    ('nothing', '[]', '[]', 'the host has no interface that is up and has an IPv4 address, apart from loopback'),
    ('empty files', '', '', 'what was said of addresses is no output of ip -j addr or ifconfig -a'),
    ('two systems', '[]', 'Routing tables\n', 'one of the two outputs is of ip -j and the other is not'),
    ('no table of routes', 'em0: flags=8843<UP> mtu 1500\n\tinet 10.0.0.1 netmask 0xffffff00\n', 'nothing\n',
     'what was said of routes is no output of netstat -rn: it has no table with the columns Destination, Flags and Netif or Iface'),
    ('an interface that is given twice', json.dumps([face('a', '10.0.0.1/24'), face('a', '10.0.1.1/24')]), '[]',
     'what was said of addresses names the interface a twice'),
    ('a bad mask', 'em0: flags=8843<UP> mtu 1500\n\tinet 10.0.0.1 netmask 0xff00ff00\n', '',
     "the line 'inet 10.0.0.1 netmask 0xff00ff00' of em0 has no address that can be read"),
)


def check_faults(tally):
    for what, addresses, routes, why in FAULTS:
        tally.check(what, (1, '', 'site-of-host: %s\n' % why), made(addresses, routes))
    tally.check('an absent file', (1, '', 'site-of-host: cannot read /nowhere: No such file or directory\n'),
                run(SITE_OF_HOST, '--addr', '/nowhere', '--route', '/nowhere'))
    for what, text, why in IOS_FAULTS:
        tally.check(what, (1, '', 'site-of-host: %s\n' % why), made_of_ios(text))
    for words in (('--addr', '/dev/null'), ('--route', '/dev/null'), ('file',), ('--forwarding', 'maybe'),
                  ('--ios', '-', '--addr', '/dev/null', '--route', '/dev/null')):
        status, text, said = run(SITE_OF_HOST, *words)
        tally.check('words %r' % (words,), (2, ''), (status, text))
        tally.holds('words %r' % (words,), said.startswith('usage: site-of-host') and 'Traceback' not in said, said)
    status, text, _ = run(SITE_OF_HOST, '--help')
    tally.holds('--help', status == 0 and text.startswith('usage: site-of-host'), text)


def check(tally):
    check_namespaces(tally)
    check_saved(tally)
    check_lines(tally)
    check_bsd_lines(tally)
    check_ios_lines(tally)
    check_limits(tally)
    check_faults(tally)


if __name__ == '__main__':
    from common import Tally
    TALLY = Tally()
    check(TALLY)
    print(TALLY.right, TALLY.wrong, TALLY.skipped)
