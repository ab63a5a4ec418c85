"""python3 checks/namespaces.py [--seed N] [--packets N] [--all | NAME ..], at the top of the repository; checks/namespaces.sh says how it is called

Lets a kernel say what translations do. Each file of checks/real that FILES names, or that a word is a part of, is translated to
iptables, and the text is loaded into a router: a network namespace with the addresses and routes of the site file. At the other end of each
of its interfaces this program sends packets and sees what arrives; in the router it sees what is delivered there, answers, and sends the
router's own packets.

- New packets of TCP, UDP and ICMP, half of them drawn from the rows of the file that accept, half from the addresses and ports of the file,
  fare as `trace` says of the file, in its own language: dropped, delivered, or sent out by an interface, and with which ends.
- A reply to each connection fares so too, and behind it a packet of the connection again. So connections out, by a redirect, and to
  the router and from it work where the file lets them.
- Of a file of iptables the file itself is loaded into a second router. All these packets fare the same there, and so do packets that the
  kernel's connection tracking calls INVALID: SYN with ACK, RST, FIN, no flags and many of them out of nothing, and ICMP types that
  answer nothing. No packet of the model is INVALID, so that a file whose rules ask for NEW or INVALID themselves says more than its tables
  hold: how many of these packets fare otherwise under its translation is printed, and doesn't count.

The model says nothing of broadcasts, of addresses 0.0.0.0/8, 127.0.0.0/8 and 224.0.0.0/3 on the wire, nor of packets that arrive with an
address of the router as their source, which a kernel drops by itself: none of these is sent.

Prints a line for each packet that fares otherwise, and last how many went right. Exit status 1 where one went wrong. It ends with one
line and status 0 where namespaces, or iptables in them, aren't allowed.
"""

import ipaddress
import json
import os
import random
import re
import select
import socket
import struct
import subprocess
import sys
import tempfile

import translations

REAL = os.path.join(translations.TOP, 'checks/real')
FILES = (
    'home-cable.iptables', 'home-consoles.iptables', 'office-dmz.iptables', 'zones.iptables', 'two-lines.iptables', 'school.iptables',
    'vpn-hub.iptables', 'mail-single.iptables', 'home-fbsd.ipfw', 'shop.ipfw', 'servers-outer.ipfw', 'colo.ipfw', 'home-vdsl.pf',
    'dmz-pf.pf', 'media.pf', 'quick-gw.pf', 'agency.ios', 'branch-line.ios', 'web-ios.ios', 'home-obsd.openbsd', 'hostel.openbsd',
    'carp-pair.openbsd')
LANGUAGES = ('iptables', 'ipfw', 'pf', 'ios', 'openbsd')
TCP, UDP, ICMP = 6, 17, 1
FIN, SYN, RST, ACK = 1, 2, 4, 16
QUIET = 0.3
WITHIN = 'FWS_WITHIN_A_NAMESPACE'


# Packets


def checksum(data):
    total = sum(struct.unpack('!%dH' % (len(data + b'\0') // 2), (data + b'\0')[:len(data + b'\0') // 2 * 2]))
    while total >> 16:
        total = (total & 65535) + (total >> 16)
    return ~total & 65535


def packet(number, echo, proto, src, sport, dst, dport, flags=0, kind=8, seq=1000, ack=0):
    """A packet of IP with an identification, and of ICMP with that of the echo."""
    ends = socket.inet_aton(src) + socket.inet_aton(dst)
    if proto == TCP:
        body = struct.pack('!HHIIBBHHH', sport, dport, seq, ack, 5 << 4, flags, 8192, 0, 0)
        body = body[:16] + struct.pack('!H', checksum(ends + struct.pack('!BBH', 0, proto, len(body)) + body)) + body[18:]
    elif proto == UDP:
        body = struct.pack('!HHHH', sport, dport, 12, 0) + b'ping'
        body = body[:6] + struct.pack('!H', checksum(ends + struct.pack('!BBH', 0, proto, len(body)) + body)) + body[8:]
    else:
        rest = b'ping'
        if kind in (3, 5, 11):
            rest = struct.pack('!BBHHHBBH', 69, 0, 28, number, 0, 64, UDP, 0) + socket.inet_aton(dst) + socket.inet_aton(src) + b'\0\7\0\7\0\10\0\0'
        body = struct.pack('!BBHHH', kind, 0, 0, echo, 1) + rest
        body = body[:2] + struct.pack('!H', checksum(body)) + body[4:]
    head = struct.pack('!BBHHHBBH', 69, 0, 20 + len(body), number, 0, 64, proto, 0) + ends
    return head[:10] + struct.pack('!H', checksum(head)) + head[12:] + body


class Seen:
    """What a packet says that was seen."""

    def __init__(self, data):
        self.number, self.proto = struct.unpack('!H', data[4:6])[0], data[9]
        self.src, self.dst = socket.inet_ntoa(data[12:16]), socket.inet_ntoa(data[16:20])
        body = data[(data[0] & 15) * 4:]
        self.sport = self.dport = self.flags = self.seq = self.kind = 0
        if self.proto == TCP and len(body) >= 20:
            self.sport, self.dport, self.seq, _, _, self.flags = struct.unpack('!HHIIBB', body[:14])
        elif self.proto == UDP and len(body) >= 8:
            self.sport, self.dport = struct.unpack('!HH', body[:4])
        elif self.proto == ICMP and len(body) >= 8:
            self.kind, _, _, self.echo = struct.unpack('!BBHH', body[:6])

    def ends(self):
        return (self.src, self.sport, self.dst, self.dport)


# The router, which runs in a namespace of its own and is asked by lines


def bound(kind, port):
    there = socket.socket(socket.AF_INET, kind)
    there.setsockopt(socket.SOL_SOCKET, socket.SO_REUSEADDR, 1)
    there.setsockopt(socket.SOL_IP, 8, 1)
    there.bind(('0.0.0.0', port))
    there.setblocking(False)
    if kind == socket.SOCK_STREAM:
        there.listen(100)
    return there


def answer(there):
    """Answers what came by UDP from the address to which it went."""
    data, told, _, peer = there.recvmsg(2048, 256)
    for level, kind, value in told:
        if (level, kind) == (socket.SOL_IP, 8):
            about = struct.pack('i4s4s', 0, value[8:12], b'\0\0\0\0')
            try:
                there.sendmsg([data], [(socket.SOL_IP, 8, about)], 0, peer)
            except OSError:
                pass


def router():
    raws = [socket.socket(socket.AF_INET, socket.SOCK_RAW, proto) for proto in (TCP, UDP, ICMP)]
    sender = socket.socket(socket.AF_INET, socket.SOCK_RAW, 255)
    for raw in raws:
        raw.setblocking(False)
        raw.setsockopt(socket.SOL_SOCKET, socket.SO_RCVBUF, 1 << 22)
    udp, tcp = [], []
    print(os.getpid(), flush=True)
    pending = b''
    while True:
        ready = select.select([0] + udp, [], [])[0]
        for there in ready:
            if there != 0:
                answer(there)
        if 0 not in ready:
            continue
        more = os.read(0, 1 << 20)
        if not more:
            return
        pending += more
        while b'\n' in pending:
            line, pending = pending.split(b'\n', 1)
            said = json.loads(line)
            told = True
            if 'run' in said:
                ended = subprocess.run(said['run'], input=said.get('input', '').encode(), capture_output=True, check=False)
                told = [ended.returncode, ended.stdout.decode(), ended.stderr.decode()]
            elif 'write' in said:
                try:
                    with open(said['write'], 'w', encoding='ascii') as file:
                        file.write(said['value'])
                except OSError as error:
                    told = str(error)
            elif 'listen' in said:
                udp += [bound(socket.SOCK_DGRAM, port) for proto, port in said['listen'] if proto == UDP]
                tcp += [bound(socket.SOCK_STREAM, port) for proto, port in said['listen'] if proto == TCP]
            elif 'send' in said:
                for data, dst in said['send']:
                    try:
                        sender.sendto(bytes.fromhex(data), (dst, 0))
                    except OSError:
                        pass
            elif 'drain' in said:
                told = []
                for raw in raws:
                    while True:
                        try:
                            told.append(raw.recv(4096).hex())
                        except BlockingIOError:
                            break
            elif 'end' in said:
                return
            print(json.dumps(told), flush=True)


class Site:
    """What a site file says: interfaces by their names in tables, addresses, routes, and whether packets are forwarded."""

    def __init__(self, path):
        with open(path, encoding='utf-8') as file:
            lines = [line.split() for line in file if line.strip() and not line.lstrip().startswith('#')]
        self.names, self.addresses, self.routes = {}, [], []
        for words in lines:
            if words[0] == 'interface':
                self.names[words[1]] = [word for word in words if word.startswith('ipt=')][0][4:]
                if '/' in words[2] and '=' not in words[2]:
                    self.addresses.append((words[1], ipaddress.IPv4Interface(words[2])))
            elif words[0] == 'address':
                self.addresses.append((words[1], ipaddress.IPv4Interface(words[2])))
            elif words[0] == 'route':
                self.routes.append((words[2], ipaddress.IPv4Network(words[1], strict=False)))
            elif words[0] == 'default':
                self.default = words[1]
            elif words[0] == 'forwarding':
                self.forwards = words[1] == 'yes'
        self.local = {str(address.ip) for _, address in self.addresses}

    def exit(self, address):
        """The interface to which an address leads, which isn't local."""
        place = ipaddress.IPv4Address(address)
        nets = [(address.network, name) for name, address in self.addresses] + [(net, name) for name, net in self.routes]
        found = [(net.prefixlen, name) for net, name in nets if place in net]
        return max(found)[1] if found else self.default

    def is_plain(self, address):
        """Whether packets to it and from it are sent here: it is no broadcast and in none of the ranges that a kernel treats by itself."""
        place = ipaddress.IPv4Address(address)
        if place in ipaddress.IPv4Network('0.0.0.0/8') or place in ipaddress.IPv4Network('127.0.0.0/8') or int(place) >= 224 << 24:
            return False
        for _, there in self.addresses:
            if there.network.prefixlen < 31 and place in (there.network.network_address, there.network.broadcast_address):
                return False
        return True


class Router:
    """A namespace with the interfaces of a site and a text that is loaded there."""

    def __init__(self, site, mark):
        self.child = subprocess.Popen(['unshare', '-n', sys.executable, os.path.abspath(__file__), '--router'], stdin=subprocess.PIPE,
                                      stdout=subprocess.PIPE)
        self.site, self.peers = site, {}
        pid = self.child.stdout.readline().decode().strip()
        for path in ('net/ipv6/conf/all/disable_ipv6', 'net/ipv6/conf/default/disable_ipv6'):
            self.ask(write='/proc/sys/' + path, value='1')
        for place, (name, inner) in enumerate(site.names.items()):
            outer = '%s%d' % (mark, place)
            run('ip', 'link', 'add', outer, 'type', 'veth', 'peer', 'name', inner, 'netns', pid)
            run('ip', 'link', 'set', outer, 'up')
            self.peers[name] = socket.socket(socket.AF_PACKET, socket.SOCK_RAW, socket.htons(0x0800))
            self.peers[name].setsockopt(socket.SOL_SOCKET, socket.SO_RCVBUF, 1 << 22)
            self.peers[name].bind((outer, 0x0800))
            self.peers[name].setblocking(False)
            self.must('ip', 'link', 'set', inner, 'arp', 'off')
            self.must('ip', 'link', 'set', inner, 'up')
            for key, value in (('rp_filter', 0), ('send_redirects', 0), ('accept_local', 0)):
                self.ask(write='/proc/sys/net/ipv4/conf/%s/%s' % (inner.replace('.', '/'), key), value=str(value))
        self.must('ip', 'link', 'set', 'lo', 'up')
        for name, address in site.addresses:
            self.must('ip', 'addr', 'add', str(address), 'dev', site.names[name])
        for name, net in site.routes:
            self.must('ip', 'route', 'add', str(net), 'dev', site.names[name])
        self.must('ip', 'route', 'add', 'default', 'dev', site.names[site.default])
        for key, value in (('conf/all/rp_filter', 0), ('conf/all/send_redirects', 0), ('ip_forward', int(site.forwards)), ('icmp_ratelimit', 0)):
            self.ask(write='/proc/sys/net/ipv4/' + key, value=str(value))
        links = json.loads(self.must('ip', '-j', 'link'))
        self.macs = {link['ifname']: bytes.fromhex(link['address'].replace(':', '')) for link in links}

    def ask(self, **said):
        self.child.stdin.write(json.dumps(said).encode() + b'\n')
        self.child.stdin.flush()
        return json.loads(self.child.stdout.readline())

    def must(self, *words):
        status, out, err = self.ask(run=words)
        if status:
            raise SystemExit('%s: %s' % (' '.join(words), err))
        return out

    def load(self, text):
        status, _, err = self.ask(run=['iptables-restore'], input=text)
        return None if status == 0 else err

    def send(self, entry, data):
        """Sends a packet of IP from the other end of an interface, or from the router itself."""
        if entry == 'host':
            self.ask(send=[[data.hex(), socket.inet_ntoa(data[16:20])]])
            return
        frame = self.macs[self.site.names[entry]] + b'\2\0\0\0\0\1' + b'\x08\0' + data
        self.peers[entry].send(frame)

    def gathered(self):
        """What was seen until nothing more comes: where, which is an interface or `in` for the router itself, and the packet."""
        found = []
        names = {there: name for name, there in self.peers.items()}
        while True:
            ready = select.select(list(names), [], [], QUIET)[0]
            if not ready:
                break
            for there in ready:
                while True:
                    try:
                        data, about = there.recvfrom(65535)
                    except BlockingIOError:
                        break
                    if about[2] != socket.PACKET_OUTGOING:
                        found.append((names[there], Seen(data[14:])))
        return found + [('in', Seen(bytes.fromhex(data))) for data in self.ask(drain=1)]

    def close(self):
        for there in self.peers.values():
            there.close()
        self.child.stdin.write(b'{"end": 1}\n')
        self.child.stdin.close()
        self.child.wait()


def run(*words):
    subprocess.run(words, check=True)


# What is sent


class Probe:
    """A packet: its number, and the words of a line of PACKETS; and the number of the packet that began its connection."""

    def __init__(self, number, entry, proto, dst, dport, src, sport, flags, kind, first=None):
        self.first = first or number
        self.number, self.entry, self.proto, self.dst, self.dport = number, entry, proto, dst, dport
        self.src, self.sport, self.flags, self.kind = src, sport, flags, kind

    def line(self):
        return '%s %d %s %d %s %d %d %d\n' % (self.entry, self.proto, self.dst, self.dport, self.src, self.sport, self.flags, self.kind)

    def data(self, **more):
        return packet(self.number, self.first, self.proto, self.src, self.sport, self.dst, self.dport, self.flags, self.kind, **more)

    def connection(self, ends):
        """The line of CONNS for the connection that it opens with these ends."""
        return '%d %s %d %s %d %s %d %s %d\n' % ((self.proto, self.dst, self.dport, self.src, self.sport) + ends)


def traced(language, site, path, work, connections, probes):
    """What `trace` says of packets: none where it is dropped, else source, port, destination and port."""
    files = [os.path.join(work, name) for name in ('connections', 'packets')]
    for file, lines in zip(files, (connections, [probe.line() for probe in probes])):
        with open(file, 'w', encoding='ascii') as out:
            out.write(''.join(lines))
    status, text = translations.run('trace', language, site, path, *files)
    lines = text.splitlines()
    if status or len(lines) != len(probes):
        raise SystemExit('trace answers with status %d: %s' % (status, text[:200]))
    found = []
    for line in lines:
        words = re.fullmatch(r'(?:new|est) (?:drop|accept src=([\d.]+)(?::(\d+))? dst=([\d.]+)(?::(\d+))?)', line)
        found.append(None if line.endswith('drop') else (words.group(1), int(words.group(2) or 0), words.group(3), int(words.group(4) or 0)))
    return found


def drawn(side, source):
    """A number of a list of ranges."""
    low, high = source.choice(side)
    return source.choice((low, high, source.randint(low, high)))


class Drawing:
    """Draws packets for a file."""

    def __init__(self, language, site_path, path, site, seed):
        self.site, self.source, self.used, self.number = site, random.Random(seed), set(), 0
        text = translations.run('query', language, site_path, path, 'new', 'verdict=accept')[1]
        self.rows = [translations.row_sides(line) for line in text.splitlines()[1:]]
        with open(path, encoding='utf-8') as file:
            words = file.read()
        self.addresses = []
        for word, length in re.findall(r'(?<![\d.])(\d+\.\d+\.\d+\.\d+)(?:/(\d+))?(?![\d.])', words):
            try:
                net = ipaddress.IPv4Network('%s/%s' % (word, length or 32), strict=False)
            except ValueError:
                continue
            first, last = int(net.network_address), int(net.broadcast_address)
            self.addresses += [first + 1, last - 1, min(last + 1, 0xffffffff)] if first < last else [first, min(first + 1, 0xffffffff)]
        self.addresses += [int(address.network.network_address) + 9 for _, address in site.addresses]
        self.addresses += [int(ipaddress.IPv4Address(word)) for word in ('198.51.100.9', '203.0.113.250', '192.0.2.9', '8.8.4.4')]
        self.local = [int(address.ip) for _, address in site.addresses]
        self.ports = sorted({int(word) for word in re.findall(r'(?<![\d.])\d{2,5}(?![\d.])', words) if 0 < int(word) < 65536} | {53, 80, 443, 22, 25})

    def entry(self, names):
        entries = [name for name in list(self.site.names) + ['host'] if names is None or name in names]
        return self.source.choice(entries) if entries else None

    def from_row(self):
        row = self.source.choice(self.rows)
        entry = self.entry(row[0])
        protos = [proto for proto in (TCP, TCP, UDP, ICMP) if row[1] is None or translations.meet(row[1], [(proto, proto)])]
        if entry is None or not protos:
            return None
        proto = self.source.choice(protos)
        flags, kind = (SYN if proto == TCP else 0), (8 if proto == ICMP else 0)
        if not translations.meet(row[6], [(flags, flags)]) or not translations.meet(row[7], [(kind, kind)]):
            return None
        dst = self.source.choice(self.addresses + self.local) if row[2] is None else drawn(row[2], self.source)
        src = self.source.choice(self.addresses) if row[4] is None else drawn(row[4], self.source)
        dport = self.source.choice(self.ports) if row[3] is None else drawn(row[3], self.source)
        return entry, proto, dst, dport, src, row[5], flags, kind

    def from_words(self):
        proto = self.source.choice((TCP, TCP, UDP, ICMP))
        entry = self.entry(None)
        dst = self.source.choice(self.addresses + self.local * 3)
        src = self.source.choice(self.addresses)
        return entry, proto, dst, self.source.choice(self.ports), src, None, SYN if proto == TCP else 0, 8 if proto == ICMP else 0

    def settled(self, entry, proto, dst, dport, src, sports, flags, kind):
        """The probe, if it is one that may be sent: none whose source port was used, and the source leads where the packet comes from."""
        if entry == 'host':
            src = self.source.choice(self.local)
        dst, src = str(ipaddress.IPv4Address(dst)), str(ipaddress.IPv4Address(src))
        if not self.site.is_plain(dst) or not self.site.is_plain(src) or (src in self.site.local) != (entry == 'host'):
            return None
        if entry == 'host' and dst in self.site.local:
            return None
        self.number += 1
        sport = 20000 + self.number if sports is None else drawn(sports, self.source)
        if sports is not None and translations.meet(sports, [(20000 + self.number,) * 2]):
            sport = 20000 + self.number
        if proto == ICMP:
            sport = dport = 0
        elif not sport or not dport or (proto, sport) in self.used:
            return None
        self.used.add((proto, sport))
        return Probe(self.number, entry, proto, dst, dport, src, sport, flags, kind)

    def probes(self, count):
        found, tries = [], 0
        while len(found) < count and tries < 100 * count:
            tries += 1
            made = self.from_row() if self.rows and tries % 2 else self.from_words()
            probe = made and self.settled(*made)
            # most packets come from where their source leads
            if probe and (probe.entry == 'host' or self.site.exit(probe.src) == probe.entry or self.source.random() < 0.15):
                found.append(probe)
        return found

    def invalid(self, count):
        """Packets that belong to no connection and begin none."""
        found = []
        for probe in self.probes(count):
            if probe.entry != 'host':
                if probe.proto == UDP:
                    probe.proto, probe.sport, probe.dport = ICMP, 0, 0
                if probe.proto == TCP:
                    probe.flags = self.source.choice((SYN | ACK, RST, RST | ACK, FIN, 0, 41, SYN | FIN))
                else:
                    probe.kind = self.source.choice((0, 3, 5, 11, 14))
                found.append(probe)
        return found


# What becomes of it


def fates(found, probes):
    """Of each probe where it was seen and with which ends; none where it wasn't."""
    by_number = {}
    for place, seen in found:
        by_number.setdefault((seen.number, seen.proto), []).append((place, seen))
    told = []
    for probe in probes:
        seen = [(place,) + other.ends() for place, other in by_number.get((probe.number, probe.proto), ())]
        told.append(seen[0] if len(seen) == 1 else tuple(seen) or None)
    return told


def wanted(site, probe, ends):
    """Where a packet is to be seen that is sent on with these ends."""
    if ends is None:
        return None
    if ends[2] in site.local:
        return ('in',) + ends
    return (site.exit(ends[2]),) + ends if site.forwards or probe.entry == 'host' else None


class Trial:
    """A file, its routers, and how many packets fared as they should."""

    def __init__(self, language, site_path, path, seed, count, work):
        self.job, self.work, self.count = (language, site_path, path), work, count
        self.name, self.site = os.path.basename(path), Site(site_path)
        self.drawing = Drawing(language, site_path, path, self.site, seed)
        with open(path, encoding='utf-8') as file:
            self.asks = re.search(r'state \S*(NEW|INVALID)', file.read()) is not None
        self.right = self.wrong = self.connections = self.replies = self.redirected = self.delivered = self.own = self.odd = 0

    def say(self, *told):
        self.wrong += 1
        print(self.name + ':', *told)

    def compare(self, what, probes, seen, due):
        for probe, one, other in zip(probes, seen, due):
            if one == other:
                self.right += 1
            else:
                self.say(what, probe.line().strip(), 'is seen as', one, 'and should be', other)

    def replying(self, probe, ends):
        """The reply to a connection whose packet was sent on with these ends, from where it comes."""
        entry = 'host' if ends[2] in self.site.local else self.site.exit(ends[2])
        flags = SYN | ACK if probe.proto == TCP else 0
        return Probe(probe.number + 20000, entry, probe.proto, ends[0], ends[1], ends[2], ends[3], flags, 0, probe.number)

    def natural(self, found, replies):
        """Of each reply of the router itself, where a packet with its ends was seen that goes the other way, and its sequence number."""
        told = []
        for probe, reply in replies:
            some = [(place, seen) for place, seen in found if place != 'in' and seen.proto == probe.proto and
                    (seen.dst, seen.dport) == (probe.src, probe.sport) and (probe.proto != TCP or seen.flags == SYN | ACK) and
                    (probe.proto != ICMP or seen.kind == 0 and seen.echo == probe.number)]
            told.append(some[0] if some else None)
        return told

    def turn(self, routers, probes, **more):
        """What each router makes of packets that are sent one after the other."""
        told = []
        for router in routers:
            for probe in probes:
                router.send(probe.entry, probe.data(**more))
            told.append(router.gathered())
        return told

    def connect(self, routers):
        probes = self.drawing.probes(self.count)
        due = traced(*self.job, self.work, [], probes)
        places = [wanted(self.site, *pair) for pair in zip(probes, due)]
        listening = sorted({(probe.proto, place[4]) for probe, place in zip(probes, places) if place and place[0] == 'in' and probe.proto != ICMP})
        for router in routers:
            router.ask(listen=listening)
        all_found = self.turn(routers, probes)
        for found in all_found:
            self.compare('a new packet', probes, fates(found, probes), places)
        opened, known = [], set()
        for probe, ends, place in zip(probes, due, places):
            # the model tells connections of ICMP apart by their addresses alone
            tuples = {(probe.src, probe.dst), (ends[2], ends[0])} if place and probe.proto == ICMP else set()
            if place and not tuples & known:
                opened.append((probe, ends))
            known |= tuples | {(dst, src) for src, dst in tuples}
        self.connections += len(opened)
        self.redirected += sum(probe.dst != ends[2] for probe, ends in opened)
        self.delivered += sum(ends[2] in self.site.local for _, ends in opened)
        self.own += sum(probe.entry == 'host' for probe, _ in opened)
        self.answer(routers, all_found, opened)

    def answer(self, routers, all_found, opened):
        """Replies, and behind them a packet of each connection again."""
        lines = [probe.connection((ends[0], ends[1], ends[2], ends[3])) for probe, ends in opened]
        replies = [self.replying(probe, ends) for probe, ends in opened]
        due = traced(*self.job, self.work, lines, replies)
        places = [wanted(self.site, *pair) for pair in zip(replies, due)]
        sent = [place for place, reply in enumerate(replies) if reply.entry != 'host']
        own = [place for place, reply in enumerate(replies) if reply.entry == 'host']
        for router, found in zip(routers, all_found):
            for place in sent:
                router.send(replies[place].entry, replies[place].data(seq=5000, ack=1001))
            later = router.gathered()
            self.compare('a reply', [replies[place] for place in sent], fates(later, [replies[place] for place in sent]),
                         [places[place] for place in sent])
            seen = self.natural(found, [(opened[place][0], replies[place]) for place in own])
            self.compare('a reply of the router', [replies[place] for place in own],
                         [one and (one[0],) + one[1].ends() for one in seen], [places[place] for place in own])
            numbers = {place: one[1].seq for place, one in zip(own, seen) if one}
            again = []
            for place, (probe, _) in enumerate(opened):
                if places[place] and probe.proto != ICMP:
                    third = Probe(probe.number + 40000, probe.entry, probe.proto, probe.dst, probe.dport, probe.src, probe.sport,
                                  ACK if probe.proto == TCP else 0, 0)
                    again.append((third, place))
            thirds = [third for third, _ in again]
            ends = traced(*self.job, self.work, lines, thirds)
            for third, place in again:
                router.send(third.entry, third.data(seq=1001, ack=numbers.get(place, 5000) + 1))
            self.compare('a packet again', thirds, fates(router.gathered(), thirds), [wanted(self.site, *pair) for pair in zip(thirds, ends)])
        self.replies += len(replies)

    def invalid(self, routers):
        probes = self.drawing.invalid(self.count)
        translated, source = (fates(found, probes) for found in self.turn(routers, probes))
        self.odd += len(probes)
        if self.asks:
            differ = sum(one != other for one, other in zip(translated, source))
            print('%s: its rules ask for NEW or INVALID; %d of %d INVALID packets fare otherwise' % (self.name, differ, len(probes)))
        else:
            self.compare('an INVALID packet', probes, translated, source)

    def run(self):
        language, site_path, path = self.job
        status, text = translations.run('translate', language, 'iptables', site_path, path)
        if status:
            print('%s: %s' % (self.name, text[:60]))
            return
        texts = [text]
        if language == 'iptables':
            with open(path, encoding='utf-8') as file:
                texts.append(file.read())
        routers = [Router(self.site, mark) for mark in ('t', 's')[:len(texts)]]
        for router, one in zip(routers, texts):
            said = router.load(one)
            if said:
                self.say('iptables-restore says:', said)
                return
        self.connect(routers)
        if len(routers) == 2:
            self.invalid(routers)
        for router in routers:
            router.close()


SMALL = '*nat\n:POSTROUTING ACCEPT [0:0]\n-A POSTROUTING -o x -j MASQUERADE\nCOMMIT\n*filter\n:INPUT ACCEPT [0:0]\n' \
    '-A INPUT -m conntrack --ctstate INVALID -j DROP\nCOMMIT\n'


def begin():
    """Begins again in a namespace of its own; says what isn't allowed where that fails."""
    ways = [['unshare', '-n'], ['unshare', '-rn']]
    how = next((words for words in ways if subprocess.run(words + ['true'], capture_output=True, check=False).returncode == 0), None)
    if how is None:
        print('namespaces: skipped: neither `unshare -n` nor `unshare -rn` is allowed here')
        return 0
    tried = subprocess.run(how + ['iptables-restore'], input=SMALL.encode(), capture_output=True, check=False)
    if tried.returncode:
        print('namespaces: skipped: iptables-restore in `%s` says: %s' % (' '.join(how), tried.stderr.decode().strip()))
        return 0
    words = how + [sys.executable, os.path.abspath(__file__)] + sys.argv[1:]
    return subprocess.run(words, env=dict(os.environ, **{WITHIN: '1'}), check=False).returncode


def main():
    words = sys.argv[1:]
    values = {word: int(words.pop(words.index(word) + 1)) for word in ('--seed', '--packets') if word in words}
    parts = [word for word in words if not word.startswith('--')]
    names = [name for name in sorted(os.listdir(REAL)) if name.split('.')[-1] in LANGUAGES]
    names = names if '--all' in words else [name for name in names if (any(part in name for part in parts) if parts else name in FILES)]
    trials = []
    with open('/proc/sys/net/ipv6/conf/default/disable_ipv6', 'w', encoding='ascii') as file:
        file.write('1')
    for name in names:
        stem, _, language = name.rpartition('.')
        with tempfile.TemporaryDirectory() as work:
            trial = Trial(language, os.path.join(REAL, stem + '.site'), os.path.join(REAL, name), values.get('--seed', 1),
                          values.get('--packets', 80), work)
            trial.run()
        trials.append(trial)
        print('%s: %d right, %d wrong; %d connections: %d redirected, %d to the router, %d of it, %d replies; %d INVALID packets' % (
            name, trial.right, trial.wrong, trial.connections, trial.redirected, trial.delivered, trial.own, trial.replies, trial.odd), flush=True)
    right, wrong = sum(trial.right for trial in trials), sum(trial.wrong for trial in trials)
    print('namespaces: %d files, %d connections, %d of them redirected, %d to the router, %d INVALID packets: %d right, %d wrong' % (
        len(trials), sum(trial.connections for trial in trials), sum(trial.redirected for trial in trials),
        sum(trial.delivered for trial in trials), sum(trial.odd for trial in trials), right, wrong))
    return 1 if wrong or not trials else 0


if __name__ == '__main__':
    if '--router' in sys.argv:
        router()
    else:
        sys.exit(main() if os.environ.get(WITHIN) else begin())
