"""Tries tools/ask: what it answers, as it was worked out by hand from the configurations of examples/, what it says of questions that
it doesn't understand, its statuses, the language that it tells from a text, and whether the packets that it gives as examples fare as
it says, which a trace of each one shows.
"""

import importlib.machinery
import importlib.util
import os
import subprocess
import sys
import tempfile
import types

from common import ASK, EXAMPLES, PROGRAM, read, run, write

SITE = os.path.join(EXAMPLES, 'site.txt')

# A site, a configuration, a question, and the answer.
ANSWERS = (
    ('site.txt', 'router.saved', 'tcp from wan to 203.0.113.2 port http', '''
Accepted: TCP connections from wan to 203.0.113.2 port 80 (http).
  The destination becomes 10.0.0.5 port 8080.
  For example TCP from wan, 198.51.100.9 port 50000, to 203.0.113.2 port 80, by these rules:
    1 nat PREROUTING 1: -A PREROUTING -d 203.0.113.2/32 -p tcp -m tcp --dport 80 -j DNAT --to-destination 10.0.0.5:8080
    10 filter FORWARD 3: -A FORWARD -d 10.0.0.5/32 -p tcp -m tcp --dport 8080 -j ACCEPT
'''),
    ('site.txt', 'router.saved', 'tcp from eth1 to host port ssh', '''
Dropped: TCP connections from wan to 10.0.0.1, 203.0.113.2 port 22 (ssh).
  For example TCP from wan, 198.51.100.9 port 50000, to 10.0.0.1 port 22, by this rule:
    7 filter INPUT 5: -A INPUT -m limit --limit 5/min -j LOG --log-prefix "drop: "
    then a policy decides
'''),
    ('site.txt', 'router.saved', 'ping from wan to host', '''
Accepted: new ICMP packets from wan to 10.0.0.1, 203.0.113.2 of type echo-request.
  For example ICMP from wan, 198.51.100.9, to 10.0.0.1 of type echo-request, by this rule:
    6 filter INPUT 4: -A INPUT -p icmp -m icmp --icmp-type 8 -j ACCEPT
'''),
    ('site.txt', 'router.saved', 'tcp from wan to 10.0.0.5 port 8080,22', '''
Some are accepted and some dropped: TCP connections from wan to 10.0.0.5 port ssh, 8080.
- accepted: to port 8080
  For example TCP from wan, 198.51.100.9 port 50000, to 10.0.0.5 port 8080, by this rule:
    10 filter FORWARD 3: -A FORWARD -d 10.0.0.5/32 -p tcp -m tcp --dport 8080 -j ACCEPT
- dropped: to port 22 (ssh)
  For example TCP from wan, 198.51.100.9 port 50000, to 10.0.0.5 port 22: no rule applies, and a policy decides.
'''),
    ('site.txt', 'router.saved', 'established udp from wan 198.51.100.9 port domain to 10.0.0.7 port 40000', '''
Accepted: UDP packets of connections from wan 198.51.100.9 port 53 (domain) to 10.0.0.7 port 40000.
  For example UDP from wan, 198.51.100.9 port 53, to 10.0.0.7 port 40000, by this rule:
    8 filter FORWARD 1: -A FORWARD -m conntrack --ctstate RELATED,ESTABLISHED -j ACCEPT
'''),
    ('site.txt', 'router.saved', 'who can reach 10.0.0.5 port ssh', '''
Of TCP connections and new UDP packets to 10.0.0.5 port 22 (ssh) there are let through:
- from the host itself
  For example TCP from the host itself, 10.0.0.1 port 50000, to 10.0.0.5 port 22: no rule applies, and a policy decides.
'''),
    ('site.txt', 'router.saved', 'can wan reach 10.0.0.5 port 8080?', '''
Of TCP connections and new UDP packets from wan to 10.0.0.5 port 8080 there are let through:
- TCP
  For example TCP from wan, 198.51.100.9 port 50000, to 10.0.0.5 port 8080, by this rule:
    10 filter FORWARD 3: -A FORWARD -d 10.0.0.5/32 -p tcp -m tcp --dport 8080 -j ACCEPT
- TCP to 203.0.113.2 port 80 (http)
  The destination becomes 10.0.0.5 port 8080.
  For example TCP from wan, 198.51.100.9 port 50000, to 203.0.113.2 port 80, by these rules:
    1 nat PREROUTING 1: -A PREROUTING -d 203.0.113.2/32 -p tcp -m tcp --dport 80 -j DNAT --to-destination 10.0.0.5:8080
    10 filter FORWARD 3: -A FORWARD -d 10.0.0.5/32 -p tcp -m tcp --dport 8080 -j ACCEPT
'''),
    ('site.txt', 'router.saved', 'can wan reach host port ssh', '''
None are let through: TCP connections and new UDP packets from wan to 10.0.0.1, 203.0.113.2 port 22 (ssh).
'''),
    ('site.txt', 'router.saved', 'udp from lan 10.0.0.7 to anywhere port domain', '''
Some are accepted and some dropped: new UDP packets from lan 10.0.0.7 to port 53 (domain).
- accepted: to any address but 10.0.0.0/24, 127.0.0.0/8, 203.0.113.2
  The source becomes 203.0.113.2.
  For example UDP from lan, 10.0.0.7 port 50000, to 198.51.100.9 port 53, by these rules:
    9 filter FORWARD 2: -A FORWARD -i eth0 -o eth1 -j ACCEPT
    2 nat POSTROUTING 1: -A POSTROUTING -s 10.0.0.0/24 -o eth1 -j MASQUERADE
- dropped: to 10.0.0.0/24, 127.0.0.0/8, 203.0.113.2
  For example UDP from lan, 10.0.0.7 port 50000, to 10.0.0.2 port 53: no rule applies, and a policy decides.
'''),
    ('site.txt', 'router.saved', 'udp from lan,wan 10.0.0.7 port 53 to 10.0.0.5', '''
Dropped: new UDP packets from 10.0.0.7 port 53 (domain) by lan and wan to 10.0.0.5.
  For example UDP from lan, 10.0.0.7 port 53, to 10.0.0.5 port 80: no rule applies, and a policy decides.
'''),
    ('site.txt', 'gateway.pf', 'tcp from wan 198.51.100.9 to 203.0.113.2 port https with flags ack', '''
Dropped: new TCP packets from wan 198.51.100.9 to 203.0.113.2 port 443 (https) with ACK.
  For example TCP from wan, 198.51.100.9 port 50000, to 203.0.113.2 port 443 with ACK alone, by these rules:
    2 rdr 2
    4 filter 1
'''),
    ('site.txt', 'gateway.openbsd', 'tcp from wan 198.51.100.9 to 203.0.113.2 port http', '''
Accepted: TCP connections from wan 198.51.100.9 to 203.0.113.2 port 80 (http).
  The destination becomes 10.0.0.5.
  For example TCP from wan, 198.51.100.9 port 50000, to 203.0.113.2 port 80.
'''),
    ('office.site', 'office.ipfw', 'tcp from wan 198.51.100.9 to host port ssh', '''
Dropped: TCP connections from wan 198.51.100.9 to 10.0.0.1, 203.0.113.2 port 22 (ssh).
  For example TCP from wan, 198.51.100.9 port 50000, to 10.0.0.1 port 22, by this rule:
    7 rule 700: ipfw -q add 700 deny log ip from any to 10.0.0.0/8,172.16.0.0/12,192.168.0.0/16 via em1
'''),
    ('branch.site', 'branch.ios', 'can guest reach 10.0.0.0/24 tcp port http', '''
None are let through: TCP connections from guest to 10.0.0.0/24 port 80 (http).
'''),
    (None, 'branch.ios', 'tcp from Vlan20 192.168.20.7 to 198.51.100.9 port ssh', '''
Dropped: TCP connections from Vlan20 192.168.20.7 to 198.51.100.9 port 22 (ssh).
  For example TCP from Vlan20, 192.168.20.7 port 50000, to 198.51.100.9 port 22: no rule applies, and the deny at the end of a list decides.
'''),
    ('routed.site', 'outbound.rules', 'udp from lan 10.0.0.7 to 10.0.0.8 port 53', '''
Dropped: new UDP packets from lan 10.0.0.7 to 10.0.0.8 port 53 (domain).
  For example UDP from lan, 10.0.0.7 port 50000, to 10.0.0.8 port 53: no rule applies, and a policy decides.
'''),
    (None, 'branch.ios', 'tcp from Vlan20 192.168.20.7 to 10.0.0.5 port http', '''
Dropped: TCP connections from Vlan20 192.168.20.7 to 10.0.0.5 port 80 (http).
  For example TCP from Vlan20, 192.168.20.7 port 50000, to 10.0.0.5 port 80, by this rule:
    18 list 120 1: access-list 120 deny   ip any 10.0.0.0 0.0.0.255
'''),
)

# Questions that mean the same as the first of their line.
SAME = (
    ('tcp from wan to 203.0.113.2 port http', 'from wan tcp to 203.0.113.2 port 80', 'TCP connections from eth1 to 203.0.113.2 port www?',
     'new tcp to 203.0.113.2/32 http from wan', 'proto 6 from wan to 203.0.113.2 port {80}', 'tcp http to 203.0.113.2 from wan'),
    ('udp from lan to not 10.0.0.5, 10.0.0.6 port 53', 'udp from lan to !{10.0.0.5-10.0.0.6} port domain'),
    ('tcp from wan to any flags syn not ack', 'tcp from wan flags syn,!ack', 'from wan to anywhere flags SYN, not ACK'),
    ('ping from wan', 'icmp type echo-request from wan', 'from wan type 8'),
    ('from host to lan', 'from host to 10.0.0.0, 10.0.0.2-10.0.0.255'), ('from lo to host', 'from lo to 10.0.0.1,203.0.113.2'),
    ('replies tcp from wan', 'established tcp from wan', 'est proto tcp from wan'),
    ('can lan reach host port ssh', 'who can reach host port ssh from lan'), ('from wan to host', 'from not {host, lo, lan} to 10.0.0.1,203.0.113.2'),
    ('from lan to not host', 'from eth0 to !{10.0.0.1,203.0.113.2}'), ('from lan,wan', 'from wan,lan', 'from !host,lo'),
    ('who can reach host port ssh', 'who reaches host ssh', 'Who can reach 10.0.0.1, 203.0.113.2 port 22?'),
)

# Questions that aren't understood, what is said, and the word below which the mark begins.
MISREAD = (
    ('tcp from wan to 203.0.113.2 prot http', '`prot` is not understood; did you mean proto or port?', 'prot'),
    ('tcp from wann', '`wann` is not understood; did you mean wan', 'wann'),
    ('tcp 10.0.0.5', 'ahead of an address `from` or `to` is missing', '10.0.0.5'),
    ('tcp to 10.0.0.300', '10.0.0.300 is no address', '10.0.0.300'), ('tcp to 10.0.0.0/33', '10.0.0.0/33 is no network', '10.0.0.0/33'),
    ('to 10.0.0.5 port shh', 'shh is no port; did you mean ssh', 'shh'), ('to 10.0.0.5 port', 'behind `port` a value is missing', ''),
    ('to 10.0.0.5 to 10.0.0.6', 'the address is given twice', '10.0.0.6'), ('tcp udp', 'the protocol is given twice', 'udp'),
    ('icmp to 10.0.0.5 port 22', 'ports are those of tcp and udp, and the protocol is another one', 'icmp'),
    ('udp flags syn', 'flags are those of tcp, and the protocol is another one', 'udp'), ('tcp flags sun', 'sun is no flag', 'sun'),
    ('from lan to 10.0.0.5 22', 'ahead of a port `port` is missing', '22'),
    ('lan to 10.0.0.5', 'ahead of an interface `from` or `to` is missing', 'lan'), ('tcp any', '`any` goes behind', 'any'),
    ('who can reach', 'who is to be reached is missing', ''), ('can lan', 'who is to be reached is missing', ''),
    ('to 10.0.0.5 port !0-65535', 'no packet is asked for', '!0-65535'), ('tcp flags syn,!syn', 'syn,!syn asks for no packet', 'syn,!syn'),
)


def asked(*words, told='', **further):
    return run(ASK, *words, told=told, env={**os.environ, 'FWS_PROGRAM': PROGRAM}, **further)


def check_answers(tally):
    for site, name, question, wanted in ANSWERS:
        words = ('--site', os.path.join(EXAMPLES, site)) if site else ()
        said = '' if site else 'the site is made of the configuration, with 2 guesses and things left out, which site-of-host --ios shows\n'
        path = os.path.join(EXAMPLES, name)
        if name == 'branch.ios':
            said += '%s:72: access-class filters logins to the router, and is no part of the answer\n' % path
        tally.check('ask %s %s' % (name, question), (0, wanted[1:], said), asked(*words, path, question))
    words = ('--site', SITE, os.path.join(EXAMPLES, 'router.saved'))
    for first, *others in SAME:
        wanted = asked(*words, first)
        tally.check('ask %s' % first, (0, ''), wanted[::2])
        for other in others:
            tally.check('ask %s' % other, wanted, asked(*words, *other.split(' ')))


def check_misread(tally):
    for question, said, marked in MISREAD:
        status, text, errors = asked('--site', SITE, os.path.join(EXAMPLES, 'router.saved'), question)
        lines = errors.splitlines()
        tally.check('not understood: %s' % question, (2, ''), (status, text))
        tally.holds('not understood: %s' % question, errors.startswith('ask: ' + said), errors)
        begin = lines[-1].index('^') if '^' in lines[-1] else -1
        size = lines[-1].count('^') if marked else None
        tally.check('not understood: %s: the mark' % question, marked, lines[-2][begin:begin + size if size else size])


def check_statuses(tally):
    router = ('--site', SITE, os.path.join(EXAMPLES, 'router.saved'))
    for wanted, verdict, question in (
            (0, 'accept', 'tcp from wan to 203.0.113.2 port http'), (1, 'drop', 'tcp from wan to 203.0.113.2 port http'),
            (0, 'drop', 'tcp from wan to host port ssh'), (1, 'accept', 'tcp from wan to host port ssh'),
            (1, 'accept', 'tcp from wan to 10.0.0.5 port 8080,22'), (1, 'drop', 'tcp from wan to 10.0.0.5 port 8080,22'),
            (0, 'drop', 'can wan reach host port ssh'), (1, 'drop', 'can lan reach host port ssh'), (1, 'drop', 'who can reach host port ssh')):
        status, text, said = asked('--assert', verdict, *router, question)
        tally.check('--assert %s: %s' % (verdict, question), (wanted, ''), (status, said))
        tally.check('--quiet --assert %s: %s' % (verdict, question), (wanted, '', ''), asked('--quiet', '--assert', verdict, *router, question))
    status, text, said = asked('--assert', 'accept', *router, 'who can reach host port ssh')
    tally.holds('--assert accept of who', (status, text) == (2, '') and '--assert drop alone' in said, said)
    tally.check('an absent file', (4, '', 'ask: cannot read /nowhere: No such file or directory\n'), asked('--site', SITE, '/nowhere', 'tcp'))
    status, text, said = asked('--site', SITE, '--lang', 'iptables', SITE, 'tcp')
    tally.holds('a refused file', (status, text) == (3, '') and said.startswith('ask: refused %s line 1 left-out\n' % SITE), said)
    status, text, said = asked('--site', os.path.join(EXAMPLES, 'router.saved'), os.path.join(EXAMPLES, 'router.saved'), 'tcp')
    tally.holds('a refused site', (status, text) == (3, '') and said.startswith('ask: refused '), said)
    tally.check('an absent site', (4, ''), asked('--site', '/nowhere', os.path.join(EXAMPLES, 'router.saved'), 'tcp')[:2])
    for told, why in (('', 'standard input has no line of a configuration'), ('hello\n', 'standard input does not show in which language it is')):
        status, text, said = asked('--site', SITE, '-', 'tcp', told=told)
        tally.holds('no language: %r' % told, (status, text) == (2, '') and said.startswith('ask: ' + why), said)
    status, text, said = asked('--site', SITE, '-', 'tcp', told='*filter\n:INPUT DROP\n-A INPUT -i eth9 -j ACCEPT\nCOMMIT\n')
    tally.holds('a refusal of standard input', (status, text) == (3, '') and said.startswith(
        'ask: refused standard input line 3 no-interface\n'), said)
    with open('/dev/full', 'wb') as full:
        ended = subprocess.run([ASK, *router, 'tcp'], stdout=full, stderr=subprocess.PIPE, check=False, env={**os.environ, 'FWS_PROGRAM': PROGRAM})
        tally.check('a full device', (5, b'ask: cannot write: No space left on device\n'), (ended.returncode, ended.stderr))
    status, text, said = run(ASK, *router, 'tcp', env={**os.environ, 'FWS_PROGRAM': '/nowhere/fws'})
    tally.holds('no program', (status, text) == (7, '') and said.startswith('ask: cannot run /nowhere/fws: '), said)
    for words in ((), ('file',), ('--site',), ('--lang', 'nft', 'file', 'tcp'), ('--assert', 'maybe', 'file', 'tcp')):
        status, text, said = asked(*words)
        tally.holds('words %r' % (words,), (status, text) == (2, '') and said.startswith('usage: ask') and 'Traceback' not in said, said)


# A program that says something beside its answers.
TALKER = '''#!/bin/sh
case "$1" in site2) ;; *) printf '%s:7: not read\\n    a line\\n' "$4" >&2 ;; esac
echo 'fws: at work on something' >&2
exec "$ANSWERS" "$@" 2>/dev/null
'''


def check_beside(tally):
    """What the program says beside its answers is passed on once, with the name of the file as it was given."""
    with tempfile.TemporaryDirectory() as folder:
        talker = os.path.join(folder, 'fws')
        write(talker, TALKER)
        os.chmod(talker, 0o755)
        settings = {**os.environ, 'FWS_PROGRAM': talker, 'ANSWERS': PROGRAM}
        router = os.path.join(EXAMPLES, 'router.saved')
        for words, told, name in (((router,), '', router), (('-',), read(router), 'standard input')):
            status, text, said = run(ASK, '--site', SITE, *words, 'ping from wan to host', told=told, env=settings)
            tally.check('beside the answer', (0, 'Accepted: ', '%s:7: not read\n    a line\n' % name),
                        (status, text[:10], said.replace('fws: at work on something\n', '')))
        status, _, said = run(ASK, '--site', SITE, '-', 'tcp', told='*filter\n-A X\n', env=settings)
        tally.check('beside a refusal', (3, 'ask: refused standard input line 2 no-name\nstandard input:7: not read\n    a line\n'),
                    (status, said.replace('fws: at work on something\n', '')))


def check_input(tally):
    """Standard input and pipes, options between the words, and a site of this host."""
    router, question = os.path.join(EXAMPLES, 'router.saved'), 'who can reach host port ssh'
    wanted = asked('--site', SITE, router, question)
    tally.check('standard input', wanted, asked('--site', SITE, '-', question, told=read(router)))
    tally.check('a pipe', wanted, asked('--site', SITE, '/dev/stdin', question, told=read(router)))
    tally.check('options between words', wanted, asked(router, '--site', SITE, *question.split()))
    tally.check('options behind words', wanted, asked(router, *question.split(), '--site', SITE))
    with tempfile.TemporaryDirectory() as folder:
        site = os.path.join(folder, 'a site')
        write(site, read(SITE).replace('forwarding yes', 'forwarding no'))
        told = asked('--site', site, '-', 'udp from wan 192.0.2.7 to 10.0.0.7 port 53', told='*filter\n:FORWARD ACCEPT\nCOMMIT\n')
        tally.check('a host that does not forward', (0, '''Dropped: new UDP packets from wan 192.0.2.7 to 10.0.0.7 port 53 (domain).
  For example UDP from wan, 192.0.2.7 port 50000, to 10.0.0.7 port 53: no rule applies, and a policy decides, or that this host does not forward.
''', ''), told)
    status, text, said = asked('-', 'tcp to host', told='*filter\n:INPUT DROP\nCOMMIT\n')
    tally.holds('the site of this host', (status == 7 and not text and 'no site file can be made: ' in said) or (
        status == 0 and text and said.startswith('the site is made of this host, with ')), (status, text, said))


def module():
    loader = importlib.machinery.SourceFileLoader('ask', ASK)
    sys.dont_write_bytecode = True
    found = importlib.util.module_from_spec(importlib.util.spec_from_loader('ask', loader))
    loader.exec_module(found)
    return found


# The languages of the configurations in examples/; those that a translation writes are told too.
LANGUAGES = {'router.saved': 'iptables', 'open.rules': 'iptables', 'server.rules': 'iptables', 'ssh.rules': 'iptables',
             'marked.rules': 'iptables', 'office.ipfw': 'ipfw', 'gateway.pf': 'pf', 'gateway.openbsd': 'openbsd', 'branch.ios': 'ios',
             'site.txt': None}
TEXTS = (
    ('00100 allow ip from any to any via lo0\n65535 deny ip from any to any\n', 'ipfw'), ('pass all\n', 'pf'),
    ('# pf\next_if = "em0"\nblock in\n', 'pf'),
    ('pass in on em0 proto tcp to port 80 rdr-to 10.0.0.5\n', 'openbsd'), ('set skip on lo\nmatch out on em0 nat-to (em0)\npass\n', 'openbsd'),
    ('*filter\nCOMMIT\n', 'iptables'), ('!\nversion 15.2\n!\ninterface GigabitEthernet0/1\n ip address 10.0.0.1 255.255.255.0\n', 'ios'),
    ('ip access-list extended IN\n 10 permit tcp any any eq 22\n 20 permit udp any any\n 30 deny ip any any\n', 'ios'),
    ('access-list 1 permit any\n', 'ios'), ('00100 check-state\n00200 count ip from any to any\n', 'ipfw'),
    ('table inet filter {\n chain input {\n  type filter hook input priority 0;\n }\n}\n', None), ('', None),
    ('add allow ip from any to any\n', 'ipfw'), ('hello\n', None),
)


def check_languages(tally, ask):
    for name, wanted in LANGUAGES.items():
        tally.check('the language of %s' % name, wanted, ask.configurations.language_of(read(os.path.join(EXAMPLES, name))))
    for text, wanted in TEXTS:
        tally.check('the language of %r' % text, wanted, ask.configurations.language_of(text))
    for name, source in (('router.saved', 'iptables'), ('gateway.pf', 'pf')):
        for target in ('iptables', 'ipfw', 'pf', 'ios'):
            status, text, _ = run(PROGRAM, 'translate', source, target, SITE, os.path.join(EXAMPLES, name))
            if status == 0:
                tally.check('the language of %s in %s' % (name, target), target, ask.configurations.language_of(text))


# Texts, and the lines of their rules by numbers and labels.
LINES = (
    ('ipfw', 'ipfw -q flush\nadd allow ip from any to any via lo0 # first\n50 deny ip from any to any\nipfw -q add count ip from any to any\n'
     'nat 1 config if em1\nadd 100 nat 1 ip from any to any\n65535 deny ip from any to any\n',
     {'1 rule 50': '50 deny ip from any to any', '2 rule 100': 'add allow ip from any to any via lo0 # first',
      '3 rule 100': 'add 100 nat 1 ip from any to any', '4 rule 200': 'ipfw -q add count ip from any to any'}),
    ('ios', 'access-list 0101 remark web\naccess-list 0101 permit ip any any\nip access-list extended IN\n remark in\n 10 deny ip any any\n'
     '! a comment\n permit ip any any\ninterface FastEthernet0/0\n ip nat inside\nip nat inside source list 101 interface FastEthernet0/0 overload\n',
     {'list 101 1': 'access-list 0101 permit ip any any', 'list IN 1': '10 deny ip any any', 'list IN 2': 'permit ip any any',
      'nat 1': 'ip nat inside source list 101 interface FastEthernet0/0 overload'}),
    ('iptables', '*nat\n:PREROUTING ACCEPT\n[1:2] -A PREROUTING -j A\nCOMMIT\n*filter\n-A INPUT -j ACCEPT\n-A FORWARD -j DROP\n-A INPUT -j DROP\n',
     {'nat PREROUTING 1': '-A PREROUTING -j A', 'filter INPUT 1': '-A INPUT -j ACCEPT', 'filter INPUT 2': '-A INPUT -j DROP',
      'filter FORWARD 1': '-A FORWARD -j DROP'}),
    ('pf', 'pass all\n', {}),
)


def check_lines(tally, ask):
    for language, text, wanted in LINES:
        tally.check('lines of rules: %s' % language, wanted, ask.configurations.rule_lines(language, text))


MAPPED = '''*nat
:PREROUTING ACCEPT
:POSTROUTING ACCEPT
-A PREROUTING -d 198.51.100.0/24 -j NETMAP --to 10.0.0.0/24
COMMIT
*filter
:INPUT DROP
:FORWARD DROP
-A FORWARD -d 10.0.0.0/28 -j ACCEPT
COMMIT
'''


def check_examples(tally, ask):
    """Each example of an answer has the fate that is told of its kind, by a trace."""
    os.environ['FWS_PROGRAM'] = PROGRAM
    with tempfile.TemporaryDirectory() as folder:
        write(os.path.join(folder, 'mapped'), MAPPED)
        places = [(site, os.path.join(EXAMPLES, name)) for site, name in (
            ('site.txt', 'router.saved'), ('site.txt', 'router-grown.saved'), ('site.txt', 'gateway.pf'), ('site.txt', 'gateway.openbsd'),
            ('office.site', 'office.ipfw'), ('branch.site', 'branch.ios'), ('site.txt', 'marked.rules'), ('site.txt', 'server.rules'))]
        for site, name in places + [('site.txt', os.path.join(folder, 'mapped'))]:
            known = ask.Asked(types.SimpleNamespace(file=name, lang=None, site=os.path.join(EXAMPLES, site)), folder)
            for question in ('from any', 'flags any', 'established', 'from wan to host', 'who can reach 10.0.0.5',
                             'who can reach lan tcp port 1-9000', 'who can reach wan', 'can lan reach 198.51.100.0/24'):
                check_rows(tally, ask, known, question)


def check_rows(tally, ask, known, text):
    question = ask.questions.Question(text, known.site)
    answer = ask.answer_to(known, question)
    for row in answer.rows:
        example = ask.Example(row, known.site, question.state)
        paths = [known.keep(name, told.encode()) for name, told in (('c', example.connection()), ('p', example.packet()))]
        state, verdict, *ends = known.run('trace', known.language, known.site_path, known.path, *paths).split()
        tally.check('%s: %s: %s' % (os.path.basename(known.name), text, example.words()), (question.state, row.verdict), (state, verdict))
        ends = dict(end.split('=') for end in ends)
        for end, written in row.written.items():
            tally.holds('%s: %s: %s: %s' % (os.path.basename(known.name), text, example.words(), end), ends[end].partition(':')[0] == (
                written.partition(':')[0]) or '/' in written, ends)
        if question.asks_who and 'dst' in question.sets:
            reached = ask.fields.quad_of(ends['dst'].partition(':')[0])
            tally.holds('%s: %s: %s' % (os.path.basename(known.name), text, example.words()), ask.fields.has(question.sets['dst'], reached), ends)


def check(tally):
    ask = module()
    check_answers(tally)
    check_misread(tally)
    check_statuses(tally)
    check_beside(tally)
    check_input(tally)
    check_languages(tally, ask)
    check_lines(tally, ask)
    check_examples(tally, ask)


if __name__ == '__main__':
    from common import Tally
    TALLY = Tally()
    check(TALLY)
    print(TALLY.right, TALLY.wrong, TALLY.skipped)
