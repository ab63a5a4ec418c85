"""python3 readers.py MEBIBYTES TIMES PROGRAM SITE

Writes rules of four kinds in each of the four languages, so many mebibytes of them, and behind them a line that is refused, so
that the command synth reads the text and does nothing else. Prints a line `LANG lines seconds microseconds nanoseconds` for each,
with the processor time of the fastest of five runs, and what it comes to for a line and for a byte. Exit status 1 where pf takes
more than so many times the mean of the other three for a line or for a byte, or where the command says something else.
"""

import os
import sys
import tempfile

import reading
from timing import processor, run, table, wrong, written

RUNS = 5
# bytes that are left for the last rule and the line behind it
ROOM = 200


def ipfw(k):
    number = 1 + k // 8
    return ('add %d allow tcp from 10.%d.%d.0/24 to 172.16.%d.0/28 %d in recv em1 keep-state' % (
        number, k >> 8 & 255, k & 255, 7 * k & 255, 1 + k % 60000),
            'add %d deny udp from any to any %d,1000-%d out xmit em0' % (number, 1 + k % 900, 1000 + k % 9000),
            'add %d deny icmp from any to 10.0.%d.9 in icmptypes %d // no %d' % (number, k % 255, k % 255, k),
            'add %d skipto 65534 ip from 10.0.%d.9 to not 10.%d.%d.0/24 out tagged %d' % (number, k % 255, k >> 8 & 255, k & 255, 1 + k % 500))[k % 4]


def pf(k):
    return ('pass in quick on em1 proto tcp from 10.%d.%d.0/24 to 172.16.%d.0/28 port %d flags any keep state' % (
        k >> 8 & 255, k & 255, 7 * k & 255, 1 + k % 60000),
            'block out on em0 proto udp from any to any port { %d, 1000:%d }' % (1 + k % 900, 1000 + k % 9000),
            'block in proto icmp from any to 10.0.%d.9 icmp-type %d label "no %d"' % (k % 255, k % 255, k),
            'pass out from 10.0.0.1 - 10.0.%d.9 to ! 10.%d.%d.0/24 flags any tagged T%d' % (k % 255, k >> 8 & 255, k & 255, k % 500))[k % 4]


def ios(k):
    return (' permit tcp 10.%d.%d.0 0.0.0.255 172.16.%d.0 0.0.0.15 eq %d' % (k >> 8 & 255, k & 255, 7 * k & 240, 1 + k % 60000),
            ' deny udp any any range 1000 %d' % (1000 + k % 9000),
            ' deny icmp any host 10.0.%d.9 %d' % (k % 255, k % 255),
            ' permit ip host 10.0.%d.9 10.%d.%d.0 0.0.0.255 log' % (k % 255, k >> 8 & 255, k & 255))[k % 4]


# a language by what stands ahead of its rules, its rules, and a line that is refused
TEXTS = {
    'iptables': (['*filter', ':INPUT ACCEPT [0:0]', ':USER - [0:0]', *(':USER%d - [0:0]' % k for k in range(500))], reading.rule, '-A USER -j'),
    'ipfw': ([], ipfw, 'add 65000 allow'),
    'pf': ([], pf, 'pass out to'),
    'ios': (['ip access-list extended RULES'], ios, ' permit'),
}


def lines_of(lang, size):
    lines, rule, last = list(TEXTS[lang][0]), *TEXTS[lang][1:]
    length = sum(len(line) + 1 for line in lines)
    k = 0
    while length + ROOM < size:
        lines.append(rule(k))
        length += len(lines[-1]) + 1
        k += 1
    return lines + [last]


def main(mebibytes, times, program, site):
    status, each_line, each_byte = 0, {}, {}
    with tempfile.TemporaryDirectory() as work:
        for lang in TEXTS:
            lines = lines_of(lang, mebibytes * 2**20)
            name = written(work, 'rules', '\n'.join(lines) + '\n')
            taken = []
            for _ in range(RUNS):
                begun = processor()
                ended = run(*table(program, lang, site, name))
                taken.append(processor() - begun)
                if ended is None or ended.text != 'refused %s line %d syntax\n' % (name, len(lines)):
                    status = wrong([lang], ended, 300)
            each_line[lang], each_byte[lang] = min(taken) / len(lines), min(taken) / os.path.getsize(name)
            print(lang, len(lines), '%.2f' % min(taken), '%.2f' % (each_line[lang] * 1e6), '%.1f' % (each_byte[lang] * 1e9))
    for each in each_line, each_byte:
        mean = sum(each[lang] for lang in each if lang != 'pf') / (len(each) - 1)
        print('pf', '%.2f' % (each['pf'] / mean), 'times the mean for a', 'line' if each is each_line else 'byte')
        status |= each['pf'] > times * mean
    return int(status)


sys.exit(main(float(sys.argv[1]), float(sys.argv[2]), *sys.argv[3:]))
