"""python3 reading.py MEBIBYTES SECONDS MEGABYTES COMMAND SITE

Writes rules of every kind into a chain of the user's that no packet meets, up to so many mebibytes, and runs the command
over them. No rule is unfolded or executed, so that the time is that of reading and of making the diagram. Prints a line
`reading mebibytes seconds megabytes`. Exit status 1 past the bounds, or where the command ends otherwise.
"""

import sys
import tempfile

from timing import judged, run, table, wrong, written

RULES = (
    '-A USER -s 10.%d.%d.0/24 -d 172.16.%d.0/28 -p tcp -m tcp --dport %d -j ACCEPT',
    '-A USER -i eth0 -p udp -m multiport --dports %d,1000:%d -m conntrack --ctstate NEW,ESTABLISHED -j RETURN',
    '-A USER -p icmp -m icmp --icmp-type %d -m comment --comment "no %d" -j DROP',
    '-A USER -m mark --mark 0x%x/0xffffffff -m iprange --src-range 10.0.0.1-10.0.%d.9 -g USER%d',
)


def rule(k):
    kind = k % 4
    numbers = ((k >> 8 & 255, k & 255, 7 * k & 255, 1 + k % 60000), (1 + k % 900, 1000 + k % 9000), (k % 255, k),
               (k, k & 255, k % 500))
    return RULES[kind] % numbers[kind]


def text(size):
    lines = ['*filter', ':INPUT ACCEPT [0:0]', ':USER - [0:0]']
    lines += [':USER%d - [0:0]' % k for k in range(500)]
    length = sum(len(line) + 1 for line in lines)
    k = 0
    while True:
        line = rule(k)
        if length + len(line) + 8 > size:
            break
        lines.append(line)
        length += len(line) + 1
        k += 1
    return '\n'.join(lines + ['COMMIT', ''])


def main(mebibytes, seconds, megabytes, program, site):
    head = 'reading', '%g' % mebibytes
    with tempfile.TemporaryDirectory() as work:
        ended = run(*table(program, 'iptables', site, written(work, 'rules', text(int(mebibytes * 2**20)))))
    if ended is None or not ended.text.startswith('table new '):
        return wrong(head, ended, 300)
    return judged(head, ended.seconds, seconds, megabytes)


if __name__ == '__main__':
    sys.exit(main(float(sys.argv[1]), float(sys.argv[2]), float(sys.argv[3]), sys.argv[4], sys.argv[5]))
