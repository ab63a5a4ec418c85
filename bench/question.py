"""python3 question.py FILE

Writes a question about the filter in FILE, of which FORWARD drops what no rule accepts, as a script of SMT-LIB: whether a
new packet that doesn't come from 10.0.0.0/8 is accepted. Each rule is to test a source and a destination, each by a network
whose length is a multiple of 8, and TCP with a port, and to accept. Rules that ask for the state of a connection are passed
over, since a new packet meets none.
"""

import re
import sys

RULE = re.compile(r'-A FORWARD -s (\S+) -d (\S+) -p tcp -m tcp --dport (\d+) -j ACCEPT')


def within(name, network):
    """That an address lies in a network."""
    address, _, length = network.partition('/')
    digits = ''.join('%02x' % int(octet) for octet in address.split('.'))[:int(length) // 4]
    return '(= ((_ extract 31 %d) %s) #x%s)' % (32 - int(length), name, digits)


def main(name):
    accepted = []
    with open(name) as file:
        for line in file:
            rule = RULE.fullmatch(line.strip())
            if rule:
                source, destination, port = rule.groups()
                accepted.append('(and %s %s (= proto #x06) (= dport #x%04x))' % (
                    within('src', source), within('dst', destination), int(port)))
            elif line.startswith('-A') and '--state' not in line:
                sys.exit('no such rule: ' + line)
    print('(set-logic QF_BV)')
    for field, bits in (('src', 32), ('dst', 32), ('proto', 8), ('dport', 16)):
        print('(declare-const %s (_ BitVec %d))' % (field, bits))
    print('(assert (or')
    print('\n'.join(accepted))
    print('))')
    print('(assert (not %s))' % within('src', '10.0.0.0/8'))
    print('(check-sat)')


main(sys.argv[1])
