"""Asks mandoc whether it finds anything wrong with the manual pages, and whether the sections of fws(1) are there as it is shown."""

import os
import re
import shutil

from common import TOP, read, run

PAGES = os.path.join(TOP, 'share/man/man1')
PAGE = os.path.join(PAGES, 'fws.1')
SECTIONS = ('NAME', 'SYNOPSIS', 'DESCRIPTION', 'FILES', 'EXIT STATUS', 'EXAMPLES', 'DIAGNOSTICS', 'SEE ALSO')

# The causes of refusals, by docs/PROFILES.md.
CAUSES = ('syntax', 'left-out', 'no-interface', 'no-name', 'backward', 'shape', 'expand', 'overlap', 'names', 'count', 'loop CHAIN',
          'deep CHAIN', 'long CHAIN', 'over 4194304 bytes')


def clauses_by_system():
    """The numbers of the clauses that each system has, by docs/PROFILES.md."""
    text = read(os.path.join(TOP, 'docs/PROFILES.md')).partition("### When a policy can't be held")[2].partition('\n## ')[0]
    found, system = {}, None
    for line in text.splitlines():
        head = re.match(r'\| Number \| (.*?) can hold ', line)
        number = re.match(r'\| (\d+) \|', line)
        if head:
            system = {'Cisco IOS': 'ios'}.get(head[1], head[1])
        elif number:
            found.setdefault(number[1], []).append(system)
    return found


def check_clauses(tally, lines):
    """Each clause is explained, with the systems that have it."""
    clauses = clauses_by_system()
    tally.holds('the profiles', len(clauses) > 10, 'the clauses %s alone' % list(clauses))
    for number, systems in clauses.items():
        item = next((line for line in lines if re.match(r'     %s +\S' % number, line)), '')
        named = item.split(None, 1)[-1].partition(':')[0]
        wanted = 'All systems' if len(systems) == 4 else ', '.join(systems)
        tally.check('the manual page: the systems of clause %s' % number, wanted, named)


def check(tally):
    if not shutil.which('mandoc'):
        tally.skip('the manual page', 'no mandoc')
        return
    for name in sorted(os.listdir(PAGES)):
        # that another page is there is asked of the system, which hasn't these
        _, said, errors = run('mandoc', '-Tlint', os.path.join(PAGES, name))
        said = [line for line in said.splitlines() if ': STYLE: referenced manual not found: Xr fws' not in line]
        tally.check('mandoc -Tlint %s' % name, ([], ''), (said, errors))
    status, text, _ = run('mandoc', '-Tascii', '-Owidth=100', PAGE)
    while '\b' in text:  # letters are struck over for bold ones
        place = text.index('\b')
        text = text[:place - 1] + text[place + 1:]
    tally.check('mandoc: status', 0, status)
    lines = text.split('\n')
    for name in SECTIONS:
        tally.holds('the manual page', name in lines, 'no section %s' % name)
    for cause in CAUSES:
        tally.holds('the manual page', any(line.startswith('     ' + cause) for line in lines), 'no cause %s' % cause)
    check_clauses(tally, lines[lines.index('DIAGNOSTICS'):] if 'DIAGNOSTICS' in lines else [])
    tally.holds('the manual page', 'docs/PROFILES.md' in text, 'it does not point to the profiles')


if __name__ == '__main__':
    from common import Tally
    TALLY = Tally()
    check(TALLY)
    print(TALLY.right, TALLY.wrong, TALLY.skipped)
