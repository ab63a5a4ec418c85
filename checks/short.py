"""python3 checks/short.py [WORD ..], at the top of the repository; checks/short.sh says how it is called

Translates each file of checks/real to the other languages, with the site file of its name and with the built program. These files are
written by hand, as administrators of such hosts would have them. What is checked of each pair of a file and a target:

- The status is 0, or it is 1 with the line that names the condition which the target doesn't meet. 125 pairs at least have a text.
- The command `same` says that the text does the same as the file, and the text, read back, has the file's two tables.
- A text of iptables is taken by `iptables-restore --test` and `iptables-nft-restore --test`, where these are installed and may be tried.
- Length: a text has at most 1.5 times as many lines as the construction has, for which checks/real/constructed has the figures. And of a hundred
  texts 55 at least have no more rules than their file has rules and lines for its policies; 90 are wanted.

Rules are counted as they are written. In iptables that is `-A`, and a policy of DROP is a line for a policy. In ipfw each rule counts, and of an
instance of address translation the instance itself and each redirect. In pf rules and translations count, a rule with lists in braces once,
macros and tables not at all; but where such a file goes to another language, a rule with lists is as many rules as pf makes of it. In Cisco IOS
entries and lines `ip nat inside source` count, and `ip access-group` is a line for a policy. Lines are those of a text that are neither empty
nor comments.

Words: `--table` writes the table for docs/BENCHMARKS.md, with the processor time of each translation, the least of three; `--worked`
takes the examples and the worked configurations besides, without a bound on their length; `--keep FOLDER` keeps the texts there;
`--own` translates each file to its own language too; `--constructed` writes the figures of checks/real/constructed, and wants a
program in FWS_PROGRAM that suggests no texts. Any other word is a part of the names of the files that are wanted.

Prints a line for each check that goes wrong, and last how many went right. Exit status 1 where one went wrong.
"""

import os
import re
import resource
import subprocess
import sys
import tempfile

import translations

REAL = os.path.join(translations.TOP, 'checks/real')
CONSTRUCTED = os.path.join(REAL, 'constructed')
LANGUAGES = ('iptables', 'ipfw', 'pf', 'ios', 'openbsd')
TARGETS = translations.TARGETS
LEAST_PAIRS = 125
MOST_LINES = 1.5
SHORT_ENOUGH = 0.55
WANTED = 0.9


def joined(text):
    """The lines of a text that are neither empty nor comments, with those joined that a backslash at their end joins."""
    for line in text.replace('\\\n', '').split('\n'):
        if line.strip() and line.lstrip()[0] not in '#!':
            yield line.strip()


def iptables_rules(line):
    if line.startswith(':'):
        return 0, int(line.split()[1] == 'DROP')
    return int(line.startswith('-A')), 0


def ipfw_rules(line):
    words = re.sub(r'^ipfw( -[qf])?', '', line).split()
    if words[0] == 'nat':
        return 1 + sum(word.startswith('redirect_') for word in words), 0
    return int(words[0] == 'add' or words[0].isdigit() and words[0] != '65535'), 0


def pf_rules(line):
    return int(re.match(r'(pass|block|match|nat|rdr|no)\b', line) is not None), 0


def unfolded(text):
    """How many rules pf makes of a text: a rule for each choice of items of its lists, in the line itself or in a macro."""
    macros, rules = {}, 0
    for line in joined(text):
        line = re.sub(r'\s#.*', '', line)
        for _ in range(3):
            line = re.sub(r'\$(\w+)', lambda found: macros.get(found.group(1), found.group(0)), line)
        defined = re.fullmatch(r'(\w+)\s*=\s*(.*)', line)
        if defined:
            macros[defined.group(1)] = defined.group(2).replace('"', '')
        elif pf_rules(line)[0]:
            choices = 1
            for items in re.findall(r'\{([^}]*)\}', line):
                choices *= len(re.sub(r'\s-\s|!\s', '-', items).replace(',', ' ').split())
            rules += choices
    return rules


def ios_rules(line):
    words = re.sub(r'^access-list \d+ ', '', line).split()
    if words[0].isdigit():
        words = words[1:]
    return int(words[0] in ('permit', 'deny', 'evaluate') or line.startswith('ip nat inside source')), int(line.startswith('ip access-group'))


RULES = {'iptables': iptables_rules, 'ipfw': ipfw_rules, 'pf': pf_rules, 'openbsd': pf_rules, 'ios': ios_rules}


def counted(language, text):
    """The rules of a text, the lines for its policies, and all of its lines."""
    lines = list(joined(text))
    counts = [RULES[language](line) for line in lines]
    return sum(rules for rules, _ in counts), sum(policies for _, policies in counts), len(lines)


def contents(path):
    with open(path, encoding='utf-8', errors='replace') as file:
        return file.read()


def timed(*words):
    """The status and the output of a run of the program, and its processor time in seconds, the least of three."""
    least = None
    for _ in range(3):
        before = resource.getrusage(resource.RUSAGE_CHILDREN)
        ended = translations.run(*words)
        after = resource.getrusage(resource.RUSAGE_CHILDREN)
        seconds = after.ru_utime + after.ru_stime - before.ru_utime - before.ru_stime
        least = seconds if least is None else min(least, seconds)
    return ended[0], ended[1], least


def real_files(words):
    for language in LANGUAGES:
        for name in sorted(os.listdir(REAL)):
            stem, _, ending = name.rpartition('.')
            if ending == language and (not words or any(word in name for word in words)):
                yield language, os.path.join(REAL, stem + '.site'), os.path.join(REAL, name)


def worked_files():
    for language, site, name in translations.EXAMPLE_FILES:
        yield language, os.path.join(translations.EXAMPLES, site), os.path.join(translations.EXAMPLES, name)
    yield from translations.worked()


def constructed():
    """The lines of what the construction writes for a pair, by the name of the file and the target."""
    if not os.path.exists(CONSTRUCTED):
        return {}
    lines = [line.split() for line in contents(CONSTRUCTED).splitlines() if not line.startswith('#')]
    return {(name, target): int(number) for name, target, number in lines}


def loads(tools, text):
    for tool in tools:
        ended = subprocess.run([tool, '--test'], input=text.encode(), capture_output=True, check=False)
        if ended.returncode:
            yield '%s says: %s' % (tool, ended.stderr.decode()[:200])


class Pair:
    """A file that is translated to a target, and what came of it."""

    def __init__(self, language, site, path, target):
        self.language, self.site, self.path, self.target = language, site, path, target
        self.name = os.path.basename(path)
        self.status, self.text, self.seconds = timed('translate', language, target, site, path)
        self.rules, self.policies, self.written = counted(language, contents(path))
        self.unfolded = unfolded(contents(path)) if language in ('pf', 'openbsd') else self.rules
        self.new_rules, self.new_policies, self.lines = counted(target, self.text) if self.status == 0 else (0, 0, 0)

    def is_suggested(self):
        return 'Suggested by FWS' in self.text.split('\n')[0]

    def is_short(self):
        return self.new_rules <= self.most()

    def most(self):
        """How many rules the text may have: lists in braces are there to be kept in pf alone."""
        return (self.rules if self.target == 'pf' else self.unfolded) + self.policies

    def check(self, tally, tools, keep, before):
        label = '%s to %s' % (self.name, self.target)
        again = os.path.join(keep, '%s.%s' % (self.name, self.target))
        with open(again, 'w', encoding='utf-8') as file:
            file.write(self.text)
        said = translations.run('same', self.language, self.site, self.path, self.target, again)
        tally.check(said == (0, 'same\n'), label, 'does not do the same:', *said)
        for state in ('new', 'est'):
            tables = [translations.run('synth', language, self.site, path, state)
                      for language, path in ((self.language, self.path), (self.target, again))]
            tally.check(tables[0] == tables[1], label, 'has another table of', state, 'packets')
        faults = list(translations.FAULTS[self.target](self.text))
        tally.check(not faults, label, *faults[:1])
        if self.target == 'iptables':
            found = list(loads(tools, self.text))
            tally.check(not found, label, *found)
        if before:
            tally.check(self.lines <= MOST_LINES * before, label, 'has', self.lines, 'lines, where the construction has', before)

    def cell(self, before):
        """The rules of the text, its lines and those of the construction, and seconds: what the table has for the pair."""
        if self.status:
            return '-'
        rules = ('%d' if self.is_short() else '**%d**') % self.new_rules
        lines = '%d of %d' % (self.lines, before) if before else '%d' % self.lines
        return '%s; %s; %.2f%s' % (rules, lines, self.seconds, '' if self.is_suggested() else '; constructed')


def table(pairs, before):
    """A line for each file, with a cell for each target."""
    print('| File | Rules | to iptables | to ipfw | to pf | to IOS |')
    print('|---|---|---|---|---|---|')
    rows = {}
    for pair in pairs:
        rows.setdefault((pair.site, pair.path), {})[pair.target] = pair
    for cells in rows.values():
        one = next(iter(cells.values()))
        told = [cells[target].cell(before.get((one.name, target))) if target in cells else '' for target in TARGETS]
        rules = '%d' % one.rules if one.unfolded == one.rules else '%d, unfolded %d' % (one.rules, one.unfolded)
        print('| `%s` | %s | %s |' % (one.name, rules + (' + %d' % one.policies if one.policies else ''), ' | '.join(told)))


def pairs_of(files, own):
    for language, site, path in files:
        for target in TARGETS:
            if own or target != language:
                yield Pair(language, site, path, target)


def refused(tally, pair):
    tally.check(pair.status == 1 and pair.text.startswith('not placeable on %s clause ' % pair.target),
                '%s to %s' % (pair.name, pair.target), 'has status', pair.status, pair.text[:80])


def write_constructed(pairs):
    with open(CONSTRUCTED, 'w', encoding='utf-8') as file:
        file.write('# Of each pair of a file and a target how many lines the construction has that is written where no short text is found.\n')
        for pair in pairs:
            file.write('%s %s %d\n' % (pair.name, pair.target, pair.lines))


def summary(title, pairs, refusals, before):
    """Of pairs how many are short, how many were constructed, and the sums of their figures."""
    short = [pair for pair in pairs if pair.is_short()]
    fallen = [pair for pair in pairs if not pair.is_suggested()]
    known = [pair for pair in pairs if (pair.name, pair.target) in before]
    print('%s: %d pairs with a text, %d without; %d have no more rules than their file; %d were constructed; %d rules and %d lines in the '
          'files; %d rules and %d lines in the texts; of %d pairs the construction has %d lines and these %d; %.2f s' % (
              title, len(pairs), refusals, len(short), len(fallen),
              sum(pair.rules + pair.policies for pair in pairs), sum(pair.written for pair in pairs), sum(pair.new_rules for pair in pairs),
              sum(pair.lines for pair in pairs), len(known), sum(before[pair.name, pair.target] for pair in known),
              sum(pair.lines for pair in known), sum(pair.seconds for pair in pairs)))


def by_kind(pairs):
    """A line for each language and target: how many pairs, how many of them short, and the sums of rules and lines."""
    print('| From, to | Texts | Short | Rules of the files | Rules of the texts | Constructed |')
    print('|---|---|---|---|---|---|')
    for language in LANGUAGES:
        for target in TARGETS:
            some = [pair for pair in pairs if (pair.language, pair.target) == (language, target)]
            if some:
                print('| %s, %s | %d | %d | %d | %d | %d |' % (
                    language, target, len(some), sum(pair.is_short() for pair in some), sum(pair.rules + pair.policies for pair in some),
                    sum(pair.new_rules for pair in some), sum(not pair.is_suggested() for pair in some)))


def main():
    words = sys.argv[1:]
    keep = words.pop(words.index('--keep') + 1) if '--keep' in words else None
    options = {word for word in words if word.startswith('--')}
    parts = [word for word in words if not word.startswith('--')]
    own = '--own' in options or '--constructed' in options
    tally = translations.Tally()
    tools = list(translations.loaders())
    before = constructed()
    made = list(pairs_of(real_files(parts), own))
    pairs = [pair for pair in made if pair.status == 0]
    if '--constructed' in options:
        made = list(pairs_of(worked_files(), own))
        write_constructed(pairs + [pair for pair in made if pair.status == 0])
        return 0
    others = list(pairs_of(worked_files(), own)) if '--worked' in options else []
    with tempfile.TemporaryDirectory() as work:
        folder = keep or work
        os.makedirs(folder, exist_ok=True)
        for pair in made + others:
            if pair.status:
                refused(tally, pair)
            else:
                pair.check(tally, tools, folder, before.get((pair.name, pair.target)))
    if not parts:
        tally.check(len(pairs) >= LEAST_PAIRS, 'only', len(pairs), 'pairs have a text')
        short = sum(pair.is_short() for pair in pairs)
        tally.check(short >= SHORT_ENOUGH * len(pairs), 'only', short, 'of', len(pairs), 'texts have no more rules than their file')
        if short < WANTED * len(pairs):
            print('short: %d of %d texts have no more rules than their file, where %d are wanted' % (short, len(pairs), WANTED * len(pairs)))
    if '--table' in options:
        table(made, before)
        by_kind(pairs)
    summary('checks/real', pairs, len(made) - len(pairs), before)
    if others:
        placed = [pair for pair in others if pair.status == 0]
        summary('examples and worked configurations', placed, len(others) - len(placed), before)
    print('short: %d right, %d wrong%s' % (tally.right, tally.wrong, '' if tools else '; no iptables-restore to try'))
    return 1 if tally.wrong else 0


if __name__ == '__main__':
    sys.exit(main())
