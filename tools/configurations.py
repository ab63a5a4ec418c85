"""What can be told from the text of a configuration alone, for the tools around fws: in which language it is, and which lines the rules
have that `fws why` tells by their numbers and labels.
"""

import re

# Lines by which a text shows in which language it is.
MARKS = (
    ('iptables', r'\*(filter|nat|mangle|raw|security)\s*$|:\S+ (ACCEPT|DROP|-)( |$)|(\[\d+:\d+\] )?-A \S|COMMIT\s*$'),
    ('ipfw', r'((/sbin/)?ipfw( -[qf])* )?(add |flush\s*$|nat \d+ config )|\d{1,5} (check-state\b|[a-z]+ .*\bfrom )'),
    ('ios', r'(interface [A-Z][A-Za-z-]+ ?[\d/.]+|ip access-list |access-list \d+ |ip nat |ip route |hostname |version \d|'
            r'service |line vty|no service |!)|[ \t]+(\d+ )?(permit|deny|remark|evaluate) '),
    ('pf', r'(pass|block|rdr|nat|no (rdr|nat)|binat|set|scrub|antispoof|match|table\s*<|anchor|rdr-anchor|nat-anchor)\b|\w+\s*=\s*["{$\w]'),
)
OPENBSD = r'match\b|.*\b(nat-to|rdr-to|binat-to|af-to|divert-to)\b'


def language_of(text):
    """The language of most lines that show one, or None where none does so or two do alike."""
    counts = {name: 0 for name, _ in MARKS}
    lines = text.splitlines()
    for line in lines:
        for name, form in MARKS:
            counts[name] += re.match(form, line if name == 'ios' else line.strip()) is not None
    best = sorted(counts, key=counts.get, reverse=True)
    if counts[best[0]] == counts[best[1]]:
        return None
    if best[0] == 'pf' and any(re.match(OPENBSD, line.strip()) for line in lines):
        return 'openbsd'
    return best[0]


# The rules


def iptables_rules(text):
    """The lines of rules, by their labels."""
    found, counts, table = {}, {}, ''
    for line in text.splitlines():
        line = line.strip()
        rule = re.match(r'(?:\[\d+:\d+\]\s+)?(-A\s+(\S+).*)', line)
        if line.startswith('*'):
            table = line[1:]
        elif rule:
            place = table, rule[2]
            counts[place] = counts.get(place, 0) + 1
            found['%s %s %d' % (*place, counts[place])] = rule[1]
    return found


def ipfw_rules(text):
    """The lines of rules, by the numbers that count all of them and their labels."""
    rules, greatest = [], 0
    for line in text.splitlines():
        words = re.split(r'#|//', line)[0].split()
        while words and words[0] in ('ipfw', '/sbin/ipfw', '-q', '-f'):
            words = words[1:]
        is_added = words[:1] == ['add']
        words = words[is_added:]
        if words and words[0].isdecimal() and int(words[0]) < 65535:
            number = int(words[0])
        elif words and is_added:
            number = greatest + 100 if greatest + 100 <= 65534 else greatest
        else:
            continue
        greatest = max(greatest, number)
        rules.append((number, line.strip()))
    return {'%d rule %d' % (k, number): line for k, (number, line) in enumerate(sorted(rules, key=lambda rule: rule[0]), 1)}


def ios_rules(text):
    """The lines of entries and of translations, by their labels."""
    found, counts, block = {}, {}, None

    def add(kind, line):
        counts[kind] = counts.get(kind, 0) + 1
        found['%s %d' % (kind, counts[kind])] = line.strip()

    for line in text.splitlines():
        words = line.split()
        if not words or line.startswith('!'):
            continue
        entry = words[1:] if words[0].isdecimal() else words
        if line[0] in ' \t':
            if block and entry[:1] != ['remark']:
                add('list ' + block, line)
            continue
        block = words[3] if words[:2] == ['ip', 'access-list'] and len(words) == 4 else None
        if words[0] == 'access-list' and len(words) > 2 and words[2] != 'remark':
            add('list ' + words[1].lstrip('0'), line)
        elif words[:4] == ['ip', 'nat', 'inside', 'source']:
            add('nat', line)
    return found


RULES = {'iptables': iptables_rules, 'ipfw': ipfw_rules, 'ios': ios_rules}


def rule_lines(language, text):
    """The lines of the rules of a text, by their labels or by the numbers that count all of them and their labels; of pf none."""
    return RULES[language](text) if language in RULES else {}


# What decides where no rule does, and the rules after which nothing else decides, by the lines behind their labels.
ENDS = {'iptables': 'a policy', 'ipfw': 'rule 65535, which denies', 'ios': 'the deny at the end of a list'}
DECIDING = {
    ('iptables', 'drop'): r'.*(-j|-g) (DROP|REJECT)\b', ('iptables', 'accept'): r'\d+ filter .*(-j|-g) ACCEPT\b',
    ('ipfw', 'drop'): r'.*\b(deny|drop|reject|reset|unreach)\b', ('ios', 'drop'): r'\d+ list .*\bdeny\b',
}


def deciding_words(language, verdict, rules, forwards):
    """What is said behind the rules of a packet: that something else decides, where this is known. `forwards` says whether the host
    sends on what is for others."""
    form = DECIDING.get((language, verdict))
    if rules and (not form or any(re.match(form, rule) for rule in rules)):
        return ''
    lost = ', or that this host does not forward' if verdict == 'drop' and not forwards else ''
    if language in ENDS and (rules or verdict == 'drop' or language == 'iptables'):
        return ENDS[language] + ' decides' + lost
    return 'nothing keeps it' if verdict == 'accept' else 'this host does not forward it'
