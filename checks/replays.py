"""python3 checks/replays.py [SEED], at the top of the repository; checks/replays.sh says how it is called

Replays events over translations: a configuration and all texts that it is translated to keep step, as their tables are the same and each
text keeps state where it accepts. Of each configuration of examples/ and each of which crates/fws_test_configs/data/rows.jobs has a
table, at its site:

- It is translated to iptables, ipfw, pf and Cisco IOS.
- 300 events are drawn: packets with the addresses and ports that stand in its files, answers to packets that were sent on by then, with the
  ends with which these left, and expiries of entries.
- The command `run` gives the same answers and the same list of connections for all these texts, and for the configuration itself where it
  is one of iptables, which always keeps state.

Prints a line for each pair of texts whose answers differ, and last how many pairs were compared, how many events and how many of them opened a
connection or belonged to one. Exit status 1 where a pair differs, or where fewer than 200 pairs were compared. The seed is 1, unless one is
given.
"""

import itertools
import os
import random
import re
import sys
import tempfile

import translations

EVENTS = 300
LEAST_PAIRS = 200


def quad(number):
    return '.'.join(str(number >> shift & 255) for shift in (24, 16, 8, 0))


def value(word):
    first, second, third, fourth = (int(part) for part in word.split('.'))
    return first << 24 | second << 16 | third << 8 | fourth


def entries(site):
    """The words for the interfaces of a site, the host and loopback, by which packets enter."""
    with open(site, encoding='utf-8') as file:
        return ['host', 'lo'] + re.findall(r'^interface (\S+)', file.read(), re.MULTILINE)


def named(files):
    """Addresses and ports that stand in files, and their neighbours."""
    addresses, ports = {'198.51.100.9', '8.8.8.8'}, {'40001', '40002'}
    for name in files:
        with open(name, encoding='latin-1') as file:
            text = file.read()
        for word in re.findall(r'\b\d{1,3}(?:\.\d{1,3}){3}\b', text):
            if all(int(part) < 256 for part in word.split('.')):
                addresses.update(quad(value(word) + step & 0xffffffff) for step in (0, 1, 5))
        ports.update(str(int(word) + step) for word in re.findall(r'\b\d{1,5}\b', text) for step in (0, 1) if int(word) + step < 65536)
    return sorted(addresses), sorted(ports)


def packet(rng, ways, addresses, ports):
    """A packet line as its eight words."""
    proto = rng.choice(('6', '6', '6', '17', '17', '1', '47'))
    return [rng.choice(ways), proto, rng.choice(addresses), rng.choice(ports), rng.choice(addresses), rng.choice(ports),
            rng.choice(('2', '2', '18', '16', '0')), rng.choice(('8', '0', '3'))]


def answer(rng, ways, words, line):
    """A packet that answers one that was sent on with these ends."""
    ends = re.search(r'src=([\d.]+)(?::(\d+))? dst=([\d.]+)(?::(\d+))?', line)
    source, source_port, destination, port = ends.groups()
    return [rng.choice(ways), words[1], source, source_port or words[5], destination, port or words[3], rng.choice(('18', '16')), words[7]]


def drawn(rng, run, site, files):
    """300 events: first packets alone are drawn, then answers to those that were sent on, and expiries, are put between them."""
    ways, (addresses, ports) = entries(site), named(files)
    packets = [packet(rng, ways, addresses, ports) for _ in range(EVENTS // 2)]
    lines = run(packets)
    events = []
    for words, line in zip(packets, lines):
        events.append(' '.join(words))
        if line.startswith('new accept'):
            events.extend(' '.join(answer(rng, ways, words, line)) for _ in range(rng.choice((1, 2))))
            events.append(' '.join(words))
        if rng.random() < 0.1:
            events.append('expire %d' % rng.randrange(6))
    return (events * 3)[:EVENTS]


def written(work, name, lines):
    path = os.path.join(work, name)
    with open(path, 'w', encoding='utf-8') as file:
        file.write(''.join(line + '\n' for line in lines))
    return path


def texts_of(work, language, site, name):
    """The texts that keep step, with their languages: the translations, and a configuration of iptables itself."""
    found = [(language, name)] if language == 'iptables' else []
    for target in translations.TARGETS:
        status, text = translations.run('translate', language, target, site, name)
        if status == 0:
            path = os.path.join(work, 'text.' + target)
            with open(path, 'w', encoding='utf-8') as file:
                file.write(text)
            found.append((target, path))
    return found


def replayed(rng, work, job):
    """The answers of each text to the events, and the configuration's name."""
    language, site, name = job
    texts = texts_of(work, language, site, name)
    if len(texts) < 2:
        return []

    def first(packets):
        """What becomes of packets one by one, under the first of the texts."""
        events = written(work, 'packets', [' '.join(words) for words in packets])
        return translations.run('run', texts[0][0], site, texts[0][1], events)[1].splitlines()

    events = written(work, 'events', drawn(rng, first, site, [site, name]))
    return [(text, translations.run('run', text, site, path, events)) for text, path in texts]


def main(seed):
    rng = random.Random(seed)
    examples = [(language, os.path.join(translations.EXAMPLES, site), os.path.join(translations.EXAMPLES, name))
                for language, site, name in translations.EXAMPLE_FILES]
    pairs = wrong = events = tracked = 0
    with tempfile.TemporaryDirectory() as work:
        for job in examples + translations.worked():
            answers = replayed(rng, work, job)
            for (text, (status, one)), (other, (second, two)) in itertools.combinations(answers, 2):
                pairs += 1
                if status != 0 or second != 0 or one != two:
                    wrong += 1
                    print(job[2], 'at', job[1], 'in', text, 'and', other, 'differ')
            if answers:
                lines = answers[0][1][1].splitlines()
                events += EVENTS
                tracked += sum(line.startswith(('new accept', 'est ')) for line in lines)
    print('replays: seed %d, %d pairs of texts, %d differ; %d events, of which %d opened a connection or belonged to one' % (
        seed, pairs, wrong, events, tracked))
    return 0 if wrong == 0 and pairs >= LEAST_PAIRS else 1


if __name__ == '__main__':
    sys.exit(main(int(sys.argv[1]) if len(sys.argv) > 1 else 1))
