"""python3 checks/spoiled.py [--build | --program PATH] [--texts N] [--keep FOLDER], at the top of the repository; checks/spoiled.sh says how it is
called

Offers wrong texts in the place of short ones. What looks for short texts is trusted with nothing, and a text is emitted only if it is read, keeps
state, and has tables that are those of the policy.

- Without more words the built program is asked for all of this by its commands: `same` says whether a text is read and does the same, and `run`
  lists a connection only of a text that keeps state. These use the functions that decide, and not the function that puts them together.
- With `--build` that function is asked: a copy of the repository is made in which `translate` looks for no text, but takes the bytes of the
  file offered.text of the folder in which it runs for the suggestion (PATCHES), and the toolchain builds it without proofs, which takes minutes.
  All else is as it is. `--program PATH` names a program that was built of such a copy, and `--copy FOLDER` makes the copy there and no more.

Texts that `translate` of the program as it is suggests for files of checks/real are spoiled, each in all of these ways at each place: a rule
is left out; its verdict is turned; an address of it is one off, or its length is; a port is one off; the keeping of state is left out; a
policy is turned. Each is offered for the file that the text came from.

- The text as it was is emitted. So is each spoiled text or it isn't: then the construction is.
- Where a spoiled text is emitted it changes nothing: twelve packets are drawn from each row of all four tables, with fields that are ends of
  the row's ranges or lie just beside them, and those of connections with the ends that their connections have. `trace`, which goes through the
  rules packet by packet and makes no table, says the same of each under the file and under the spoiled text. That this finds what
  differs is tried too: of each eighth spoiled text that is read and not emitted, it has to find a packet for four in five.

Prints a line for each text, and last how many spoiled texts were offered and emitted. Exit status 1 where one goes wrong, or where fewer than
500 were offered.
"""

import itertools
import os
import random
import re
import shutil
import subprocess
import sys
import tempfile

import quick
import short
import translations
from namespaces import Probe, Site, traced

OFFERED = 'offered.text'
LEAST = 500
EVERY = 8
ENOUGH = 0.8
POINTS = 12
MOST_PACKETS = 6000

PATCHES = (
    ('crates/fws_top/src/suggesting.rt', (
        ('''    let texts = L::suggest(alloc, policy, site, hints)?;
    if texts.is_empty() {
        return Ok(None);
    }
    let evidence = evidence_of(alloc, site, policy, origin)?;
    for text in texts {
        let longer = with_notes::<L>(alloc, site, target, origin, &evidence, text)?;
        let found = checked::<L>(alloc, site, policy, longer)?;
        if let Some(right) = found {
            return Ok(Some(right));
        }
    }
    Ok(None)
''', '''    let mut text = Text::new(alloc);
    text.put(origin.offered.as_slice())?;
    let found = checked::<L>(alloc, site, policy, text)?;
    Ok(found)
'''),)),
    ('crates/fws_top/src/noting.rt', (
        ('    pub(crate) losses: Losses,\n', '    pub(crate) losses: Losses,\n    pub(crate) offered: Text,\n'),
        ('    code: &Flat,\n) -> Result<Origin, Memory>', '    code: &Flat,\n    offered: Text,\n) -> Result<Origin, Memory>'),
        ('    Ok(Origin {\n        losses,\n', '    Ok(Origin {\n        losses,\n        offered,\n'))),
    ('crates/fws_top/src/steps.rt', (('\nfn take<S: Shelf>(', '\npub(crate) fn take<S: Shelf>('),)),
    ('crates/fws_top/src/commands.rt', (
        ('use crate::steps::{\n', 'use crate::steps::{\n    take, '),
        ('    let origin = origin_of(alloc, from, site, bytes.as_slice(), &code.flat)?;\n',
         '    let offered = take(alloc, shelf, b"%s")?;\n' % OFFERED +
         '    let origin = origin_of(alloc, from, site, bytes.as_slice(), &code.flat, offered)?;\n'))),
)


def copy(folder):
    """The repository as it stands, with its `translate` changed."""
    names = subprocess.run(['git', 'ls-files', '-z'], cwd=translations.TOP, stdout=subprocess.PIPE, check=True).stdout.decode().split('\0')
    for name in filter(None, names):
        place = os.path.join(folder, name)
        os.makedirs(os.path.dirname(place), exist_ok=True)
        shutil.copy2(os.path.join(translations.TOP, name), place)
    for name, changes in PATCHES:
        place = os.path.join(folder, name)
        text = short.contents(place)
        for old, new in changes:
            if old not in text:
                raise SystemExit('spoiled: %s has no longer %r, so that the copy cannot be made' % (name, old))
            text = text.replace(old, new)
        with open(place, 'w', encoding='utf-8') as file:
            file.write(text)


# How a text is spoiled


def numbered(line, pattern, change):
    """The line with each number in turn changed that a pattern finds, which has it as its group."""
    for found in re.finditer(pattern, line):
        yield line[:found.start(1)] + change(found.group(1)) + line[found.end(1):]


ADDRESS = r'(?<![\d.])(\d+\.\d+\.\d+\.\d+)(?![\d./])'
NETWORK = r'(?<![\d.])(\d+\.\d+\.\d+\.\d+/\d+)'
WILDCARD = r'(?<![\d.])(\d+\.\d+\.\d+\.\d+ 0\.\d+\.\d+\.\d+)'
PORT = {
    'iptables': r'(?:port|ports) (?:[\d:]+,)*(\d+)(?=[\s,:]|$)',
    'ipfw': r'(?<=[ ,-])(\d{1,5})(?=[, -]|$)(?=.*(?: in\b| out\b| keep-state))',
    'pf': r'(?: port |, |\{ |:)(\d{1,5})(?=[ ,:]|$)',
    'ios': r'(?: eq | neq | gt | lt | range | range \d+ )(\d+)',
}


def address_after(word):
    first, second, third, fourth = (int(part) for part in word.split('.'))
    number = (first << 24 | second << 16 | third << 8 | fourth) + 1 & 0xffffffff
    return '.'.join(str(number >> shift & 255) for shift in (24, 16, 8, 0))


def network_after(word):
    address, length = word.split('/')
    size = 1 << 32 - int(length) if int(length) else 0
    number = sum(int(part) << shift for part, shift in zip(address.split('.'), (24, 16, 8, 0))) + size & 0xffffffff
    return '%s/%s' % ('.'.join(str(number >> shift & 255) for shift in (24, 16, 8, 0)), length)


def half(word):
    address, length = word.split('/')
    return '%s/%d' % (address, int(length) + 1 if int(length) < 32 else 31)


def half_of(word):
    address, wildcard = word.split(' ')
    number = sum(int(part) << shift for part, shift in zip(wildcard.split('.'), (24, 16, 8, 0))) >> 1
    return '%s %s' % (address, '.'.join(str(number >> shift & 255) for shift in (24, 16, 8, 0)))


def port_after(word):
    return str((int(word) + 1) % 65536)


def turned(language, line):
    """The line with the other verdict; none where it has none."""
    if language == 'iptables':
        if line.endswith('-j ACCEPT'):
            return line[:-6] + 'DROP'
        return line[:-4] + 'ACCEPT' if line.endswith('-j DROP') else None
    if language == 'ipfw':
        if ' allow ' in line:
            return line.replace(' allow ', ' deny ').replace(' keep-state', '')
        return line.replace(' deny ', ' allow ') + ' keep-state' if ' deny ' in line else None
    if language == 'pf':
        if line.startswith('pass'):
            return re.sub(r' keep state| flags any', '', 'block' + line[4:])
        return 'pass' + line[5:] + ' keep state' if line.startswith('block') else None
    if line.startswith(' permit'):
        return re.sub(r' reflect \S+', '', ' deny' + line[7:])
    return ' permit' + line[5:] + ' reflect TURNED' if line.startswith(' deny') else None


def stateless(language, line):
    """The line without the keeping of state; none where it keeps none."""
    changed = {'iptables': line, 'ipfw': line.replace(' keep-state', ''), 'pf': line.replace('keep state', 'no state'),
               'ios': re.sub(r' reflect \S+', '', line)}[language]
    return changed if changed != line else None


def policies(language, line):
    """The line with another policy; none where it sets none."""
    if language == 'iptables' and line.startswith(':'):
        return line.replace(' DROP ', ' ACCEPT ') if ' DROP ' in line else line.replace(' ACCEPT ', ' DROP ')
    if language == 'ios' and line.startswith(' ip access-group'):
        return ''
    return None


def spoiled_lines(language, line):
    """What is put in the place of a line, and what is wrong with it."""
    if not line.strip():
        return
    if short.RULES[language](line.strip())[0]:
        yield 'left out', None
        yield 'verdict', turned(language, line)
        yield 'state', stateless(language, line)
    yield 'policy', policies(language, line)
    if line.lstrip().startswith(('!', '#', ':', '*')):
        return
    for kind, pattern, change in (('address', ADDRESS, address_after), ('network', NETWORK, network_after), ('length', NETWORK, half),
                                  ('length', WILDCARD, half_of), ('port', PORT[language], port_after)):
        for changed in numbered(line, pattern, change):
            yield kind, changed


def spoils(language, text):
    """Spoiled texts, each with what is wrong."""
    lines = text.split('\n')
    found = {text}
    for place, line in enumerate(lines):
        for kind, changed in spoiled_lines(language, line):
            if changed is None and kind != 'left out' or changed == line:
                continue
            spoiled = '\n'.join(lines[:place] + ([] if changed is None else [changed]) + lines[place + 1:])
            if spoiled not in found:
                found.add(spoiled)
                yield kind, spoiled
    if language == 'ipfw':
        yield 'policy', text + 'add 65000 allow ip from any to any keep-state\n'


# Whether a spoiled text changes nothing


MOST = (255, 0xffffffff, 65535, 0xffffffff, 65535, 63, 255, 0xffffffff, 65535, 0xffffffff, 65535)


def quad(number):
    return '.'.join(str(number >> shift & 255) for shift in (24, 16, 8, 0))


class Points:
    """Draws packets from the rows of the tables of two texts: each field is an end of a range of its side, or lies just beside it; a side that
    is everything takes an end that the field has in any row."""

    def __init__(self, site, texts, source):
        self.site, self.source, self.number = site, source, 0
        self.rows = {state: [translations.row_sides(line) for text in texts for line in
                             translations.run('synth', *text, state)[1].splitlines()[1:]] for state in ('new', 'est')}
        self.ends = [sorted({end for rows in self.rows.values() for row in rows if place + 1 < len(row) and row[place + 1] is not None
                             for pair in row[place + 1] for end in pair} | {0, most}) for place, most in enumerate(MOST)]

    def field(self, place, side):
        if side is None:
            return self.source.choice(self.ends[place])
        end = self.source.choice(self.source.choice(side))
        return min(max(end + self.source.choice((0, 0, 0, 0, 0, 0, -1, 1)), 0), MOST[place])

    def packet(self, row):
        """A packet in a row or near it, and the ends with which its connection sends it, if it is a row of those."""
        self.number += 1
        values = [self.field(place, side) for place, side in enumerate(row[1:])]
        proto, dst, dport, src, sport, flags, kind = values[:7]
        entry = self.source.choice(sorted(row[0]) if row[0] is not None else list(self.site.names) + ['host', 'lo'])
        if proto not in (6, 17):
            dport = sport = 0
        probe = Probe(self.number, entry, proto, quad(dst), dport, quad(src), sport, flags if proto == 6 else 0, kind if proto == 1 else 0)
        if len(values) == 7:
            return probe, None
        rdst, rdport, rsrc, rsport = values[7:]
        ports = (rdport, rsport) if proto in (6, 17) else (0, 0)
        return probe, (quad(rsrc), ports[1], quad(rdst), ports[0])


def differing(texts, site, work, source):
    """A packet that fares otherwise under the second text than under the first one; none where none is found."""
    points = Points(site, texts, source)
    for state, rows in points.rows.items():
        rows = rows if len(rows) * POINTS <= MOST_PACKETS else [source.choice(rows) for _ in range(MOST_PACKETS // POINTS)]
        drawn = [points.packet(row) for row in rows for _ in range(POINTS)]
        connections = [probe.connection(ends) for probe, ends in drawn if ends]
        probes = [probe for probe, _ in drawn]
        for probe, one, other in zip(probes, *[traced(*text, work, connections, probes) for text in texts]):
            if one != other:
                return '%s packet %s' % (state, probe.line().strip())
    return None


def written(folder, text):
    place = os.path.join(folder, 'again')
    with open(place, 'w', encoding='utf-8') as file:
        file.write(text)
    return place


class Offering:
    """A program to which texts are offered."""

    def __init__(self, words):
        self.words = words

    def emits(self, pair, text, folder):
        """Whether the text is emitted for a pair; none where the program answers neither with it nor with the construction."""
        with open(os.path.join(folder, OFFERED), 'w', encoding='utf-8') as file:
            file.write(text)
        words = list(self.words) + ['translate', pair.language, pair.target, pair.site, pair.path]
        ended = subprocess.run(words, cwd=folder, stdout=subprocess.PIPE, check=False)
        said = ended.stdout.decode()
        if ended.returncode == 0 and said == text:
            return True
        return False if ended.returncode == 0 and 'Written by FWS' in said.split('\n')[0] else None


class Asking:
    """The built program, which is asked by its commands."""

    def __init__(self):
        self.events = {}

    def emits(self, pair, text, folder):
        again = written(folder, text)
        status, said = translations.run('same', pair.language, pair.site, pair.path, pair.target, again)
        if status > 3:
            return None
        return (status, said) == (0, 'same\n') and self.keeps(pair, again, folder)

    def keeps(self, pair, again, folder):
        """Whether a text that does what the file does lists the connection of a packet that the file accepts."""
        if pair.path not in self.events:
            texts = [(pair.language, pair.site, pair.path)]
            points = Points(Site(pair.site), texts, random.Random(1))
            probes = [points.packet(row)[0] for row in points.rows['new'] for _ in range(POINTS)]
            fates = traced(*texts[0], folder, [], probes)
            self.events[pair.path] = [probe for probe, fate in zip(probes, fates) if fate][0].line()
        events = os.path.join(folder, 'events')
        with open(events, 'w', encoding='ascii') as file:
            file.write(self.events[pair.path])
        return translations.run('run', pair.target, pair.site, again, events)[1].split('\n')[1:2] == ['conns 1']


class Trials:
    """How many spoiled texts were offered, emitted without a change, and how many went wrong."""

    def __init__(self, program, keep):
        self.program, self.keep = program, keep
        self.offered, self.emitted, self.wrong, self.kinds = 0, 0, 0, {}
        self.texts, self.looked, self.found = 0, 0, 0

    def say(self, *told):
        self.wrong += 1
        print(*told)

    def judge(self, pair, kind, spoiled, folder):
        emits = self.program.emits(pair, spoiled, folder)
        self.offered += 1
        counts = self.kinds.setdefault(kind, [0, 0])
        counts[0] += 1
        label = '%s to %s, %s:' % (pair.name, pair.target, kind)
        if not emits:
            if emits is None:
                self.say(label, 'is answered otherwise')
            if self.offered % EVERY == 0 and kind != 'state':
                self.look(pair, spoiled, folder)
            return
        self.emitted += 1
        counts[1] += 1
        again = written(folder, spoiled)
        texts = [(pair.language, pair.site, pair.path), (pair.target, pair.site, again)]
        found = differing(texts, Site(pair.site), folder, random.Random(self.offered))
        if found:
            self.say(label, 'is emitted, and changes', found)
            if self.keep:
                shutil.copy(again, os.path.join(self.keep, '%s.%s.%d' % (pair.name, pair.target, self.offered)))

    def look(self, pair, spoiled, folder):
        """Looks for a packet that fares otherwise under a text that wasn't emitted, if it is one that is read."""
        again = written(folder, spoiled)
        if translations.run('synth', pair.target, pair.site, again, 'new')[0] == 0:
            texts = [(pair.language, pair.site, pair.path), (pair.target, pair.site, again)]
            self.looked += 1
            self.found += differing(texts, Site(pair.site), folder, random.Random(self.offered)) is not None

    def text(self, pair, folder):
        if not self.program.emits(pair, pair.text, folder):
            self.say('%s to %s: the text as it was is not emitted' % (pair.name, pair.target))
        before = self.offered, self.emitted
        for kind, spoiled in spoils(pair.target, pair.text):
            self.judge(pair, kind, spoiled, folder)
        print('%s to %s: %d spoiled texts, %d emitted' % (pair.name, pair.target, self.offered - before[0], self.emitted - before[1]), flush=True)


def tried(program, count, keep):
    """Tries texts of files of checks/real, and says whether all went right."""
    jobs = [(file, target) for file in short.real_files([]) for target in short.TARGETS]
    random.Random(1).shuffle(jobs)
    pairs = (short.Pair(*file, target) for file, target in jobs)
    chosen = itertools.islice((pair for pair in pairs if pair.status == 0 and pair.is_suggested()), count)
    trials = Trials(program, keep)
    with tempfile.TemporaryDirectory() as folder:
        for pair in chosen:
            trials.text(pair, folder)
            trials.texts += 1
    print('; '.join('%s: %d offered, %d emitted' % (kind, *counts) for kind, counts in trials.kinds.items()))
    print('of %d that were read and not emitted, a packet that fares otherwise was found for %d' % (trials.looked, trials.found))
    print('spoiled: %d texts, %d spoiled ones offered, %d emitted, which change nothing; %d wrong' % (
        trials.texts, trials.offered, trials.emitted, trials.wrong))
    return trials.wrong == 0 and trials.offered >= LEAST and trials.found >= ENOUGH * trials.looked


def value(words, name, otherwise):
    return words[words.index(name) + 1] if name in words else otherwise


def main(words):
    if '--copy' in words:
        copy(value(words, '--copy', None))
        return 0
    count, keep, program = int(value(words, '--texts', '30')), value(words, '--keep', None), value(words, '--program', None)
    if program:
        return 0 if tried(Offering([os.path.abspath(program)]), count, keep) else 1
    if '--build' not in words:
        return 0 if tried(Asking(), count, keep) else 1
    with tempfile.TemporaryDirectory() as folder, tempfile.TemporaryDirectory() as built:
        copy(folder)
        quick.TOP = folder
        start, said = quick.build_unproved(built)
        if not start:
            print('spoiled: the copy was not built:', said)
            return 1
        return 0 if tried(Offering(start), count, keep) else 1


if __name__ == '__main__':
    sys.exit(main(sys.argv[1:]))
