"""Tries the edits in crates/NAME/edits, which the prover has to refuse, where something that they depend on has changed;
checks/edits.sh says how it is called, what it prints and what the records hold.
"""

import argparse
import functools
import hashlib
import os
import re
import shutil
import signal
import subprocess
import sys
import tempfile
import time

from statements import sources, statements_of

TOP = os.path.dirname(os.path.dirname(os.path.abspath(__file__)))
PARTS = ('src', 'specs', 'proofs')
RECORD = 'tried'
GRACE = 120  # seconds that a crate still has once the minutes are over
PROCESSORS = len(os.sched_getaffinity(0))
STOPS = (signal.SIGINT, signal.SIGTERM, signal.SIGHUP)

# What rt says of an edit, and what of a refusal says little of a contract.
SAID = re.compile(r'rt: (?:must-fail [^/ ]+/|\S*/must-fail/)(.+?): ((?:refused|NOT REFUSED|BAD EDIT|NOT TRIED)\b.*)')
REFUSED = 'refused'
WRONG = ('NOT REFUSED', 'BAD EDIT')
LITTLE = {
    'only because a proof file names what the edit took away': 'only because a proof file names what was taken away',
    'only by a limit of the prover': 'only by a limit',
}

# What names a module of a crate's specs.
NAMED = re.compile(r'Rattle\s*\.\s*(\w+)\s*\.\s*specs((?:\s*\.\s*\w+)+)')

# Asks rt's own library whether each library below a crate is built of the files that stand there; the status is 0 where it is. A
# later toolchain may not be asked so: then the answer is no.
BUILT = '''
import sys
sys.path.insert(0, sys.argv[1])
import rtlib
stamp, stamps = rtlib.Crate.stamp, {}
def once(crate):
    if crate.folder not in stamps:
        stamps[crate.folder] = stamp(crate)
    return stamps[crate.folder]
rtlib.Crate.stamp = once
crate, = [one for one in rtlib.crates_below(sys.argv[2]) if one.name == sys.argv[3]]
sys.exit(not all(one.is_built() for one in crate.below()))
'''


def files_of(folder):
    """The files below a folder, by their paths in it."""
    found = {}
    for at, folders, names in os.walk(folder):
        folders.sort()
        for name in names:
            path = os.path.join(at, name)
            found[os.path.relpath(path, folder)] = path
    return dict(sorted(found.items()))


def read(path):
    with open(path, 'rb') as file:
        return file.read()


class Sum:
    """A sum over named texts."""

    def __init__(self):
        self.sum = hashlib.sha256()

    def add(self, name, content):
        for part in (os.fsencode(name), content):
            self.sum.update(b'%d ' % len(part))
            self.sum.update(part)

    def add_files(self, name, files):
        for path, file in files.items():
            self.add(name + '/' + path, read(file))

    def text(self):
        return self.sum.hexdigest()


@functools.lru_cache(maxsize=None)
def named(text):
    """The modules of specs that a text names, each as its crate and the words of its path, to which a name in the module may belong."""
    return frozenset((crate, tuple(re.findall(r'\w+', path))) for crate, path in NAMED.findall(text))


class Tree:
    """The crates of a checkout, or of a copy in which edits stand in another folder."""

    def __init__(self, top, edits='edits'):
        self.top, self.edits_folder = top, edits
        self.lines, self.uses = {}, {}
        with open(os.path.join(top, 'crates.txt'), encoding='utf-8') as file:
            lines = [line.partition('#')[0].split() for line in file]
        for words in filter(None, lines):
            head, _, libraries = ' '.join(words).partition(':')
            name = head.split()[0]
            self.lines[name], self.uses[name] = ' '.join(words), libraries.replace(',', ' ').split()
        for name, libraries in self.uses.items():
            self.uses[name] = [library for library in libraries if library in self.lines]
        self.of_below, self.of_statements, self.of_specs = {}, {}, {}

    def folder(self, name, *parts):
        return os.path.join(self.top, 'crates', name, *parts)

    def below(self, name):
        """The crates that a crate stands on, each behind those that it stands on itself."""
        if name not in self.of_below:
            found = []
            for library in self.uses[name]:
                found += [one for one in [*self.below(library), library] if one not in found]
            self.of_below[name] = found
        return self.of_below[name]

    def lowest_first(self, names):
        order = list(self.lines)
        return sorted(names, key=lambda name: (len(self.below(name)), order.index(name)))

    def edits(self, name):
        """The edits of a crate, by their paths; what else stands in their folder counts as one, for rt to say that it is none."""
        found = files_of(self.folder(name, self.edits_folder))
        return {path: file for path, file in found.items() if path != RECORD and not path.endswith('.md')}

    def record(self, name):
        path = self.folder(name, 'edits', RECORD)
        return read(path).decode(errors='replace') if os.path.isfile(path) else None

    def statements(self, name):
        """The statements of a crate's source."""
        if name not in self.of_statements:
            self.of_statements[name] = statements_of(sources(self.folder(name)))
        return self.of_statements[name]

    def spec(self, crate, words):
        """The file of the module of specs that the words begin with, by its path in the crate, and its text; none where there is no such file."""
        for count in range(len(words), 0, -1):
            path = os.path.join('specs', *words[:count]) + '.antt'
            if (crate, path) not in self.of_specs:
                file = self.folder(crate, path)
                self.of_specs[crate, path] = read(file).decode('utf-8', 'surrogateescape') if os.path.isfile(file) else None
            if self.of_specs[crate, path] is not None:
                return path, self.of_specs[crate, path]
        return None

    def specs_below(self, name):
        """The files of specs of crates below that a crate's files name, or the statements of a crate below, or such a file itself, with their
        texts, by their crates and paths."""
        below, found = set(self.below(name)), {}
        own = [read(file).decode('utf-8', 'surrogateescape') for part in PARTS for file in files_of(self.folder(name, part)).values()]
        waiting = [one for text in own + [self.statements(low) for low in below] for one in named(text)]
        while waiting:
            crate, words = waiting.pop()
            spec = self.spec(crate, words) if crate in below else None
            if spec and (crate, spec[0]) not in found:
                found[crate, spec[0]] = spec[1]
                waiting += named(spec[1])
        return found

    def sums(self, names, toolchain):
        """The sums of these crates, by their names."""
        found = {}
        for name in names:
            own = Sum()
            own.add('toolchain', toolchain)
            own.add('crates.txt', self.lines[name].encode())
            for part in PARTS:
                own.add_files(part, files_of(self.folder(name, part)))
            own.add_files('edits', self.edits(name))
            for low in sorted(self.below(name)):
                own.add(low, self.statements(low).encode('utf-8', 'surrogateescape'))
            for (low, path), text in sorted(self.specs_below(name).items()):
                own.add(low + '/' + path, text.encode('utf-8', 'surrogateescape'))
            found[name] = own.text()
        return found

    def due(self, toolchain):
        """The crates with edits whose records don't hold their sums, lowest first."""
        names = self.lowest_first(name for name in self.lines if self.edits(name))
        sums = self.sums(names, toolchain)
        return [name for name in names if self.record(name) != sums[name] + '\n']

    def without_edits(self):
        """The crates that have a record and no edit."""
        return [name for name in self.lines if self.record(name) is not None and not self.edits(name)]

    def unlisted(self):
        """The folders with edits whose crate crates.txt doesn't list."""
        folders = os.listdir(os.path.join(self.top, 'crates'))
        return sorted(name for name in folders if name not in self.lines and os.path.isdir(self.folder(name, 'edits')))

    def keep(self, name, text):
        """Writes a crate's record, as a whole or not at all."""
        path = self.folder(name, 'edits', RECORD)
        new = path + '.new'
        try:
            with open(new, 'w', encoding='utf-8') as file:
                file.write(text + '\n')
            os.replace(new, path)
        finally:
            if os.path.exists(new):
                os.remove(new)

    def drop(self, name):
        """Removes a crate's record, and returns whether there was one."""
        has_one = self.record(name) is not None
        if has_one:
            os.remove(self.folder(name, 'edits', RECORD))
        return has_one

    def need(self, name):
        """The memory that a check of the crate takes at most, in bytes, as rt reckons it."""
        def count(crate, part):
            return sum(read(file).count(b'\n') for file in files_of(self.folder(crate, part)).values())
        below = sum(count(low, 'src') for low in self.below(name))
        return 10**9 + 10**6 * count(name, 'src') + 200_000 * (count(name, 'specs') + count(name, 'proofs')) + 80_000 * below

    def is_checked(self, name):
        """Whether out/ holds what `rt check` kept of the crate, and of all below it as they stand."""
        if not files_of(self.folder(name, 'out', 'incremental')):
            return False
        tools = os.path.dirname(os.path.realpath(shutil.which('rt')))
        asked = subprocess.run([sys.executable, '-B', '-c', BUILT, tools, self.top, name], stdin=subprocess.DEVNULL,
                               stdout=subprocess.DEVNULL, stderr=subprocess.DEVNULL, check=False)
        return asked.returncode == 0


def copy_of(tree, name, to):
    """Copies a crate and those below it, with the crate's edits as must-fail."""
    os.makedirs(os.path.join(to, '.git'))  # it is the top of a repository
    names = [*tree.below(name), name]
    for one in names:
        top = tree.folder(one)
        shutil.copytree(top, os.path.join(to, 'crates', one), ignore=lambda at, found, top=top: (
            {'out', 'edits', 'must-fail'} if at == top else ()))
    shutil.copytree(tree.folder(name, 'edits'), os.path.join(to, 'crates', name, 'must-fail'),
                    ignore=lambda at, found: {RECORD})
    with open(os.path.join(to, 'crates.txt'), 'w', encoding='utf-8') as file:
        file.writelines(tree.lines[one] + '\n' for one in names)
    if os.path.exists(os.path.join(tree.top, 'HANDLES')):
        shutil.copy(os.path.join(tree.top, 'HANDLES'), to)


def link_kept(tree, name, to):
    """Gives a copy what `rt check` kept. rt replaces the files of a library and what it proved, and writes into none of them, so
    that these can be links.
    """
    def link_proved(one, other):
        return os.link(one, other) if one.endswith('.oantt') else shutil.copy2(one, other)
    for low in tree.below(name):
        shutil.copytree(tree.folder(low, 'out', 'rlib'), os.path.join(to, 'crates', low, 'out', 'rlib'), copy_function=os.link)
    shutil.copytree(tree.folder(name, 'out', 'incremental'), os.path.join(to, 'crates', name, 'out', 'incremental'),
                    copy_function=link_proved)


class Try:
    """A crate whose edits are being tried in a copy."""

    def __init__(self, tree, name, work, toolchain, lanes):
        self.name, self.lanes, self.began, self.process = name, lanes, time.monotonic(), None
        self.room = os.path.join(work, name)
        self.log, self.copy = os.path.join(self.room, 'log'), os.path.join(self.room, 'copy')
        copy_of(tree, name, self.copy)
        os.chmod(self.room, 0o711)
        tried = Tree(self.copy, 'must-fail')
        self.sum, self.edits = tried.sums([name], toolchain)[name], list(tried.edits(name))
        self.words = [sys.executable, '-B', os.path.join(tree.top, 'checks', 'alone.py'), name]
        if tree.is_checked(name):
            try:
                link_kept(tree, name, self.copy)
                self.words = ['rt', 'must-fail', name]
            except (OSError, shutil.Error):
                # another command writes there, say, or it is another disk
                for low in [*tree.below(name), name]:
                    shutil.rmtree(os.path.join(self.copy, 'crates', low, 'out'), ignore_errors=True)

    def begin(self):
        around = dict(os.environ, TMPDIR=os.path.join(self.room, 'temporary'))
        os.makedirs(around['TMPDIR'])
        if self.lanes:
            around['RT_JOBS'] = str(self.lanes)
        say('%s: trying its edits (%d)' % (self.name, len(self.edits)))
        with open(self.log, 'wb') as log:
            self.process = subprocess.Popen(self.words, cwd=self.copy, env=around, stdin=subprocess.DEVNULL, stdout=log,
                                            stderr=subprocess.STDOUT, start_new_session=True)

    def seconds(self):
        return time.monotonic() - self.began

    def said(self):
        """What rt said of each edit, in lines, by its file's name; and all that it said."""
        lines = read(self.log).decode(errors='replace').splitlines()
        found, last = {}, None
        for line in lines:
            told = SAID.match(line)
            if told:
                last = found[told[1]] = [told[2]]
            elif line.startswith(('rt: ', '== ')) or re.match(r'\d+ passed, \d+ failed', line):
                last = None
            elif last is not None:
                last.append(line)
        return found, lines

    def stop(self):
        """Ends what runs: rt's own commands end with it."""
        if self.process and self.process.poll() is None:
            os.killpg(self.process.pid, signal.SIGKILL)
            self.process.wait()

    def remove(self):
        for _ in range(50):
            shutil.rmtree(self.room, ignore_errors=True)
            if not os.path.exists(self.room):
                break
            time.sleep(0.1)


def say(text):
    print(text, flush=True)


class Tally:
    def __init__(self):
        self.refused = self.others = 0
        self.little = dict.fromkeys(LITTLE.values(), 0)

    def close(self, tree, one, toolchain):
        """Prints and counts what a try came to, and writes the record where all is refused."""
        found, lines = one.said()
        silent = [edit for edit in one.edits if edit not in found]
        refused = others = 0
        for edit in one.edits:
            first, *more = found.get(edit, ['NOT TRIED'])
            say('%s/%s: %s' % (one.name, edit, first))
            if first.startswith(REFUSED):
                refused += 1
                for mark, name in LITTLE.items():
                    self.little[name] += mark in first
            else:
                others += 1
                for line in more:
                    say('    ' + line)
        if silent:
            say('%s: not every edit was tried. The last lines of what rt said:' % one.name)
            for line in lines[-20:]:
                say('    ' + line)
        self.refused, self.others = self.refused + refused, self.others + others
        end = 'no record'
        if refused and not others:
            end = 'no record, since files changed meanwhile'
            if Tree(tree.top).sums([one.name], toolchain)[one.name] == one.sum:
                tree.keep(one.name, one.sum)
                end = 'recorded'
        elif any(found.get(edit, [''])[0].startswith(WRONG) for edit in one.edits) and tree.drop(one.name):
            end = 'its record is removed'
        say('%s: %d refused, %d not, in %d seconds: %s' % (one.name, refused, others, one.seconds(), end))

    def tell(self, due):
        """Prints the last lines."""
        say('edits: %d passed, %d failed' % (self.refused, self.others))
        little = ''.join(', %d of them %s' % (count, name) for name, count in self.little.items() if count)
        say('%d edits refused%s, %d not, %d crates still due' % (self.refused, little, self.others, due))


def free_memory():
    with open('/proc/meminfo', encoding='utf-8') as file:
        return 1024 * int(re.search(r'MemAvailable:\s+(\d+)', file.read())[1])


def try_all(tree, names, toolchain, jobs, minutes):
    """Tries the edits of these crates, side by side as far as processors and memory allow, and returns the tally."""
    tally, waiting, running, interrupts = Tally(), list(names), [], []
    until = None if minutes is None else time.monotonic() + 60 * minutes
    # one crate alone takes the processors and the memory that rt finds
    at_once = min(jobs, len(names))
    lanes = max(1, PROCESSORS // at_once) if at_once > 1 else None
    memory, needs = 0.85 * free_memory(), {name: (lanes or 1) * tree.need(name) for name in names}
    # an interrupt is heeded between two steps, so that none is left half done
    handlers = {stop: signal.signal(stop, lambda number, _: interrupts.append(number))
                for stop in STOPS if signal.getsignal(stop) is not signal.SIG_IGN}
    work = tempfile.mkdtemp(prefix='fws-edits-')
    try:
        os.chmod(work, 0o711)
        while waiting or running:
            is_over = until is not None and time.monotonic() >= until
            while waiting and len(running) < jobs and not is_over and not interrupts:
                if running and needs[waiting[0]] + sum(needs[one.name] for one in running) > memory:
                    break
                running.append(Try(tree, waiting.pop(0), work, toolchain, lanes))
                running[-1].begin()
            if interrupts:
                raise KeyboardInterrupt
            if is_over and time.monotonic() >= until + GRACE:
                for one in running:
                    say('%s: stopped after %d seconds' % (one.name, one.seconds()))
                break
            if is_over and not running:
                break
            for one in [one for one in running if one.process.poll() is not None]:
                running.remove(one)
                tally.close(tree, one, toolchain)
                one.remove()
            time.sleep(0.2)
    finally:
        for one in running:
            one.stop()
        for one in running:
            one.remove()
        shutil.rmtree(work, ignore_errors=True)
        for stop, handler in handlers.items():
            signal.signal(stop, handler)
    return tally


def read_words():
    reader = argparse.ArgumentParser(prog='checks/edits.sh', description='Tries edits that the prover has to refuse.')
    reader.add_argument('names', metavar='NAME', nargs='*', help='a crate whose edits are tried whatever its record says')
    reader.add_argument('--list', action='store_true', help='say which crates are due, and try nothing')
    reader.add_argument('--all', action='store_true', help='try the edits of every crate, whatever the records say')
    reader.add_argument('--minutes', type=float, metavar='N', help='begin no further crate after so many minutes')
    reader.add_argument('--jobs', type=int, metavar='N', default=min(PROCESSORS, 4), help='how many crates are tried at a time')
    given = reader.parse_args()
    if given.jobs < 1 or (given.minutes or 0) < 0:
        reader.error('--jobs takes a number from 1 on, and --minutes one from 0 on')
    if bool(given.names) + given.list + given.all > 1:
        reader.error('NAME, --list and --all exclude one another')
    return reader, given


def main():
    reader, given = read_words()
    asked = subprocess.Popen(['rt', 'version'], stdout=subprocess.PIPE, stdin=subprocess.DEVNULL)
    tree = Tree(TOP)
    unknown = [name for name in given.names if name not in tree.lines]
    toolchain = asked.communicate()[0]
    if asked.returncode or not toolchain:
        print('rt version told nothing', file=sys.stderr)
        return 2
    if unknown:
        reader.error('crates.txt has no crate ' + unknown[0])
    without = [name for name in given.names if not tree.edits(name)]
    if without:
        reader.error(without[0] + ' has no edits')
    is_wrong = False
    for name in tree.unlisted():
        is_wrong = True
        print('crates/%s/edits: crates.txt has no such crate' % name, file=sys.stderr)
    if given.list:
        for name in tree.without_edits():
            is_wrong = True
            print('%s: a record, and no edits' % name, file=sys.stderr)
        due = tree.due(toolchain)
        for name in due:
            print(name)
        return 1 if due or is_wrong else 0
    for name in tree.without_edits() if not given.names else []:
        tree.drop(name)
        say('%s: its record is removed, since it has no edits' % name)
    if given.all:
        names = [name for name in tree.lines if tree.edits(name)]
    else:
        names = given.names or tree.due(toolchain)
    tally = try_all(tree, tree.lowest_first(set(names)), toolchain, given.jobs, given.minutes)
    due = Tree(TOP).due(toolchain)
    if due:
        say('still due: ' + ' '.join(due))
    tally.tell(len(due))
    return 1 if tally.others or is_wrong else 0


try:
    sys.exit(main())
except KeyboardInterrupt:
    print('interrupted', file=sys.stderr)
    sys.exit(130)
