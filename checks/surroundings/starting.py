"""Tries ./fws in a checkout without a built program, with a stand-in for the toolchain's rt: what is answered at once, what the
quick run answers for files of all kinds of names, compared with the built program, and what a build tells. No proof may ever
begin but in a build."""

import os
import pty
import select
import subprocess
import tempfile
import time

from common import EXAMPLES, PROGRAM, copy_checkout, read, run, write

SECONDS = 30  # that something on a terminal may take

# rt as ./fws calls it. `rt try` runs the built program in a folder of its own, with the files that are handed over; where WAITS is
# set it sleeps first. `rt lib` of a crate that wasn't checked yet begins to prove it, which takes long; `rt check` tells functions
# as it goes.
STAND_IN = '''#!/usr/bin/env python3
import os, shutil, subprocess, sys, tempfile, time
words = sys.argv[1:]
crate = os.path.basename(os.getcwd())
with open(os.environ['CALLED'], 'a') as file:
    file.write('%s %s %d\\n' % (crate, words[0], os.getpid()))
waits = float(os.environ.get('WAITS', 0))
if words[0] == 'try':
    time.sleep(waits)
    if 'NO_ANSWER' in os.environ:
        print('checked: no-answer\\nrun=none proved=no', file=sys.stderr)
        sys.exit(6)
    flags, words = words[1:words.index('--')], words[words.index('--') + 1:]
    with tempfile.TemporaryDirectory() as folder:
        for flag, word in zip(flags[::2], flags[1::2]):
            if flag == '--data':
                name, _, source = word.partition('=')
                shutil.copy(source, os.path.join(folder, name))
        status = subprocess.run([os.environ['ANSWERS'], *words], cwd=folder, stdin=subprocess.DEVNULL).returncode
    print('run=ended status=%d runners=1 proved=no' % status, file=sys.stderr)
    sys.exit(status)
kept = 'out/incremental/kept'
if words[0] == 'lib' and not os.path.exists(kept):
    print('rt: chose --jobs 2 for', crate, flush=True)
    time.sleep(1000)
if words[0] == 'check':
    for place in (1, 2):
        print('checked %s::f%d, %d of 2' % (crate, place, place), flush=True)
        time.sleep(waits)
    os.makedirs('out/incremental', exist_ok=True)
    open(kept, 'w').close()
if words[0] == 'run':
    print('fn fws::main: proved')
    shutil.copy(os.environ['ANSWERS'], 'out/fws')
'''

ACCEPTED = '*filter\nCOMMIT\n'
REFUSED = '*nat\n'


class Checkout:
    """A checkout without a built program, and folders to work in."""

    def __init__(self, folder):
        self.top = os.path.join(folder, 'a checkout')
        os.makedirs(self.top)
        copy_checkout(self.top)
        os.remove(os.path.join(self.top, 'crates/fws/out/fws'))
        self.script = os.path.join(self.top, 'fws')
        self.work = os.path.join(folder, 'a folder/below')
        os.makedirs(self.work)
        os.makedirs(os.path.join(folder, 'bin'))
        write(os.path.join(folder, 'bin/rt'), STAND_IN)
        os.chmod(os.path.join(folder, 'bin/rt'), 0o755)
        self.called = os.path.join(folder, 'called')
        self.cache = os.path.join(folder, 'cache')
        self.settings = dict(os.environ, PATH=os.path.join(folder, 'bin') + ':' + os.environ['PATH'], CALLED=self.called,
                             ANSWERS=PROGRAM, XDG_CACHE_HOME=self.cache, TERM='vt100', COLUMNS='200')

    def without_toolchain(self):
        """Settings in which rt isn't found."""
        folders = [folder for folder in os.environ['PATH'].split(':') if not os.path.exists(os.path.join(folder, 'rt'))]
        return dict(self.settings, PATH=':'.join(folders))

    def calls(self):
        """What rt was called for since the last time: the crate, the word and the process of each."""
        if not os.path.exists(self.called):
            return []
        found = [line.split() for line in read(self.called).split('\n') if line]
        os.remove(self.called)
        return found

    def run(self, *words, **further):
        return run(self.script, *words, cwd=self.work, **{'env': self.settings, **further})


class Terminal:
    """A command behind a terminal."""

    def __init__(self, words, folder, settings):
        self.child, self.terminal = pty.fork()
        if self.child == 0:
            os.chdir(folder)
            os.execvpe(words[0], words, settings)
        self.said = ''

    def wait(self, mark):
        """Whether this was said in time."""
        end = time.monotonic() + SECONDS
        while mark not in self.said and time.monotonic() < end:
            if select.select([self.terminal], [], [], 0.2)[0]:
                try:
                    self.said += os.read(self.terminal, 65536).decode('utf-8', 'replace')
                except OSError:
                    break
        return mark in self.said

    def interrupt(self):
        os.write(self.terminal, b'\x03')

    def end(self):
        """The status, once the command has ended."""
        self.wait('what is never said')
        status = os.waitstatus_to_exitcode(os.waitpid(self.child, 0)[1])
        os.close(self.terminal)
        return status


def is_gone(process):
    """Whether a process ends in time."""
    end = time.monotonic() + SECONDS
    while time.monotonic() < end:
        try:
            with open('/proc/%d/stat' % process, encoding='ascii', errors='replace') as file:
                if file.read().rpartition(')')[2].split()[0] == 'Z':
                    return True
        except FileNotFoundError:
            return True
        time.sleep(0.1)
    return False


def check_at_once(tally, checkout):
    """What is answered without rt."""
    settings = checkout.without_toolchain()
    for words in (('--help',), ('--version',), (), ('',), ('synthesize', 'iptables'), ('synth|query',), ('--help', '--help'),
                  ('synth', '--help'), ('why', '--help'), ('site2', '--help'), ('synthesize', '--help')):
        wanted = run(PROGRAM, *words)
        tally.check('at once: %s' % (words,), wanted[:2], checkout.run(*words, env=settings)[:2])
    with open('/dev/full', 'wb') as full:
        ended = subprocess.run([checkout.script, '--help'], stdout=full, stderr=subprocess.DEVNULL, env=settings, check=False)
    tally.check('at once: a full device', 5, ended.returncode)
    for words in (('synth', 'iptables', 'S', 'plain', 'new'), ('--build',), ('--test',), ('--install', checkout.work + '/prefix')):
        status, told, said = checkout.run(*words, env=settings)
        tally.check('without rt: %s' % words[0], (7, '', True), (status, told, 'the command rt is not found\n' in said))
    tally.check('at once: rt is not called', [], checkout.calls())


def make_files(checkout, text):
    """Files with this content, by names of all kinds; names as they are given, from the folder in which ./fws is run."""
    below = checkout.work
    os.makedirs(below + '/sub', exist_ok=True)
    names = ['plain', 'a=b', '-a', '-', 'two words', 'with\na line feed\n', 'handed-4', 'program', 'stdin', 'case', 'args', "it's",
             '$HOME', 'é', 'sub/file', '../beside']
    for name in names:
        write(os.path.join(below, name), text)
    return names + ['./plain', 'sub/../plain', 'sub//file', './../beside', below + '/plain', below + '/../beside',
                    '/dev/../' + below + '/plain']


def check_names(tally, checkout):
    """The quick run answers for files of any name what the built program answers."""
    site = os.path.join(EXAMPLES, 'site.txt')
    write(checkout.work + '/S', read(site))
    for text in (ACCEPTED, REFUSED):
        for name in make_files(checkout, text):
            words = ('synth', 'iptables', 'S', name, 'new')
            tally.check('the quick run: %r' % name, run(PROGRAM, *words, cwd=checkout.work)[:2], checkout.run(*words)[:2])
    for name in ('absent', '', 'sub', './sub', '..', '/', '/dev/null', '/dev/zero', '../absent', 'handed-3', 'absent\n'):
        for words in (('synth', 'iptables', 'S', name, 'new'), ('synth', 'iptables', name, 'plain', 'new'), ('site2', name)):
            tally.check('the quick run: %s' % (words,), run(PROGRAM, *words, cwd=checkout.work)[:2], checkout.run(*words)[:2])
    words = ('synth', 'iptables', 'S', b'no\xff', 'new')
    tally.check('the quick run: a name that is no UTF-8', run(PROGRAM, *words, cwd=checkout.work)[:2], checkout.run(*words)[:2])
    write(checkout.work + '/ring', '*filter\n:handed-4 - [0:0]\n-A handed-4 -j handed-4\nCOMMIT\n')
    tally.check('the quick run: a chain with the name of a file', (3, 'refused ring loop handed-4\n'),
                checkout.run('synth', 'iptables', 'S', 'ring', 'new')[:2])
    tally.check('the quick run: it alone is called', {'try'}, {call[1] for call in checkout.calls()})


def check_streams(tally, checkout):
    """Pipes and standard input."""
    words = ('query', 'iptables', 'S', '/dev/stdin', 'new', 'entry=wan')
    for text in (ACCEPTED, REFUSED):
        wanted = run(PROGRAM, *words, told=text, cwd=checkout.work)[:2]
        tally.check('the quick run: a pipe', wanted, checkout.run(*words, told=text)[:2])
        write(checkout.work + '/given', text)
        with open(checkout.work + '/given', 'rb') as file:
            ended = subprocess.run([checkout.script, *words], stdin=file, stdout=subprocess.PIPE, stderr=subprocess.DEVNULL,
                                   cwd=checkout.work, env=checkout.settings, check=False)
        tally.check('the quick run: standard input', wanted, (ended.returncode, ended.stdout.decode()))
        command = '"$0" synth iptables S <(printf %s "$1") new | sed s,/dev/fd/[0-9]*,PIPE,'
        wanted, told = (run('bash', '-c', command, program, text, cwd=checkout.work, env=checkout.settings)[:2]
                        for program in (PROGRAM, checkout.script))
        tally.check('the quick run: a pipe of the shell', wanted, told)
    connections, packets = (read(os.path.join(EXAMPLES, 'router.' + name)) for name in ('connections', 'packets'))
    write(checkout.work + '/a=b', connections)
    words = ('trace', 'iptables', './S', os.path.join(EXAMPLES, 'router.saved'), 'a=b', '/dev/stdin')
    wanted = run(PROGRAM, *words, told=packets, cwd=checkout.work)[:2]
    tally.check('the quick run: four files', wanted, checkout.run(*words, told=packets)[:2])
    words = ('why', 'iptables', './S', os.path.join(EXAMPLES, 'router.saved'), 'a=b', '/dev/stdin')
    wanted = run(PROGRAM, *words, told=packets, cwd=checkout.work)[:2]
    tally.check('the quick run: four files, and rules', wanted, checkout.run(*words, told=packets)[:2])
    write(checkout.work + '/a=b', packets + 'expire 0\n')
    words = ('run', 'iptables', './S', os.path.join(EXAMPLES, 'router.saved'), 'a=b')
    wanted = run(PROGRAM, *words, cwd=checkout.work)[:2]
    tally.check('the quick run: three files', wanted, checkout.run(*words)[:2])
    words = ('same', 'iptables', './S', os.path.join(EXAMPLES, 'router.saved'), 'iptables', os.path.join(EXAMPLES, 'open.rules'))
    wanted = run(PROGRAM, *words, cwd=checkout.work)[:2]
    tally.check('the quick run: two files behind languages', wanted, checkout.run(*words)[:2])
    words = ('dead', 'iptables', './S', os.path.join(EXAMPLES, 'router.saved'))
    tally.check('the quick run: unused rules', run(PROGRAM, *words, cwd=checkout.work)[:2], checkout.run(*words)[:2])
    words = ('translate', 'iptables', 'pf', '../below/S', os.path.join(EXAMPLES, 'router.saved'))
    tally.check('the quick run: a translation', run(PROGRAM, *words, cwd=checkout.work)[:2], checkout.run(*words)[:2])


def check_time(tally, checkout):
    """It says that it is at work, and how long it took last time; and where that can't be kept nothing breaks."""
    words = ('synth', 'iptables', 'S', 'plain', 'new')
    kept = checkout.cache + '/fws/quick-run-seconds'
    write(checkout.work + '/plain', ACCEPTED)
    write(kept, '71\n')
    said = checkout.run(*words)[2]
    tally.check('the last time', True, 'fws: at work on a quick unproved run; the last one took 71 seconds.' in said)
    tally.check('the last time is kept', True, read(kept).strip().isdigit() and read(kept) != '71\n')
    write(kept, '$(touch x)\n')
    tally.check('a last time that is none', True, 'it takes one to two minutes' in checkout.run(*words)[2])
    home = os.path.join(checkout.work, 'home')
    os.makedirs(home)
    settings = {name: value for name, value in checkout.settings.items() if name != 'XDG_CACHE_HOME'}
    wanted = checkout.run(*words)[:2]
    tally.check('a home', wanted, checkout.run(*words, env=dict(settings, HOME=home))[:2])
    tally.holds('a home: the last time is kept', os.path.exists(home + '/.cache/fws/quick-run-seconds'), 'it is not')
    for cache in ('/dev/null', '', 'not absolute'):
        told = checkout.run(*words, env=dict(settings, XDG_CACHE_HOME=cache, HOME=cache))[:2]
        tally.check('a cache that is none: %r' % cache, wanted, told)
    status, told, said = checkout.run(*words, env=dict(checkout.settings, NO_ANSWER='1'))
    tally.check('no answer', (7, '', True), (status, told, 'run=none proved=no\nfws: the quick run gives no answer; ' in said))
    tally.check('no answer: no proof begins', {'try'}, {call[1] for call in checkout.calls()})


def check_terminal(tally, checkout):
    """On a terminal the quick run counts seconds in place, and ends at Ctrl-C with what it started."""
    words = [checkout.script, 'synth', 'iptables', 'S', 'plain', 'new']
    terminal = Terminal(words, checkout.work, dict(checkout.settings, WAITS='1.5'))
    status = terminal.end()
    tally.check('a terminal', (0, True), (status, 'table new 1\r\n' in terminal.said))
    tally.holds('a terminal: seconds', 'at work for 1 seconds' in terminal.said, terminal.said)
    checkout.calls()
    terminal = Terminal(words, checkout.work, dict(checkout.settings, WAITS='1000'))
    terminal.wait('at work for 1 seconds')
    terminal.interrupt()
    tally.check('a terminal: Ctrl-C', 130, terminal.end())
    tally.holds('a terminal: Ctrl-C ends what was started', all(is_gone(int(call[2])) for call in checkout.calls()), 'it goes on')


def forget(checkout):
    """Takes away what a build left."""
    for crate in ('fws', 'fws_high', 'fws_low'):
        subprocess.run(['rm', '-rf', os.path.join(checkout.top, 'crates', crate, 'out')], check=True)
        os.makedirs(os.path.join(checkout.top, 'crates', crate, 'out'))


def check_build(tally, checkout):
    """What a build tells, elsewhere and on a terminal."""
    status, told, said = checkout.run('--build')
    lines = said.split('\n')
    tally.check('a build', (0, ''), (status, told))
    tally.check('a build: lines', [
        'fws: proving and building 3 crates; from nothing this takes hours of processor time',
        'fws: crate 1 of 3, fws_low: 2 of 2 functions; 2 functions and 0 seconds so far',
        'fws: crate 2 of 3, fws_high: 2 of 2 functions; 4 functions and 0 seconds so far',
        'fws: crate 3 of 3, fws: 1 functions; 5 functions and 0 seconds so far',
        'fws: built: %s/crates/fws/out/fws' % checkout.top, ''], [without_seconds(line) for line in lines])
    calls = [call[:2] for call in checkout.calls()]
    libraries = [[crate, word] for crate in ('fws_low', 'fws_high') for word in ('lib', 'check', 'lib')]
    tally.check('a build: calls', libraries + [['fws', 'run']], calls)
    tally.check('a build once more', 0, checkout.run('--build')[0])
    libraries = [[crate, 'lib'] for crate in ('fws_low', 'fws_high')]
    tally.check('a build once more: calls', libraries + [['fws', 'run']], [call[:2] for call in checkout.calls()])
    tally.check('the built program answers', (0, 'fws 0.1.0\n', ''), checkout.run('--version'))
    forget(checkout)
    terminal = Terminal([checkout.script, '--build'], checkout.work, dict(checkout.settings, WAITS='0.5'))
    status = terminal.end()
    tally.check('a build on a terminal', 0, status)
    for mark in ('\r\x1b[Kfws: crate 1 of 3, fws_low: 1 of 2 functions; 1 functions and ',
                 '\r\x1b[Kfws: crate 2 of 3, fws_high: 2 of 2 functions; 4 functions and '):
        tally.holds('a build on a terminal: %r' % mark, mark in terminal.said, terminal.said)
    staying = [line.rpartition('\x1b[K')[2] for line in terminal.said.split('\r\n')]
    tally.check('a build on a terminal: lines that stay', 2, sum(1 for line in staying if line))
    forget(checkout)
    checkout.calls()
    terminal = Terminal([checkout.script, '--build'], checkout.work, dict(checkout.settings, WAITS='1000'))
    terminal.wait('1 of 2 functions')
    terminal.interrupt()
    tally.check('a build on a terminal: Ctrl-C', 130, terminal.end())
    tally.holds('a build on a terminal: Ctrl-C says so', 'fws: stopped; what is proved is kept' in terminal.said, terminal.said)
    tally.holds('a build: Ctrl-C ends what was started', all(is_gone(int(call[2])) for call in checkout.calls()), 'it goes on')
    forget(checkout)


def without_seconds(line):
    return line if ' seconds so far' not in line else line.rpartition(' and ')[0] + ' and 0 seconds so far'


def check(tally):
    with tempfile.TemporaryDirectory() as folder:
        checkout = Checkout(folder)
        check_at_once(tally, checkout)
        check_names(tally, checkout)
        check_streams(tally, checkout)
        check_time(tally, checkout)
        check_terminal(tally, checkout)
        check_build(tally, checkout)


if __name__ == '__main__':
    from common import Tally
    TALLY = Tally()
    check(TALLY)
    print(TALLY.right, TALLY.wrong, TALLY.skipped)
