"""python3 tools/build.py TOP: what `./fws --build` does in the checkout TOP. It proves each crate that the program stands on, from
the lowest on, and builds the program.

It tells how far it is: which crate of how many is at work, how many functions are checked, and for how many minutes. On a
terminal this is one line in place, elsewhere a line for each crate that is done. What rt says goes into a file, whose end is
told where a step fails, and its name. What is proved is kept, so that a build that was stopped goes on where it was.

The status is 0, or 6 where the program could not be built, or that of a signal that stopped it.
"""

import os
import re
import selectors
import shutil
import signal
import subprocess
import sys
import tempfile
import time

PROGRAM = 'fws'
FAILED = 6
SHOWN = 20  # lines of what rt said that are shown where it fails


def crates_below(top, name):
    """The libraries of the repository that this crate stands on, each behind those that it stands on itself."""
    uses = {}
    with open(os.path.join(top, 'crates.txt'), encoding='utf-8') as file:
        for line in file:
            words = line.partition('#')[0].replace(':', ' ').split()
            if words:
                uses[words[0]] = words[1:]
    found = []

    def visit(crate):
        for used in uses[crate]:
            if used in uses and used not in found:
                visit(used)
                found.append(used)

    visit(name)
    return found


def duration(seconds):
    if seconds < 60:
        return '%d seconds' % seconds
    minutes = int(seconds // 60)
    return '%d minute%s' % (minutes, '' if minutes == 1 else 's')


class Progress:
    """Tells how far the build is."""

    def __init__(self, count):
        self.count = count  # of the crates
        self.begin = time.monotonic()
        self.place = 0
        self.crate = ''
        self.checked = 0  # functions of this crate
        self.of = 0
        self.before = 0  # functions of the crates that are done
        self.in_place = sys.stderr.isatty() and os.environ.get('TERM', 'dumb') != 'dumb'

    def say(self, text):
        self.clear()
        print('fws: ' + text, file=sys.stderr, flush=True)

    def clear(self):
        if self.in_place:
            print('\r\033[K', end='', file=sys.stderr, flush=True)

    def start(self, crate):
        self.place += 1
        self.crate, self.checked, self.of = crate, 0, 0
        self.show()

    def take(self, line):
        """A line of what rt says: `checked fws_iv::copy, 4 of 46` while it works, or `fn fws_iv::copy: proved` at the end."""
        counted = re.match(r'checked .*, (\d+) of (\d+)$', line)
        if counted:
            self.checked, self.of = int(counted[1]), int(counted[2])
        elif not self.of and re.match(r'fn \S+: proved$', line):
            self.checked += 1
        elif line.startswith('rt: waiting for '):
            self.say(line[len('rt: '):])

    def text(self):
        functions = '%d of %d functions' % (self.checked, self.of) if self.of else '%d functions' % self.checked
        return 'crate %d of %d, %s: %s; %d functions and %s so far' % (
            self.place, self.count, self.crate, functions, self.before + self.checked, duration(time.monotonic() - self.begin))

    def show(self):
        if self.in_place:
            columns = shutil.get_terminal_size().columns
            print('\r\033[K' + ('fws: ' + self.text())[:columns - 1], end='', file=sys.stderr, flush=True)

    def end(self):
        if not self.in_place:
            self.say(self.text())
        self.before += self.checked


class Stopped(Exception):
    """A signal came."""


class Build:
    """Runs rt in one crate after the other."""

    def __init__(self, top, log, progress):
        self.top = top
        self.log = log
        self.progress = progress

    def run(self, crate, words, is_enough=None):
        """The status of a command of rt, or None where it was ended after a line that is enough."""
        with subprocess.Popen(['rt', *words], cwd=os.path.join(self.top, 'crates', crate), stdin=subprocess.DEVNULL,
                              stdout=subprocess.PIPE, stderr=subprocess.STDOUT, start_new_session=True) as ran:
            try:
                for line in self.lines(ran.stdout):
                    if is_enough and is_enough(line):
                        return None
                return ran.wait()
            finally:
                self.stop(ran)

    def lines(self, stream):
        """The lines of what a command says; the line on a terminal is kept going meanwhile."""
        waiting = selectors.DefaultSelector()
        waiting.register(stream, selectors.EVENT_READ)
        rest = b''
        while True:
            if not waiting.select(1):
                self.progress.show()
                continue
            piece = os.read(stream.fileno(), 65536)
            if not piece:
                return
            self.log.write(piece)
            self.log.flush()
            *whole, rest = (rest + piece).split(b'\n')
            for line in whole:
                text = line.decode('utf-8', 'replace')
                self.progress.take(text)
                yield text
            self.progress.show()

    @staticmethod
    def stop(ran):
        """Ends a command that still runs; what it started ends with it."""
        if ran.poll() is None:
            for number in (signal.SIGTERM, signal.SIGKILL):
                try:
                    os.killpg(ran.pid, number)
                    ran.wait(5)
                    return
                except ProcessLookupError:
                    return
                except subprocess.TimeoutExpired:
                    pass

    def build_library(self, crate):
        """Whether the library is built. Where nothing of it was kept it is checked first, which tells functions as they are done."""
        kept = os.path.join(self.top, 'crates', crate, 'out/incremental')
        has_kept = os.path.isdir(kept) and bool(os.listdir(kept))

        def is_first_check(line):
            nonlocal has_kept
            has_kept = has_kept or 'begins with what a check kept' in line
            return not has_kept and line.startswith('rt: chose --jobs')

        status = self.run(crate, ['lib'], is_first_check)
        if status is None:
            status = self.run(crate, ['check']) or self.run(crate, ['lib'])
        return status == 0

    def build_program(self):
        """Whether the program is built. It gets the time of this run, so that sources which are changed meanwhile are newer."""
        program = os.path.join(self.top, 'crates', PROGRAM, 'out', PROGRAM)
        begin = time.time()
        if self.run(PROGRAM, ['run', '--', '--version']) != 0 or not os.access(program, os.X_OK):
            return False
        if os.stat(program).st_mtime < begin:
            os.utime(program, (begin, begin))
        return True

    def build(self):
        """The crate that could not be built, or None."""
        for crate in crates_below(self.top, PROGRAM) + [PROGRAM]:
            self.progress.start(crate)
            if not (self.build_program() if crate == PROGRAM else self.build_library(crate)):
                return crate
            self.progress.end()
        self.progress.clear()
        return None


SIGNALS = (signal.SIGINT, signal.SIGTERM, signal.SIGHUP)


def stop_at_signal(number, _):
    for other in SIGNALS:
        signal.signal(other, signal.SIG_IGN)
    raise Stopped(number)


def main(top):
    for number in SIGNALS:
        signal.signal(number, stop_at_signal)
    progress = Progress(len(crates_below(top, PROGRAM)) + 1)
    place, name = tempfile.mkstemp(prefix='fws-build-', suffix='.log')
    with os.fdopen(place, 'w+b') as log:
        progress.say('proving and building %d crates; from nothing this takes hours of processor time' % progress.count)
        try:
            failed = Build(top, log, progress).build()
        except Stopped as stopped:
            os.remove(name)
            progress.say('stopped; what is proved is kept, and the next build goes on from there')
            return 128 + stopped.args[0]
        if failed is None:
            os.remove(name)
            return 0
        log.seek(0)
        progress.clear()
        said = log.read().decode('utf-8', 'replace').splitlines()
        print('\n'.join(said[-SHOWN:]), file=sys.stderr)
        progress.say('%s could not be proved and built; all that rt said: %s' % (failed, name))
        progress.say('the program could not be built')
        return FAILED


if __name__ == '__main__':
    sys.exit(main(os.path.abspath(sys.argv[1])))
