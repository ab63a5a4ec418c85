"""Tries checks/edits.sh over three small crates and a stand-in for rt; checks/due.sh says what it prints."""

import os
import shutil
import signal
import stat
import subprocess
import sys
import tempfile
import time

HERE = os.path.dirname(os.path.abspath(__file__))

CRATES = {'top': 'mid itoa', 'mid': 'low', 'side': '', 'low': ''}

SOURCE = '''ghost use Rattle.low.specs.Words.{word};

use std::alloc::Global;

/// Twice a number.
pub fn double(n: u32) -> u32
    requires { n < 9 }
    ensures { result ≡ n + n }
{
    half(n) + 1
}

fn half(n: u32) -> u32
    ensures { result ≡ n }
{
    n
}
'''

# It tells its line, and of each edit what the file of that name says, or that it is refused; a file `wait` has it wait, and a file
# `touch` names one to which it adds a line.
RT = '''#!/usr/bin/env bash
here=$(dirname "$0")
if [ "$1" = version ]; then cat "$here/version"; exit; fi
[ -d .git ] && [ -f crates.txt ] || exit 2
echo "$* $(cut -d: -f1 crates.txt | tr '\\n' ' ')" >>"$here/calls"
echo $$ >"$here/number"
[ ! -e "$here/wait" ] || sleep 600
[ ! -e "$here/touch" ] || echo '// more' >>"$(cat "$here/touch")"
echo "== $1"
for edit in crates/*/must-fail/*; do
    name=${edit#crates/} name=${name%%/*}/${edit##*/}
    said='refused, as it must be: note: src/lib.rt:4:1: it is not proved'
    [ ! -e "$here/${name##*/}" ] || said=$(cat "$here/${name##*/}")
    [ -z "$said" ] || echo "rt: must-fail $name: $said"
done
echo '3 passed, 0 failed'
'''


# It has libraries built where they have a stamp.
RTLIB = '''
import os


class Crate:
    def __init__(self, top, name, uses):
        self.folder, self.name, self.uses, self.every = top + '/crates/' + name, name, uses, {}

    def below(self):
        return [one for use in self.uses if use in self.every for one in [*self.every[use].below(), self.every[use]]]

    def stamp(self):
        return 'as it is'

    def is_built(self):
        stamp = self.folder + '/out/rlib/stamp'
        return os.path.isfile(stamp) and open(stamp).read() == self.stamp()


def crates_below(top):
    lines = [line.split(':') for line in open(top + '/crates.txt')]
    found = {name: Crate(top, name, uses.split()) for name, uses in lines}
    for one in found.values():
        one.every = found
    return list(found.values())
'''


# Added to it, it tells with which words it calls the prover.
PROVER = '''
RATTLE = os.path.join(os.path.dirname(os.path.abspath(__file__)), 'rattle')
Crate.words = lambda self, flags, keeps: ['--crate-name', self.name]
'''

# It notes of which functions it is asked, each with how many others are left open, and says of each what the file `wrong` has where its text is
# an edited one, what the file `right` has else, or nothing where a text has a word that isn't Rattle.
RATTLE = '''#!/usr/bin/env python3
import glob, os, re, sys
here = os.path.dirname(os.path.abspath(__file__))
said = lambda name: open(os.path.join(here, name)).read().strip()
crate = sys.argv[sys.argv.index('--crate-name') + 1]
names = [sys.argv[k + 1] for k, word in enumerate(sys.argv) if word == '--only']
text = open('src/lib.rt').read()
with open(os.path.join(here, 'asked'), 'a') as file:
    file.write('%s %d\\n' % (','.join(names), len(glob.glob('proofs/*/Proof.antt'))))
if 'unread' in text:
    sys.exit(1)
for name in filter(None, names):
    body = re.search(r'^(?:pub )?fn %s\\b.*?^}' % name, text, re.S | re.M)[0]
    print('fn %s::%s: %s' % (crate, name, said('wrong' if '+ 2' in body else 'right')))
print('only=%d' % len(names))
'''


class Tally:
    def __init__(self):
        self.right = self.wrong = 0

    def check(self, what, wanted, got):
        if wanted == got:
            self.right += 1
        else:
            self.wrong += 1
            print('%s: %r, not %r' % (what, got, wanted))


class Room:
    """A repository of small crates beside the stand-in for rt."""

    def __init__(self, folder):
        self.folder, self.top, self.tools = folder, os.path.join(folder, 'top'), os.path.join(folder, 'tools')
        self.temporary = os.path.join(folder, 'temporary')
        for path in (self.top, self.tools, self.temporary):
            os.makedirs(path)
        self.write('crates.txt', ''.join('%s: %s\n' % pair for pair in CRATES.items()))
        for name in CRATES:
            self.write('crates/%s/src/lib.rt' % name, SOURCE)
            self.write('crates/%s/specs/Lib.antt' % name, 'pub mod Words\n')
            self.write('crates/%s/specs/Words.antt' % name, '-- nothing\nuse Rattle.low.specs.deep.Letters.{letter}\n')
            self.write('crates/%s/specs/deep/Letters.antt' % name, '-- a letter\n')
            self.write('crates/%s/specs/Spare.antt' % name, '-- to spare\n')
            if name != 'side':
                self.write('crates/%s/edits/%s-halves.edit' % (name, name), 'file: src/lib.rt\nold: + 1\nnew: + 2\n')
        os.makedirs(os.path.join(self.top, 'checks'))
        for name in ('edits.sh', 'edits.py', 'alone.py', 'statements.py'):
            shutil.copy(os.path.join(HERE, name), os.path.join(self.top, 'checks'))
        self.replace('checks/edits.py', 'GRACE = 120', 'GRACE = 1')
        self.say('version', 'toolchain 1\n')
        self.say('rt', RT)
        os.chmod(os.path.join(self.tools, 'rt'), stat.S_IRWXU)

    def path(self, name):
        return os.path.join(self.top, name)

    def write(self, name, text):
        os.makedirs(os.path.dirname(self.path(name)), exist_ok=True)
        with open(self.path(name), 'w', encoding='utf-8') as file:
            file.write(text)

    def read(self, name):
        with open(self.path(name), encoding='utf-8') as file:
            return file.read()

    def replace(self, name, old, new):
        text = self.read(name)
        if text.count(old) != 1:
            raise ValueError('%r in %s' % (old, name))
        self.write(name, text.replace(old, new))

    def say(self, name, text):
        """Has the stand-in say this of the edit of that name, or be so."""
        with open(os.path.join(self.tools, name), 'w', encoding='utf-8') as file:
            file.write(text)

    def unsay(self, *names):
        for name in names:
            os.remove(os.path.join(self.tools, name))

    def begin(self, *words):
        around = dict(os.environ, PATH=self.tools + ':' + os.environ['PATH'], TMPDIR=self.temporary)
        return subprocess.Popen([self.path('checks/edits.sh'), *words], env=around, stdin=subprocess.DEVNULL,
                                stdout=subprocess.PIPE, stderr=subprocess.STDOUT)

    def run(self, *words):
        """The status and the lines of the script."""
        begun = self.begin(*words)
        lines = begun.communicate()[0].decode().splitlines()
        return begun.returncode, lines

    def calls(self):
        """How rt was called since this was asked last, and over which crates."""
        path = os.path.join(self.tools, 'calls')
        found = []
        if os.path.exists(path):
            with open(path, encoding='utf-8') as file:
                found = [line.strip() for line in file]
            os.remove(path)
        return found

    def asked(self):
        """Of which functions the prover was asked since this was asked last, and how many others were left open."""
        path = os.path.join(self.tools, 'asked')
        with open(path, encoding='utf-8') as file:
            found = file.read().splitlines()
        os.remove(path)
        return found

    def records(self):
        return [name for name in CRATES if os.path.exists(self.path('crates/%s/edits/tried' % name))]

    def is_running(self):
        """Whether the stand-in still runs, that was called last."""
        with open(os.path.join(self.tools, 'number'), encoding='utf-8') as file:
            number = file.read().strip()
        try:
            with open('/proc/%s/stat' % number, encoding='utf-8') as file:
                return file.read().rpartition(')')[2].split()[0] != 'Z'
        except OSError:
            return False

    def left(self):
        return os.listdir(self.temporary)


def tell(room, *words):
    """The status, and the last line."""
    status, lines = room.run(*words)
    return status, lines[-1]


def check_records(tally, room):
    tally.check('without a record all are due', (1, ['low', 'mid', 'top']), room.run('--list'))
    tally.check('a list tries nothing', [], room.calls())
    tally.check('no time', (0, '0 edits refused, 0 not, 3 crates still due'), tell(room, '--minutes', '0'))
    tally.check('no time tries nothing', ([], []), (room.calls(), room.records()))
    tally.check('all are tried', (0, '3 edits refused, 0 not, 0 crates still due'), tell(room, '--jobs', '1'))
    tally.check('lowest first', ['ci low', 'ci low mid', 'ci low mid top'], room.calls())
    tally.check('each has a record', ['top', 'mid', 'low'], room.records())
    tally.check('none is due', (0, []), room.run('--list'))
    tally.check('nothing is tried', (0, ['edits: 0 passed, 0 failed', '0 edits refused, 0 not, 0 crates still due']), room.run())
    tally.check('nothing was called', [], room.calls())
    tally.check('a named crate is tried', (0, '1 edits refused, 0 not, 0 crates still due'), tell(room, 'mid'))
    tally.check('it alone', ['ci low mid'], room.calls())
    tally.check('two at a time', (0, '3 edits refused, 0 not, 0 crates still due'), tell(room, '--all', '--jobs', '2'))
    tally.check('all were called', ['ci low', 'ci low mid', 'ci low mid top'], sorted(room.calls()))
    tally.check('a crate without edits', 2, room.run('side')[0])
    tally.check('no crate', 2, room.run('upper')[0])


# A change of a file: what it is, the file, the text before and behind, and which crates are due then.
CHANGED = (
    ('a body below', 'crates/low/src/lib.rt', 'half(n) + 1', '1 + half(n)', ['low']),
    ('a comment below', 'crates/low/src/lib.rt', 'Twice a number', 'A number twice', ['low']),
    ('the clause of a private function below', 'crates/low/src/lib.rt', 'result ≡ n }', 'n ≡ result }', ['low']),
    ('a clause below', 'crates/low/src/lib.rt', 'n < 9', 'n < 8', ['low', 'mid', 'top']),
    ('a signature below', 'crates/mid/src/lib.rt', 'double(n: u32)', 'double(n: u64)', ['mid', 'top']),
    ('a definition below', 'crates/low/specs/Words.antt', 'nothing', 'nothing more', ['low', 'mid', 'top']),
    ('a definition below that another one names', 'crates/low/specs/deep/Letters.antt', 'letter', 'digit', ['low', 'mid', 'top']),
    ('a definition below that nothing above names', 'crates/low/specs/Spare.antt', 'spare', 'keep', ['low']),
    ('a definition of a crate between', 'crates/mid/specs/Words.antt', 'nothing', 'nothing more', ['mid']),
    ('a body', 'crates/top/src/lib.rt', 'half(n) + 1', '1 + half(n)', ['top']),
    ('an edit', 'crates/mid/edits/mid-halves.edit', '+ 2', '+ 3', ['mid']),
    ('a crate beside', 'crates/side/src/lib.rt', 'n < 9', 'n < 8', []),
    ('what a crate stands on', 'crates.txt', 'mid: low', 'mid: low side', ['mid', 'top']),
    ('a library of the toolchain', 'crates.txt', 'itoa', 'indexmap', ['top']),
    ('a line of another crate', 'crates.txt', 'side: ', 'side: itoa', []),
)


def check_changes(tally, room):
    for what, name, old, new, due in CHANGED:
        room.replace(name, old, new)
        tally.check(what, (1 if due else 0, due), room.run('--list'))
        room.replace(name, new, old)
    room.write('crates/low/proofs/Lemma.antt', 'lemma\n')
    tally.check('a proof below', (1, ['low']), room.run('--list'))
    os.remove(room.path('crates/low/proofs/Lemma.antt'))
    room.write('crates/low/src/more.rt', 'pub struct More;\n')
    tally.check('a file more below', (1, ['low', 'mid', 'top']), room.run('--list'))
    os.remove(room.path('crates/low/src/more.rt'))
    room.say('version', 'toolchain 2\n')
    tally.check('another toolchain', (1, ['low', 'mid', 'top']), room.run('--list'))
    room.say('version', 'toolchain 1\n')
    tally.check('all as before', (0, []), room.run('--list'))


# What rt says of an edit, and whether a record that was there stays.
SAID = (
    ('NOT REFUSED: the crate is still proved with this edit', False),
    ("BAD EDIT: an 'old:' text is in src/lib.rt 2 times, and not once", False),
    ('NOT TRIED: its check was killed, most likely for memory', True),
    ('', True),
)


def check_answers(tally, room):
    for said, stays in SAID:
        # the record was written when rt said otherwise, as one that was written by hand
        room.say('mid-halves.edit', said)
        tally.check('a record says so: ' + said, (0, []), room.run('--list'))
        status, lines = room.run('--all')
        last = '2 edits refused, 1 not, %d crates still due' % (0 if stays else 1)
        tally.check('all finds: ' + said, (1, ['edits: 2 passed, 1 failed', last]), (status, lines[-2:]))
        tally.check('it is shown: ' + said, 1, lines.count('mid/mid-halves.edit: ' + (said or 'NOT TRIED')))
        tally.check('a record stays: ' + said, stays, 'mid' in room.records())
        if not stays:
            tally.check('it is due: ' + said, (1, ['mid']), room.run('--list'))
            tally.check('it is tried again: ' + said, 1, room.run()[0])
            tally.check('it gets no record: ' + said, False, 'mid' in room.records())
        room.unsay('mid-halves.edit')
        tally.check('it is mended', 0, room.run('mid')[0])
    room.write('crates/low/edits/low-other.edit', 'x')
    room.say('low-other.edit', SAID[0][0])
    tally.check('one of two', (1, '1 edits refused, 1 not, 1 crates still due'), tell(room))
    room.unsay('low-other.edit')
    tally.check('both', (0, '2 edits refused, 0 not, 0 crates still due'), tell(room))
    os.remove(room.path('crates/low/edits/low-other.edit'))
    tally.check('an edit less', (1, ['low']), room.run('--list'))
    room.say('low-halves.edit', 'refused, as it must be (only by a limit of the prover, which gave no verdict): x')
    room.say('top-halves.edit', 'refused, as it must be (only because a proof file names what the edit took away, so): x')
    tally.check('refusals that say little', (
        0, '3 edits refused, 1 of them only because a proof file names what was taken away, 1 of them only by a limit, 0 not, '
        '0 crates still due'), tell(room, '--all'))
    room.unsay('low-halves.edit', 'top-halves.edit')
    room.write('crates/top/edits/other.text', 'x\n')
    room.say('other.text', 'BAD EDIT: an edit stands right in must-fail/, and its name is of letters')
    tally.check('another file among the edits', 1, room.run()[0])
    os.remove(room.path('crates/top/edits/other.text'))
    room.write('crates/top/edits/other.md', 'x\n')
    tally.check('a page among the edits', 0, room.run('top')[0])
    os.remove(room.path('crates/top/edits/other.md'))
    tally.check('no page is in the sum', (0, []), room.run('--list'))
    room.calls()


def check_surroundings(tally, room):
    os.remove(room.path('crates/low/edits/tried'))
    room.say('touch', room.path('crates/low/src/lib.rt'))
    tally.check('a change meanwhile', (0, '1 edits refused, 0 not, 1 crates still due'), tell(room, 'low'))
    tally.check('no record of what was', False, 'low' in room.records())
    room.unsay('touch')
    tally.check('it is tried over the change', (0, '1 edits refused, 0 not, 0 crates still due'), tell(room))
    os.remove(room.path('crates/mid/edits/mid-halves.edit'))
    tally.check('a record without edits', (1, ['mid: a record, and no edits']), room.run('--list'))
    tally.check('it is removed', 'mid: its record is removed, since it has no edits', room.run()[1][0])
    tally.check('it is gone', (0, []), room.run('--list'))
    room.write('crates/gone/edits/gone.edit', 'x\n')
    tally.check('edits of no crate', (1, ['crates/gone/edits: crates.txt has no such crate']), room.run('--list'))
    shutil.rmtree(room.path('crates/gone'))
    room.calls()
    # what rt check kept
    room.say('rtlib.py', RTLIB)
    room.write('crates/low/out/rlib/stamp', 'as it is')
    room.write('crates/top/out/incremental/a.oantt', 'x')
    room.run('top')
    tally.check('a library below that was not checked', ['ci low mid top'], room.calls())
    room.write('crates/mid/out/rlib/stamp', 'as it is')
    room.run('top')
    tally.check('all below was checked', ['must-fail top low mid top'], room.calls())
    room.write('crates/low/out/rlib/stamp', 'as it was')
    room.run('top')
    tally.check('a library below that was checked earlier', ['ci low mid top'], room.calls())
    room.write('crates/low/out/rlib/stamp', 'as it is')
    room.unsay('rtlib.py')
    room.run('top')
    tally.check('a toolchain that tells nothing of it', ['ci low mid top'], room.calls())


def check_stops(tally, room):
    room.say('wait', '')
    status, lines = room.run('--all', '--jobs', '1', '--minutes', '0.02')
    tally.check('the time is over', (0, True, 1), (status, any(line.startswith('low: stopped after ') for line in lines), len(room.calls())))
    tally.check('what was stopped leaves nothing', ([], False), (room.left(), room.is_running()))
    for number in (signal.SIGINT, signal.SIGTERM):
        begun = room.begin('--all')
        until = time.monotonic() + 60
        while len(room.left()) != 1 or not os.path.exists(os.path.join(room.tools, 'calls')):
            if time.monotonic() > until:
                break
            time.sleep(0.1)
        begun.send_signal(number)
        begun.communicate()
        tally.check('an interrupt', (130, [], ['top', 'low'], False),
                    (begun.returncode, room.left(), room.records(), room.is_running()))
        room.calls()
    room.unsay('wait')


NOT_PROVED = 'no proof: expected answers in ./proofs/double/Answers.antt; `search` did not prove `returns`'
CALLED = 'no proof: it calls `low::half`, which is not proved'


def check_alone(tally, room):
    """What the prover says of the edited functions alone counts where it refuses them, and nothing else does."""
    room.say('rtlib.py', RTLIB + PROVER)
    room.say('rattle', RATTLE)
    os.chmod(os.path.join(room.tools, 'rattle'), stat.S_IRWXU)
    room.say('right', 'no holes')
    room.say('wrong', NOT_PROVED)
    room.write('crates/low/src/lib.rt', SOURCE)
    room.calls()
    tally.check('an edit is refused alone', (0, '1 edits refused, 0 not, 0 crates still due'), tell(room, 'low'))
    tally.check('rt is called for the libraries alone', ['ci low'], room.calls())
    tally.check('as it stands, and edited, with the other function left open', ['double 1', 'double 1'], room.asked())
    room.write('crates/low/edits/other.edit', 'file: src/lib.rt\nold:     n\nnew:     n + 2\n')
    room.write('crates/low/edits/second.edit', 'file: src/lib.rt\nold: half(n) + 1\nnew: half(n) + 2 + 1\n')
    tally.check('three edits', (0, '3 edits refused, 0 not, 0 crates still due'), tell(room, 'low'))
    tally.check('two of one function in two rounds', ['double,half 0', 'double,half 0', 'double 1'], room.asked())
    room.calls()
    room.say('wrong', CALLED)
    tally.check('refused by rt', (0, '3 edits refused, 0 not, 0 crates still due'), tell(room, 'low'))
    tally.check('where what is called is refused, rt is asked', ['ci low', 'ci low'], room.calls())
    room.unsay('asked')
    for name, text in (('wrong', 'no holes'), ('wrong', 'could not tell'), ('right', 'not proved')):
        room.say(name, text)
        room.say('low-halves.edit', 'NOT REFUSED: the crate is still proved with this edit')
        tally.check('%s: %s' % (name, text), 1, room.run('low')[0])
        tally.check('%s: %s: rt is asked' % (name, text), ['ci low', 'ci low'], room.calls())
        room.unsay('low-halves.edit', 'asked')
    tally.check('no record', False, 'low' in room.records())
    room.say('right', 'no holes')
    room.say('wrong', NOT_PROVED)
    room.write('crates/low/edits/second.edit', 'file: src/lib.rt\nold: half(n) + 1\nnew: unread\n')
    room.say('second.edit', 'BAD EDIT: the prover cannot read the edited text')
    status, lines = room.run('low')
    tally.check('a text that is not read', (1, True), (status, any('second.edit: BAD EDIT' in line for line in lines)))
    tally.check('the others are refused beside it', 2, sum(': refused' in line for line in lines))
    room.unsay('second.edit', 'asked')
    room.write('crates/low/edits/second.edit', 'file: src/lib.rt\nold: /// Twice a number.\nnew: /// Two.\n')
    room.calls()
    tally.check('an edit of no function', 0, room.run('low')[0])
    tally.check('an edit of no function is asked of rt', ['ci low', 'ci low'], room.calls())


def main():
    signal.signal(signal.SIGINT, signal.default_int_handler)  # which a shell has its jobs ignore
    tally = Tally()
    folder = tempfile.mkdtemp()
    try:
        room = Room(folder)
        check_records(tally, room)
        check_changes(tally, room)
        check_answers(tally, room)
        check_surroundings(tally, room)
        check_alone(tally, room)
        check_stops(tally, room)
        tally.check('nothing is left', [], room.left())
    finally:
        shutil.rmtree(folder)
    print('due: %d passed, %d failed' % (tally.right, tally.wrong))
    return 1 if tally.wrong or not tally.right else 0


sys.exit(main())
