"""What the checks of the surroundings share."""

import os
import shutil
import subprocess

TOP = os.path.dirname(os.path.dirname(os.path.dirname(os.path.abspath(__file__))))
PROGRAM = os.path.abspath(os.environ.get('FWS_PROGRAM', os.path.join(TOP, 'crates/fws/out/fws')))
EXAMPLES = os.path.join(TOP, 'examples')
SITE_OF_HOST = os.path.join(TOP, 'tools/site-of-host')
VIEW = os.path.join(TOP, 'tools/view')
ASK = os.path.join(TOP, 'tools/ask')
HERE = os.path.dirname(os.path.abspath(__file__))


class Tally:
    """How many checks there were, how many went wrong, and what could not be tried."""

    def __init__(self):
        self.right = 0
        self.wrong = 0
        self.skipped = 0

    def holds(self, what, condition, said=''):
        if condition:
            self.right += 1
        else:
            self.wrong += 1
            print('%s%s' % (what, ': %s' % (said,) if said else ''))
        return condition

    def check(self, what, wanted, got):
        return self.holds(what, wanted == got, '' if wanted == got else difference(wanted, got))

    def skip(self, what, why):
        self.skipped += 1
        print('skipped: %s: %s' % (what, why))


def difference(wanted, got):
    """How two values differ, by their spellings from shortly ahead of the first byte that does."""
    one, other = repr(got), repr(wanted)
    place = next((k for k, (a, b) in enumerate(zip(one, other)) if a != b), min(len(one), len(other)))
    begin = 0 if max(len(one), len(other)) < 300 else max(place - 80, 0)
    return '%s, not %s' % tuple(('.. ' if begin else '') + text[begin:begin + 300] for text in (one, other))


def run(*words, told='', seconds=300, **further):
    """The status and the two outputs of a command, as texts."""
    ended = subprocess.run(words, input=told.encode(), stdout=subprocess.PIPE, stderr=subprocess.PIPE, timeout=seconds,
                           check=False, **further)
    return ended.returncode, ended.stdout.decode('utf-8', 'replace'), ended.stderr.decode('utf-8', 'replace')


def copy_checkout(folder):
    """A checkout of three crates, with what ./fws needs and with a program that is newer than the sources."""
    os.makedirs(os.path.join(folder, 'docs'))
    for name in ('fws', 'tools', 'share', 'docs/PROFILES.md', 'CHANGELOG.md'):
        source = os.path.join(TOP, name)
        (shutil.copytree if os.path.isdir(source) else shutil.copy2)(source, os.path.join(folder, name))
    for crate in ('fws', 'fws_high', 'fws_low', 'fws_test_commands/data'):
        os.makedirs(os.path.join(folder, 'crates', crate))
    for name in os.listdir(os.path.join(TOP, 'crates/fws_test_commands/data')):
        if name.endswith(('.text', '.page')):
            shutil.copy(os.path.join(TOP, 'crates/fws_test_commands/data', name), os.path.join(folder, 'crates/fws_test_commands/data'))
    write(os.path.join(folder, 'crates.txt'), 'fws: fws_high std\nfws_high: fws_low # the one above\nfws_low:\n')
    os.makedirs(os.path.join(folder, 'crates/fws/out'))
    shutil.copy(PROGRAM, os.path.join(folder, 'crates/fws/out/fws'))
    for name in ('fws', 'tools/install.sh', 'tools/ask', 'tools/view', 'tools/site-of-host', 'crates/fws/out/fws'):
        os.chmod(os.path.join(folder, name), 0o755)
    os.utime(os.path.join(folder, 'crates.txt'), (0, 0))


def read(name):
    with open(name, encoding='utf-8') as file:
        return file.read()


def write(name, text):
    with open(name, 'w', encoding='utf-8') as file:
        file.write(text)
