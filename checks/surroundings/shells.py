"""Tries the completions in real shells: bash with and without bash-completion, and zsh, each behind a terminal of its own."""

import os
import pty
import re
import select
import shutil
import signal
import tempfile
import time

from common import TOP, write

SECONDS = 20  # that an answer may take

BASH_COMPLETION = '/usr/share/bash-completion/bash_completion'
SITE = '''site 2
# interface comment is no line
interface lan ipt=eth0 ipfw=em0 pf=em0 ios=GigabitEthernet0/0 nat=inside
interface "lab" ipt=eth2 ipfw=em2 pf=em2 ios=GigabitEthernet0/2 nat=none
interface wan ipt=eth1 ipfw=em1 pf=em1 ios=GigabitEthernet0/1 nat=outside
address lan 10.0.0.1/24
address lab 10.0.1.1/24
address wan 203.0.113.2/30
loopback ipt=lo ipfw=lo0 pf=lo0 ios=Loopback0
default wan
forwarding yes
one_pass 1
'''

# What is typed before the tabulator, and the line as it stands then; what words are listed, and what words aren't.
# `None` is for a line that isn't looked at.
COMMON_TRIES = (
    ('fws tra', None, ('trace', 'translate'), ('synth', 'query')),
    ('fws sy', 'fws synth ', (), ()),
    ('fws si', 'fws site2 ', (), ()),
    ('fws lo', 'fws load ', (), ()),
    ('fws ', None, ('synth', 'query', 'translate', 'trace', 'why', 'run', 'same', 'dead', 'load', 'site2', '--help', '--version'), ('--install',)),
    ('fws --v', 'fws --version ', (), ()),
    ('fws synth ', None, ('iptables', 'ipfw', 'pf', 'ios'), ('new',)),
    ('fws synth --h', 'fws synth --help ', (), ()),
    ('fws site2 --h', 'fws site2 --help ', (), ()),
    ('fws trace io', 'fws trace ios ', (), ()),
    ('fws why io', 'fws why ios ', (), ()),
    ('fws run io', 'fws run ios ', (), ()),
    ('fws same io', 'fws same ios ', (), ()),
    ('fws dead io', 'fws dead ios ', (), ()),
    ('fws translate pf ipt', 'fws translate pf iptables ', (), ()),
    ('fws translate pf io', 'fws translate pf ios ', (), ()),
    ('fws synth pf site', 'fws synth pf site.txt ', (), ()),
    ('fws synth pf site.txt rul', 'fws synth pf site.txt rules.pf ', (), ()),
    ('fws translate pf iptables sub/fi', 'fws translate pf iptables sub/file ', (), ()),
    ('fws trace pf site.txt rules.pf sub/file sub/fi', 'fws trace pf site.txt rules.pf sub/file sub/file ', (), ()),
    ('fws why pf site.txt rules.pf sub/file sub/fi', 'fws why pf site.txt rules.pf sub/file sub/file ', (), ()),
    ('fws run pf site.txt rules.pf sub/fi', 'fws run pf site.txt rules.pf sub/file ', (), ()),
    ('fws same pf site.txt rules.pf io', 'fws same pf site.txt rules.pf ios ', (), ()),
    ('fws same pf site.txt rules.pf ios sub/fi', 'fws same pf site.txt rules.pf ios sub/file ', (), ()),
    ('fws dead pf site.txt sub/fi', 'fws dead pf site.txt sub/file ', (), ()),
    ('fws site2 si', 'fws site2 site.txt ', (), ()),
    ('fws synth pf site.txt rules.pf n', 'fws synth pf site.txt rules.pf new ', (), ()),
    ('fws query pf site.txt rules.pf e', 'fws query pf site.txt rules.pf est ', (), ()),
    ('fws query pf site.txt rules.pf new d', None, ('dst=', 'dport='), ('rdst=', 'src=')),
    ('fws query pf site.txt rules.pf new ent', 'fws query pf site.txt rules.pf new entry=', (), ()),
    ('fws query pf site.txt rules.pf new r', 'fws query pf site.txt rules.pf new r', (), ('rdst=',)),
    ('fws query pf site.txt rules.pf est rd', None, ('rdst=', 'rdport='), ('dst=',)),
    ('fws query pf site.txt rules.pf new dst=10.0.0.5 d', 'fws query pf site.txt rules.pf new dst=10.0.0.5 dport=', (), ()),
    ('fws query pf site.txt rules.pf new verdict=', None, ('accept', 'drop'), ('host',)),
    ('fws query pf site.txt rules.pf new verdict=a', 'fws query pf site.txt rules.pf new verdict=accept ', (), ()),
    ('fws query pf site.txt rules.pf new entry=', None, ('host', 'lo', 'lan', 'lab', 'wan'), ('comment', 'site')),
    ('fws query pf site.txt rules.pf new entry=w', 'fws query pf site.txt rules.pf new entry=wan', (), ()),
    ('fws query pf site.txt rules.pf new entry=wan,h', 'fws query pf site.txt rules.pf new entry=wan,host', (), ()),
    ('fws query pf site.txt rules.pf new dport=22 entry=lan,la', 'fws query pf site.txt rules.pf new dport=22 entry=lan,lab', (), ()),
    ("fws query pf 'a site' rules.pf new entry=d", "fws query pf 'a site' rules.pf new entry=dmz", (), ()),
    ('fws query pf a\\ site rules.pf new entry=d', 'fws query pf a\\ site rules.pf new entry=dmz', (), ()),
    ('fws query pf nowhere rules.pf new entry=ho', 'fws query pf nowhere rules.pf new entry=host', (), ()),
    ('fws synth pf a', 'fws synth pf a\\ site ', (), ()),
    ('./checkout/fws --ins', './checkout/fws --install ', (), ()),
    ('./checkout/fws --te', './checkout/fws --test ', (), ()),
    ('./checkout/fws --install su', './checkout/fws --install sub/', (), ()),
    ('./checkout/fws sy', './checkout/fws synth ', (), ()),
    ('./checkout/fws --pa', './checkout/fws --package ', (), ()),
    ('./checkout/fws --package su', './checkout/fws --package sub/', (), ()),
    ('fws-ask --si', 'fws-ask --site ', (), ()),
    ('fws-ask --site si', 'fws-ask --site site.txt ', (), ()),
    ('fws-ask --site site.txt rul', 'fws-ask --site site.txt rules.pf ', (), ()),
    ('fws-ask --assert d', 'fws-ask --assert drop ', (), ()),
    ('fws-ask --lang op', 'fws-ask --lang openbsd ', (), ()),
    ('fws-ask --site site.txt rules.pf from w', 'fws-ask --site site.txt rules.pf from wan ', (), ()),
    ('fws-ask --site site.txt rules.pf from ', None, ('host', 'lo', 'lan', 'wan', 'any'), ('comment', 'site')),
    ('fws-ask rules.pf w', 'fws-ask rules.pf who ', (), ()),
    ('fws-ask rules.pf who ca', 'fws-ask rules.pf who can ', (), ()),
    ('fws-ask rules.pf tcp to 10.0.0.5 port ss', 'fws-ask rules.pf tcp to 10.0.0.5 port ssh ', (), ()),
    ('fws-view --nu', 'fws-view --numeric ', (), ()),
    ('fws-view --', None, ('--html', '--json', '--wide', '--numeric', '--title'), ('--site',)),
    ('fws-view sub/fi', 'fws-view sub/file ', (), ()),
    ('fws-site-of-host --io', 'fws-site-of-host --ios ', (), ()),
    ('fws-site-of-host --ios sub/fi', 'fws-site-of-host --ios sub/file ', (), ()),
    ('fws-site-of-host --forwarding y', 'fws-site-of-host --forwarding yes ', (), ()),
)


class Shell:
    """A shell behind a terminal."""

    def __init__(self, words, folder, settings):
        self.child, self.terminal = pty.fork()
        if self.child == 0:
            os.chdir(folder)
            os.environ.update(TERM='vt100', HOME=folder, LC_ALL='C', HISTFILE='', PS1='> ', COLUMNS='500', LINES='50')
            os.execvp(words[0], words)
        self.said = ''
        for line in ['stty cols 500 rows 50'] + settings:
            self.send(line + '\r')
        self.send('echo re""ady\r')
        self.wait('ready')

    def send(self, text):
        os.write(self.terminal, text.encode())

    def take(self, seconds):
        """Takes what is said within this time; whether anything was."""
        if not select.select([self.terminal], [], [], seconds)[0]:
            return False
        try:
            told = os.read(self.terminal, 65536)
        except OSError:
            return False
        self.said += re.sub(r'\x1b\[[0-9;?]*[A-Za-z]|\x1b[=>()][A-Z0-9]?|[\r\0\x07\x0f]', '', told.decode('utf-8', 'replace'))
        return True

    def wait(self, mark):
        """What is said up to the mark."""
        end = time.monotonic() + SECONDS
        while mark not in self.said and time.monotonic() < end:
            self.take(0.2)
        said, _, self.said = self.said.partition(mark)
        return said

    def rest(self):
        """Waits until nothing more is said: a shell that isn't at its prompt would take keys otherwise."""
        while self.take(0.1):
            pass

    def complete(self, typed):
        """The line behind a tabulator, and what was listed."""
        self.send('\x15')
        self.rest()
        self.said = ''
        self.send(typed)
        self.rest()
        self.send('\t')
        self.rest()
        self.send('\x18p')
        listed = self.wait('LINE<')
        line = self.wait('>ENIL')
        self.rest()
        return line, listed

    def end(self):
        os.kill(self.child, signal.SIGKILL)
        os.waitpid(self.child, 0)
        os.close(self.terminal)


BASH_SETTINGS = [
    "bind 'set show-all-if-ambiguous on'", "bind 'set bell-style none'", "bind 'set page-completions off'",
    "bind 'set enable-bracketed-paste off'", 'bind -x \'"\\C-xp": printf "LINE<%s>ENIL\\n" "$READLINE_LINE"\'',
]
ZSH_SETTINGS = [
    'fpath=(%s/share/zsh/site-functions $fpath)' % TOP.replace(' ', '\\ '), 'autoload -Uz compinit && compinit -u -D',
    'setopt no_beep auto_list list_ambiguous no_always_last_prompt', 'unsetopt zle_bracketed_paste 2>/dev/null; unset zle_bracketed_paste',
    'LISTMAX=0', 'show() { zle -I; print -r -- "LINE<$BUFFER>ENIL" }', 'zle -N show', "bindkey -e; bindkey '^Xp' show",
]


def make_folder(folder):
    write(os.path.join(folder, 'site.txt'), SITE)
    write(os.path.join(folder, 'a site'), SITE.replace('lan', 'dmz'))
    write(os.path.join(folder, 'rules.pf'), 'pass all\n')
    for name in ('openrules', 'dropped', 'yes.txt'):  # that begin as words do which stand in place of files
        write(os.path.join(folder, name), '')
    os.makedirs(os.path.join(folder, 'sub'))
    write(os.path.join(folder, 'sub/file'), '')
    os.makedirs(os.path.join(folder, 'checkout'))
    write(os.path.join(folder, 'checkout/fws'), '#!/bin/sh\n')
    os.chmod(os.path.join(folder, 'checkout/fws'), 0o755)
    write(os.path.join(folder, 'checkout/crates.txt'), '')


def faults(shell, typed, wanted, listed, absent):
    """What is wrong behind a tabulator."""
    line, said = shell.complete(typed)
    # what stands between the line and the line as it is written again
    said = [word.rstrip('=').rpartition('=')[2] for word in said.partition(typed)[2].partition('\n> ')[0].split()]
    found = [] if wanted is None or wanted.rstrip() == line.rstrip() else ['%r, not %r' % (line, wanted)]
    found += ['%r is not among %r' % (word, said) for word in listed if word.rstrip('=') not in said]
    return found + ['%r is listed' % word for word in absent if word.rstrip('=') in said]


def try_shell(tally, name, words, settings):
    with tempfile.TemporaryDirectory() as folder:
        make_folder(folder)
        shell = Shell(words, folder, settings)
        try:
            for case in COMMON_TRIES:
                found = faults(shell, *case)
                if found:  # on a busy machine keys may come before the shell is at its prompt
                    time.sleep(1)
                    shell.rest()
                    found = faults(shell, *case)
                tally.holds('%s: %r and a tabulator' % (name, case[0]), not found, '; '.join(found))
        finally:
            shell.end()


def check(tally):
    quoted = '{0} && source {0}-ask'.format("'%s/share/bash-completion/completions/fws'" % TOP.replace("'", "'\\''"))
    if shutil.which('bash'):
        try_shell(tally, 'bash alone', ['bash', '--norc', '--noprofile', '-i'], BASH_SETTINGS + ['source ' + quoted])
        try_shell(tally, 'bash that divides no words at =', ['bash', '--norc', '--noprofile', '-i'],
                  BASH_SETTINGS + ['source ' + quoted, 'COMP_WORDBREAKS=${COMP_WORDBREAKS//=}'])
        if os.path.exists(BASH_COMPLETION):
            try_shell(tally, 'bash with bash-completion', ['bash', '--norc', '--noprofile', '-i'],
                      BASH_SETTINGS + ['source ' + BASH_COMPLETION, 'source ' + quoted])
        else:
            tally.skip('completion with bash-completion', 'it is not installed')
    else:
        tally.skip('completion in bash', 'no bash')
    if shutil.which('zsh'):
        try_shell(tally, 'zsh', ['zsh', '-f', '-i'], ZSH_SETTINGS)
    else:
        tally.skip('completion in zsh', 'no zsh')


if __name__ == '__main__':
    from common import Tally
    TALLY = Tally()
    check(TALLY)
    print(TALLY.right, TALLY.wrong)
