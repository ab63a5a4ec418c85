"""Tries ./fws --install and --uninstall on a copy of what they need, below folders that may and may not be written to."""

import os
import re
import stat
import tempfile

from common import EXAMPLES, PROGRAM, TOP, copy_checkout, read, run, write

NOBODY = 65534

# What is put, and which of it can be run.
PLACES = {
    'bin/fws': 0o755, 'bin/fws-ask': 0o755, 'bin/fws-site-of-host': 0o755, 'bin/fws-view': 0o755,
    'share/fws/configurations.py': 0o644, 'share/fws/fields.py': 0o644, 'share/fws/questions.py': 0o644,
    'share/doc/fws/PROFILES.md': 0o644,
    'share/man/man1/fws.1': 0o644, 'share/man/man1/fws-ask.1': 0o644,
    'share/man/man1/fws-site-of-host.1': 0o644, 'share/man/man1/fws-view.1': 0o644, 'share/bash-completion/completions/fws': 0o644,
    'share/bash-completion/completions/fws-ask': 0o644, 'share/bash-completion/completions/fws-site-of-host': 0o644,
    'share/bash-completion/completions/fws-view': 0o644, 'share/zsh/site-functions/_fws': 0o644,
    'share/zsh/site-functions/_fws_tools': 0o644,
}


def files_below(folder):
    """Each file below a folder by its path from there, with its mode."""
    found = {}
    for place, _, names in os.walk(folder):
        for name in names:
            path = os.path.join(place, name)
            found[os.path.relpath(path, folder)] = stat.S_IMODE(os.stat(path).st_mode)
    return found


def said_lines(verb, prefix, places=PLACES):
    return ''.join('fws: %s\n' % (verb % os.path.join(prefix, place)) for place in places)


def check_put_and_take(tally, script, folder):
    prefix = os.path.join(folder, 'a prefix/below')
    status, _, said = run(script, '--install', prefix)
    tally.check('install: status and lines', (0, said_lines('put %s', prefix)), (status, said))
    tally.check('install: files', PLACES, files_below(prefix))
    for name, source in (('bin/fws', PROGRAM), ('share/man/man1/fws.1', os.path.join(TOP, 'share/man/man1/fws.1'))):
        with open(os.path.join(prefix, name), 'rb') as one, open(source, 'rb') as other:
            tally.holds('install: %s' % name, one.read() == other.read(), 'differs')
    tally.check('the installed program', (0, 'fws 0.1.0\n'), run(os.path.join(prefix, 'bin/fws'), '--version')[:2])
    tally.holds('the installed view', run(os.path.join(prefix, 'bin/fws-view'), '--help')[1].startswith('usage: fws-view'))
    asked = run(os.path.join(prefix, 'bin/fws-ask'), '--site', os.path.join(EXAMPLES, 'site.txt'), os.path.join(EXAMPLES, 'router.saved'),
                'tcp from wan to 203.0.113.2 port http', env={**os.environ, 'FWS_PROGRAM': ''})
    tally.holds('the installed ask', asked[0] == 0 and asked[1].startswith('Accepted: '), asked)
    tally.holds('the installed tools leave no file', files_below(prefix) == PLACES, sorted(set(files_below(prefix)) - set(PLACES)))
    tally.holds('the installed site-of-host',
                run(os.path.join(prefix, 'bin/fws-site-of-host'), '--help')[1].startswith('usage: fws-site-of-host'))
    write(os.path.join(prefix, 'bin/other'), 'another file\n')
    tally.check('install once more', (0, said_lines('put %s', prefix)), run(script, '--install', prefix)[::2])
    status, _, said = run(script, '--uninstall', prefix)
    tally.check('uninstall: status and lines', (0, said_lines('took %s away', prefix)), (status, said))
    tally.check('uninstall: files', ['bin/other'], list(files_below(prefix)))
    tally.check('uninstall: folders of fws alone', [False, False], [os.path.exists(os.path.join(prefix, name)) for name in (
        'share/fws', 'share/doc/fws')])
    tally.check('uninstall once more', (0, 'fws: nothing of fws is in %s\n' % prefix), run(script, '--uninstall', prefix)[::2])
    tally.check('a relative prefix', (0, said_lines('put %s', folder + '/near')), run(script, '--install', 'near', cwd=folder)[::2])
    tally.check('a relative prefix: files', PLACES, files_below(folder + '/near'))


def check_refused(tally, script, folder):
    """Where a place can't be written to nothing is left, and what was there stays."""
    for words in (('--install', ''), ('--install', '-x'), ('--uninstall', '')):
        tally.check('words %r' % (words,), (2, "fws: no folder to which anything could be put: '%s'\n" % words[1]), run(script, *words)[::2])
    prefix = os.path.join(folder, 'blocked')
    os.makedirs(os.path.join(prefix, 'share/man/man1/fws.1'))
    tally.check('a folder in the way', (5, 'fws: cannot write %s/share/man/man1/fws.1: it is a folder\n' % prefix),
                run(script, '--install', prefix)[::2])
    tally.check('a folder in the way: files', {}, files_below(prefix))
    tally.holds('a folder in the way: folders', not os.path.exists(prefix + '/bin'), 'bin was made')
    prefix = os.path.join(folder, 'file')
    write(prefix, '')
    tally.check('a file in the way', (5, 'fws: cannot write to %s/bin: %s is no folder\n' % (prefix, prefix)),
                run(script, '--install', prefix)[::2])


def check_unwritable(tally, script, folder):
    """One of the folders may not be written to by the user: root is made another one for that."""
    prefix = os.path.join(folder, 'partly')
    os.makedirs(prefix + '/share/zsh/site-functions')
    user = {} if os.getuid() else {'user': NOBODY, 'group': NOBODY, 'extra_groups': []}
    if user:
        for place in ('', '/share', '/share/zsh'):
            os.chown(prefix + place, NOBODY, NOBODY)
    os.chmod(prefix + '/share/zsh/site-functions', 0o555)
    why = 'fws: cannot write to %s/share/zsh/site-functions: %s/share/zsh/site-functions may not be written to\n' % (prefix, prefix)
    tally.check('one folder may not be written to', (5, why), run(script, '--install', prefix, **user)[::2])
    tally.check('one folder may not be written to: folders', ['share'], os.listdir(prefix))
    os.chmod(prefix + '/share/zsh/site-functions', 0o755)
    if user:
        os.chown(prefix + '/share/zsh/site-functions', NOBODY, NOBODY)
    tally.check('it may be written to', 0, run(script, '--install', prefix, **user)[0])
    os.chmod(prefix + '/share/zsh/site-functions', 0o555)
    tally.check('uninstall where one folder may not be written to', (5, why), run(script, '--uninstall', prefix, **user)[::2])
    tally.check('uninstall where one folder may not be written to: files', PLACES, files_below(prefix))
    os.chmod(prefix + '/share/zsh/site-functions', 0o755)


def check_undone(tally, script, checkout, folder):
    """What was put is taken away again, and what stood there is put back, where the last step fails."""
    prefix = os.path.join(folder, 'undone')
    tally.check('before a failure', 0, run(script, '--install', prefix)[0])
    write(prefix + '/bin/fws-view', 'what stood there\n')
    os.unlink(prefix + '/share/man/man1/fws.1')
    before = files_below(prefix)
    # a command mv that fails at the last of the files
    write(checkout + '/mv', '#!/bin/sh\ncase "$*" in *_fws_tools*) exit 1 ;; esac\nexec /bin/mv "$@"\n')
    os.chmod(checkout + '/mv', 0o755)
    surroundings = dict(os.environ, PATH=checkout + ':' + os.environ['PATH'])
    status, _, said = run(script, '--install', prefix, env=surroundings)
    tally.check('a failure at the end', (5, 'fws: cannot write %s/share/zsh/site-functions/_fws_tools\n' % prefix), (status, said))
    after = files_below(prefix)
    tally.check('a failure at the end: files', before, after)
    with open(prefix + '/bin/fws-view', encoding='utf-8') as file:
        tally.check('a failure at the end: what stood there', 'what stood there\n', file.read())
    write(checkout + '/cp', '#!/bin/sh\ncase "$*" in *_fws*) exit 1 ;; esac\nexec /bin/cp "$@"\n')
    os.chmod(checkout + '/cp', 0o755)
    fresh = os.path.join(folder, 'never')
    tally.check('a failure of a copy', 5, run(script, '--install', fresh, env=surroundings)[0])
    tally.holds('a failure of a copy: nothing is left', not os.path.exists(fresh), '%s is there' % fresh)


def check_built_first(tally, script, checkout, folder):
    """A program that is older than the sources is built first, by rt; but not where nothing could be put anyway."""
    os.utime(os.path.join(checkout, 'crates.txt'))
    os.utime(os.path.join(checkout, 'crates/fws/out/fws'), (0, 0))
    os.makedirs(checkout + '/bin')
    surroundings = dict(os.environ, PATH=checkout + '/bin:' + os.environ['PATH'])
    write(checkout + '/bin/rt', '#!/bin/sh\necho "$*" >>../../called\necho why it went wrong >&2\nexit 1\n')
    os.chmod(checkout + '/bin/rt', 0o755)
    prefix = os.path.join(folder, 'file/below')
    tally.check('nothing is built in vain: status', 5, run(script, '--install', prefix, env=surroundings)[0])
    tally.holds('nothing is built in vain', not os.path.exists(checkout + '/called'), 'rt was called')
    prefix = os.path.join(folder, 'built')
    status, _, said = run(script, '--install', prefix, env=surroundings)
    told = re.search(r'\nwhy it went wrong\nfws: fws_low could not be proved and built; all that rt said: (.*)\n'
                     r'fws: the program could not be built\n$', said)
    if tally.holds('a build that goes wrong', status == 6 and told, (status, said)):
        tally.check('a build that goes wrong: all that was said', 'why it went wrong\n', read(told[1]))
        os.remove(told[1])
    tally.check('a build that goes wrong: what was called', 'lib\n', read(checkout + '/called'))
    tally.holds('a build that goes wrong: nothing is left', not os.path.exists(prefix), '%s is there' % prefix)
    write(checkout + '/bin/rt', '#!/bin/sh\n[ "$1" != run ] || touch out/fws\n')
    status, _, said = run(script, '--install', prefix, env=surroundings)
    tally.check('a build that goes well', (0, True), (status, said.endswith(said_lines('put %s', prefix))))
    tally.check('a build that goes well: files', PLACES, files_below(prefix))


def check(tally):
    with tempfile.TemporaryDirectory() as folder:
        os.chmod(folder, 0o755)
        checkout = os.path.join(folder, 'a checkout')
        os.makedirs(checkout)
        copy_checkout(checkout)
        script = os.path.join(checkout, 'fws')
        check_put_and_take(tally, script, folder)
        check_refused(tally, script, folder)
        check_unwritable(tally, script, folder)
        check_undone(tally, script, checkout, folder)
        check_built_first(tally, script, checkout, folder)


if __name__ == '__main__':
    from common import Tally
    TALLY = Tally()
    check(TALLY)
    print(TALLY.right, TALLY.wrong, TALLY.skipped)
