"""Tries ./fws --package on a copy of what it needs: what the package for Debian holds, what lintian says of it, and that dpkg puts it
below an empty folder and takes it away again; and that the archive for any Linux runs where no library is.
"""

import gzip
import hashlib
import io
import lzma
import os
import re
import shutil
import stat
import tarfile
import tempfile

from common import EXAMPLES, PROGRAM, copy_checkout, read, run, write
from installing import PLACES

DEBIAN, ARCHIVE = 'fws_0.1.0-1_amd64.deb', 'fws-0.1.0-linux-x86_64.tar.gz'
COMMAND = ('query', 'iptables', 'site.txt', 'router.saved', 'new', 'entry=wan')


def debian_places():
    """What is in the package: what is installed, as Debian names it, and three pages of its own."""
    found = {}
    for place, mode in PLACES.items():
        place = place.replace('zsh/site-functions', 'zsh/vendor-completions') + ('.gz' if '/man/' in place else '')
        found['./usr/' + place] = mode
    return {**found, **{'./usr/share/doc/fws/' + name: 0o644 for name in ('changelog.gz', 'changelog.Debian.gz', 'copyright')}}


def parts_of(name):
    """The parts of an ar archive by their names."""
    with open(name, 'rb') as file:
        told = file.read()
    found, place = {}, 8
    while place < len(told):
        size = int(told[place + 48:place + 58])
        found[told[place:place + 16].decode().strip()] = told[place + 60:place + 60 + size]
        place += 60 + size + (size & 1)
    return found if told.startswith(b'!<arch>\n') else {}


def members(told):
    with tarfile.open(fileobj=io.BytesIO(told)) as archive:
        return [(member, archive.extractfile(member).read() if member.isfile() else None) for member in archive.getmembers()]


def check_debian(tally, name):
    parts = parts_of(name)
    tally.check('the package: parts', ['debian-binary', 'control.tar.xz', 'data.tar.xz'], list(parts))
    tally.check('the package: form', b'2.0\n', parts['debian-binary'])
    data, control = (members(lzma.decompress(parts[part])) for part in ('data.tar.xz', 'control.tar.xz'))
    files = {member.name: (member, told) for member, told in data if member.isfile()}
    tally.check('the package: files', debian_places(), {name: stat.S_IMODE(member.mode) for name, (member, _) in files.items()})
    tally.check('the package: owners', {(0, 0, 'root', 'root')}, {(one.uid, one.gid, one.uname, one.gname) for one, _ in data})
    told = {member.name: told for member, told in control if member.isfile()}
    sums = {'./' + line.split()[1]: line.split()[0] for line in told['./md5sums'].decode().splitlines()}
    tally.check('the package: sums', {name: hashlib.md5(text).hexdigest() for name, (_, text) in files.items()}, sums)
    fields = dict(line.split(': ', 1) for line in told['./control'].decode().splitlines() if not line.startswith(' '))
    tally.check('the package: control', ('fws', '0.1.0-1', 'amd64'), tuple(fields[name] for name in ('Package', 'Version', 'Architecture')))
    if shutil.which('objdump'):
        symbols = run('objdump', '-T', PROGRAM)[1]
        newest = max(tuple(int(part) for part in found.split('.')) for found in re.findall(r'GLIBC_(\d+\.\d+)', symbols))
        tally.check('the package: the C library', 'libc6 (>= %d.%d), python3:any' % newest, fields['Depends'])
    else:
        tally.skip('the C library of the package', 'no objdump')
    for place in ('usr/share/doc/fws/changelog.gz', 'usr/share/man/man1/fws.1.gz'):
        tally.holds('the package: %s' % place, gzip.decompress(files['./' + place][1]), 'is empty')
    tally.holds('the package: scripts', files['./usr/bin/fws-ask'][1].startswith(b'#!/usr/bin/python3\n'))


def check_lintian(tally, name):
    if not shutil.which('lintian'):
        tally.skip('what lintian says of the package', 'no lintian')
        return
    status, said, errors = run('lintian', '--allow-root', name)
    tally.holds('lintian', status == 0 and not re.search('^E:', said, re.M), said + errors)


def check_dpkg(tally, name, folder):
    """dpkg puts the package below an empty folder and takes it away without a trace."""
    if not shutil.which('dpkg') or os.getuid():
        tally.skip('dpkg -i', 'no dpkg, or not root')
        return
    root = os.path.join(folder, 'a root')
    for place in ('var/lib/dpkg/info', 'var/lib/dpkg/updates', 'var/lib/dpkg/triggers', 'tmp'):
        os.makedirs(os.path.join(root, place))
    for place in ('status', 'available'):
        write(os.path.join(root, 'var/lib/dpkg', place), '')
    # programs of the system are found outside the root, and what the package depends on isn't there
    words = ('dpkg', '--root=' + root, '--force-depends', '--force-not-root', '--log=/dev/null')
    status, _, said = run(*words, '-i', name)
    tally.check('dpkg -i', 0, status)
    if status:
        print(said)
        return
    there = sorted('./' + os.path.relpath(os.path.join(place, file), root) for place, _, files in os.walk(root + '/usr') for file in files)
    tally.check('dpkg -i: files', sorted(debian_places()), there)
    tally.check('dpkg -i: the program', (0, 'fws 0.1.0\n'), run(root + '/usr/bin/fws', '--version')[:2])
    asked = run(root + '/usr/bin/fws-ask', '--site', os.path.join(EXAMPLES, 'site.txt'), os.path.join(EXAMPLES, 'router.saved'),
                'tcp from wan to 203.0.113.2 port http', env={**os.environ, 'FWS_PROGRAM': ''})
    tally.holds('dpkg -i: fws-ask', asked[0] == 0 and asked[1].startswith('Accepted: '), asked)
    tally.check('dpkg -P', 0, run(*words, '-P', 'fws')[0])
    tally.holds('dpkg -P: without a trace', not os.path.exists(root + '/usr'), [place for place, _, _ in os.walk(root + '/usr')])


def check_archive(tally, target, folder):
    name = os.path.join(target, ARCHIVE)
    with open(name, 'rb') as file:
        tally.check('the archive: checksum', '%s  %s\n' % (hashlib.sha256(file.read()).hexdigest(), ARCHIVE), read(name + '.sha256'))
    with tarfile.open(name) as archive:
        found = {member.name.partition('/')[2]: stat.S_IMODE(member.mode) for member in archive.getmembers() if member.isfile()}
        tally.check('the archive: one folder', {ARCHIVE[:-len('.tar.gz')]}, {member.name.partition('/')[0] for member in archive.getmembers()})
        archive.extractall(folder)
    further = {'INSTALL': 0o644, 'lib/fws/fws': 0o755, 'share/doc/fws/libc-copyright': 0o644}
    tally.check('the archive: files', {**PLACES, **further}, {place: mode for place, mode in found.items() if '.so' not in place})
    below = os.path.join(folder, ARCHIVE[:-len('.tar.gz')])
    program = os.path.join(below, 'bin/fws')
    for words in (('--version',), (), COMMAND, ('synth', 'iptables', 'site.txt', 'no such', 'new'), ('synth', 'pf', 'site.txt', 'site.txt', 'new')):
        tally.check('the archive: %s' % (words,), run(PROGRAM, *words, cwd=EXAMPLES)[:2], run(program, *words, cwd=EXAMPLES)[:2])
    os.symlink(program, os.path.join(folder, 'a link'))
    said = run(os.path.join(folder, 'a link'), '--version', env={**os.environ, 'LD_LIBRARY_PATH': '/nowhere'})
    tally.check('the archive: by a link', (0, 'fws 0.1.0\n', ''), said)
    asked = run(os.path.join(below, 'bin/fws-ask'), '--site', 'site.txt', 'router.saved', 'ping from wan to host', cwd=EXAMPLES,
                env={**os.environ, 'FWS_PROGRAM': ''})
    tally.holds('the archive: fws-ask', asked[0] == 0 and asked[1].startswith('Accepted: '), asked)
    check_bare(tally, below, folder)


def check_bare(tally, below, folder):
    """The program of the archive runs where there is a shell without a library, and nothing else."""
    shell = shutil.which('busybox')
    if not shell or os.getuid() or run('objdump', '-p', shell)[1].count('NEEDED'):
        tally.skip('the archive where no library is', 'no busybox that is linked statically, or not root')
        return
    root = os.path.join(folder, 'bare')
    os.makedirs(root + '/bin')
    shutil.copy(shell, root + '/bin/busybox')
    for name in ('sh', 'readlink', 'dirname'):
        os.symlink('busybox', root + '/bin/' + name)
    shutil.copytree(below, root + '/opt')
    shutil.copytree(EXAMPLES, root + '/work')
    command = ('chroot', root, '/bin/sh', '-c', 'cd /work && exec /opt/bin/fws "$@"', 'fws')
    tally.check('the archive where no library is', run(PROGRAM, *COMMAND, cwd=EXAMPLES), run(*command, *COMMAND))


def check(tally):
    if os.uname().machine != 'x86_64' or os.uname().sysname != 'Linux':
        tally.skip('packages', 'this is no Linux of x86-64')
        return
    with tempfile.TemporaryDirectory() as folder:
        os.chmod(folder, 0o755)
        checkout, target, again = (os.path.join(folder, name) for name in ('a checkout', 'a target', 'again'))
        for name in (checkout, target, again):
            os.makedirs(name)
        copy_checkout(checkout)
        script = os.path.join(checkout, 'fws')
        made = ''.join('fws: made %s/%s\n' % (target, name) for name in (DEBIAN, ARCHIVE, ARCHIVE + '.sha256'))
        settings = {**os.environ, 'SOURCE_DATE_EPOCH': '1790000000'}
        tally.check('--package', (0, '', made), run(script, '--package', target, env=settings))
        tally.check('--package: files', sorted([DEBIAN, ARCHIVE, ARCHIVE + '.sha256']), sorted(os.listdir(target)))
        tally.check('--package in this folder', 0, run(script, '--package', cwd=again, env=settings)[0])
        for name in (DEBIAN, ARCHIVE):
            with open(os.path.join(target, name), 'rb') as one, open(os.path.join(again, name), 'rb') as other:
                tally.holds('--package once more: %s' % name, one.read() == other.read(), 'differs')
        tally.check('--package into no folder', (5, '', 'fws: cannot write to /nowhere: it is no folder\n'), run(script, '--package', '/nowhere'))
        check_debian(tally, os.path.join(target, DEBIAN))
        check_lintian(tally, os.path.join(target, DEBIAN))
        check_dpkg(tally, os.path.join(target, DEBIAN), folder)
        check_archive(tally, target, folder)


if __name__ == '__main__':
    from common import Tally
    TALLY = Tally()
    check(TALLY)
    print(TALLY.right, TALLY.wrong, TALLY.skipped)
