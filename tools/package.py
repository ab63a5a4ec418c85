"""python3 tools/package.py TOP FOLDER: what `./fws --package` does. It puts two archives of the built program, the tools and their
pages into FOLDER: a package for Debian and its kin, and a tar archive for any other Linux of x86-64, beside which a file with its
checksum is put.

Both hold what `./fws --install` installs. The package names the version of the C library that the program asks for. The archive brings
that library along, with its loader, and starts the program by them, so that it doesn't matter which one a system has. Nothing here
asks for root, or for a tool of Debian: the archives are written by this script, with root as the owner of all files and the time of
the last commit, so that the same sources and the same compiler give the same bytes.

DEBFULLNAME and DEBEMAIL say who makes the package. The status is 0, or 5 where an archive can't be written.
"""

import gzip
import hashlib
import io
import lzma
import os
import re
import shutil
import subprocess
import sys
import tarfile
import tempfile
import time

PROGRAM = 'bin/fws'
UNWRITTEN = 5
DEBIAN_REVISION = 1

CONTROL = '''Package: fws
Version: %(version)s-%(revision)d
Section: net
Priority: optional
Architecture: amd64
Maintainer: %(maintainer)s
Installed-Size: %(size)d
Depends: libc6 (>= %(libc)s), python3:any
Description: tell what a firewall configuration does, and write it for another system
 FWS reads configurations of iptables, ipfw, pf and Cisco IOS, and answers with
 tables that say of every packet whether it is dropped or accepted, and with
 which rewriting. It translates policies from one of these systems to another,
 compares them, and names rules that no packet uses. The tables are proved to
 give each packet what a walk through the rules gives it.
'''

COPYRIGHT = '''Format: https://www.debian.org/doc/packaging-manuals/copyright-format/1.0/
Upstream-Name: fws

Files: *
Copyright: 2026 the authors of FWS
License: none-named
 The sources name no licence. Ask their authors before you hand this package on.
'''

CHANGELOG = '''fws (%(version)s-%(revision)d) unstable; urgency=medium

  * Made of a checkout; the file changelog.gz says what changed.

 -- %(maintainer)s  %(date)s
'''

# Starts the program by the loader and the library that the archive has.
STARTER = '''#!/bin/sh
here=$(dirname -- "$(readlink -f -- "$0")")/../lib/fws
unset LD_PRELOAD
exec "$here/%(loader)s" --inhibit-cache --library-path "$here" "$here/fws" "$@"
'''

INSTALL = '''FWS %(version)s for any Linux of x86-64.

Run bin/fws where it lies, or copy all of this below a prefix:

    tar -xf fws-%(version)s-linux-x86_64.tar.gz -C /usr/local --strip-components=1 --exclude=INSTALL

man finds the pages fws(1), fws-ask(1), fws-view(1) and fws-site-of-host(1) there. The tools ask for Python 3; the program asks for
nothing: the C library with which it runs is in lib/fws. That library is the GNU C Library as %(origin)s has it, and
share/doc/fws/libc-copyright is what it says of its licence.
'''

LICENCE = b'The GNU C Library is free software under the GNU Lesser General Public License, version 2.1 or later.\n'


class Fault(Exception):
    """Why there is no archive."""


def read(name):
    with open(name, 'rb') as file:
        return file.read()


def write(name, told):
    os.makedirs(os.path.dirname(name), exist_ok=True)
    with open(name, 'wb') as file:
        file.write(told)


def said_by(*words):
    ended = subprocess.run(words, stdin=subprocess.DEVNULL, stdout=subprocess.PIPE, stderr=subprocess.PIPE, check=False)
    if ended.returncode:
        raise Fault('%s: %s' % (' '.join(words), ended.stderr.decode('utf-8', 'replace').strip()))
    return ended.stdout.decode('utf-8', 'replace')


def packed(told):
    """Bytes as gzip writes them, without a name and a time."""
    return gzip.compress(told, 9, mtime=0)


class Package:
    """What both archives have: the version, the time, and the installed files below `stage`."""

    def __init__(self, top, stage):
        self.top = top
        self.stage = stage
        self.version = read(os.path.join(top, 'crates/fws_test_commands/data/version.text')).decode().split()[1]
        self.time = self.time_of_commit()
        name, mail = os.environ.get('DEBFULLNAME', 'FWS'), os.environ.get('DEBEMAIL', 'fws@fws.invalid')
        self.maintainer = '%s <%s>' % (name, mail)
        said_by(os.path.join(top, 'tools/install.sh'), 'put', top, stage)
        self.strip()

    def time_of_commit(self):
        """The time of the last commit in seconds, or of the page of changes in a checkout without git."""
        if os.environ.get('SOURCE_DATE_EPOCH', '').isdecimal():
            return int(os.environ['SOURCE_DATE_EPOCH'])
        try:
            return int(said_by('git', '-C', self.top, 'log', '-1', '--format=%ct'))
        except (Fault, OSError, ValueError):
            return int(os.stat(os.path.join(self.top, 'CHANGELOG.md')).st_mtime)

    def strip(self):
        """Takes away the names of functions, by strip(1) where it is installed."""
        if shutil.which('strip'):
            said_by('strip', '--strip-all', os.path.join(self.stage, PROGRAM))

    def words(self, **further):
        return {'version': self.version, 'revision': DEBIAN_REVISION, 'maintainer': self.maintainer,
                'date': time.strftime('%a, %d %b %Y %H:%M:%S +0000', time.gmtime(self.time)), **further}

    def tar(self, folder, above, file):
        """Writes a folder as a tar archive, each name behind `above`."""
        with tarfile.open(fileobj=file, mode='w', format=tarfile.GNU_FORMAT) as archive:
            for place, folders, names in os.walk(folder):
                folders.sort()
                for path in [place] + [os.path.join(place, name) for name in sorted(names)]:
                    member = archive.gettarinfo(path, above + os.path.relpath(path, folder) if path != folder else above.rstrip('/'))
                    member.uid = member.gid = 0
                    member.uname = member.gname = 'root'
                    member.mtime = self.time
                    member.mode = 0o755 if member.isdir() or member.mode & 0o100 else 0o644
                    if member.isfile():
                        with open(path, 'rb') as told:
                            archive.addfile(member, told)
                    else:
                        archive.addfile(member)


# Debian


def newest_symbols(program):
    """The version of the C library that the program asks for: the greatest of its symbols' versions."""
    versions = re.findall(rb'\0GLIBC_(\d+(?:\.\d+)+)(?=\0)', read(program))
    found = {tuple(int(part) for part in version.split(b'.')) for version in versions}
    if not found:
        raise Fault('%s asks for no version of the GNU C library' % program)
    return '.'.join(str(part) for part in max(found))


def for_debian(package, root):
    """Lays the files out as Debian has them, below `root`."""
    shutil.copytree(package.stage, os.path.join(root, 'usr'))
    share = os.path.join(root, 'usr/share')
    for name in os.listdir(os.path.join(share, 'man/man1')):
        page = os.path.join(share, 'man/man1', name)
        write(page + '.gz', packed(read(page)))
        os.remove(page)
    os.makedirs(os.path.join(share, 'zsh/vendor-completions'))
    for name in os.listdir(os.path.join(share, 'zsh/site-functions')):
        os.rename(os.path.join(share, 'zsh/site-functions', name), os.path.join(share, 'zsh/vendor-completions', name))
    os.rmdir(os.path.join(share, 'zsh/site-functions'))
    for name in os.listdir(os.path.join(root, 'usr/bin')):
        path = os.path.join(root, 'usr/bin', name)
        told = read(path)
        if told.startswith(b'#!/usr/bin/env python3\n'):
            write(path, told.replace(b'#!/usr/bin/env python3', b'#!/usr/bin/python3', 1))
    papers = os.path.join(share, 'doc/fws')
    write(os.path.join(papers, 'copyright'), COPYRIGHT.encode())
    write(os.path.join(papers, 'changelog.gz'), packed(read(os.path.join(package.top, 'CHANGELOG.md'))))
    write(os.path.join(papers, 'changelog.Debian.gz'), packed((CHANGELOG % package.words()).encode()))


def files_below(root):
    return sorted(os.path.join(place, name) for place, _, names in os.walk(root) for name in names)


def control_files(package, root, folder):
    files = files_below(root)
    size = sum(-(-os.path.getsize(name) // 1024) for name in files) + sum(1 for _ in os.walk(root))
    told = CONTROL % package.words(size=size, libc=newest_symbols(os.path.join(root, 'usr', PROGRAM)))
    write(os.path.join(folder, 'control'), told.encode())
    sums = ''.join('%s  %s\n' % (hashlib.md5(read(name)).hexdigest(), os.path.relpath(name, root)) for name in files)
    write(os.path.join(folder, 'md5sums'), sums.encode())


def ar_member(name, told, seconds):
    head = '%-16s%-12d%-6d%-6d%-8s%-10d`\n' % (name, seconds, 0, 0, '100644', len(told))
    return head.encode() + told + b'\n' * (len(told) & 1)


def make_debian(package, work, target):
    root, control = os.path.join(work, 'root'), os.path.join(work, 'control')
    for_debian(package, root)
    control_files(package, root, control)
    parts = [('debian-binary', b'2.0\n')]
    for name, folder in (('control.tar.xz', control), ('data.tar.xz', root)):
        held = io.BytesIO()
        package.tar(folder, './', held)
        parts.append((name, lzma.compress(held.getvalue(), preset=9)))
    name = os.path.join(target, 'fws_%s-%d_amd64.deb' % (package.version, DEBIAN_REVISION))
    write(name, b'!<arch>\n' + b''.join(ar_member(part, told, package.time) for part, told in parts))
    return [name]


# Any Linux


def libraries(program):
    """The loader of the program, and the files of the libraries with which it starts here, by their names."""
    told = read(program)
    loader = re.search(rb'/lib64/ld-linux[^\0]*', told)
    if not loader:
        raise Fault('%s names no loader' % program)
    loader = loader[0].decode()
    found = dict(re.findall(r'(\S+) => (\S+)', said_by(loader, '--list', program)))
    return loader, {**found, os.path.basename(loader): loader}


def make_archive(package, work, target):
    name = 'fws-%s-linux-x86_64' % package.version
    root = os.path.join(work, name)
    shutil.copytree(package.stage, root)
    program = os.path.join(root, PROGRAM)
    loader, files = libraries(program)
    os.makedirs(os.path.join(root, 'lib/fws'))
    for file, path in files.items():
        shutil.copyfile(path, os.path.join(root, 'lib/fws', file))
        os.chmod(os.path.join(root, 'lib/fws', file), 0o755)
    os.rename(program, os.path.join(root, 'lib/fws/fws'))
    write(program, (STARTER % {'loader': os.path.basename(loader)}).encode())
    os.chmod(program, 0o755)
    paper = '/usr/share/doc/libc6/copyright'
    said = read(paper) if os.path.exists(paper) else LICENCE
    write(os.path.join(root, 'share/doc/fws/libc-copyright'), said)
    write(os.path.join(root, 'INSTALL'), (INSTALL % package.words(origin=origin())).encode())
    held = io.BytesIO()
    package.tar(root, name + '/', held)
    path = os.path.join(target, name + '.tar.gz')
    write(path, packed(held.getvalue()))
    checksum = '%s  %s.tar.gz\n' % (hashlib.sha256(read(path)).hexdigest(), name)
    write(path + '.sha256', checksum.encode())
    return [path, path + '.sha256']


def origin():
    """The system whose library is taken along."""
    try:
        return re.search(r'^PRETTY_NAME="?([^"\n]*)', read('/etc/os-release').decode('utf-8', 'replace'), re.M)[1]
    except (OSError, TypeError):
        return 'the system that made this archive'


def main(top, target):
    try:
        with tempfile.TemporaryDirectory() as work:
            package = Package(top, os.path.join(work, 'stage'))
            for name in make_debian(package, work, target) + make_archive(package, work, target):
                print('fws: made %s' % name, file=sys.stderr)
    except (Fault, OSError) as why:
        print('fws: no package can be made: %s' % why, file=sys.stderr)
        return UNWRITTEN
    return 0


if __name__ == '__main__':
    sys.exit(main(os.path.abspath(sys.argv[1]), os.path.abspath(sys.argv[2])))
