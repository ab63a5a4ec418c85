"""python3 -B checks/definitions.py [--write], at the top of the repository

The page docs/DEFINITIONS.md: a section for each crate, in the order of crates/README.md, and in it an item for each file of its
specs/, which begins with what the head of the file says. Below are the definitions that a contract or another file names, each with
the first sentence of its comment and where it is used; at the end of the item are the names of those that only their own file and
proofs use.

With --write the page is written. Without it exit status 1 says that the page isn't what would be written, and one line says so.
"""

import glob
import os
import re
import sys

PAGE = 'docs/DEFINITIONS.md'
CRATE_LIST = 'crates/README.md'
MOST_USERS = 4  # crates or files that an item names, before it counts

DEFINITION = re.compile(r'(?:(?:abbrev|unfoldable|opaque) )?pub (?:(?:record|data) )?(\S+)')
NO_DEFINITION = ('pub mod ', 'pub use ')
# `use Rattle.fws_iv.specs.Ivs.{has, IsRegular}`; with a name in place of the braces it is the one that is imported
IMPORTED = re.compile(r'\buse Rattle\.(\w+)\.specs\.(\w+)\.(?:\{([^}]*)\}|([^\s.;{]+))')

BEGINNING = """# The definitions

What contracts speak of: each file of `specs/`, crate by crate from the ground up, and in it each definition that a contract or another
file names, with the first sentence of its comment and where it is used. Crates stand for their contracts, definitions and programs;
`src/` and `specs/` are folders of the crate itself. What only its own file or proofs use is listed by name at the end of each file.

`python3 -B checks/definitions.py --write` writes this page, and `checks/documents.sh` fails if it isn't up to date. `docs/GLOSSARY.md`
explains the words that comments use.
"""


class File:
    """A text of a crate, and the definitions that it imports: crate, file and name."""

    def __init__(self, path):
        self.path = path
        self.crate = path.split('/')[1]
        with open(path, encoding='utf-8') as file:
            self.lines = file.read().split('\n')
        self.imports = {(crate, module, name.split()[0])
                        for crate, module, names, single in IMPORTED.findall('\n'.join(self.lines))
                        for name in (names or single).split(',') if name.strip()}

    def place(self):
        """The path within the crate."""
        return self.path.split('/', 2)[2]


def plain(comment):
    """The first sentence of a comment, as it stands in a page."""
    sentence = re.split(r'\.\s+(?=[A-Z])', comment, maxsplit=1)[0].rstrip('.')
    return re.sub(r'([*_<|\\])', r'\\\1', sentence) if '`' not in sentence else sentence


def head_and_definitions(file):
    """What the head of a file of specs/ says, and its definitions: name and comment."""
    head, found, comment, first = [], [], [], True
    for line in file.lines:
        if line.startswith('--'):
            (head if first else comment).append(line[2:].strip())
            continue
        first = False
        defined = not line.startswith(NO_DEFINITION) and DEFINITION.match(line)
        if defined:
            found.append((defined[1], ' '.join(comment)))
        comment = []
    return ' '.join(head), found


def listed_crates():
    """The crates from the ground up: crates/README.md has them the other way round."""
    with open(CRATE_LIST, encoding='utf-8') as file:
        return re.findall(r'^- `(fws\w*)`:', file.read(), re.MULTILINE)[::-1]


def users_of(name, file, readers):
    """Where a definition is used: in files of its own crate, and in other crates."""
    module = os.path.splitext(os.path.basename(file.path))[0]
    using = readers.get((file.crate, module, name), ())
    own = sorted({reader.place() for reader in using if reader.crate == file.crate})
    return own, sorted({reader.crate for reader in using} - {file.crate})


def named(names):
    """Names in backquotes, or their first ones and how many there are beside."""
    shown = ['`%s`' % name for name in names[:MOST_USERS]]
    return ', '.join(shown) + (' and %d more' % (len(names) - MOST_USERS) if len(names) > MOST_USERS else '')


def item_of(file, readers):
    """The lines of a file of specs/."""
    head, definitions = head_and_definitions(file)
    lines = ['- `%s`: %s' % (file.place(), plain(head))]
    inner = []
    for name, comment in definitions:
        own, above = users_of(name, file, readers)
        users = '; '.join(named(each) for each in (own, above) if each)
        if users:
            lines.append('  - `%s`%s. %s' % (name, ': ' + plain(comment) if comment else '', users))
        else:
            inner.append(name)
    if inner:
        lines.append('  - of use in the file and in proofs: ' + ', '.join('`%s`' % name for name in inner))
    return lines


def page():
    """The whole page."""
    files = [File(path) for path in sorted(glob.glob('crates/*/s*/**/*.*t', recursive=True))
             if re.match(r'crates/\w+/(specs/.*\.antt|src/.*\.rt)$', path)]
    readers = {}
    for file in files:
        for imported in file.imports:
            readers.setdefault(imported, []).append(file)
    lines = [BEGINNING]
    for crate in listed_crates():
        own = [file for file in files if file.crate == crate and '/specs/' in file.path and not file.path.endswith('/Lib.antt')]
        if own:
            lines += ['## ' + crate, '']
            for file in own:
                lines += item_of(file, readers)
            lines.append('')
    return '\n'.join(lines)


def is_written():
    """Whether the page is what would be written."""
    if not os.path.isfile(PAGE):
        return False
    with open(PAGE, encoding='utf-8') as file:
        return file.read() == page()


def main():
    if sys.argv[1:] == ['--write']:
        with open(PAGE, 'w', encoding='utf-8') as file:
            file.write(page())
        return 0
    if is_written():
        return 0
    print('%s:1: not what checks/definitions.py writes' % PAGE)
    return 1


if __name__ == '__main__':
    sys.exit(main())
