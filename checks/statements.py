"""The statements of a crate's sources: all that a crate above it can stand on. Statements are types, constants, traits, ghost
items, signatures and clauses. Bodies of functions are none, nor are comments, layout, proof hints (`#[tactic(..)]`), tests, and
functions that no crate above can see: those that aren't `pub` and stand neither in a trait nor in an `impl .. for ..`. An
import is one where a statement of its file names what it brings. A file whose text has a form that isn't known here counts
whole, so that nothing is left out by mistake.

Run with folders of crates it prints their statements, to be read.
"""

import functools
import os
import re
import sys

# Blanks and comments of a line, and the token behind them.
CODE = re.compile(r'''
    (?: \s+ | //[^\n]* )*
    (?: (?P<comment>/\*)
    | ( [bc]?r(?P<marks>\#*)".*?"(?P=marks)
    | [bc]?"(?:[^"\\]|\\.)*"
    | b?'(?:\\[^\n][^'\n]*|[^\\'\n])'
    | '\w+
    | r\#\w+
    | «[^»\n]*»
    | \w+
    | :: | ->
    | . ) )?
    ''', re.X | re.S)

# What the end of a body is found by.
BODY = re.compile(r'''
    [{}]
    | (?P<blank>//[^\n]*)
    | (?P<comment>/\*)
    | "(?:[^"\\]|\\.)*"
    | (?P<open>")
    | '(?:\\[^\n][^'\n]*|[^\\'\n])'
    | '\w+
    | \b(?:(?P<ghost>requires|ensures|ghost)\b|(?P<raw>[bc]?r(?P<marks>\#*)".*?"(?P=marks)))
    ''', re.X | re.S)

# The text of a clause or a ghost item, which has comments and strings of its own.
GHOST = re.compile(r'"(?:[^"\\\n]|\\[^\n])*"|(?P<comment>{-)|(?P<blank>(?<![^ \n(){}.;,@"»])--[^\n]*)|[^-{}"]+|.', re.S)

# A text that stays as it is, and blanks, which don't.
LAYOUT = re.compile(r'("(?:[^"\\\n]|\\[^\n])*")|\s+')
PIECES = re.compile(r'[{},]|[^{},]+')
IMPORTS = re.compile(r'\s+use\b')
WORDS = re.compile(r'\w+')

CLAUSES = ('requires', 'ensures')
MODIFIERS = ('default', 'const', 'unsafe', 'async', 'extern')


class Unknown(Exception):
    """A text of a form that isn't known here."""


class Ghost(str):
    """The text of a clause or a ghost item."""


def behind_comment(text, at, opens, closes):
    """The place behind a comment, which may hold others."""
    depth = 0
    for mark in re.compile(re.escape(opens) + '|' + re.escape(closes)).finditer(text, at):
        depth += 1 if mark[0] == opens else -1
        if depth == 0:
            return mark.end()
    raise Unknown('a comment without an end')


def pieces(text):
    """The parts of a list, split at the commas that stand in no braces."""
    depth, found = 0, ['']
    for mark in PIECES.findall(text):
        depth += {'{': 1, '}': -1}.get(mark, 0)
        if mark == ',' and depth == 0:
            found.append('')
        else:
            found[-1] += mark
    return [piece.strip() for piece in found if piece.strip()]


def paths(tree):
    """The paths of an import, as a::b and a::c of a::{b, c}."""
    head, brace, rest = tree.partition('{')
    if not brace:
        return [tree.strip()]
    if not rest.rstrip().endswith('}'):
        raise Unknown('an import')
    return [head.strip() + path for piece in pieces(rest.rstrip()[:-1]) for path in paths(piece)]


@functools.lru_cache(maxsize=None)
def parts_of(name):
    """The words of a name, and the signs of one without words, as of `◌≤◌`."""
    parts = [part for part in name.strip('*').split('◌') if part]
    return WORDS.findall(name), [part for part in parts if not WORDS.search(part)]


class Import:
    """One name that an import brings."""

    def __init__(self, scope, word, path):
        self.is_ghost, self.is_nested = word != 'use', 'mod ' in scope
        joint = '.' if self.is_ghost else '::'
        path, _, name = path.partition(' as ')
        parts = [part.strip() for part in path.split(joint)]
        if parts[-1] == 'self' and len(parts) > 1:
            parts.pop()
        self.name = name.strip() or parts[-1]
        self.text = ' '.join([scope, word, joint.join(parts)]).strip() + (' as ' + self.name if name else '')
        # where it leads, if that may be another file of the crate: the last module, and the name there
        self.inside = None if self.is_ghost else tuple(['', *parts][-2:])

    def is_named(self, words, ghosts):
        """Whether a text with these words, and with these ghost texts, may name it."""
        letters, signs = parts_of(self.name)
        return words.issuperset(letters) and (not signs or self.is_ghost and all(sign in ghosts for sign in signs))


class File:
    """The statements and the imports of a source file."""

    def __init__(self, text):
        self.text, self.at = text, 0
        self.imports = []
        self.statements = []
        self.is_whole = False
        try:
            self.statements = self.items('', False)
            if self.at < len(text):
                raise Unknown('a brace too many')
        except Unknown:
            self.statements, self.imports, self.is_whole = [[text]], [], True

    def next(self):
        """The next token, '' at the end."""
        while True:
            found = CODE.match(self.text, self.at)
            self.at = found.end()
            if not found[1]:
                if found[2] == '"':
                    raise Unknown('a text without an end')
                return found[2] or ''
            self.at = behind_comment(self.text, self.at - 2, '/*', '*/')

    def wanted(self, word):
        found = self.next()
        if found != word:
            raise Unknown('%r in the place of %r' % (found, word))
        return found

    def ghost_text(self):
        """The text of a clause or a ghost item to its closing brace, without comments and layout."""
        found, depth = [], 0
        while True:
            part = GHOST.match(self.text, self.at)
            if not part:
                raise Unknown('a clause without an end')
            self.at = part.end()
            if part[0] == '{':
                depth += 1
            elif part[0] == '}':
                if depth == 0:
                    break
                depth -= 1
            if part.lastgroup == 'comment':
                self.at = behind_comment(self.text, part.start(), '{-', '-}')
            found.append(' ' if part.lastgroup else part[0])
        text = ''.join(found)
        if '"' in text:
            return Ghost(LAYOUT.sub(lambda part: part[1] or ' ', text).strip())
        return Ghost(' '.join(text.split()))

    def clause(self, word):
        """A clause or a ghost item whose first word was read; one that imports is no part of it."""
        found = [word]
        word = self.next()
        if found[0] in CLAUSES:
            while word != '{':
                if word in ('', '}', ';') or len(found) > 3:
                    raise Unknown('a clause')
                found.append(word)
                word = self.next()
            return [*found, '{', self.ghost_text(), '}']
        if word != '{':
            found += [word, self.next()]
            if found[-1] not in (':', '='):
                raise Unknown('a ghost item')
            word = self.next()
            if word in ('owns', 'lends'):
                found.append(word)
                word = self.next()
            if word != '{':
                raise Unknown('a ghost item')
        found += ['{', self.ghost_text(), '}']
        here = self.at
        word = self.next()
        if word in ('=', 'by') and ':' in found:
            self.wanted('{')
            return [*found, word, '{', self.ghost_text(), '}']
        self.at = here
        return found

    def group(self, opens):
        """What stands between two braces, brackets or parentheses, with these."""
        found = [opens]
        while True:
            word = self.next()
            if word == '':
                raise Unknown('%s without an end' % opens)
            if word in '([{':
                found += self.group(word)
            elif word in ')]}':
                return [*found, word]
            elif word in CLAUSES or word == 'ghost':
                found += self.clause(word)
            else:
                found.append(word)

    def skip_body(self, depth=1):
        """Goes behind the brace that closes a body, or with no depth behind the next body."""
        while True:
            found = BODY.search(self.text, self.at)
            if not found:
                raise Unknown('a body without an end')
            self.at = found.end()
            if found[0] == '{':
                if depth == 0 and self.text[found.start() - 1] == '<':
                    raise Unknown('a brace in a signature')
                depth += 1
            elif found[0] == '}':
                depth -= 1
                if depth <= 0:
                    return
            elif found.lastgroup == 'open':
                raise Unknown('a text without an end')
            elif found.lastgroup == 'comment':
                self.at = behind_comment(self.text, found.start(), '/*', '*/')
            elif found.lastgroup == 'ghost':
                if found[0] == 'ghost' and IMPORTS.match(self.text, self.at):
                    self.to_semicolon()
                else:
                    self.clause(found[0])

    def to_semicolon(self):
        end = self.text.find(';', self.at)
        if end < 0:
            raise Unknown('an import without an end')
        found = self.text[self.at:end]
        self.at = end + 1
        return found

    def items(self, scope, is_seen):
        """The statements of the items up to a closing brace or the end. scope: the heads of what they stand in;
        is_seen: whether a crate above sees functions without `pub`."""
        found = []
        while True:
            here = self.at
            word = self.next()
            if word == '':
                return found
            if word == '}':
                self.at = here
                return found
            statement = self.item(word, scope, is_seen)
            if statement:
                found.append(statement)

    def item(self, word, scope, is_seen):
        """The statement of an item whose first token was read, or None where it is none."""
        found, is_left_out = [], False
        while word == '#':
            word = self.next()
            is_inner = word == '!'
            if is_inner:
                word = self.next()
            if word != '[':
                raise Unknown('an attribute')
            attribute = self.group(word)
            if attribute[1] == 'cfg' and 'test' in attribute:
                is_left_out = True
            if attribute[1] != 'tactic':
                found += ['#!' if is_inner else '#', *attribute]
            if is_inner:
                return found
            word = self.next()
        is_public = word == 'pub'
        if is_public:
            found.append(word)
            word = self.next()
            if word == '(':
                found += self.group(word)
                is_public = False
                word = self.next()
        has_scope = found and found[-1] == ')'
        while word in MODIFIERS or found and found[-1] == 'extern' and word.startswith('"'):
            found.append(word)
            word = self.next()
        if word == 'fn' and (is_public or is_seen):
            statement = self.function(found)
        elif word == 'fn':
            statement = self.skip_body(0)
        elif word == 'use':
            text = ' '.join(self.tokens_to_semicolon())
            statement = self.imported(found, scope, 'use', text, is_public or has_scope)
        elif word == 'ghost':
            statement = self.ghost_item(found, scope, is_public)
        elif word in ('impl', 'trait', 'mod'):
            statement = self.block(found, word, scope)
        elif found and found[-1] == 'const' or word in ('struct', 'enum', 'union', 'type', 'static'):
            statement = self.plain(found, word)
        elif word == '{' and found and found[-1] != ')':
            statement = [*found, *self.group(word)]
        elif re.match(r'[A-Za-z_]', word):
            statement = self.call(found, word)
        else:
            raise Unknown(word)
        return None if is_left_out else statement

    def tokens_to_semicolon(self):
        found = []
        while True:
            word = self.next()
            if word == ';':
                return found
            if word == '':
                raise Unknown('an import without an end')
            found.append(word)

    def imported(self, found, scope, word, text, is_public):
        """Notes what an import brings; one that is passed on is a statement, and so is one under an attribute."""
        brought = [Import(scope, word, path) for path in paths(text)]
        if is_public or found:
            return [*found, *sorted(one.text for one in brought)]
        self.imports += [one for one in brought if one.name != '_']
        return None

    def ghost_item(self, found, scope, is_public):
        if IMPORTS.match(self.text, self.at):
            self.wanted('use')
            return self.imported(found, scope, 'ghost use', re.sub(r'\s+', ' ', self.to_semicolon()), is_public)
        statement = [*found, *self.clause('ghost')]
        self.wanted(';')
        return statement

    def function(self, found):
        """A function's signature and clauses; its body is passed over."""
        found = [*found, 'fn']
        while True:
            word = self.next()
            if word == '':
                raise Unknown('a function without an end')
            if word == ';':
                return found
            if word == '{' and found[-1] != '<':
                self.skip_body()
                return found
            if word in '([{':
                found += self.group(word)
            elif word in CLAUSES or word == 'ghost':
                found += self.clause(word)
            else:
                found.append(word)

    def block(self, found, word, scope):
        """A trait, an `impl` or a module with its items."""
        head = [word]
        while True:
            word = self.next()
            if word == '':
                raise Unknown('an item without an end')
            if word == ';':
                # another file has the items, or it is an alias
                return [*found, *head] if head[0] != 'mod' or found else None
            if word == '{' and head[-1] != '<':
                break
            head += self.group(word) if word in '([{' else [word]
        is_of_trait = head[0] == 'trait' or head[0] == 'impl' and any(
            word == 'for' and behind != '<' for word, behind in zip(head, [*head[1:], '']))
        items = self.items(' '.join([scope, *head, ':']).strip(), is_of_trait)
        self.wanted('}')
        if not items and not is_of_trait and not found:
            return None
        return [*found, *head, '{', *[word for item in items for word in [*item, '\n']], '}']

    def plain(self, found, word):
        """A type, a constant or a static, to its semicolon or its closing brace."""
        has_braces = word in ('struct', 'enum', 'union')
        found = [*found, word]
        while True:
            word = self.next()
            if word == '':
                raise Unknown('an item without an end')
            if word == ';':
                return found
            if word in '([{':
                is_end = has_braces and word == '{' and found[-1] != '<'
                found += self.group(word)
                if is_end:
                    return found
            else:
                found.append(word)

    def call(self, found, word):
        """A macro, or a call of one, which counts whole."""
        found = [*found, word]
        while word not in ('(', '[', '{'):
            word = self.next()
            if word in ('', ';', '}'):
                raise Unknown('an item')
            if word in '([{':
                found += self.group(word)
            else:
                found.append(word)
        if '!' not in found:
            raise Unknown('an item')
        if word != '{':
            self.wanted(';')
        return found


def module_of(path):
    """The last name of the module that a source file is."""
    folder, name = os.path.split(os.path.splitext(path)[0])
    return {'lib': 'crate', 'main': 'crate', 'mod': os.path.basename(folder)}.get(name, name)


def statements_of(texts):
    """The statements of a crate, by the texts of its source files, as one text."""
    files = {name: File(text) for name, text in sorted(texts.items())}
    shared = set()
    words, ghosts, counted = {}, {}, {}
    for name, file in files.items():
        parts = [part for statement in file.statements for part in statement]
        text = ' '.join(parts)
        words[name] = set(WORDS.findall(text))
        ghosts[name] = ' '.join(part for part in parts if isinstance(part, Ghost))
        shared.update(re.findall(r'(\w+)(?= :: (\w+))', text))
        counted[name] = set()
    # an import of a file can bring what another file of the crate imports
    is_done = False
    while not is_done:
        is_done = True
        for name, file in files.items():
            modules = (module_of(name), 'super', 'self')
            for one in file.imports:
                if one.text in counted[name]:
                    continue
                is_shared = one.is_nested or any((module, one.name) in shared for module in modules)
                if is_shared or one.is_named(words[name], ghosts[name]):
                    counted[name].add(one.text)
                    if one.inside and one.inside not in shared:
                        shared.add(one.inside)
                        is_done = False
    found = []
    for name, file in files.items():
        lines = [*sorted(counted[name]), *[' '.join(statement) for statement in file.statements]]
        if lines:
            found += ['file ' + name, *lines]
    return '\n'.join(found) + '\n'


def sources(folder):
    """The texts of a crate's source files, by their paths below `src`."""
    found = {}
    top = os.path.join(folder, 'src')
    for at, folders, names in os.walk(top):
        folders.sort()
        for name in names:
            if name.endswith('.rt'):
                path = os.path.join(at, name)
                with open(path, encoding='utf-8', errors='surrogateescape') as file:
                    found[os.path.relpath(path, top)] = file.read()
    return found


def main():
    for folder in sys.argv[1:]:
        print(statements_of(sources(folder)), end='')
    return 0


if __name__ == '__main__':
    sys.exit(main())
