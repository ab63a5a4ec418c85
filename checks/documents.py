"""python3 -B checks/documents.py, at the top of the repository

Checks README.md, CONTRIBUTING.md, CHANGELOG.md, crates/README.md, checks/cases/README.md and docs/*.md but the page of the definitions;
checks/documents.sh says how it is called and what it prints. What is checked:

- In a fenced block that has a line beginning `$ ./fws` or `$ tools/`, each line beginning `$ ` is a command, and the lines
  behind it, up to the next command or the end of the block, are exactly what it writes to standard output. Other blocks are
  left aside.
- A text in backquotes that begins `usage: ` is what the program writes without words; and each form that `--help` lists
  stands in the page of the commands in backquotes, with `./fws` and without brackets.
- The manual page and the completions say what `--help` says; checks/spoken.py has the particulars.
- The page of the definitions is what checks/definitions.py writes, and the page of the claims names functions and clauses that
  are there, in short sentences (checks/claims.py).
- Each path that is named in backquotes is there. `path_of` says which words are paths, and where a file lies whose folder isn't
  written.
- The list of crates, which are the items of crates/README.md that begin with the name of one, has each crate of crates.txt
  once, and above those that it uses; and each word in backquotes that has the form of a crate's name is one.
- Numbers that can be counted, as `COUNTED` lists them, and the line of the toolchain.
- Each file of examples/ is named in a document.
"""

import glob
import os
import re
import shlex
import subprocess
import sys

import definitions
from claims import check_claims
from spoken import check_spoken

COMMANDS = 'docs/COMMANDS.md'
CLAIMS = 'docs/CLAIMS.md'
CRATE_LIST = 'crates/README.md'
NAMES = ['README.md', 'CONTRIBUTING.md', 'CHANGELOG.md', CRATE_LIST, 'checks/cases/README.md']  # beside those of docs/
PROGRAM = 'crates/fws/out/fws'
SECONDS = 120  # that a command may take

# What begins a path from the top, and a path within a crate.
FOLDERS = ('crates/', 'docs/', 'bench/', 'checks/', 'examples/', 'share/', 'tools/', '.ci/')
CRATE_FOLDERS = ('src/', 'specs/', 'proofs/', 'edits/', 'data/')

IN_CODE = re.compile(r'`([^`]+)`')
CRATE_NAME = re.compile(r'fws(_[a-z0-9]+)*')
BEGINS_PASSAGE = re.compile(r'\||#|[-*] |\d+\. ')


def walk(top):
    """The folders below this one as os.walk lists them, without those that rt and git make."""
    for folder, folders, files in os.walk(top):
        folders[:] = [name for name in folders if name not in ('out', '.git', '__pycache__')]
        yield folder, folders, files


# The files and folders of the repository, but for what rt makes.
ALL_PATHS = {os.path.join(folder, name)[2:] for folder, folders, files in walk('.') for name in folders + files}


class Tally:
    """How many checks there were, and how many went wrong."""

    def __init__(self):
        self.checks = 0
        self.wrong = 0

    def check(self, holds, name, line, text):
        self.checks += 1
        if not holds:
            self.wrong += 1
            print('%s:%d: %s' % (name, line, text))
        return holds


class Passage:
    """A paragraph, an item of a list, a heading or a row of a table."""

    def __init__(self, line, text):
        self.line = line
        self.text = text

    def codes(self):
        """The texts in backquotes, each with its line; a bar is escaped in tables."""
        for code in IN_CODE.finditer(self.text):
            yield code[1].replace('\\|', '|'), self.line + self.text.count('\n', 0, code.start(1))

    def code_words(self):
        """The words in backquotes, each with its line."""
        for code, line in self.codes():
            for word in re.finditer(r'\S+', code):
                yield word[0], line + code.count('\n', 0, word.start())


class Block:
    """The lines of a fenced block; `line` is the number of the first of them."""

    def __init__(self, line):
        self.line = line
        self.lines = []


class Document:
    """A document as blocks and passages. `prose` is its text with empty lines in place of the blocks."""

    def __init__(self, name):
        self.name = name
        with open(name, encoding='utf-8') as file:
            self.text = file.read()
        self.blocks = []
        self.passages = []
        self.unclosed = None  # the line of a fence that isn't closed
        self.prose = self.divide()

    def divide(self):
        prose = []
        block, passage = None, None
        for number, line in enumerate(self.text.split('\n'), 1):
            prose.append('')
            if line.startswith('```'):
                block = None if block else Block(number + 1)
                passage = None
                if block:
                    self.blocks.append(block)
            elif block:
                block.lines.append(line)
            elif not line.strip():
                passage = None
            else:
                prose[-1] = line
                if passage is None or BEGINS_PASSAGE.match(line):
                    passage = Passage(number, line)
                    self.passages.append(passage)
                else:
                    passage.text += '\n' + line
        self.unclosed = block and block.line - 1
        return '\n'.join(prose)


# Commands


def is_built():
    """Whether the program is there and newer than the sources, as ./fws asks."""
    if not os.access(PROGRAM, os.X_OK):
        return False
    sources = [path for path in ALL_PATHS if path.startswith('crates/') and path.endswith('.rt')] + ['crates.txt']
    return all(os.path.getmtime(path) <= os.path.getmtime(PROGRAM) for path in sources)


def output_of(command, program):
    """The lines that the command writes to standard output, with the program in place of ./fws where one is named."""
    if program:
        command = re.sub(r'(?<![\w./-])\./fws(?![\w./-])', lambda _: shlex.quote(program), command)
    surroundings = {name: value for name, value in os.environ.items() if name != 'COLUMNS'}
    ended = subprocess.run(['timeout', str(SECONDS), 'bash', '-c', command], stdin=subprocess.DEVNULL,
                           stdout=subprocess.PIPE, stderr=subprocess.DEVNULL, check=False, env=surroundings)
    if ended.returncode == 124:
        return ['more than %d seconds' % SECONDS]
    lines = ended.stdout.decode('utf-8', 'replace').split('\n')
    last = lines.pop()
    return lines + [last + ' without a line feed'] if last else lines


def commands_of(block):
    """The commands of a block: the line's number, the command, and the lines behind it."""
    found = []
    for number, line in enumerate(block.lines, block.line):
        if line.startswith('$ '):
            found.append((number, line[2:], []))
        elif found:
            found[-1][2].append(line)
    return found


def difference(written, shown):
    """The place of the first line that differs, and how it does."""
    for place, (a, b) in enumerate(zip(written, shown)):
        if a != b:
            return place, 'writes %r, not %r' % (a, b)
    place = min(len(written), len(shown))
    if place < len(written):
        return place - 1, 'writes a further line %r' % written[place]
    return place, 'does not write %r' % shown[place] if place < len(shown) else ''


def check_command(tally, name, number, command, shown, program):
    written = output_of(command, program)
    place, how = difference(written, shown)
    tally.check(written == shown, name, number + 1 + place, '`%s` %s' % (command, how))


def check_forms(tally, documents, program):
    """The usage text wherever it is named, and the forms of the commands in their page and elsewhere."""
    usage = output_of('./fws', program)
    named = set()
    for document in documents:
        for passage in document.passages:
            for code, line in passage.codes():
                if code.startswith('usage: '):
                    tally.check([code] == usage, document.name, line, '`%s`, but `./fws` writes %r' % (code, usage))
                if document.name == COMMANDS:
                    named.add(code)
    told = output_of('./fws --help', program)
    forms = [line for line in told if line.startswith('fws ')]
    tally.check(forms, COMMANDS, 1, '`./fws --help` lists no forms')
    for line in forms:
        form = './' + re.split(r'\s{2,}', line)[0].replace('[', '').replace(']', '')
        tally.check(form in named, COMMANDS, 1, '`%s` is not named, which --help lists' % form)
    check_spoken(tally, documents, COMMANDS, told)


def check_commands(tally, documents):
    program = os.environ.get('FWS_PROGRAM')
    if not tally.check(program or is_built(), PROGRAM, 1, 'not built, or older than the sources: ./fws --build'):
        return
    check_forms(tally, documents, program)
    for document in documents:
        blocks = [block for block in document.blocks if any(line.startswith(('$ ./fws', '$ tools/')) for line in block.lines)]
        if document.name in ('README.md', COMMANDS):
            tally.check(blocks, document.name, 1, 'no block shows a command')
        for block in blocks:
            tally.check(block.lines[0].startswith('$ '), document.name, block.line, 'no command stands above this line')
            for number, command, shown in commands_of(block):
                check_command(tally, document.name, number, command, shown, program)


# Paths


def crates():
    """The lines of crates.txt: name, line, and the crates of this repository that it uses."""
    found = {}
    with open('crates.txt', encoding='utf-8') as file:
        for number, line in enumerate(file, 1):
            words = line.split('#')[0].replace(':', ' ').split()
            if words:
                found[words[0]] = (number, words[1:])
    return {name: (number, [word for word in uses if word in found]) for name, (number, uses) in found.items()}


def path_of(word, earlier, crate):
    """The path, from the top, that a word in backquotes names, or None where it is no path; `*` stands for any name.
    `earlier` are the paths that the same passage named before, and `crate` is the crate that it named last, or None.

    - `./fws`, and what begins with one of FOLDERS, is a path from the top. NAME in it stands for any name.
    - What begins with one of CRATE_FOLDERS lies in the crate named last in the passage; where none was, in some crate.
    - `Name.antt` and `name.rt` lie in the folder of the last path before it in the passage that has the same ending;
      where there is none, anywhere in the crate named last, or in some crate.
    - Any other name that ends in `.txt` or `.md` is a file at the top, as is HANDLES.
    """
    if word == './fws':
        return 'fws'
    if word.startswith(FOLDERS):
        return re.sub(r'\bNAME\b', '*', word)
    home = 'crates/%s/' % (crate or '*')
    if word.startswith(CRATE_FOLDERS):
        return home + word
    if re.fullmatch(r'\w+\.(antt|rt)', word):
        ending = os.path.splitext(word)[1]
        folders = [os.path.dirname(path) for path in earlier if path.endswith(ending) and '**' not in path]
        return folders[-1] + '/' + word if folders else home + '**/' + word
    if word == 'HANDLES' or re.fullmatch(r'[\w-]+\.(txt|md)', word):
        return word
    return None


def is_there(path):
    """Whether a file or folder has this path, in which `**/` stands for any folders; what rt makes isn't asked for."""
    path = path.rstrip('/')
    if '*' not in path:
        return path in ALL_PATHS or 'out' in path.split('/')
    form = re.escape(path).replace(r'\*\*/', '(.*/)?').replace(r'\*', '[^/]*')
    return any(re.fullmatch(form, found) for found in ALL_PATHS)


def paths_of(passage, names):
    """The paths that a passage names: the path, the word and its line."""
    found, crate = [], None
    for word, line in passage.code_words():
        path = path_of(word, [path for path, _, _ in found], crate)
        if path:
            found.append((path, word, line))
            if path.startswith('crates/') and path.split('/')[1] in names:
                crate = path.split('/')[1]
        elif word in names:
            crate = word
    return found


def check_paths(tally, documents):
    names = crates()
    for document in documents:
        tally.check(not document.unclosed, document.name, document.unclosed or 1, 'this block is not closed')
        for passage in document.passages:
            tally.check(passage.text.count('`') % 2 == 0, document.name, passage.line, 'a backquote is not closed')
            for path, word, line in paths_of(passage, names):
                tally.check(is_there(path), document.name, line, '%s is not there%s' % (
                    word, '' if path == word else ', looked for as ' + path))


def check_definitions(tally):
    tally.check(definitions.is_written(), definitions.PAGE, 1, 'not what `python3 -B checks/definitions.py --write` writes')


# Crates


def listed_crates(document):
    """The crates that a document lists, each with its line: the names with which items begin."""
    items = [(passage.line, re.match(r'- `([^`]+)`:', passage.text)) for passage in document.passages]
    return [(item[1], line) for line, item in items if item and CRATE_NAME.fullmatch(item[1])]


def check_crates(tally, documents, crate_list):
    known = crates()
    check_crate_list(tally, listed_crates(crate_list), known)
    for document in documents:
        for passage in document.passages:
            for word, line in passage.code_words():
                name = word.split('::')[0]
                if CRATE_NAME.fullmatch(name):
                    tally.check(name in known, document.name, line, '%s is no crate of crates.txt' % name)


def check_crate_list(tally, listed, known):
    lines = dict(listed)
    for k, (name, line) in enumerate(listed):
        tally.check(name in known, CRATE_LIST, line, '%s is no crate of crates.txt' % name)
        tally.check(name not in dict(listed[:k]), CRATE_LIST, line, '%s is listed twice' % name)
    for name, (line, uses) in known.items():
        if tally.check(name in lines, 'crates.txt', line, '%s is not in the list of %s' % (name, CRATE_LIST)):
            above = [used for used in uses if lines.get(used, lines[name] + 1) <= lines[name]]
            tally.check(not above, CRATE_LIST, lines[name], '%s does not stand above %s' % (name, ', '.join(above)))


# Numbers


def edit_count():
    return sum(1 for path in ALL_PATHS if re.fullmatch(r'crates/[^/]+/edits/[^/]+\.edit', path))


def crate_count():
    return len(crates())


def chain_length():
    """How many crates stand in the longest chain in which each uses the one before."""
    known = crates()

    def length(name):
        return 1 + max((length(used) for used in known[name][1]), default=0)

    return max(length(name) for name in known)


def case_count():
    return sum(1 for path in ALL_PATHS if re.fullmatch(r'checks/cases/[^/]+\.case', path))


def read_count():
    """The lines and texts that fws_test_configs reads, by what it has to print: `lines FILE FILE 35 of 35 agree`."""
    with open('crates/fws_test_configs/stdout', encoding='utf-8') as file:
        return sum(int(line.split()[-2]) for line in file if line.startswith(('lines ', 'texts ')))


# The sentences in which a number is counted: their form, and what counts it. A number that stands in such a sentence
# and is a part of them, or that of an earlier time, has to be said in another way.
COUNTED = (
    # `184 edits`, `19 of 184 edits`: the edits that must be refused, of all crates
    (r'(?<![\w.,])(\d[\d,]*)\s+edits\b', edit_count),
    # `15 crates`: the crates of crates.txt
    (r'(?<![\w.,])(\d[\d,]*)\s+crates\b', crate_count),
    # `the longest chain of crates is 12 long`: by crates.txt
    (r'\blongest\s+chain\s+of\s+crates\s+is\s+(\d+)\s+long\b', chain_length),
    # `492 command lines`: those of checks/cases
    (r'(?<![\w.,])(\d[\d,]*)\s+command\s+lines\b', case_count),
    # `reads 255 lines and texts`: what fws_test_configs reads of lines and texts that are accepted or refused
    (r'\breads\s+(\d[\d,]*)\s+lines\s+and\s+texts\b', read_count),
)

# `rattle-kit-1 logic 0123`: the toolchain's line, as `rt version` writes it; the page of what is trusted has it
TOOLCHAIN = re.compile(r'rattle-kit-[^`\n]*')


def line_of(document, place):
    return document.prose.count('\n', 0, place) + 1


def check_numbers(tally, documents):
    for form, count in COUNTED:
        for document in documents:
            for found in re.finditer(form, document.prose):
                said, counted = int(found[1].replace(',', '')), count()
                tally.check(said == counted, document.name, line_of(document, found.start(1)), '"%s": there are %d' % (
                    ' '.join(found[0].split()), counted))


def check_toolchain(tally, documents):
    try:
        version = subprocess.run(['rt', 'version'], stdout=subprocess.PIPE, check=False).stdout.decode().strip()
    except OSError:
        version = ''
    for document in documents:
        found = list(TOOLCHAIN.finditer(document.prose))
        if document.name == CLAIMS:
            tally.check(found, document.name, 1, 'the line of the toolchain is not there')
        for line in found:
            tally.check(line[0] == version, document.name, line_of(document, line.start()), '%s: rt version says %s' % (
                line[0], version or 'nothing'))


# Examples


def check_examples(tally, documents):
    texts = '\n'.join(document.text for document in documents)
    for path in sorted(path for path in ALL_PATHS if path.startswith('examples/') and os.path.isfile(path)):
        is_named = re.search(r'(?<![\w./-])%s(?![\w/-]|\.\w)' % re.escape(path), texts)
        tally.check(is_named, path, 1, 'no document names it')


def main():
    tally = Tally()
    written = sorted(set(glob.glob('docs/*.md')) - {definitions.PAGE})
    documents = [Document(name) for name in NAMES + written]
    crate_list = next(document for document in documents if document.name == CRATE_LIST)
    claims = next(document for document in documents if document.name == CLAIMS)
    check_commands(tally, documents)
    check_paths(tally, documents)
    check_definitions(tally)
    check_claims(tally, claims)
    check_crates(tally, documents, crate_list)
    check_numbers(tally, documents)
    check_toolchain(tally, documents)
    check_examples(tally, documents)
    print('documents: %d checks, %d wrong' % (tally.checks, tally.wrong))
    return 1 if tally.wrong else 0


sys.exit(main())
