"""Tries the edits of the crate whose name is given, at the top of a copy made for that, and says of each what `rt` would say.

An edit that wrongs the body of one function can only be seen in the proof of that function: all others are proved from its statement,
which stays. So the prover is asked for the edited functions alone, of which each round takes as many as differ; of every other function
the proof is left open, by a file with a hole in its place, and what calls it is proved from its statement as ever. First it is asked
for those functions as they stand: a function that isn't proved then, with the others left open, is tried by `rt`, as is all that
isn't plainly refused here: so nothing but a refusal is ever said without `rt`.
"""

import json
import os
import re
import shutil
import subprocess
import sys
import tempfile

FUNCTION = re.compile(r'( *)(?:pub(?:\(\w+\))? )?(?:const )?fn (\w+)')
BLOCK = re.compile(r'(?:unsafe )?impl\b|(?:pub(?:\(\w+\))? )?trait\b')
TYPE = re.compile(r'(?:pub(?:\(\w+\))? )?(?:struct|enum) (\w+)')
TABLE = re.compile(r'(?:pub(?:\(\w+\))? )?(?:const|static) (\w+)')

# What stands in the place of a function's proof.
HOLE = '''use Rattle.{crate}.proofs.{path}.Statement.{{statement}}

pub {name}_spec : {{M : Type 1}} → statement M
{name}_spec = ?
'''
PROOFS = ('Invariants.antt', 'Answers.antt', 'Proof.antt')

# Of how many functions at most that look at a constant the proofs are asked for.
MOST_READERS = 6

# The words that rt hands to the prover for a crate of a checkout, and where the prover is.
WORDS = '''
import json, sys
sys.path.insert(0, sys.argv[1])
import rtlib
crate, = [one for one in rtlib.crates_below(sys.argv[2]) if one.name == sys.argv[3]]
print(json.dumps([rtlib.RATTLE, 'check', *crate.words(['--jobs', '1'], keeps=False)]))
'''

# Errors of a proof file that names what an edit took away: they say little of a contract.
NAMES = re.compile(r'has no field|is not in scope|has no `')
LITTLE = ' (only because a proof file names what the edit took away, so this says little of the contract: change a value and keep the names)'


class Function:
    """A function of a crate: its path below the crate, if its proof can be asked for by that, the lines of its text, and whether its
    proof can be left open: it is that of no trait's function, and of none that calls itself."""

    def __init__(self, path, file, first, last, is_plain):
        self.path, self.file, self.first, self.last, self.is_plain = path, file, first, last, is_plain

    def name(self):
        return '::'.join(self.path)

    def folder(self, mark=''):
        return os.path.join('proofs', *self.path[:-1], mark + self.path[-1])

    def has_error(self, line):
        """Whether the line tells an error in a file of its proof, which for one that calls itself stands where a + does; what isn't
        checked there since something else was refused is none."""
        return ': error: ' in line and 'was not admitted' not in line and line.startswith(('./%s/' % self.folder(), './%s/' % self.folder('+')))

    def has(self, place):
        """Whether a match of a file and a line, if there is one, is a place in its text."""
        return place is not None and place[1] == self.file and self.first < int(place[2]) <= self.last + 1


def read(path):
    with open(path, encoding='utf-8') as file:
        return file.read()


def sources(folder):
    """The lines of each source file, by its path in the crate."""
    found = {}
    for at, _, names in os.walk(os.path.join(folder, 'src')):
        for name in sorted(names):
            if name.endswith('.rt'):
                path = os.path.join(at, name)
                found[os.path.relpath(path, folder)] = read(path).split('\n')
    return found


def module_of(file):
    parts = os.path.splitext(file)[0].split(os.sep)[1:]
    return [] if parts in (['lib'], ['main']) else parts


def without_parameters(text):
    """A text behind the type parameters with which it begins, if it does."""
    depth = 0
    for place, sign in enumerate(text if text.startswith('<') else ''):
        depth += (sign == '<') - (sign == '>' and text[place - 1] != '-')
        if depth == 0:
            return text[place + 1:].lstrip()
    return text


def owner_of(heading, module, homes):
    """The path of the methods of a block, and whether they are plain ones of a type; no path where that isn't known."""
    trait = re.match(r'impl (\w+) for (\w+) \{$', heading)
    if trait:
        return [*module, trait[2] + trait[1]], False
    plain = re.match(r'(\w+)', without_parameters(heading[len('impl'):].lstrip())) if heading.startswith('impl') else None
    if plain and ' for ' not in heading and plain[1] in homes:
        return [*homes[plain[1]], plain[1]], True
    return None, False


def functions_of(files):
    """The functions of a crate, of whose text `rt fmt` has laid out the lines."""
    homes = {}
    for file, lines in files.items():
        for line in lines:
            made = TYPE.match(line)
            if made:
                homes[made[1]] = module_of(file)
    found = []
    for file, lines in files.items():
        owner, is_plain, place = module_of(file), True, 0
        while place < len(lines):
            line, begins = lines[place], FUNCTION.match(lines[place])
            if BLOCK.match(line):
                heading = line
                while not lines[place].endswith('{'):
                    place += 1
                    heading += ' ' + lines[place].strip()
                owner, is_plain = owner_of(heading, module_of(file), homes)
            elif line == '}':
                owner, is_plain = module_of(file), True
            elif begins:
                last = place
                while lines[last] != begins[1] + '}' and not (last == place and line.endswith('}')) and last + 1 < len(lines):
                    last += 1
                in_cycle = any('#[cycle' in above for above in lines[max(0, place - 3):place])
                calls_itself = re.search(r'\b%s\(' % begins[2], '\n'.join(lines[place + 1:last + 1])) is not None
                path = None if owner is None or in_cycle else [*owner, begins[2]]
                found.append(Function(path, file, place, last, is_plain and not calls_itself))
                place = last
            place += 1
    return found


class Edit:
    """An edit: what it replaces, and the functions in whose proofs it is to be seen; none where that isn't known."""

    def __init__(self, folder, file, files, functions):
        self.file, self.pairs = file, []
        path = old = None
        for line in read(os.path.join(folder, 'must-fail', file)).split('\n'):
            if line.startswith('file: '):
                path = line[len('file: '):].strip()
            elif line.startswith('old: '):
                old = line[len('old: '):]
            elif line.startswith('new:'):
                self.pairs.append((path, old, line[len('new:'):].removeprefix(' ')))
        places = self.places(files)
        around = {self.around(place, functions) for place in places}
        if None not in around:
            self.seen = list(around)
        elif around == {None}:
            readers = [self.readers(place, files, functions) for place in places]
            self.seen = list(dict.fromkeys(one for found in readers for one in found)) if all(readers) else []
        else:
            self.seen = []

    def places(self, files):
        """The places of what is replaced, by file and line; none where it can't be applied."""
        texts, found = {}, set()
        for path, old, new in self.pairs:
            text = texts.get(path) or '\n'.join(files.get(path, []))
            if not old or text.count(old) != 1:
                return set()
            found.add((path, text[:text.index(old)].count('\n')))
            texts[path] = text.replace(old, new)
        return found

    @staticmethod
    def around(place, functions):
        """The function in which a place lies, if the proof of that can be asked for."""
        return next((one for one in functions if one.path and one.file == place[0] and one.first <= place[1] <= one.last), None)

    @staticmethod
    def readers(place, files, functions):
        """The functions that look at the constant at a place, if there is one and they are few."""
        file, line = place
        if any(one.file == file and one.first <= line <= one.last for one in functions):
            return []
        above = (TABLE.match(text) for text in reversed(files[file][:line + 1]))
        name = next((found[1] for found in above if found), None)
        word = re.compile(r'\b%s\b' % name) if name else None
        found = [one for one in functions if word and word.search('\n'.join(files[one.file][one.first:one.last + 1]))]
        return found if len(found) <= MOST_READERS and all(one.path for one in found) else []

    def put(self, texts, folder):
        """Replaces in these texts, by path, what the edit replaces."""
        for path, old, new in self.pairs:
            texts.setdefault(path, read(os.path.join(folder, path)))
            texts[path] = texts[path].replace(old, new)


class Prover:
    """Asks the prover for the proofs of some functions of a crate, all others left open."""

    def __init__(self, folder, crate, words, functions, room):
        self.folder, self.crate, self.words, self.functions, self.room = folder, crate, words, functions, room
        os.mkdir(os.path.join(room, 'kept'))

    def ask(self, names, texts):
        """What the prover says of these functions, by their names, with such texts in place of the crate's own; and all lines."""
        copy = tempfile.mkdtemp(dir=self.room)
        for part in ('src', 'specs', 'proofs'):
            if os.path.isdir(os.path.join(self.folder, part)):
                shutil.copytree(os.path.join(self.folder, part), os.path.join(copy, part))
        for path, text in texts.items():
            with open(os.path.join(copy, path), 'w', encoding='utf-8') as file:
                file.write(text)
        for one in self.functions:
            if one.path and one.is_plain and one.name() not in names:
                self.leave_open(copy, one)
        only = [word for name in names for word in ('--only', name)]
        asked = subprocess.run([*self.words, '--allow-holes', *only, '--incremental', os.path.join(self.room, 'kept')], cwd=copy,
                               stdin=subprocess.DEVNULL, stdout=subprocess.PIPE, stderr=subprocess.STDOUT, check=False)
        shutil.rmtree(copy)
        lines = asked.stdout.decode('utf-8', 'replace').splitlines()
        said = [re.match(r'fn %s::(\S+): (.*)' % self.crate, line) for line in lines]
        return {one[1]: one[2] for one in said if one}, lines

    def leave_open(self, copy, function):
        folder = os.path.join(copy, function.folder())
        os.makedirs(folder, exist_ok=True)
        for name in PROOFS:
            if os.path.exists(os.path.join(folder, name)):
                os.remove(os.path.join(folder, name))
        with open(os.path.join(folder, 'Proof.antt'), 'w', encoding='utf-8') as file:
            file.write(HOLE.format(crate=self.crate, path='.'.join(function.path), name=function.path[-1]))


def is_proved(said):
    return said is not None and said.startswith(('no holes', 'depends on a hole'))


def refusal(function, said, lines):
    """What is said of an edit that has the prover refuse the function's own proof; None where it is something else that it refuses."""
    if said is None or not said.startswith(('no proof', 'not proved')):
        return None
    own = [line[2:] for line in lines if function.has_error(line)]
    unproved = '`search` did not prove' in said
    if not (own or unproved):
        return None
    little = LITTLE if own and not unproved and all(NAMES.search(line) for line in own) else ''
    notes = [line for line in lines if function.has(re.match(r'note: (src/\S+?):(\d+):', line))]
    return 'refused, as it must be%s: %s' % (little, [*own, *notes, '%s: %s' % (function.name(), said)][0][:160])


def rounds_of(edits):
    """The edits of one round: each of them is seen in other functions than those before."""
    chosen, taken = [], set()
    for edit in edits:
        names = {one.name() for one in edit.seen}
        if not names & taken:
            chosen.append(edit)
            taken |= names
    return chosen


def is_read(prover, edit):
    """Whether the front end takes the text with the edit."""
    texts = {}
    edit.put(texts, prover.folder)
    return any(line.startswith('only=') for line in prover.ask([''], texts)[1])


def try_edits(prover, edits, say):
    """Says of each edit that is plainly refused that it is, and returns the others."""
    names = sorted({one.name() for edit in edits for one in edit.seen})
    as_they_stand = prover.ask(names, {})[0] if names else {}
    left = [edit for edit in edits if not edit.seen or not all(is_proved(as_they_stand.get(one.name())) for one in edit.seen)]
    waiting = [edit for edit in edits if edit not in left]
    while waiting:
        chosen, texts = rounds_of(waiting), {}
        for edit in chosen:
            edit.put(texts, prover.folder)
        said, lines = prover.ask(sorted({one.name() for edit in chosen for one in edit.seen}), texts)
        if not said:
            # the front end refuses one of them, if there is more than one
            unread = [edit for edit in chosen if len(chosen) == 1 or not is_read(prover, edit)] or chosen
            left, waiting = left + unread, [edit for edit in waiting if edit not in unread]
            continue
        settled = []
        for edit in chosen:
            found = [refusal(one, said.get(one.name()), lines) for one in edit.seen]
            refused = next(filter(None, found), None)
            if refused:
                say(edit, refused)
            elif len(chosen) > 1 and any('it calls' in said.get(one.name(), '') for one in edit.seen):
                continue  # what it calls is refused in this round: once more, in another one
            else:
                left.append(edit)
            settled.append(edit)
        if not settled:
            settled, left = chosen, left + chosen
        waiting = [edit for edit in waiting if edit not in settled]
    return left


def main(name):
    top = os.getcwd()
    folder, aside = os.path.join(top, 'crates', name), os.path.join(top, 'aside')
    tools = os.path.dirname(os.path.realpath(shutil.which('rt')))
    asked = subprocess.run([sys.executable, '-B', '-c', WORDS, tools, top, name], stdin=subprocess.DEVNULL,
                           stdout=subprocess.PIPE, stderr=subprocess.DEVNULL, check=False)
    if asked.returncode == 0:
        # the crate as it stands, and those below, of which `rt ci` takes what is proved from where it keeps it
        os.rename(os.path.join(folder, 'must-fail'), aside)
        stands = subprocess.run(['rt', 'ci'], stdin=subprocess.DEVNULL, stdout=subprocess.DEVNULL, check=False).returncode == 0
        os.rename(aside, os.path.join(folder, 'must-fail'))
        if stands:
            words = json.loads(asked.stdout.decode().splitlines()[-1])
            files = sources(folder)
            functions = functions_of(files)
            edits = [Edit(folder, file, files, functions) for file in sorted(os.listdir(os.path.join(folder, 'must-fail')))
                     if file.endswith('.edit')]
            with tempfile.TemporaryDirectory() as room:
                refused = []

                def say(edit, text):
                    refused.append(edit)
                    print('rt: must-fail %s/%s: %s' % (name, edit.file, text), flush=True)

                try_edits(Prover(folder, name, words, functions, room), edits, say)
            for edit in refused:
                os.remove(os.path.join(folder, 'must-fail', edit.file))
            if not os.listdir(os.path.join(folder, 'must-fail')):
                return 0
    return subprocess.run(['rt', 'ci'], stdin=subprocess.DEVNULL, check=False).returncode


if __name__ == '__main__':
    sys.exit(main(sys.argv[1]))
