"""The rows of docs/CLAIMS.md: that each function and clause that one names is there, and that its sentences are short.

A row has crates, functions of them and what their contracts say; where the first cells are empty they are those of the row above. A
function is `NAME`, `TYPE::NAME` or `module::NAME`, or the name of a type or trait with all its functions. Words in backquotes within
parentheses, as (`value`, `once`), are names of clauses of the row's functions.
"""

import glob
import re

FEW_WORDS = 40  # that a sentence of a row has at most

FUNCTION = re.compile(r'\s*(?:pub(?:\(crate\))? )?(?:const )?fn (\w+)')
TYPE = re.compile(r'pub (?:struct|enum|trait) (\w+)')
CLAUSE = re.compile(r'\bensures (\w+) \{')
IN_PARENTHESES = re.compile(r'\(((?:`\w+`(?:, )?)+)\)')


def is_heading(cells):
    return cells[0] == 'Crate' or set(''.join(cells)) <= {'-'}


def rows_of(document):
    """The rows of tables with three columns: the line, the crates, the functions, and the text."""
    crates, functions = [], []
    for passage in document.passages:
        cells = [cell.strip() for cell in passage.text.strip().strip('|').split(' | ')] if passage.text.startswith('|') else []
        if len(cells) != 3 or is_heading(cells):
            continue
        crates = re.findall(r'`(\w+)`', cells[0]) or crates
        functions = re.findall(r'`([^`]+)`', cells[1]) or functions
        yield passage.line, crates, functions, cells[2]


def stated_in(crate):
    """The functions and types of a crate, each with the names of its clauses. Those of a type are those of its file."""
    found = {}
    for path in glob.glob('crates/%s/src/**/*.rt' % crate, recursive=True):
        with open(path, encoding='utf-8') as file:
            lines = file.read().split('\n')
        types, name = set(), None
        for line in lines:
            begun = FUNCTION.match(line)
            declared = TYPE.match(line)
            if begun:
                name = begun[1]
                found.setdefault(name, set())
            if declared:
                types.add(declared[1])
            for clause in CLAUSE.findall(line):
                found.setdefault(name, set()).add(clause)
                for owner in types:
                    found.setdefault(owner, set()).add(clause)
        for owner in types:
            found.setdefault(owner, set())
    return found


def sentences_of(text):
    return re.split(r'(?<=\.)\s+', re.sub(r'\(`[^)]*\)', '', text))


def check_claims(tally, document):
    stated = {}
    rows = list(rows_of(document))
    tally.check(rows, document.name, 1, 'no rows of claims')
    for line, crates, functions, text in rows:
        for crate in crates:
            if crate not in stated:
                stated[crate] = stated_in(crate)
        for name in functions:
            last = name.split('::')[-1]
            for crate in crates:
                tally.check(last in stated[crate], document.name, line, '%s has no %s' % (crate, name))
        names = [name.split('::')[-1] for name in functions]
        clauses = set().union(*(stated[crate].get(name, set()) for crate in crates for name in names))
        for group in IN_PARENTHESES.findall(text):
            for clause in re.findall(r'`(\w+)`', group):
                tally.check(clause in clauses, document.name, line, '%s has no clause %s' % (', '.join(functions), clause))
        for sentence in sentences_of(text):
            tally.check(len(sentence.split()) <= FEW_WORDS, document.name, line, '%d words: %s' % (len(sentence.split()), sentence[:60]))
