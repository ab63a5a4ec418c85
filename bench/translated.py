"""python3 translated.py FAMILY COUNT LANG TARGET BYTES TIMES PROGRAM SITE [FILE]

Translates a family of make.py in the language LANG to the language TARGET, three times, and makes both of its tables as often; with FILE
this file and not the family's. Prints a line `FAMILY COUNT LANG TARGET seconds times bytes parts`: the best time of a translation, how
many times as long it takes as both tables, the length of its text, and how many nodes the two tables have as trees, with the
ranges of each node's parts but the one with most ranges. BYTES is a bound on the length, or behind a `/` on the bytes for each of
the parts. Exit status 1 where it is passed, or where a translation takes more than TIMES times as long as both tables.
"""

import sys
import tempfile

from timing import Best, made, right, tables


def tree(rows, field, nodes):
    """The number of the node of these rows, which agree in all fields before this one."""
    while field < len(rows[0]) - 1 and rows[0][field] == '*':
        field += 1
    if field == len(rows[0]) - 1:
        return nodes.setdefault(rows[0][field], (len(nodes), 0))[0]
    kids, ranges = [], []
    begin = 0
    for end in range(1, len(rows) + 1):
        if end == len(rows) or rows[end][field] != rows[begin][field]:
            kids.append((rows[begin][field], tree(rows[begin:end], field + 1, nodes)))
            ranges.append(rows[begin][field].count(',') + 1)
            begin = end
    return nodes.setdefault((field, tuple(kids)), (len(nodes), sum(ranges) - max(ranges)))[0]


def parts(table):
    """The nodes of a table, and the ranges of their parts but one."""
    nodes = {}
    rows = []
    for line in table.splitlines()[1:]:
        sides, outcome = line.split(' : ')
        rows.append(sides.split(' ') + [outcome])
    tree(rows, 0, nodes)
    return sum(1 + ranges for _, ranges in nodes.values())


def measure(program, lang, target, site, name):
    """The best seconds of a translation and of both tables, the text, and the tables."""
    best = Best()
    for _ in range(3):
        ended = right(program, 'translate', lang, target, site, name)
        best.take('text', ended.seconds)
        both, seconds = tables(program, lang, site, name)
        best.take('tables', seconds)
    return best, ended.text, both


def main(family, count, lang, target, most, times, program, site, *given):
    with tempfile.TemporaryDirectory() as work:
        name = given[0] if given else made(work, count, family, lang)
        best, text, both = measure(program, lang, target, site, name)
    counted = sum(parts(table) for table in both)
    ratio = best['text'] / best['tables']
    print(family, count, lang, target, '%.2f' % best['text'], '%.1f' % ratio, len(text), counted)
    bound = int(most[1:]) * counted if most.startswith('/') else int(most)
    return 0 if len(text) <= bound and ratio <= float(times) else 1


sys.exit(main(*sys.argv[1:]))
