"""python3 comparing.py FAMILY COUNT OTHER ANSWER TIMES PROGRAM SITE

Compares a family of make.py in iptables with another text by the command `same`, three times, and makes both tables of both texts as
often. OTHER is `shorter`, the text without the last rule that it appends, or a language, into which the program translates the text.
Prints a line `FAMILY COUNT OTHER seconds times answer`: the best time of a comparison, how many times as long it takes as these four
tables, and its first word. Exit status 1 where that isn't ANSWER, or where it takes more than TIMES times as long.
"""

import sys
import tempfile

from timing import Best, made, right, tables, written


def without_last_rule(text):
    """The text without the last of its lines that append a rule."""
    lines = text.splitlines(keepends=True)
    del lines[max(number for number, line in enumerate(lines) if line.startswith('-A '))]
    return ''.join(lines)


def main(family, count, other, wanted, most, program, site):
    best = Best()
    with tempfile.TemporaryDirectory() as work:
        name = made(work, count, family)
        if other == 'shorter':
            with open(name, encoding='utf-8') as file:
                second = 'iptables', written(work, 'second', without_last_rule(file.read()))
        else:
            second = other, written(work, 'second', right(program, 'translate', 'iptables', other, site, name).text)
        for _ in range(3):
            ended = right(program, 'same', 'iptables', site, name, *second)
            best.take('same', ended.seconds)
            best.take('tables', sum(tables(program, lang, site, path)[1] for lang, path in (('iptables', name), second)))
    times, answer = best['same'] / best['tables'], ended.text.split()[0]
    print(family, count, other, '%.2f' % best['same'], '%.1f' % times, answer)
    return 0 if answer == wanted and times <= float(most) else 1


sys.exit(main(*sys.argv[1:]))
