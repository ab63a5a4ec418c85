"""python3 fields.py PROGRAM

Runs the program, which makes the tree of so many rows with cuts of their own in four fields, for growing numbers of
rows, and prints lines `fields rows seconds paths`. Exit status 1 where the paths are more than five for each row and one more,
or where twice the rows take more than three times as long: work is to grow with the pieces that rows are alive in, and
never with the product of all fields' pieces.
"""

import sys

from timing import right


def main(program):
    last = None
    for rows in (500, 1000, 2000, 4000):
        ended = right(program, 'fields', str(rows), timeout=120)
        made, paths = (int(word) for word in ended.text.split()[:2])
        print('fields', rows, '%.2f' % ended.seconds, paths)
        if made != rows or paths > 5 * rows + 1:
            return 1
        if last is not None and ended.seconds > 3 * last + 0.1:
            return 1
        last = ended.seconds
    return 0


sys.exit(main(sys.argv[1]))
