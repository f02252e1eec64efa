"""Prints the lines of the program `auditcases`, by the model of the paper (paper.py).     audits.py"""
from paper import *
BASE, FRAME, PAGE, MIB2, GIB = 0x40000000, 0x80000000, 4096, 2 ** 21, 2 ** 30
ROOT, FIRST, SECOND, THIRD = (512 * t for t in range(4))


def link(c): return BASE + 4096 * c + 3
def framed(base, size): return base + (3 if size == PAGE else 1) + ATTRS[3]
def frame(size): return framed(FRAME, size)


ONE = {}
TWO = {ROOT: link(1), FIRST + 1: frame(MIB2)}
THREE = {**TWO, FIRST: link(2), SECOND: frame(PAGE)}
FOUR = {ROOT: link(1), FIRST + 511: link(3), THIRD: link(2), SECOND + 511: frame(PAGE)}
FREE = [3, 2, 1, 0]


def says(name, levels, free, entries, places=FREE, granule=PAGE):
    """A line: what the audit answers of a pool of four tables with these words, and this free list."""
    words = [0] * 2048
    for i, w in entries.items(): words[i] = w
    a = audit_(Setup(levels, BASE, 4, free, 0, 0, granule), Lent(words, [], places))
    print(f'{name}: ' + (f'refused {a[1]}' if a[0] == 'refused' else f'sound, tables {a[1]}, mappings {a[2]}'))


says('root alone', 3, 3, ONE)
says('two tables', 3, 2, TWO)
says('three tables', 3, 1, THREE)
says('four levels', 4, 0, FOUR)
says('two levels', 2, 1, THREE)
says('all tables free', 3, 4, THREE)
says('no such word', 3, 1, {**THREE, SECOND + 1: 5})
says('not aligned', 3, 1, {**THREE, FIRST + 2: frame(MIB2) + PAGE})
says('below the last level', 3, 1, {**THREE, SECOND + 1: link(3)})
says('past the pool', 3, 1, {**THREE, FIRST + 2: link(4)})
says('page of the root', 3, 1, {**THREE, SECOND + 1: framed(BASE, PAGE)})
says('page of the last table', 3, 1, {**THREE, SECOND + 1: framed(BASE + 3 * PAGE, PAGE)})
says('page past the pool', 3, 1, {**THREE, SECOND + 1: framed(BASE + 4 * PAGE, PAGE)})
says('page before the pool', 3, 1, {**THREE, SECOND + 1: framed(BASE - PAGE, PAGE)})
says('2 MiB around the pool', 3, 1, {**THREE, FIRST + 2: framed(BASE, MIB2)})
says('2 MiB before the pool', 3, 1, {**THREE, FIRST + 2: framed(BASE - MIB2, MIB2)})
says('1 GiB around the pool', 3, 1, {**THREE, ROOT + 1: framed(BASE, GIB)})
says('reached twice', 3, 0, {**THREE, FIRST + 2: link(2)})
says('names itself', 3, 1, {**THREE, FIRST: link(1)})
says('empty table', 3, 1, {**THREE, SECOND: 0})
says('neither reached nor free', 3, 0, THREE)
says('free number out of range', 3, 1, THREE, [4, 2, 1, 0])
says('free number twice', 3, 2, TWO, [3, 3, 1, 0])
says('free number reached', 3, 3, ONE, [3, 2, 0, 0])
says('free table not zero', 3, 1, {**THREE, THIRD + 511: 1})
says('the other granule', 3, 1, THREE, granule=16384)
says('no such granule', 3, 1, THREE, granule=8192)
