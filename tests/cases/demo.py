"""Prints the lines of the program `demo`, by the model of the paper (paper.py).     demo.py"""
import sys
from paper import *
out = []
M = Lent([0] * 2048, [], [0] * 4)
NAMES = {4096: 'a page of 4 KiB', 2 ** 21: 'a frame of 2 MiB', 2 ** 30: 'a frame of 1 GiB'}
WHY = {7: ': too few tables are free', 10: ': no mapping starts there', 11: ': the frame shares a byte with the pool'}
letters = lambda a: ''.join(n if a & b else '-' for b, n in ((1, 'r'), (2, 'w'), (4, 'x')))
rights = lambda a: ', rights ' + letters(a)


def say(t): out.append(t)


def audit(s):
    a = audit_(s, M)
    assert a[0] == 'sound'
    say(f'  The audit finds the pool sound: tables in use {a[1]}, free {s.free}, mappings {a[2]}.')


def refused(k, same):
    say(f'  Refused with {k}{WHY[k]}.')
    assert same
    say('  All 2048 words, 4 places of the free list and 7 setup numbers are as before.')


def mp(s, at, f, z, a):
    say(f'Map {NAMES[z]} at {at:#x} to memory {f:#x}{rights(a)}.')
    old = M.copy()
    r, b = map_(s, M, at, f, z, a)
    if r[0] == 'refused': refused(r[1], old.key() == M.key() and b is s)
    else: say(f'  Done: tables taken {r[1]}.')
    audit(b)
    return b


def un(s, at):
    say(f'Unmap at {at:#x}.')
    old = M.copy()
    r, b = unmap_(s, M, at)
    if r[0] == 'refused': refused(r[1], old.key() == M.key() and b is s)
    else: say(f"  Done: {NAMES[r[2]]} of memory {r[1]:#x} is the host's again; tables given back {r[4]}.")
    audit(b)
    return b


def qu(s, at):
    say(f'Query {at:#x}.')
    r = query_(s, M, at)
    if r[0] == 'refused':
        assert r[1] == 9
        say(f'  Refused with 9: nothing is mapped there, and {NAMES[r[3]]} at {r[2]:#x} would fit.')
        return
    say(f'  It lies in {NAMES[r[3]]} at {r[1]:#x}, mapped to memory {r[2]:#x}{rights(r[4])}.')
    say(f'  So it is memory {r[2] + at - r[1]:#x}.')


def view(s):
    say('\nWhat the scan guest can see.')
    places, entries = [0] * 8, [0] * 8
    kind, n, left = list_(s, M, 0, places, entries)
    assert (kind, left) == ('lists', None)
    for place, word in zip(places[:n], entries):
        found, base, frame, size, a = query_(s, M, place // 4096 * 4096)
        assert place == base + POWERS[size] and word == frame + (3 if size == 4096 else 1) + ATTRS[a]
        say(f"  0x{base:08x}  {NAMES[size].split(' of ')[1]}  -> 0x{frame:08x}  {letters(a)}  {'device' if a & 8 else 'normal'}")
    say(f'  Mappings listed: {n}.')


say('Format a pool of 4 tables at 0x40000000, for addresses below 0x8000000000.')
a, s = format_(3, 0x40000000, 4, 0, 0, 4096, M)
assert a == ('done',)
audit(s)
say('\nThe scan guest gets its program and a buffer for pictures.')
s = mp(s, 0x1000, 0x80001000, 4096, 5)
s = mp(s, 0x200000, 0x80200000, 2 ** 21, 3)
qu(s, 0x201234)
say('\nHow large a frame fits where nothing is mapped? Query says it.')
qu(s, 0x401234)
qu(s, 0x2345)
say('\nThe scan guest asks for a page far away. It needs two tables more, and one is free.')
s = mp(s, 0x40000000, 0x80400000, 4096, 3)
say('\nNo empty table is left there: even 1 GiB fits at the same address.')
s = mp(s, 0x40000000, 0x100000000, 2 ** 30, 3)
s = un(s, 0x40000000)
say('\nOr 2 MiB, which need one table and find it.')
s = mp(s, 0x40000000, 0x80400000, 2 ** 21, 3)
view(s)
say('\nNothing is rounded: an unmap in the middle of the 2 MiB is refused.')
s = un(s, 0x40001000)
say('\nNo guest is given its own tables: the page of table 1 is refused.')
s = mp(s, 0x2000, 0x40001000, 4096, 3)
say('\nThe scan guest gives up all that it has, and every table comes back.')
s = un(s, 0x40000000)
s = un(s, 0x200000)
s = un(s, 0x1000)
assert s.free == 3
say('\nThe map that was refused is done now.')
qu(s, 0x40000000)
s = mp(s, 0x40000000, 0x80400000, 4096, 3)
qu(s, 0x40000FFF)
sys.stdout.write(''.join(l + '\n' for l in out))
