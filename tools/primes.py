#!/usr/bin/env python3
"""The table of inverses by which is_modulus tests p: crates/checks/src/primes.rt.

The table has the inverse modulo 2^32 of each prime from 33 past 46,340, the largest number whose square is at most
2,147,483,647. A part of it is one arm of a match: the number that the part starts from, then 38 inverses. The primes of a
part lie below twice its start; where that leaves places, they are filled with ones. 38 makes it 128 parts: at a power of
two the compiler turns the arms into tables with no case apart for the last arm, and nothing is copied to the stack. Where
each part starts stands in crates/checks/specs/Inverses.antt too, and the proof checks both.

  tools/primes.py             (prints the source file)
"""
import textwrap

FIRST = 33
IN_PART = 38
LAST = 46340
BASE = 2 ** 32
# the lines of the table, as rt fmt lays them out
WIDTH = 99
INDENT = ' ' * 12

HEAD = """\
// The inverses modulo 2^32 of the primes from %d past 46,340, %d to a part. Each part opens with the number that it starts
// from, and its primes lie below twice that; places that are left are filled with ones. Printed by tools/primes.py. The
// parts are arms of a match, which become tables; an array constant would be copied to the stack whole.
ghost use Rattle.std.specs.Prelude.{◌<◌};
ghost use Rattle.checks.specs.Inverses.{Part};

// The start of a part, and its inverses.
pub fn inverses(part: usize) -> [u32; %d]
    requires { part < %d }
    ensures { Part part result }
{
    match part {
"""


def primes(below):
    sieve = bytearray([1]) * below
    sieve[0] = sieve[1] = 0
    for d in range(2, below):
        if d * d >= below:
            break
        if sieve[d]:
            sieve[d * d::d] = bytes(len(range(d * d, below, d)))
    return [n for n in range(below) if sieve[n]]


def parts():
    """Each part's start and primes."""
    left = [q for q in primes(2 * LAST) if FIRST <= q]
    start = FIRST
    while start <= LAST:
        mine = [q for q in left[:IN_PART] if q < 2 * start]
        left = left[len(mine):]
        yield start, mine
        start = min(2 * start, left[0])


def main():
    table = list(parts())
    print(HEAD % (FIRST, IN_PART, IN_PART + 1, len(table)), end='')
    for part, (start, mine) in enumerate(table):
        key = '_' if part == len(table) - 1 else str(part)
        print(f'        {key} => [')
        numbers = [f'{pow(mine[at], -1, BASE) if at < len(mine) else 1:#010x},' for at in range(IN_PART)]
        print(textwrap.fill(' '.join([f'{start},'] + numbers), WIDTH, initial_indent=INDENT, subsequent_indent=INDENT))
        print('        ],')
    print('    }\n}')


main()
