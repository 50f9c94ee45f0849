#!/usr/bin/env python3
"""Cases for the test program of the field: crates/test_field/stdin.

Signed readings and their inverses with low ends, as document 02's #106 has them, and worked out another way: the reading of v is
the one number from -L to p - 1 - L that is congruent to v, (v + L) % p - L, and the inverse is the remainder that Python gives.
Low ends are 0, 1, the old one and its neighbours, p - 2, p - 1, p, p + 1, 2^32 - 1 and drawn ones, residues and records those at
the ends of the range, next to them and drawn ones. Numbers are four bytes each, most significant first, signed ones in two's complement:

    1 p low v; answer, record
    2 p low record; answer, residue
    0 ends the file

An answer is 0 or the refusal's number; where it is not 0 the last number is 0.

  tools/readings.py [SEED]      (seed 2029 makes the stored file)
"""
import random
import struct
import sys

PRIMES = [2, 3, 5, 7, 251, 257, 65537, 16777213, 2147483629, 2147483647]
OTHERS = [0, 1, 4, 2147117569, 2147483646, 2147483648, 4294967295]


def signed(p, low, v):
    if p not in PRIMES:
        return 1, 0
    if low >= p or v >= p:
        return 4, 0
    return 0, (v + low) % p - low


def residue(p, low, z):
    if p not in PRIMES:
        return 1, 0
    if low >= p or not -low <= z < p - low:
        return 4, 0
    return 0, z % p


def words(lowest, highest, numbers):
    """Those of the numbers that fit, each once."""
    return sorted({x for x in numbers if lowest <= x <= highest})


def main():
    rng = random.Random(int(sys.argv[1]) if len(sys.argv) > 1 else 2029)
    out, count = bytearray(), {}
    for p in PRIMES + OTHERS:
        old = (p - 1) // 2
        lows = [0, 1, old - 1, old, old + 1, p - 2, p - 1, p, p + 1, 2 ** 32 - 1, rng.randrange(p + 1), rng.randrange(2 ** 32)]
        for low in words(0, 2 ** 32 - 1, lows):
            ends = [0, 1, p // 2, p // 2 + 1, p - low - 1, p - low, p - low + 1, p - 1, p, p + 1, 2 ** 32 - 1]
            for v in words(0, 2 ** 32 - 1, ends + [rng.randrange(p + 2) for _ in range(3)]):
                answer, record = signed(p, low, v)
                out += struct.pack('>5Ii', 1, p, low, v, answer, record)
                key = ('signed', answer)
                count[key] = count.get(key, 0) + 1
            ends = [-2 ** 31, -low - 1, -low, -low + 1, -1, 0, 1, p - low - 2, p - low - 1, p - low, p, 2 ** 31 - 1]
            for z in words(-2 ** 31, 2 ** 31 - 1, ends + [rng.randrange(-low - 1, p - low + 1) for _ in range(3) if low < p]):
                answer, v = residue(p, low, z)
                out += struct.pack('>3Ii2I', 2, p, low, z, answer, v)
                key = ('residue', answer)
                count[key] = count.get(key, 0) + 1
    out += struct.pack('>I', 0)
    sys.stdout.buffer.write(bytes(out))
    print('answers', dict(sorted(count.items())), file=sys.stderr)


main()
