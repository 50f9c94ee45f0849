#!/usr/bin/env python3
"""The sums of products that crates/test_sums prints, by exact integers: writes its `stdout`.

    python3 tools/sums.py > crates/test_sums/stdout

Nothing here knows of limbs or parts: each sum is worked out whole, and reduced once."""

COUNT = 100100
MODULI = (251, 2147483629, 4294967291)
LARGEST = [2**32 - 1] * COUNT
MIXED = [2**32 - 1 - i * 2654435761 % 2**32 for i in range(COUNT)]


def total(row, table, start, step):
    return sum(x * table[start + t * step] for t, x in enumerate(row))


def sums(numbers, start, lengths, steps):
    for k in lengths:
        for step in steps:
            yield k, start, step, total(numbers[:k], numbers, start, step)


def cases(numbers):
    for start in (0, 37, 50000):
        yield from sums(numbers, start, (0, 1, 63, 64, 65), (0, 1, 2, 64, 65))
        yield from sums(numbers, start, (4096, 4097, 8192), (0, 1, 2))
    for start in (0, 37):
        yield from sums(numbers, start, (100000,), (0, 1))
    yield from sums(numbers, 50000, (100000,), (0,))


for name, numbers in (("largest", LARGEST), ("mixed", MIXED)):
    whole = list(cases(numbers))
    one = total(numbers[:100000], numbers[7:8], 0, 0)
    for p in MODULI:
        for k, start, step, s in whole:
            print(name, p, k, start, step, s % p)
        print("empty", p, 0)
        print("one-number", p, one % p)
    print("empty 1 0")
    print("one-number 1 0")
