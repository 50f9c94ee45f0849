#!/usr/bin/env python3
"""Cases for the test program of clash: crates/test_clash/stdin.

What a log answers is worked out straight from document 02's #109, in up to three ways, which must agree:

- `searched`, for logs of up to 7 frames, goes through all sets of frames and keeps those that clash: without a common assignment, and
  with one as soon as any frame is left out. Just one of them lies in the first contradicting frame and the earlier ones of J.
- `eliminated`, for every log, reduces row after row by those kept before, and notes by which frames it did so.
- `known`, for logs that were built from independent rows and combinations of them, follows from the factors and the falsified values.

Whether frames have a common assignment is told by ranks, and where there are few assignments also by trying them all. On longer logs
the frames that are found are tested one by one for being needed. The logs are all of three small sizes, empty ones, drawn ones of up to
7 frames, and built ones: forty frames of which one is falsified, several falsified, early and late ones, none, and the largest. Then
come calls that are refused, with each fault alone and with each two at a time. All numbers have four bytes, the most significant first:

    how many calls; for each p m n s, length of the log, log, length of the marks, marks; answer, the marks after

An answer is 200 plus the number of frames selected, or the number of the refusal, which leaves the marks as they were. The counts go to
standard error, first those that the test program prints.

  tools/clashes.py [SEED]      (seed 2030 makes the stored file)
"""
import collections
import itertools
import random
import struct
import sys

sys.dont_write_bytecode = True
from model import prime  # noqa: E402

PRIMES = [2, 3, 5, 7, 251, 257, 65537, 2147483629, 2147483647]

# no primes, or too large
NO_PRIMES = [0, 1, 4, 2147117569, 2147483648, 4294967291, 4294967295]

# words a record
WORDS = [1, 2, 3, 16]

# the most assignments, or combinations, that are tried one by one
FEW = 100


def rank(p, rows):
    """Each row clears its first column that is not 0 in the rows that are left."""
    left, count = list(rows), 0
    while left:
        row = left.pop()
        c = next((c for c, x in enumerate(row) if x), None)
        if c is not None:
            inverse = pow(row[c], -1, p)
            left = [[(x - other[c] * inverse * z) % p for x, z in zip(other, row)] if other[c] else other for other in left]
            count += 1
    return count


def sum_of(p, factors, rows, width):
    """The combination of rows of that width."""
    return [sum(f * row[c] for f, row in zip(factors, rows)) % p for c in range(width)]


def is_met(p, n, word, residues, frame):
    """Whether these residues of the records give the frame's value for the word."""
    return (sum(x * z for x, z in zip(frame, residues)) - frame[n + word]) % p == 0


def agree(p, n, frames):
    """Whether the frames have a common assignment."""
    is_so = rank(p, [frame[:n] for frame in frames]) == rank(p, frames)
    if frames and p ** n <= FEW:
        tried = list(itertools.product(range(p), repeat=n))
        words = range(len(frames[0]) - n)
        assert is_so == all(any(all(is_met(p, n, w, x, frame) for frame in frames) for x in tried) for w in words)
    return is_so


def is_new(p, n, frames, frame):
    """Whether the frame's multipliers are no combination of those of the frames."""
    rows, row = [other[:n] for other in frames], frame[:n]
    is_so = rank(p, rows + [row]) > rank(p, rows)
    if p ** len(rows) <= FEW:
        assert is_so == all(sum_of(p, f, rows, n) != row for f in itertools.product(range(p), repeat=len(rows)))
    return is_so


def is_clash(p, n, frames):
    """Whether the frames have no common assignment, and have one without any single one of them."""
    return not agree(p, n, frames) and all(agree(p, n, frames[:k] + frames[k + 1:]) for k in range(len(frames)))


def searched(p, n, log):
    """The clash of the first contradicting frame, and how many clashes there are in all."""
    sets = [chosen for size in range(len(log) + 1) for chosen in itertools.combinations(range(len(log)), size)]
    sets = [chosen for chosen in sets if is_clash(p, n, [log[i] for i in chosen])]
    y = next((y for y in range(len(log)) if not agree(p, n, log[:y + 1])), None)
    if y is None:
        assert not sets
        return [], 0
    allowed = {i for i in range(y) if is_new(p, n, log[:i], log[i])} | {y}
    found, = [chosen for chosen in sets if allowed.issuperset(chosen)]
    return list(found), len(sets)


def eliminated(p, n, log):
    """The same clash: the first row that becomes 0 in its multipliers alone, with the frames by which it became so."""
    kept = []
    for y, frame in enumerate(log):
        row, parts = frame, collections.Counter({y: 1})
        for c, other, others in kept:
            f = row[c]
            row = [(x - f * z) % p for x, z in zip(row, other)]
            for i, g in others.items():
                parts[i] = (parts[i] - f * g) % p
        c = next((c for c, x in enumerate(row[:n]) if x), None)
        if c is not None:
            inverse = pow(row[c], -1, p)
            kept.append((c, [x * inverse % p for x in row], {i: g * inverse % p for i, g in parts.items()}))
        elif any(row):
            return sorted(i for i, g in parts.items() if g)
    return []


def selected(p, n, log, counts):
    """The positions of the clash, or none."""
    found = eliminated(p, n, log)
    if len(log) <= 7:
        same, clashes = searched(p, n, log)
        assert same == found
        counts['searched'] += 1
        counts['searched, with several clashes'] += clashes > 1
    elif found:
        assert agree(p, n, log[:found[-1]]) and is_clash(p, n, [log[i] for i in found])
    else:
        assert agree(p, n, log)
    return found


def refusals(p, m, n, s, log, room):
    """The kinds that refuse the call, each judged alone, in their order."""
    faults = [(1, not prime(p)), (2, m > 64 or not 1 <= n <= 64), (12, not 1 <= s <= 16),
              (3, len(log) != m * (n + s) or room != m), (4, any(x >= p for x in log))]
    return [kind for kind, is_so in faults if is_so]


class Cases:
    """The calls as they are stored, and what the test program counts, with more counts by which the cases are judged."""

    COUNTS = 'cases', 'clashes', 'clear', 'refused-1', 'refused-2', 'refused-12', 'refused-3', 'refused-4'
    SIZES = (1, '1'), (2, '2'), (9, '3 to 9'), (64, '10 to 64')

    def __init__(self, rng):
        self.rng, self.words, self.counts = rng, [], collections.Counter()

    def call(self, p, m, n, s, log, room, answer, after=None):
        """With drawn marks, which stay as they are where it is not said what comes after them."""
        marks = [self.rng.randrange(2 ** 32) for _ in range(room)]
        self.words += [p, m, n, s, len(log), *log, room, *marks, answer, *(marks if after is None else after)]
        self.counts['cases'] += 1

    def clash(self, p, n, s, log, expected=None):
        """A log as a list of rows; one that is made for its clash names it."""
        found = selected(p, n, log, self.counts)
        assert expected in (None, found), (expected, found, p, n, s)
        m, flat, name = len(log), sum(log, []), 'clashes' if found else 'clear'
        assert not refusals(p, m, n, s, flat, m)
        self.call(p, m, n, s, flat, m, 200 + len(found), [int(i in found) for i in range(m)])
        self.counts.update([name, 'modulo %d, %s' % (p, name)])
        if found:
            self.counts[next('selected %s' % size for most, size in self.SIZES if len(found) <= most)] += 1
            self.counts['at the first frame'] += found == [0]
            self.counts['at the last of many frames'] += found[-1] == m - 1 > 6

    def refuse(self, p, m, n, s, log, room, expected):
        """A call with these faults, or with more behind the first of them."""
        kinds = refusals(p, m, n, s, log, room)
        assert kinds == expected or kinds[:1] == expected, (kinds, expected)
        self.call(p, m, n, s, log, room, kinds[0])
        self.counts['refused-%d' % kinds[0]] += 1
        self.counts.update('%d before %d' % (kinds[0], kind) for kind in kinds[1:])

    def store(self):
        words = [self.counts['cases']] + self.words
        sys.stdout.buffer.write(struct.pack('>%dI' % len(words), *words))
        others = sorted(name for name in self.counts if name not in self.COUNTS)
        for name in [*self.COUNTS, *others]:
            print(name, self.counts[name], file=sys.stderr)


def drawn_rows(rng, p, m, n):
    return [[rng.randrange(p) for _ in range(n)] for _ in range(m)]


def every_log(cases, p, m, n, s):
    """All logs of this size."""
    for numbers in itertools.product(range(p), repeat=m * (n + s)):
        cases.clash(p, n, s, [list(numbers[i * (n + s):(i + 1) * (n + s)]) for i in range(m)])


def falsified(rng, p, s):
    """What is added to the values: in the first, the last, one or all words."""
    words = rng.choice([[0], [s - 1], [rng.randrange(s)], range(s)])
    return [rng.randrange(1, p) if w in words else 0 for w in range(s)]


def drawn_log(rng, p, m, n, s):
    """Frames of drawn records: new ones, repeats, combinations and frames of no multipliers; none, some or many are falsified."""
    records, rows, log, part = drawn_rows(rng, p, n, s), [], [], rng.choice([0, 0.2, 0.2, 0.5])
    for _ in range(m):
        how = rng.random()
        row = [rng.randrange(p) for _ in range(n)]
        if how < 0.05:
            row = [0] * n
        elif how < 0.15 and rows:
            row = rng.choice(rows)
        elif how < 0.55 and rows:
            row = sum_of(p, [rng.choice([0, 1, rng.randrange(p)]) for _ in rows], rows, n)
        values = sum_of(p, row, records, s)
        if rng.random() < part:
            values = [(v + e) % p for v, e in zip(values, falsified(rng, p, s))]
        rows.append(row)
        log.append(row + values)
    return log


class Built:
    """An honest log whose rows at the given places are independent. Every other row is a combination of the independent ones before it:
    each of them is part of it with the probability `share`, which is drawn where it is not given. `parts` has for each row its factors
    by position, or None for an independent one; `errors` what will be added to its values."""

    def __init__(self, rng, p, m, n, s, places, share=None):
        self.rng, self.p, self.n, self.s, self.log, self.parts = rng, p, n, s, [], []
        self.errors = [[0] * s for _ in range(m)]
        records, base = drawn_rows(rng, p, n, s), drawn_rows(rng, p, len(places), n)
        while rank(p, base) < len(base):
            base = drawn_rows(rng, p, len(places), n)
        for i in range(m):
            parts = None if i in places else self.drawn_parts(rng.choice([0, 0.1, 0.5, 1]) if share is None else share)
            row = base.pop() if i in places else sum_of(p, parts.values(), [self.log[j] for j in parts], n)
            self.parts.append(parts)
            self.log.append(row + sum_of(p, row, records, s))

    def drawn_parts(self, share):
        return {j: self.rng.randrange(1, self.p) for j, parts in enumerate(self.parts) if parts is None and self.rng.random() < share}

    def falsify(self, i, words):
        for w in words:
            self.errors[i][w] = self.rng.randrange(1, self.p)

    def known(self):
        """The first row whose error is not that of its parts, with its parts."""
        for y, parts in enumerate(self.parts):
            if parts is not None:
                given = sum_of(self.p, parts.values(), [self.errors[j] for j in parts], self.s)
                if given != self.errors[y]:
                    return sorted([*parts, y])
        return []

    def store(self, cases, name):
        log = [row[:self.n] + [(v + e) % self.p for v, e in zip(row[self.n:], errors)] for row, errors in zip(self.log, self.errors)]
        cases.clash(self.p, self.n, self.s, log, self.known())
        cases.counts['built, %s' % name] += 1


def some_places(rng, m, count):
    return set(rng.sample(range(m), count))


def one_of_forty(rng, cases):
    """Forty frames of which one is falsified, in the first word alone, the last or all: a combination, which contradicts the earlier
    ones itself, or a part of one, which a later frame contradicts."""
    moduli = itertools.cycle(PRIMES)
    for s in WORDS:
        for words in sorted({(0,), (s - 1,), tuple(range(s))}):
            for is_part in (False, True):
                built = Built(rng, next(moduli), 40, 12, s, some_places(rng, 40, rng.randrange(7, 13)))
                used = {j for parts in built.parts if parts for j in parts}
                i = rng.choice(sorted(used) if is_part else [i for i, parts in enumerate(built.parts) if parts is not None])
                built.falsify(i, words)
                assert built.known()[-1] > i if is_part else built.known()[-1] == i
                name = 'all words' if words == tuple(range(s)) else 'first word' if words == (0,) else 'last word'
                built.store(cases, 'one of forty, %s' % name)
                cases.counts['built, one of forty, told by a later frame'] += is_part


def several_falsified(rng, cases):
    """Two to five falsified frames: the first contradiction is taken."""
    for p, s in zip(PRIMES * 2, itertools.cycle(WORDS)):
        m = rng.randrange(10, 31)
        built = Built(rng, p, m, 8, s, some_places(rng, m, rng.randrange(2, 8)))
        for i in rng.sample(range(m), rng.randrange(2, 6)):
            built.falsify(i, rng.choice([[0], [s - 1], range(s)]))
        built.store(cases, 'several falsified')


def first_and_last(rng, cases):
    """The first, second or last frame contradicts; the last one with all before it. An honest log, and one of independent rows, whose
    values may be anything."""
    for p, s in zip(PRIMES, itertools.cycle(WORDS)):
        for i in (0, 1, 19):
            built = Built(rng, p, 20, 9, s, some_places(rng, 18, 6) - {i} | {2})
            built.falsify(i, [s - 1])
            assert built.known()[-1] == i
            built.store(cases, 'frame %d of 20 falsified' % i)
        built = Built(rng, p, 10, 9, s, set(range(9)), 1)
        built.falsify(9, [s - 1])
        assert built.known() == list(range(10))
        built.store(cases, 'all frames clash')
        Built(rng, p, 15, 9, s, some_places(rng, 15, 5)).store(cases, 'honest')
        built = Built(rng, p, 9, 9, s, set(range(9)))
        for i in range(9):
            built.falsify(i, range(s))
        assert built.known() == []
        built.store(cases, 'independent')


def largest(rng, cases):
    """64 frames of 64 multipliers and 16 values: all clash, some, none, by rank 63, 40 and 64. 64 frames of fewer numbers, of which the
    last is falsified. A single frame of the most numbers, without multipliers and with the largest."""
    built = Built(rng, 2147483647, 64, 64, 16, set(range(63)), 1)
    built.falsify(63, [15])
    assert len(built.known()) == 64
    built.store(cases, 'largest')
    built = Built(rng, 2147483629, 64, 64, 16, some_places(rng, 64, 40))
    built.falsify(min(j for parts in built.parts if parts for j in parts), [0])
    built.store(cases, 'largest')
    built = Built(rng, 65537, 64, 64, 16, set(range(64)))
    built.falsify(63, range(16))
    built.store(cases, 'largest')
    for n, s in [(1, 1), (3, 16), (30, 2)]:
        built = Built(rng, 251, 64, n, s, some_places(rng, 30, n))
        built.falsify(63, [s - 1])
        built.store(cases, '64 frames')
    for values in ([0] * 16, [0] * 15 + [2147483646]):
        cases.clash(2147483647, 64, 16, [[0] * 64 + values], [0] if any(values) else [])
        cases.clash(2147483647, 64, 16, [[2147483646] * 64 + values], [])


def fault_pairs(cases):
    """Each fault alone, and each two of different kinds at a time: the first kind refuses."""
    faults = [(1, {'p': 4}), (2, {'m': 65, 'n': 1}), (2, {'n': 65, 'm': 1}), (2, {'n': 0}), (12, {'s': 0}), (12, {'s': 17}),
              (3, {'words': -1}), (3, {'words': 1}), (3, {'marks': -1}), (3, {'marks': 1}), (4, {'number': True})]
    for first, second in itertools.combinations([(0, {}), *faults], 2):
        if first[0] != second[0]:
            sizes = {'p': 7, 'm': 2, 'n': 3, 's': 2, 'words': 0, 'marks': 0, 'number': False, **first[1], **second[1]}
            p, m, n, s, words, marks, is_beyond = sizes.values()
            log = [0] * (m * (n + s) + words)
            log[:1] = [p] if is_beyond else log[:1]
            cases.refuse(p, m, n, s, log, m + marks, [kind for kind in (first[0], second[0]) if kind])


def single_faults(cases):
    """More faults of each kind: sizes for which 32 bits do not hold the length, lengths as another size has them, and the least and the
    greatest number that is too large at some places, in a log whose first frames clash."""
    for p in NO_PRIMES:
        cases.refuse(p, 2, 3, 2, [0] * 10, 2, [1])
    most = 2 ** 32
    for m, n, s in [(most - 1, 3, 2), (2, most - 1, 2), (64, most - 1, 1), (2 ** 31, 1, 1), (64, 2 ** 26 - 1, 1)]:
        cases.refuse(7, m, n, s, [], min(m, 64), [2])
    for s in (most - 1, most - 3, 2 ** 31 - 3, 65536):
        cases.refuse(7, 2, 3, s, [], 2, [12])
    for m, n, s, words, marks in [(2, 3, 2, 6, 2), (2, 3, 2, 8, 2), (2, 3, 2, 5, 2), (2, 3, 2, 0, 2), (2, 3, 2, 10, 3), (2, 3, 2, 10, 0),
                                  (2, 3, 2, 10, 10), (0, 3, 2, 1, 0), (0, 3, 2, 0, 1), (0, 3, 2, 5, 1), (64, 64, 16, 5121, 64)]:
        cases.refuse(7, m, n, s, [0] * words, marks, [3])
    for p, place in itertools.product((7, 2147483647), (0, 2, 3, 4, 15, 18, 19)):
        for number in (p, most - 1):
            log = [1, 0, 0, 1, 1, 1, 0, 0, 1, 2] + [0] * 10
            log[place] = number
            cases.refuse(p, 4, 3, 2, log, 4, [4])


def main():
    rng = random.Random(int(sys.argv[1]) if len(sys.argv) > 1 else 2030)
    cases = Cases(rng)
    for p, m, n, s in [(2, 3, 2, 1), (2, 2, 1, 2), (3, 2, 1, 1)]:
        every_log(cases, p, m, n, s)
    for p, n, s in itertools.product((2, 2147483647), (1, 64), (1, 16)):
        cases.clash(p, n, s, [], [])
    for p, m, _ in itertools.product(PRIMES, range(1, 8), range(3)):
        n, s = rng.randrange(1, 7), rng.choice(WORDS)
        cases.clash(p, n, s, drawn_log(rng, p, m, n, s))
    one_of_forty(rng, cases)
    several_falsified(rng, cases)
    first_and_last(rng, cases)
    largest(rng, cases)
    fault_pairs(cases)
    single_faults(cases)
    # nothing that is counted is missing, or there only once
    assert len(cases.counts) == 57 and min(cases.counts.values()) >= 2, cases.counts
    cases.store()


if __name__ == '__main__':
    main()
