#!/usr/bin/env python3
"""Cases for the test program of relay: crates/test_relay/stdin.

What a box answers for a wanted row is worked out straight from document 02's #107, in two ways for every case, which must agree:

- `eliminated` reduces the row by the standing ones and notes how often each of them went in: the combination, or none. The frame's values
  are the same combination of the standing ones, and the elimination of tools/model.py, on columns, finds the same combination.
- `Assignments` keeps all assignments that meet the frames, as one of them and the directions in which it may be moved. If each direction
  leaves the row's value, it is the frame's; otherwise no frame follows for the row, which is then no combination.

Where there are few, all combinations of the rows are tried, and all assignments. Rows that were built as combinations have the mix that
they were built with, and on boards whose values were sealed from records the frame has what the records give. The frame is read again,
and the model's board takes it as a repeat with the same mix. The boards are all of two small sizes, drawn ones of sparse and dense rows,
full ones, empty ones and the largest. Then come calls that are refused, with each fault alone, and with each two of different kinds.
Numbers have four bytes, the most significant first, and only frames are bytes:

    how many boards; for each its length, its words, how many calls; for each of these
    length of the wanted row, row, length of the mix, mix, how many bytes, the first; answer, the mix after, and the frame if there is one

Of the lent bytes each is by 89 more than the one before it, modulo 256. An answer is 200 plus the frame's length, or the number of the
refusal, which leaves mix and bytes as they were; so are the bytes behind a frame. The counts go to standard error, first those that the
test program prints.

  tools/relays.py [SEED]      (seed 2031 makes the stored file)
"""
import collections
import itertools
import random
import struct
import sys

sys.dont_write_bytecode = True
from model import Board, combination, frame_of, is_board, mixed, read, width  # noqa: E402

# on both sides of where one, two and three bytes end, and the largest
PRIMES = [2, 3, 5, 7, 251, 257, 65521, 65537, 16777259, 2147483629, 2147483647]

# the most assignments, or combinations, that are tried one by one
FEW = 1000


def product(p, xs, zs):
    return sum(x * z for x, z in zip(xs, zs)) % p


def sum_of(p, factors, rows, size):
    """The combination of rows of that length."""
    return [sum(f * row[c] for f, row in zip(factors, rows)) % p for c in range(size)]


def eliminated(p, rows, wanted):
    """The multipliers of the rows that give the wanted one, or None."""
    kept, k = [], len(rows)
    for t, row in enumerate([*rows, wanted]):
        row, parts = list(row), [int(i == t) for i in range(k)]
        for c, other, others in kept:
            f = row[c]
            row = [(x - f * z) % p for x, z in zip(row, other)]
            parts = [(x - f * z) % p for x, z in zip(parts, others)]
        c = next((c for c, x in enumerate(row) if x), None)
        if t == k:
            return [-x % p for x in parts] if c is None else None
        inverse = pow(row[c], -1, p)
        kept.append((c, [x * inverse % p for x in row], [x * inverse % p for x in parts]))


class Assignments:
    """All that meet the frames so far: for each word one of them, and the directions that change no frame's value."""

    def __init__(self, p, n, s):
        self.p, self.n, self.one = p, n, [[0] * n for _ in range(s)]
        self.moves = [[int(i == j) for j in range(n)] for i in range(n)]

    def is_open(self, row):
        """Whether the row's value is not the same for all."""
        return any(product(self.p, row, move) for move in self.moves)

    def values(self, row):
        return [product(self.p, row, one) for one in self.one]

    def meet(self, row, values):
        """Keeps those that meet this frame, whose row is open: one direction is used up to set the value, and the others lose theirs."""
        i = next(i for i, move in enumerate(self.moves) if product(self.p, row, move))
        move = self.moves.pop(i)
        inverse = pow(product(self.p, row, move), -1, self.p)
        for w, value in enumerate(values):
            self.shift(self.one[w], move, (value - product(self.p, row, self.one[w])) * inverse)
        for other in self.moves:
            self.shift(other, move, -product(self.p, row, other) * inverse)

    def shift(self, vector, move, f):
        vector[:] = [(x + f * z) % self.p for x, z in zip(vector, move)]


class Box:
    """A board of these frames, with the records that their values were sealed from, if there are such."""

    def __init__(self, p, n, s, entries, records=None):
        self.p, self.n, self.s, self.records = p, n, s, records
        self.rows, self.values = [row for row, _ in entries], [values for _, values in entries]
        self.assignments = Assignments(p, n, s)
        for row, values in entries:
            self.assignments.meet(row, values)
        flat = [x for row, values in entries for x in row + values]
        self.words = [p, n, len(entries), s] + flat + [0] * (n * (n + s) - len(flat))
        assert is_board(self.words)

    def searched(self, wanted, mix, values):
        """All combinations and, word by word, all assignments, where there are few."""
        p, n = self.p, self.n
        if p ** len(self.rows) <= FEW:
            tried = [list(f) for f in itertools.product(range(p), repeat=len(self.rows))]
            assert [f for f in tried if sum_of(p, f, self.rows, n) == wanted] == ([] if mix is None else [mix])
        if p ** n <= FEW:
            tried = list(itertools.product(range(p), repeat=n))
            for w in range(self.s):
                met = [x for x in tried if all(product(p, row, x) == v[w] for row, v in zip(self.rows, self.values))]
                assert {product(p, wanted, x) for x in met} == (set(range(p)) if mix is None else {values[w]})

    def relayed(self, wanted):
        """The combination and the frame for a row of n numbers below p, or None twice."""
        p, n, s = self.p, self.n, self.s
        mix = eliminated(p, self.rows, wanted)
        assert mix == combination(p, self.rows, wanted) and (mix is None) == self.assignments.is_open(wanted)
        values = None if mix is None else mixed(p, mix, self.values, s)
        self.searched(wanted, mix, values)
        if mix is None:
            return None, None
        assert values == self.assignments.values(wanted)
        assert self.records is None or values == sum_of(p, wanted, self.records, s)
        frame = frame_of(width(p), n, wanted, values)
        mix += [0] * (n - len(mix))
        box = Board(list(self.words))
        assert read(p, n, s, frame) == (wanted, values) and box.take(frame, [p] * n) == (100, mix) and box.words == self.words
        return mix, frame


class Cases:
    """The calls as they are stored, and what the test program counts, with more counts by which the cases are judged."""

    COUNTS = 'boards', 'calls', 'done', 'refused-11', 'refused-3', 'refused-4', 'refused-15'

    def __init__(self, rng):
        self.rng, self.out, self.counts, self.box, self.calls = rng, bytearray(), collections.Counter(), None, bytearray()

    def put(self, *words):
        self.calls += struct.pack('>%dI' % len(words), *words)

    def boards(self, box, words=None):
        """The calls that follow are on this box, or on these words in the place of its own."""
        self.end()
        self.box, self.words, self.on_it = box, box.words if words is None else words, 0
        self.counts['boards'] += 1

    def end(self):
        if self.box is not None:
            self.out += struct.pack('>%dI' % (len(self.words) + 2), len(self.words), *self.words, self.on_it) + self.calls
        self.box, self.calls = None, bytearray()

    def call(self, wanted, room, space, answer, after=None, frame=b''):
        """With drawn words for the mix, which stay as they are where it is not said what comes after them, and a drawn first byte."""
        mix = [self.rng.randrange(2 ** 32) for _ in range(room)]
        self.put(len(wanted), *wanted, room, *mix, space, self.rng.randrange(256), answer, *(mix if after is None else after))
        self.calls += frame
        self.on_it += 1
        self.counts['calls'] += 1

    def relay(self, wanted, name, known=None):
        """A row that is refused by 15 at most; one that was built as a combination names the mix."""
        box = self.box
        mix, frame = box.relayed(wanted)
        assert known is None or known == mix[:len(box.rows)], (known, mix)
        space, told = 264 + 4 * box.s, 'refused-15' if mix is None else 'done'
        if mix is None:
            self.call(wanted, box.n, space, 15)
        else:
            self.call(wanted, box.n, space, 200 + len(frame), mix, frame)
            self.counts['width %d' % width(box.p)] += 1
            self.counts['longest frame'] += len(frame) == space
        self.counts.update([told, '%s, %s' % (name, told)])

    def refuse(self, wanted, room, space, expected):
        """A call with faults of these kinds, each of which is there by itself; the first refuses."""
        box, row = self.box, [x % self.box.p for x in wanted]
        is_open = len(row) == box.n and box.assignments.is_open(row)
        assert is_open == (len(row) == box.n and eliminated(box.p, box.rows, row) is None)
        faults = [(11, not is_board(self.words)), (3, (len(wanted), room, space) != (box.n, box.n, 264 + 4 * box.s)),
                  (4, any(x >= box.p for x in wanted)), (15, is_open)]
        kinds = [kind for kind, is_so in faults if is_so]
        assert kinds == expected, (kinds, expected, self.words, wanted, room, space)
        self.call(wanted, room, space, kinds[0])
        self.counts['refused-%d' % kinds[0]] += 1
        self.counts.update('%d before %d' % (kinds[0], kind) for kind in kinds[1:])

    def store(self):
        self.end()
        sys.stdout.buffer.write(struct.pack('>I', self.counts['boards']) + self.out)
        others = sorted(name for name in self.counts if name not in self.COUNTS)
        for name in [*self.COUNTS, *others]:
            print(name, self.counts[name], file=sys.stderr)


def drawn(rng, p, size, share=1):
    """Numbers, of which each is 0 at least with the probability 1 - share."""
    return [rng.randrange(p) if rng.random() < share else 0 for _ in range(size)]


def drawn_box(rng, p, n, s, k, share, is_sealed):
    """Independent rows, with values sealed from records or drawn."""
    records, entries, assignments = [drawn(rng, p, s) for _ in range(n)], [], Assignments(p, n, s)
    while len(entries) < k:
        row = drawn(rng, p, n, share)
        if assignments.is_open(row):
            values = sum_of(p, row, records, s) if is_sealed else drawn(rng, p, s)
            assignments.meet(row, values)
            entries.append((row, values))
        else:
            share = min(1, share + 0.01)
    return Box(p, n, s, entries, records if is_sealed else None)


def every_box(cases, p, n, s):
    """All boards of this size, with all wanted rows."""
    rows = [list(row) for row in itertools.product(range(p), repeat=n)]
    for k in range(n + 1):
        for chosen in itertools.product(rows, repeat=k):
            if all(eliminated(p, chosen[:t], row) is None for t, row in enumerate(chosen)):
                for values in itertools.product(itertools.product(range(p), repeat=s), repeat=k):
                    cases.boards(Box(p, n, s, [(row, list(v)) for row, v in zip(chosen, values)]))
                    for wanted in rows:
                        cases.relay(wanted, 'all boards')


def combine(cases, factors, name):
    box = cases.box
    cases.relay(sum_of(box.p, factors, box.rows, box.n), name, factors)


def at_places(k, factors):
    """Factors by place among k, and 0 elsewhere."""
    return [factors.get(t, 0) for t in range(k)]


def usual_rows(rng, cases, many):
    """Zeros, standing rows, sums of two, combinations of all and of some rows, and rows that are none: a combination with its first or
    last number changed, drawn rows, and rows for a single record. With `many`, each standing row."""
    box = cases.box
    p, n, k = box.p, box.n, len(box.rows)
    combine(cases, [0] * k, 'zero row' if k else 'zero row, empty board')
    for t in range(k) if many else sorted({0, k - 1} & set(range(k))):
        combine(cases, at_places(k, {t: 1}), 'standing row')
    if k > 1:
        i, j = rng.sample(range(k), 2)
        combine(cases, at_places(k, {i: 1, j: 1}), 'sum of two')
        combine(cases, at_places(k, {0: p - 1, k - 1: rng.randrange(1, p)}), 'first and last')
    if k:
        combine(cases, [rng.randrange(1, p) for _ in range(k)], 'all rows')
        combine(cases, drawn(rng, p, k, 0.5), 'some rows')
    for place in sorted({0, n - 1}):
        row = sum_of(p, drawn(rng, p, k), box.rows, n)
        row[place] = (row[place] + rng.randrange(1, p)) % p
        cases.relay(row, 'one number changed')
    cases.relay(drawn(rng, p, n), 'drawn row')
    cases.relay(at_places(n, {rng.randrange(n): 1}), 'one record')
    cases.relay([p - 1] * n, 'largest numbers')


def drawn_boxes(rng, cases):
    """Three boards for each modulus: one of a few records, a full one, and one of rows that are mostly 0."""
    for turn, p in enumerate(PRIMES):
        n, s = rng.randrange(2, 6), (1, 2, 3, 16)[turn % 4]
        cases.boards(drawn_box(rng, p, n, s, rng.randrange(1, n), 1, turn % 2))
        usual_rows(rng, cases, True)
        n, s = rng.randrange(1, 6), (2, 1, 5, 7)[turn % 4]
        cases.boards(drawn_box(rng, p, n, s, n, rng.choice([0.3, 1]), True))
        usual_rows(rng, cases, False)
        n, s = rng.randrange(7, 12), (1, 3, 2, 4)[turn % 4]
        cases.boards(drawn_box(rng, p, n, s, rng.randrange(3, n), 0.2, turn % 3))
        usual_rows(rng, cases, False)


def empty_boxes(rng, cases):
    """Of no frames only the zero row is a combination."""
    for p, n, s in [(2, 1, 1), (257, 8, 2), (2147483647, 9, 1), (7, 20, 16)]:
        cases.boards(drawn_box(rng, p, n, s, 0, 1, True))
        combine(cases, [], 'zero row, empty board')
        cases.relay(at_places(n, {0: 1}), 'empty board')
        cases.relay(at_places(n, {n - 1: p - 1}), 'empty board')


def large_boxes(rng, cases):
    """On both sides of where a map has a byte more, and up to 64 records with 16 words, the longest frame among them."""
    for p, n, s, k, share in [(3, 15, 2, 9, 0.5), (65521, 16, 1, 16, 0.3), (251, 17, 16, 12, 1), (16777259, 33, 2, 20, 0.1)]:
        cases.boards(drawn_box(rng, p, n, s, k, share, True))
        usual_rows(rng, cases, False)
    for p, s, k, share in [(2, 1, 63, 0.2), (65537, 2, 40, 0.1), (2147483629, 16, 30, 1)]:
        cases.boards(drawn_box(rng, p, 64, s, k, share, False))
        usual_rows(rng, cases, False)
    cases.boards(drawn_box(rng, 2147483647, 64, 16, 64, 1, True))
    usual_rows(rng, cases, False)


# two frames of three records modulo 7; the first row alone, a row that is none, and their lengths
FIRST, SECOND, NONE = ([1, 2, 0], [5]), ([0, 1, 3], [4]), [0, 0, 1]
ROOM, SPACE = 3, 268


def no_boards(cases):
    """Each clause of a board fails alone, and with each later fault: 11 refuses. Words of another length are judged by the header."""
    box = Box(7, 3, 1, [FIRST, SECOND])
    changed = [(0, 0), (0, 1), (0, 4), (0, 2147483648), (1, 0), (1, 65), (1, 2), (2, 4), (2, 1), (2, 2 ** 32 - 1), (3, 0), (3, 2), (3, 17),
               (4, 7), (7, 7), (10, 2 ** 32 - 1), (11, 7), (12, 1), (15, 1), (15, 7)]
    spoiled = [box.words[:place] + [word] + box.words[place + 1:] for place, word in changed]
    spoiled += [[], box.words[:3], box.words[:4], box.words[:-1], box.words + [0]]
    # as long as their headers say, with no records, no words and 17 words
    spoiled += [[7, 0, 0, 1], [7, 3, 0, 0] + [0] * 9, [7, 3, 0, 17] + [0] * 60]
    # dependent rows: a zero row, in front and behind; the same row again; its double; a third row that is a sum
    for rows in ([0] * 4, FIRST[0] + [5]), (FIRST[0] + [5], [0] * 4), (FIRST[0] + [5],) * 2, (FIRST[0] + [5], [2, 4, 0, 3]):
        spoiled.append([7, 3, 2, 1, *rows[0], *rows[1], 0, 0, 0, 0])
    spoiled.append([7, 3, 3, 1, *box.words[4:12], 1, 3, 3, 2])
    for words in spoiled:
        cases.boards(box, words)
        cases.refuse(FIRST[0], ROOM, SPACE, [11])
        cases.refuse(FIRST[0][:2], ROOM, SPACE, [11, 3])
        cases.refuse(FIRST[0], ROOM + 1, SPACE, [11, 3])
        cases.refuse([8, 2, 0], ROOM, SPACE, [11, 4])
        cases.refuse(NONE, ROOM, SPACE, [11, 15])


def lengths(rng, cases):
    """Each length is wrong by one, none, or what is right for another; alone, with a number that is too large, with a row that is no
    combination, and with both. Then two lengths at a time, and lengths on larger boards."""
    cases.boards(Box(7, 3, 1, [FIRST, SECOND]))
    for rows in ([1, 2], [1, 2, 0, 0], [], [0] * 16):
        cases.refuse(rows, ROOM, SPACE, [3])
        cases.refuse([7] + rows[1:], ROOM, SPACE, [3, 4])
        cases.refuse(rows[:-1] + [2 ** 32 - 1], ROOM, SPACE, [3, 4])
    for room, space in [(2, SPACE), (4, SPACE), (0, SPACE), (ROOM, 267), (ROOM, 269), (ROOM, 0), (ROOM, 264), (ROOM, 272), (ROOM, 5),
                        (2, 267), (1, SPACE), (ROOM, 1)]:
        cases.refuse(FIRST[0], room, space, [3])
        cases.refuse([8, 2, 0], room, space, [3, 4])
        cases.refuse(NONE, room, space, [3, 15])
        cases.refuse([0, 0, 7 + 1], room, space, [3, 4, 15])
    for wanted, room, space in [([1, 2], 2, SPACE), ([1, 2], ROOM, 267), ([1, 2, 0, 0], 4, 269), ([], 0, 0)]:
        cases.refuse(wanted, room, space, [3])
    for p, n, s in [(257, 8, 2), (2147483647, 20, 16)]:
        cases.boards(drawn_box(rng, p, n, s, 1, 1, True))
        row, space = cases.box.rows[0], 264 + 4 * s
        for wanted, room, given in [(row[:-1], n, space), (row + [0], n, space), (row, n - 1, space), (row, n + 1, space),
                                    (row, n, space - 1), (row, n, space + 1), (row, n, space - 4), (row, n, space + 4)]:
            cases.refuse(wanted, room, given, [3])


def numbers(rng, cases):
    """A number of p, p + 1 or the most, at the first place, the last or between, in a row that modulo p is a combination, or is none."""
    cases.boards(Box(7, 3, 1, [FIRST, SECOND]))
    for wanted in ([8, 2, 0], [1, 9, 0], [1, 2, 7], [7, 0, 0], [1, 2, 2 ** 32 - 4], [0, 0, 7], [7, 7, 7]):
        cases.refuse(wanted, ROOM, SPACE, [4])
    for wanted in ([7, 0, 1], [0, 7, 1], [0, 0, 8], [0, 0, 2 ** 32 - 1], [8, 0, 0]):
        cases.refuse(wanted, ROOM, SPACE, [4, 15])
    for p in PRIMES:
        n = rng.randrange(2, 9)
        cases.boards(drawn_box(rng, p, n, 1, rng.randrange(1, n), 1, True))
        for place, number in itertools.product((0, n - 1), (p, 2 ** 32 - 1)):
            wanted = sum_of(p, drawn(rng, p, len(cases.box.rows)), cases.box.rows, n)
            wanted[place] = number
            reduced = [x % p for x in wanted]
            cases.refuse(wanted, n, SPACE, [4, 15] if cases.box.assignments.is_open(reduced) else [4])
    cases.boards(drawn_box(rng, 7, 5, 1, 0, 1, True))
    cases.refuse([7] + [0] * 4, 5, SPACE, [4])
    cases.refuse([0] * 4 + [8], 5, SPACE, [4, 15])


def main():
    rng = random.Random(int(sys.argv[1]) if len(sys.argv) > 1 else 2031)
    cases = Cases(rng)
    for p, n, s in [(2, 2, 1), (3, 1, 1)]:
        every_box(cases, p, n, s)
    drawn_boxes(rng, cases)
    empty_boxes(rng, cases)
    large_boxes(rng, cases)
    no_boards(cases)
    lengths(rng, cases)
    numbers(rng, cases)
    # nothing that is counted is missing, or there only once
    assert len(cases.counts) == 36 and min(cases.counts.values()) >= 2, cases.counts
    cases.store()


if __name__ == '__main__':
    main()
