#!/usr/bin/env python3
"""Call lists for the test program of the board: crates/test_board/stdin.

The board of tools/model.py plays lists of take, withdraw and show calls. In drawn lists frames are lost, doubled, summed, falsified and
malformed, lent memory has wrong lengths now and then, boards are tampered with. The first 40 have one word a record and show with the
old low end, (p - 1)/2 rounded down; the others have 1, 2, 3 or 16 words and show with any of 0, 1, the old one, p - 2, p - 1, p,
2^32 - 1 and others (document 02, #106), where a number is the one from -L to p - 1 - L that is congruent to the record's word.
Then come lists made for their answers, which the board must give (document 02, #103): frames that agree in all, in the first or in the
last value only; lent memory one longer and shorter; headers whose number of words is none or another one; words that are too few, or as
many as a board with another number of words has; and opens refused by 1, 2, 12 and 3. Outside the frames numbers are four bytes each,
most significant first, signed ones in two's complement:

    p n s, words of the board, open's answer; the board after; then calls, then 0
    1 frame length, frame (each byte as a number), mix length, mix; answer, count; the mix after; the board after
    2 t; answer; the board after
    3 low end, marks length, marks, numbers length, numbers; answer; marks after, numbers after
    4 place, word: the test writes that word into the board (tampering), nothing is answered
    a p of 0 ends the file

An answer is the number that the firmware gets; count is the count afterwards, and is checked where the answer is 0 or 100. Before open
each word of a board is 9.

  tools/boards.py [SEED]      (seed 2028 makes the stored file)
"""
import itertools
import random
import struct
import sys

sys.dont_write_bytecode = True
from model import Board, board_words, frame_of, width  # noqa: E402

# with the primes on both sides of where one, two and three bytes end
PRIMES = [2, 3, 5, 7, 251, 257, 65521, 65537, 16777213, 16777259, 2147483629, 2147483647]

# a prime of each width
WIDTHS = [7, 257, 65537, 2147483647]

# words a record, and numbers that are none of these
WORDS = [1, 2, 3, 16]
NO_WORDS = [0, 17, 2 ** 32 - 1]

# how many numbers come with a padding bit, none and one in turn: with one the length is that counted over the whole map
padding_numbers = itertools.cycle([0, 1])


class Lists:
    """The lists as they are stored, with the board's answers, and what the test program counts. A call that is made for its answer
    names it."""

    COUNTS = 'histories', 'unopened', 'takes', 'new', 'repeat', 'conflict', 'refused', 'withdrawals', 'shows', 'tampered'

    def __init__(self):
        self.out, self.count, self.board = bytearray(), dict.fromkeys(self.COUNTS, 0), None

    def put(self, *xs):
        self.out += struct.pack('>%dI' % len(xs), *[x % 2 ** 32 for x in xs])

    def told(self, answer, expected):
        assert expected in (None, answer), (expected, answer, self.board.words[:4])
        self.put(answer)

    def begin(self, p, n, s, length=None, expected=0):
        self.board = Board([9] * (board_words(n, s) if length is None else length))
        self.put(p, n, s, len(self.board.words))
        answer = self.board.open(p, n, s)
        self.told(answer, expected)
        self.put(*self.board.words)
        self.count['unopened' if answer else 'histories'] += 1

    def end(self):
        self.put(0)

    def take(self, frame, mix, expected=None):
        self.put(1, len(frame), *frame, len(mix), *mix)
        answer, mix = self.board.take(bytes(frame), mix)
        self.told(answer, expected)
        self.put((self.board.words + [0] * 3)[2], *mix, *self.board.words)
        self.count['takes'] += 1
        self.count[{0: 'new', 100: 'repeat', 9: 'conflict'}.get(answer, 'refused')] += 1
        return answer

    def withdraw(self, t, expected=None):
        self.put(2, t)
        answer = self.board.withdraw(t)
        self.told(answer, expected)
        self.put(*self.board.words)
        self.count['withdrawals'] += 1

    def show(self, low, marks, numbers, expected=None):
        """Answers the marks and the numbers as they are then."""
        self.put(3, low, len(marks), *marks, len(numbers), *numbers)
        answer, marks, numbers = self.board.show(low, marks, numbers)
        self.told(answer, expected)
        self.put(*marks, *numbers)
        self.count['shows'] += 1
        return marks, numbers

    def tamper(self, place, word):
        """Answers the word that stood there."""
        old, self.board.words[place] = self.board.words[place], word
        self.put(4, place, word)
        self.count['tampered'] += 1
        return old

    def store(self):
        sys.stdout.buffer.write(bytes(self.out) + bytes(4))
        for name in self.COUNTS:
            print(name, self.count[name], file=sys.stderr)


def old_low(rng, p):
    return (p - 1) // 2


def any_low(rng, p):
    return rng.choice([0, 1, (p - 1) // 2, p - 2, p - 1, p, 4294967295, rng.randrange(p), rng.randrange(p), rng.randrange(2 ** 32)])


def any_words(rng, length):
    return [rng.randrange(2 ** 32) for _ in range(length)]


def any_numbers(rng, length):
    return [rng.randrange(-2 ** 31, 2 ** 31) for _ in range(length)]


def any_length(rng, named):
    """Mostly the one that is named, and otherwise another, perhaps by one."""
    return rng.choice([*[named] * 24, abs(named - 1), named + 1, rng.randrange(named + 3)])


def values_of(p, records, row):
    """The sum of products for each word of the records."""
    return [sum(x * record[w] for x, record in zip(row, records)) % p for w in range(len(records[0]))]


def malformed(rng, p, n, row, values):
    """The frame cut anywhere, longer by a byte, shorter or longer by a number, with numbers of four bytes (no fault where that is the
    width), with a padding bit, with a multiplier of 0, or with a multiplier or a value of p or more."""
    w, size, s = width(p), (n + 7) // 8, len(values)
    frame = bytearray(frame_of(w, n, row, values))
    beyond = rng.choice([p, 256 ** w - 1]).to_bytes(w, 'big')
    bad = rng.randrange(9)
    if bad == 0:
        return frame[:rng.randrange(len(frame))]
    if bad == 1:
        return frame + bytes([rng.randrange(256)])
    if bad == 2:
        return frame[:-w]
    if bad == 3:
        return frame + frame[-w:]
    if bad == 4:
        return frame_of(4, n, row, values)
    if bad == 5 and n % 8:
        frame[size - 1] |= 128
        frame[-w * s:-w * s] = (1).to_bytes(w, 'big') * next(padding_numbers)
    elif bad in (6, 7) and any(row):
        frame[size:size + w] = bytes(w) if bad == 6 else beyond
    else:
        at = len(frame) - w * rng.randrange(1, s + 1)
        frame[at:at + w] = beyond
    return frame


def any_frame(rng, p, records, heard):
    """Its multipliers and its bytes: drawn, heard before or a sum of two; now and then one value or all are falsified."""
    n, s, part = len(records), len(records[0]), rng.choice([0.2, 0.5, 1.0])
    row = [rng.randrange(p) if rng.random() < part else 0 for _ in range(n)]
    how = rng.random()
    if how < 0.2 and heard:
        row = rng.choice(heard)
    elif how < 0.45 and len(heard) > 1:
        a, b = rng.choice(heard), rng.choice(heard)
        f, g = rng.randrange(p), rng.randrange(p)
        row = [(f * x + g * y) % p for x, y in zip(a, b)]
    values = values_of(p, records, row)
    if rng.random() < 0.12:
        for w in rng.choice([[0], [s - 1], [rng.randrange(s)], range(s)]):
            values[w] = rng.randrange(p)
    return row, malformed(rng, p, n, row, values) if rng.random() < 0.15 else frame_of(width(p), n, row, values)


def drawn(rng, lists, p, n, s, calls, low_end=old_low):
    lists.begin(p, n, s)
    records = [[rng.randrange(p) for _ in range(s)] for _ in range(n)]
    heard = []
    for _ in range(calls):
        kind = rng.random()
        if kind < 0.78:
            row, frame = any_frame(rng, p, records, heard)
            if lists.take(frame, any_words(rng, any_length(rng, n))) in (0, 100):
                heard.append(row)
        elif kind < 0.86:
            lists.withdraw(rng.choice([0, 1, 1, 2, rng.randrange(n + 2), 4294967295]))
        elif kind < 0.97:
            lists.show(low_end(rng, p), any_words(rng, any_length(rng, n)), any_numbers(rng, any_length(rng, n * s)))
        else:
            # a word of the board is changed, one call sees it, and it is put back
            last = len(lists.board.words) - 1
            place = rng.choice([0, 1, 2, 3, rng.randrange(last), last])
            old = lists.tamper(place, rng.choice([0, 1, 2, p, 4, 65, 4294967295, rng.randrange(2 ** 32)]))
            lists.withdraw(0)
            lists.tamper(place, old)
    lists.end()


def drawn_lists(rng, lists):
    for n in range(1, 9):
        for _ in range(4):
            drawn(rng, lists, rng.choice(PRIMES), n, 1, 12 + 4 * n)
    for n in (9, 12, 15, 16, 17):
        drawn(rng, lists, rng.choice(PRIMES), n, 1, 40)
    drawn(rng, lists, 2147483647, 33, 1, 24)
    drawn(rng, lists, 251, 64, 1, 10)
    drawn(rng, lists, 2147483629, 64, 1, 10)
    for n in range(1, 9):
        for turn, p in enumerate(PRIMES):
            drawn(rng, lists, p, n, WORDS[(turn + n) % 4], 16 + 2 * n, any_low)
    drawn(rng, lists, 65521, 17, 16, 24, any_low)
    drawn(rng, lists, 2147483647, 64, 16, 5, any_low)


# two frames of three records, their sum, and a third with which every record is settled
FIRST, SECOND, SUM, THIRD = [1, 1, 0], [0, 1, 1], [1, 2, 1], [0, 0, 1]


def off(p, values, *places):
    """The values, wrong at these places alone."""
    return [(v + 1) % p if w in places else v for w, v in enumerate(values)]


def agreement(rng, lists, p, s):
    """A frame is a repeat only if all values agree: wrong in the first, the last, one between or all, it is a conflict. So is a frame
    of no multipliers whose values are not all 0. The records come out word after word."""
    low, records = p // 3, [[rng.randrange(p) for _ in range(s)] for _ in range(3)]
    marks, numbers = [9] * 3, [-9] * (3 * s)

    def frame(row, *places):
        return frame_of(width(p), 3, [x % p for x in row], off(p, values_of(p, records, row), *places))

    def shown(*residues):
        return [(v + low) % p - low for values in residues for v in values]

    lists.begin(p, 3, s)
    lists.take(frame(FIRST), [9] * 3, 0)
    lists.take(frame(SECOND), [9] * 3, 0)
    for row in (FIRST, SECOND, SUM, [0] * 3):
        lists.take(frame(row), [9] * 3, 100)
        for places in sorted({(0,), (s - 1,), (s // 2,), tuple(range(s))}):
            lists.take(frame(row, *places), [9] * 3, 9)
    assert lists.show(low, marks, numbers, 201) == ([0] * 3, [0] * (3 * s))
    lists.take(frame(THIRD), [9] * 3, 0)
    assert lists.show(low, marks, numbers, 200) == ([1] * 3, shown(*records))
    lists.withdraw(2, 201)
    lists.take(frame(THIRD, s - 1), [9] * 3, 0)
    assert lists.show(low, marks, numbers, 201) == ([0, 0, 1], [0] * (2 * s) + shown(off(p, records[2], s - 1)))
    lists.end()


def lengths(lists, p, s):
    """3 for the mix, before 6, and for marks and numbers, before 4, which a low end of p gets; as many numbers as records are
    wrong where s is more than 1. The marks are one for each record."""
    lists.begin(p, 3, s)
    for room in (2, 4):
        lists.take(b'', [9] * room, 3)
    lists.take(b'', [9] * 3, 6)
    for marks, numbers in ((2, 3 * s), (4, 3 * s), (3, 3 * s - 1), (3, 3 * s + 1), *[(3, 3), (3 * s, 3 * s)] * (s > 1)):
        lists.show(p, [9] * marks, [-9] * numbers, 3)
    lists.show(p, [9] * 3, [-9] * (3 * s), 4)
    lists.end()


def no_board(lists):
    """Each call refuses 11 before what it would refuse else."""
    lists.take(b'', [], 11)
    lists.withdraw(2 ** 32 - 1, 11)
    lists.show(2 ** 32 - 1, [], [], 11)


def headers(lists, p, s):
    """A board whose fourth word is no number of words, or another one than its length has, is none; it is one when that is put back."""
    lists.begin(p, 3, s)
    lists.take(frame_of(width(p), 3, FIRST, [1] * s), [9] * 3, 0)
    for word in [*NO_WORDS, *(t for t in (s - 1, s + 1) if 1 <= t <= 16)]:
        lists.tamper(3, word)
        no_board(lists)
    lists.tamper(3, s)
    lists.withdraw(0, 201)
    lists.end()


def lay_fresh(lists, p, n, s):
    """Writes the fresh board into the words as far as they go, whatever open has said."""
    for place, _ in enumerate(lists.board.words):
        lists.tamper(place, [p, n, 0, s][place] if place < 4 else 0)


def other_lengths(lists, p, n, s):
    """Too few words for a header, a header alone, a word less and more, and before #103 a word less with n + 1 numbers a row: open is
    refused, and a fresh board written there is none. As many words as another s needs are a board where the header says that s, if
    it is a number of words."""
    whole = board_words(n, s)
    for length in sorted({0, 1, 2, 3, 4, whole - 1, whole + 1, 3 + n * (n + 1)}):
        lists.begin(p, n, s, length, 3)
        lay_fresh(lists, p, n, s)
        no_board(lists)
        lists.end()
    for other in sorted({0, s - 1, s + 1, 17}):
        lists.begin(p, n, s, board_words(n, other), 3)
        lay_fresh(lists, p, n, s)
        no_board(lists)
        lists.tamper(3, other)
        if 1 <= other <= 16:
            lists.withdraw(0, 200)
        else:
            no_board(lists)
        lists.end()


def before_words(lists, p):
    """A board as it was before #103, with a header of three words and one frame."""
    words = [p, 3, 1] + FIRST + [1] + [0] * 8
    lists.begin(p, 3, 1, len(words), 3)
    for place, word in enumerate(words):
        lists.tamper(place, word)
    no_board(lists)
    lists.end()


def same_length(lists, p):
    """Boards of 2 records with 16 words and of 4 records with 5 have 40 words each: the header says which it is."""
    lists.begin(p, 2, 16)
    lists.tamper(1, 4)
    no_board(lists)
    lists.tamper(3, 5)
    lists.take(frame_of(width(p), 4, [0, 1, 0, 0], [1, 2, 3, 4, 5]), [9] * 4, 0)
    assert lists.show(0, [9] * 4, [-9] * 20, 203) == ([0, 1, 0, 0], [0] * 5 + [1, 2, 3, 4, 5] + [0] * 10)
    lists.end()


def opens(lists):
    """The order of 1, 2, 12 and 3; 4 is no prime."""
    heads = [*itertools.product([4], (0, 3, 65), (0, 1), [1]), *itertools.product([7], (0, 65, 2 ** 32 - 1), (0, 1, 17), [2]),
             *itertools.product(WIDTHS, [3], NO_WORDS, [12]), *itertools.product(WIDTHS, [3], WORDS, [3])]
    for p, n, s, answer in heads:
        whole = board_words(3, min(s, 17))
        for length in (2, whole - 1, whole + 1, *[whole] * (answer == 12)):
            lists.begin(p, n, s, length, answer)
            lists.end()


def made_lists(rng, lists):
    for p, s in itertools.product(PRIMES[:1] + WIDTHS, WORDS):
        agreement(rng, lists, p, s)
    for p, s in zip(WIDTHS, WORDS):
        lengths(lists, p, s)
        headers(lists, p, s)
        other_lengths(lists, p, 2, s)
        before_words(lists, p)
    same_length(lists, 7)
    opens(lists)


def main():
    rng = random.Random(int(sys.argv[1]) if len(sys.argv) > 1 else 2028)
    lists = Lists()
    drawn_lists(rng, lists)
    made_lists(rng, lists)
    lists.store()


if __name__ == '__main__':
    main()
