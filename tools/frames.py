#!/usr/bin/env python3
"""Cases for the test program of the frames: crates/test_frame/stdin.

A reader, sums and a writer of their own, straight from document 01's section "Frame bytes" and document 02's #101, #103, #106 and
#111, say of each call what it answers. Frames are written for every n from 1 to 64, with 1, 2, 3 or 16 words a record, and then
damaged: cut, extended, with padding bits, with multipliers of 0 and with numbers of p or more. Then come frames made for one answer,
which the reader must give:

- the order of 6 and 7, for every n: with a bit at n or above, of the length counted over the whole map and of others, and where n
  has no padding with its last bit standing;
- lengths and widths, for every n with five primes in turn: a good frame, shorter and longer by a byte and by a number, with another
  number of values, and with numbers of another width, such as four bytes where p needs fewer;
- numbers, for every prime and some n: 0, p - 1, p and the greatest number that fits the width, modulo 251 all from 251 to 255, as
  a multiplier and as a value, and two bad ones in a frame;
- the order of 1, 2, 12, 3 and 6: numbers of words that are none, 0, 17 and 2^32 - 1, and lent memory that is one longer or shorter.

Each case, where numbers outside the frame have four bytes, the most significant first:

    p, n, s, how many multipliers and how many values are lent, length of the frame, the frame; answer: 200 + s or the refusal's
    number; where it is accepted n multipliers and s values

p of 0 ends the frames. Behind them come cases of sealing with low ends: 0, 1, the old one, p - 2, p - 1, p and 2^32 - 1, with
multipliers and records that are good, or of which some are not; then such that the order of 1, 2, 12, 3 and 4 decides. Before records,
multipliers and values stands how many there are; records are in two's complement:

    p, n, s, low end, records, multipliers, how many values are lent; answer: 200 + s or the refusal's number; where it is done s values

p of 0 ends them. Last come cases of writing, for every prime and some n, and then for the order of 1, 2, 12, 3 and 4:

    p, n, s, multipliers, values, how many bytes are lent; answer: 200 + the length or the refusal's number; where it is done the frame

p of 0 ends the file.

  tools/frames.py [SEED]      (seed 2027 makes the stored file)
"""
import itertools
import random
import struct
import sys

sys.dont_write_bytecode = True
from model import prime  # noqa: E402

# with the primes on both sides of where one, two and three bytes end
PRIMES = [2, 3, 5, 7, 251, 257, 65521, 65537, 16777213, 16777259, 2147483629, 2147483647]

# words a record, and numbers that are none of these
WORDS = [1, 2, 3, 16]
NO_WORDS = [0, 17, 2 ** 32 - 1]


def width(p):
    """The bytes of a number in a frame modulo p: the fewest that hold p - 1, from 1 to 4."""
    return next(w for w in (1, 2, 3, 4) if p - 1 < 256 ** w)


def frame_of(w, n, multipliers, values):
    """The bytes of a frame, as the documents draw them, with numbers of w bytes."""
    bits = bytearray((n + 7) // 8)
    for j, x in enumerate(multipliers):
        if x:
            bits[j // 8] |= 1 << (j % 8)
    return bytes(bits) + b''.join(x.to_bytes(w, 'big') for x in [*filter(None, multipliers), *values])


def refused(p, n, s, *lengths):
    """1, 2, 12 or 3, the first that is refused, or 0; the lengths come with those that are named."""
    if not prime(p):
        return 1
    if not 1 <= n <= 64:
        return 2
    if not 1 <= s <= 16:
        return 12
    return 3 if any(lent != named for lent, named in lengths) else 0


def read(p, n, s, frame):
    """(200 + s, multipliers, values) or (refusal number,)."""
    w, size = width(p), (n + 7) // 8
    if len(frame) < size:
        return (6,)
    bits = [frame[j // 8] >> (j % 8) & 1 for j in range(8 * size)]
    standing = sum(bits)
    if len(frame) != size + w * standing + w * s:
        return (6,)
    if any(bits[n:]):
        return (7,)
    numbers = [int.from_bytes(frame[at:at + w], 'big') for at in range(size, len(frame), w)]
    for place, x in enumerate(numbers):
        if x == 0 and place < standing:
            return (8,)
        if x >= p:
            return (4,)
    rest = iter(numbers)
    return (200 + s, [next(rest) if b else 0 for b in bits[:n]], [*rest])


def seal(p, n, s, low, records, multipliers, room):
    """(200 + s, values) or (refusal number,), with room for so many values. Word w of record j stands at j * s + w."""
    number = refused(p, n, s, (len(records), n * s), (len(multipliers), n), (room, s))
    if number:
        return (number,)
    if any(x >= p for x in multipliers) or low >= p or not all(-low <= z < p - low for z in records):
        return (4,)
    return (200 + s, [sum(z * x for z, x in zip(records[w::s], multipliers)) % p for w in range(s)])


def write(p, n, s, multipliers, values, room):
    """(200 + length, frame) or (refusal number,), with room for so many bytes."""
    number = refused(p, n, s, (len(multipliers), n), (len(values), s), (room, 264 + 4 * s))
    if number:
        return (number,)
    if any(x >= p for x in multipliers + values):
        return (4,)
    frame = frame_of(width(p), n, multipliers, values)
    return (200 + len(frame), frame)


def any_bytes(rng, count):
    return bytes(rng.randrange(256) for _ in range(count))


def damage(rng, p, n, s, frame):
    kind = rng.randrange(9)
    w, size = width(p), (n + 7) // 8
    b = bytearray(frame)
    standing = (len(b) - size) // w - s
    number = rng.choice([p, p + 1, 256 ** w - 1, p - 1]).to_bytes(w, 'big')
    if kind == 0:
        return bytes(b)
    if kind == 1:
        return bytes(b[:rng.randrange(len(b))])
    if kind == 2:
        return bytes(b) + any_bytes(rng, rng.randrange(1, 9))
    if kind == 3 and n % 8:
        b[size - 1] |= 1 << rng.randrange(n % 8, 8)
    elif kind in (4, 5) and standing:
        at = size + w * rng.randrange(standing)
        b[at:at + w] = bytes(w) if kind == 4 else number
    elif kind == 6:
        at = size + w * (standing + rng.randrange(s))
        b[at:at + w] = number
    elif kind == 7:
        b[rng.randrange(size)] ^= 1 << rng.randrange(8)
    elif kind == 8:
        b[rng.randrange(len(b))] = rng.randrange(256)
    return bytes(b)


def any_row(rng, p, n):
    """Multipliers, of which few or many are not 0."""
    part = rng.random()
    return [rng.randrange(p) if rng.random() < part else 0 for _ in range(n)]


def any_values(rng, p, s):
    return [rng.randrange(p) for _ in range(s)]


def any_frame(rng, p, n, s):
    """A frame that is as it should be."""
    return frame_of(width(p), n, any_row(rng, p, n), any_values(rng, p, s))


def damaged_frames(rng):
    """With no answer beside them."""
    for n in range(1, 65):
        for k in range(10):
            p, s = rng.choice(PRIMES), rng.choice(WORDS)
            frame = any_frame(rng, p, n, s)
            yield None, p, n, s, damage(rng, p, n, s, frame) if k else frame


def ordered_frames(rng):
    """For each n, with the answer that the order of 6 and 7 gives: padding in a frame of the counted length, where the number
    of the padding bit may be bad itself, is 7, and in a shorter or longer one 6; without padding no length but one is good."""
    for n, p in zip(range(1, 65), itertools.cycle(PRIMES)):
        s = rng.choice(WORDS)
        frame = any_frame(rng, p, n, s)
        w, size = width(p), (n + 7) // 8
        too_long = any_bytes(rng, rng.randrange(329, 360))
        if n % 8 == 0:
            whole = frame_of(w, n, [1] * n, [0] * s)
            refusals = ((6, f) for f in (whole[:-1], whole[:-w], whole + too_long))
            yield from ((answer, p, n, s, f) for answer, f in ((200 + s, whole), *refusals))
            continue
        short = bytearray(frame)
        short[size - 1] |= 1 << rng.randrange(n % 8, 8)
        short = bytes(short)
        counted = [short[:-w * s] + number.to_bytes(w, 'big') + short[-w * s:] for number in (1, 0, p)]
        yield from ((7, p, n, s, f) for f in counted)
        whole = counted[0]
        wrong = (short, whole[:-1], short[:size], whole + b'\0', whole + whole[-w:], short[:size] + too_long)
        yield from ((6, p, n, s, f) for f in wrong)


def sized_frames(rng):
    """For each n and five primes: a frame with its length and the width of p is accepted, and with another length, another number of
    values or another width it is 6."""
    turn = itertools.cycle(PRIMES)
    for n in range(1, 65):
        for p in itertools.islice(turn, 5):
            s = rng.choice(WORDS)
            w, row, values = width(p), any_row(rng, p, n), any_values(rng, p, s)
            frame = frame_of(w, n, row, values)
            yield 200 + s, p, n, s, frame
            for by in sorted({1, w}):
                yield 6, p, n, s, frame[:-by]
                yield 6, p, n, s, frame + any_bytes(rng, by)
            yield 6, p, n, s, frame_of(w, n, row, any_values(rng, p, rng.choice([t for t in WORDS if t != s])))
            # the same numbers fit wider ones, and 1 fits all
            yield from ((6, p, n, s, frame_of(wider, n, row, values)) for wider in range(w + 1, 5))
            yield from ((6, p, n, s, frame_of(narrower, n, [min(x, 1) for x in row], [1] * s)) for narrower in range(1, w))


def put(p, n, frame, *numbers):
    """The frame with each number at its place; places count the multipliers under standing bits from 0, and the values are behind
    them."""
    w, size, changed = width(p), (n + 7) // 8, bytearray(frame)
    for place, x in numbers:
        changed[size + w * place:size + w * place + w] = x.to_bytes(w, 'big')
    return bytes(changed)


def numbered_frames(rng):
    """For each prime and some n, as a multiplier and as the first, the last or another value: p - 1 is accepted, and p and more, as far
    as the width goes, is 4; a multiplier of 0 is 8 and a value of 0 is accepted. Of two numbers that are refused the first decides."""
    for (p, n), s in zip(itertools.product(PRIMES, (1, 2, 3, 8, 9, 64)), itertools.cycle(WORDS)):
        row = any_row(rng, p, n)
        row[rng.randrange(n)] = 1
        frame = frame_of(width(p), n, row, any_values(rng, p, s))
        value = sum(x > 0 for x in row)
        places = sorted({0, rng.randrange(value), value - 1, value, value + rng.randrange(s), value + s - 1})
        for place in places:
            yield 200 + s, p, n, s, put(p, n, frame, (place, p - 1))
            yield (8 if place < value else 200 + s), p, n, s, put(p, n, frame, (place, 0))
            for x in range(p, 256) if p == 251 else (p, 256 ** width(p) - 1):
                yield 4, p, n, s, put(p, n, frame, (place, x))
        for first, second in zip(places, places[1:]):
            yield (8 if first < value else 4), p, n, s, put(p, n, frame, (first, 0), (second, p))
            yield 4, p, n, s, put(p, n, frame, (first, p), (second, 0))


def heads():
    """p, n and s, and the first of 1, 2 and 12 that refuses one, or 0; 4 is no prime. Behind the one that is refused are others."""
    yield from ((4, n, s, 1) for n, s in itertools.product((0, 3), (0, 1)))
    yield from ((p, n, s, 2) for p, n, s in itertools.product((7, 2147483647), (0, 65), (0, 1, 17)))
    yield from ((p, 3, s, 12) for p, s in itertools.product((7, 257, 65537, 2147483647), NO_WORDS))
    yield from ((p, 3, s, 0) for p, s in itertools.product((7, 257, 65537, 2147483647), WORDS))


def one_off(lengths):
    """The lengths with one of them longer or shorter by one."""
    for place, length in enumerate(lengths):
        yield from ([*lengths[:place], other, *lengths[place + 1:]] for other in (length - 1, length + 1) if other >= 0)


def lent_frames(rng):
    """With each head, room as named and one off, a frame of no bytes, which is 6, and where no head refuses a good frame as well."""
    for p, n, s, number in heads():
        rooms = [n, min(s, 17)]
        yield number or 6, p, n, s, b'', *rooms
        yield from ((number or 3, p, n, s, b'', *wrong) for wrong in one_off(rooms))
        if not number:
            frame = any_frame(rng, p, n, s)
            yield 200 + s, p, n, s, frame, *rooms
            yield from ((3, p, n, s, frame, *wrong) for wrong in one_off(rooms))


def sizes_of_seals():
    """n, p, s and a low end: all primes and low ends, and for the most records one prime of each width with more words."""
    for turn, (n, p) in enumerate(itertools.product((1, 2, 3, 8, 63, 64), PRIMES)):
        words = itertools.islice(itertools.cycle(WORDS if n <= 8 else [1]), turn % 4, None)
        yield from ((n, p, s, low) for s, low in zip(words, sorted({0, 1, (p - 1) // 2, p - 2, p - 1, p, 2 ** 32 - 1})))
    yield from ((n, p, s, p // 3) for n, p, s in itertools.product((63, 64), (251, 65521, 65537, 2147483647), WORDS[1:]))


def seals(rng):
    """All numbers good, or one multiplier, one record or both bad, at any place; with no answer beside them."""
    for n, p, s, low in sizes_of_seals():
        bad = rng.choice(['', '', 'multiplier', 'record', 'both'])
        bottom = min(low, p - 1)
        records = [rng.choice([-bottom, p - 1 - bottom, rng.randrange(-bottom, p - bottom)]) for _ in range(n * s)]
        xs = [rng.randrange(p) for _ in range(n)]
        if bad in ('record', 'both'):
            outside = [z for z in (-bottom - 1, p - bottom, -2 ** 31, 2 ** 31 - 1) if not -bottom <= z < p - bottom and z < 2 ** 31]
            records[rng.randrange(n * s)] = rng.choice(outside)
        if bad in ('multiplier', 'both'):
            xs[rng.randrange(n)] = rng.choice([p, p + 1, 2 ** 32 - 1])
        yield None, p, n, s, low, records, xs, s


def lent_seals():
    """With each head, lengths as named and one off, and a record for each n where s is more; all numbers are such that 4 refuses them."""
    for p, n, s, number in heads():
        lengths = [min(n * s, 66), n, min(s, 17)]
        wrong = [*one_off(lengths), *([[n, *lengths[1:]]] if n * s > n else [])]
        for answer, (records, multipliers, room) in ((4, lengths), *((3, w) for w in wrong)):
            yield number or answer, p, n, s, p, [2 ** 31 - 1] * records, [2 ** 32 - 1] * multipliers, room


def writes(rng):
    """For each prime and some n: a good frame, and p and more as a multiplier and as the first and the last value."""
    for (p, n), s in zip(itertools.product(PRIMES, (1, 3, 9, 64)), itertools.cycle(WORDS)):
        row, values, room = any_row(rng, p, n), any_values(rng, p, s), 264 + 4 * s
        w = width(p)
        yield 200 + (n + 7) // 8 + w * sum(x > 0 for x in row) + w * s, p, n, s, row, values, room
        for x, place in itertools.product((p, rng.choice([p + 1, 2 ** 32 - 1])), sorted({rng.randrange(n), n, n + s - 1})):
            numbers = row + values
            numbers[place] = x
            yield 4, p, n, s, numbers[:n], numbers[n:], room


def lent_writes():
    """With each head, lengths as named and one off; all numbers are such that 4 refuses them."""
    for p, n, s, number in heads():
        lengths = [n, min(s, 17), 264 + 4 * min(s, 16)]
        for answer, (multipliers, values, room) in ((4, lengths), *((3, w) for w in one_off(lengths))):
            yield number or answer, p, n, s, [2 ** 32 - 1] * multipliers, [2 ** 32 - 1] * values, room


def words_of(*xs):
    """Each four bytes, signed ones in two's complement."""
    return struct.pack('>%dI' % len(xs), *[x % 2 ** 32 for x in xs])


def listed(xs):
    """Behind how many they are."""
    return words_of(len(xs), *xs)


class Cases:
    """The cases of one call, as they are stored, and how often each answer occurs; done is 0."""

    def __init__(self):
        self.out, self.count = bytearray(), [0] * 13

    def add(self, expected, answer, head, arguments, results):
        assert expected in (None, answer), (expected, answer, head)
        self.count[answer if answer < 200 else 0] += 1
        self.out += words_of(*head) + arguments + words_of(answer) + results

    def store(self, done):
        """Counts as the test program does, with its word for those that are done."""
        sys.stdout.buffer.write(bytes(self.out) + words_of(0))
        print(done, self.count[0], file=sys.stderr)
        for number, count in enumerate(self.count):
            if number and count:
                print('refused', number, count, file=sys.stderr)


def store_frames(rng):
    cases, accepted = Cases(), set()
    made = [damaged_frames(rng), ordered_frames(rng), sized_frames(rng), numbered_frames(rng), lent_frames(rng)]
    for expected, p, n, s, frame, *rooms in itertools.chain(*made):
        room, space = rooms or (n, s)
        number = refused(p, n, s, (room, n), (space, s))
        answer, *found = (number,) if number else read(p, n, s, frame)
        if found:
            assert frame_of(width(p), n, *found) == frame
            accepted.add((width(p), s))
        arguments = words_of(room, space, len(frame)) + frame
        cases.add(expected, answer, (p, n, s), arguments, words_of(*itertools.chain(*found)))
    assert len(accepted) == 4 * len(WORDS), 'a frame of each width with each number of words'
    cases.store('accepted')


def store_seals(rng):
    cases = Cases()
    for expected, p, n, s, low, records, xs, room in itertools.chain(seals(rng), lent_seals()):
        answer, *values = seal(p, n, s, low, records, xs, room)
        arguments = words_of(low) + listed(records) + listed(xs) + words_of(room)
        cases.add(expected, answer, (p, n, s), arguments, words_of(*itertools.chain(*values)))
    cases.store('sealed')


def store_writes(rng):
    cases = Cases()
    for expected, p, n, s, row, values, room in itertools.chain(writes(rng), lent_writes()):
        answer, *frame = write(p, n, s, row, values, room)
        cases.add(expected, answer, (p, n, s), listed(row) + listed(values) + words_of(room), b''.join(frame))
    cases.store('written')


def main():
    rng = random.Random(int(sys.argv[1]) if len(sys.argv) > 1 else 2027)
    store_frames(rng)
    store_seals(rng)
    store_writes(rng)


main()
