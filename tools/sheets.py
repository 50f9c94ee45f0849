#!/usr/bin/env python3
"""Stored runs of the sheet program: tests/sheet/NAME.in and NAME.out, and the crate's own run, crates/sheet/stdin and stdout.

A model of the sheet, straight from document 01's section "The sheet program and the C side", says what each input prints. Its
ledger is a reduced echelon form that each new frame joins; primes and the bytes of frames are those of tools/model.py, whose
ledger solves a system for each frame instead; a record has one word. The example of document 01 is also written out here, and the
model must print it.

  tools/sheets.py             writes all files again, from the repository's root
  tools/sheets.py FOLDER      writes the streams that are too long to store, NAME.in and NAME.out, to the folder (tests/sheet/run)
"""
import os
import random
import struct
import sys

sys.dont_write_bytecode = True
import model  # noqa: E402
from model import prime, width  # noqa: E402

EXAMPLE = b'new 1\nnew 2\nrepeat 2\nconflict 2\nnew 3\n0 -2\n1 0\n2 -1\nmissing 0\n'


def frame_of(w, n, multipliers, value):
    """With numbers of w bytes and one value."""
    return model.frame_of(w, n, multipliers, [value])


class Ledger:
    """The standing frames as a reduced echelon form: rows of n multipliers and the value, by their leading column."""

    def __init__(self, p, n):
        self.p, self.n, self.rows = p, n, {}

    def take(self, row, value):
        """'new', 'repeat' or 'conflict'."""
        p, rest = self.p, row + [value]
        for lead, standing in self.rows.items():
            factor = rest[lead]
            rest = [(x - factor * y) % p for x, y in zip(rest, standing)]
        lead = next((j for j in range(self.n) if rest[j]), None)
        if lead is None:
            return 'conflict' if rest[self.n] else 'repeat'
        inverse = pow(rest[lead], -1, p)
        rest = [x * inverse % p for x in rest]
        for other, standing in self.rows.items():
            factor = standing[lead]
            self.rows[other] = [(x - factor * y) % p for x, y in zip(standing, rest)]
        self.rows[lead] = rest
        return 'new'

    def record(self, j):
        """Its signed reading, where its row has no multiplier but its own."""
        row = self.rows.get(j)
        if row is None or any(x for c, x in enumerate(row[:self.n]) if c != j):
            return 'unknown'
        return str(row[self.n] if 2 * row[self.n] <= self.p else row[self.n] - self.p)


def sheet(data):
    """What the program prints for these bytes."""
    if len(data) < 5:
        return b'refused 6\n'
    p, n, at, lines = int.from_bytes(data[:4], 'big'), data[4], 5, []
    if not prime(p) or not 1 <= n <= 64:
        return b'refused 1\n' if not prime(p) else b'refused 2\n'
    ledger = Ledger(p, n)
    while at < len(data):
        size = int.from_bytes(data[at:at + 2], 'big')
        frame = data[at + 2:at + 2 + size]
        if len(data) < at + 2 or len(frame) < size:
            lines.append('refused 6')
            break
        found = model.read(p, n, 1, frame)
        if isinstance(found, int):
            lines.append('refused %d' % found)
        else:
            row, [value] = found
            answer = ledger.take(row, value)
            lines.append('%s %d' % (answer, len(ledger.rows)))
        at += 2 + size
    lines += ['%d %s' % (j, ledger.record(j)) for j in range(n)]
    lines.append('missing %d' % (n - len(ledger.rows)))
    return ''.join(line + '\n' for line in lines).encode()


def header(p, n):
    return struct.pack('>IB', p, n)


def sized(frame):
    return struct.pack('>H', len(frame)) + frame


def stream(p, n, *frames):
    """Each frame is its bytes, or (multipliers, value)."""
    return header(p, n) + b''.join(sized(f if isinstance(f, bytes) else frame_of(width(p), n, *f)) for f in frames)


def heat(rng, p, n, count):
    """A heat as the hall hears it: frames of random rows, some doubled, summed, falsified or damaged."""
    records = [rng.randrange(p) for _ in range(n)]
    heard, frames = [], []
    for _ in range(count):
        part = rng.choice([0.1, 0.5, 1.0])
        row = [rng.randrange(p) if rng.random() < part else 0 for _ in range(n)]
        kind = rng.random()
        if kind < 0.1 and heard:
            row = rng.choice(heard)
        elif kind < 0.25 and heard:
            f, g, a, b = rng.randrange(p), rng.randrange(p), rng.choice(heard), rng.choice(heard)
            row = [(f * x + g * y) % p for x, y in zip(a, b)]
        value = sum(x * r for x, r in zip(row, records)) % p
        if rng.random() < 0.1:
            value = (value + 1) % p
        else:
            heard.append(row)
        frame = bytearray(frame_of(width(p), n, row, value))
        kind = rng.random()
        if kind < 0.03:
            frame = frame[:rng.randrange(len(frame))]
        elif kind < 0.06:
            frame += bytes(rng.randrange(256) for _ in range(rng.randrange(1, 400)))
        elif kind < 0.09:
            frame[rng.randrange(len(frame))] ^= 1 << rng.randrange(8)
        frames.append(bytes(frame))
    return stream(p, n, *frames)


ROWS = [([1, 2, 0], 5), ([0, 1, 3], 4), ([1, 3, 3], 2), ([1, 3, 3], 3), ([0, 0, 1], 6)]
FIRST, SECOND = [frame_of(width(7), 3, *f) for f in ROWS[:2]]


def cut_inputs():
    whole = stream(7, 3, *ROWS)
    yield from ((f'header-{k}-bytes', whole[:k]) for k in range(5))
    yield 'header-alone', whole[:5]
    one = stream(7, 3, FIRST)
    yield 'cut-length', one + b'\0'
    yield 'cut-length-alone', header(7, 3) + b'\x01'
    yield from ((f'cut-frame-{k}-bytes', one + sized(SECOND)[:2 + k]) for k in range(len(SECOND)))
    # a last frame of 13 bytes, cut at the end of a number and inside one
    wide = stream(2147483647, 3, *ROWS[:2])
    yield from ((f'cut-wide-frame-{k}-bytes', wide[:k - 13]) for k in (5, 12))
    # the bytes that came of these would be another frame's answer
    yield 'cut-frame-whole-inside', one + struct.pack('>H', 20) + SECOND
    yield 'cut-frame-padding-inside', one + struct.pack('>H', 4) + b'\x08' + bytes(2)
    yield 'cut-frame-long', one + struct.pack('>H', 65535) + bytes(65534)


def refused_inputs():
    yield from ((f'open-modulus-{p}', stream(p, 3, *ROWS)) for p in (0, 1, 4, 2147117569, 2147483648, 4294967295))
    yield from ((f'open-records-{n}', header(7, n) + sized(FIRST)) for n in (0, 65, 255))
    yield 'open-modulus-before-records', header(4, 0)
    yield 'frame-number', stream(7, 3, b'\x01\x07\0', ([1, 0, 0], 7), FIRST)
    yield 'frame-length', stream(7, 3, FIRST[:-1], FIRST + b'\0', b'\x01', FIRST)
    yield 'frame-no-bytes', stream(7, 3, b'', FIRST, b'', SECOND, b'')
    yield 'frame-300-bytes', stream(7, 3, FIRST + bytes(300 - len(FIRST)), SECOND)
    yield 'frame-65535-bytes', stream(7, 3, FIRST + bytes(65535 - len(FIRST)), b'\x80' + bytes(65534), SECOND)
    padded = b'\x08\x01\x02'
    yield 'frame-padding', stream(7, 3, padded, FIRST)
    yield 'frame-padding-numbers', stream(7, 3, b'\x08\0\x07', FIRST)
    yield 'frame-padding-cut', stream(7, 3, padded[:2], padded[:1], FIRST)
    yield 'frame-padding-long', stream(7, 3, padded + b'\0', padded + padded[1:], padded + bytes(260), b'\xff' + bytes(268), FIRST)
    ones = b'\x01' * 9
    yield 'frame-no-padding', stream(7, 8, padded, padded[:-1], b'\xff' + ones, b'\xff' + ones[:-1], b'\x80' + padded[1:])
    last = bytes(7) + b'\x80'
    yield 'frame-no-padding-64', stream(7, 64, last + padded[1:], last + padded[1:-1], last, b'\xff' * 8 + bytes(64))
    yield 'frame-multiplier-zero', stream(7, 3, b'\x01' + bytes(2), FIRST)
    yield 'frame-conflict', stream(7, 3, ([0, 0, 0], 0), ([0, 0, 0], 1), FIRST, ([2, 4, 0], 3), ([2, 4, 0], 4))


def width_frames(p):
    """Frames of five records with the answer to each: with the greatest numbers modulo p, of wrong lengths and of four bytes a number,
    with a bit behind the last record, with numbers of p or more and 0, then frames that settle all records."""
    w, top, most = width(p), p - 1, 256 ** width(p) - 1
    good = frame_of(w, 5, [top] * 5, top)
    padded = bytes([good[0] | 0x20]) + good[1:]
    yield 'new 1', good
    yield from (('refused 6', f) for f in (good[:-1], good + b'\0', good[:-w], good + bytes(w), padded, padded + bytes(w - 1)))
    yield ('refused 6' if w < 4 else 'repeat 1'), frame_of(4, 5, [top] * 5, top)
    yield 'refused 7', padded + bytes(w)
    for x in (p, most):
        yield from (('refused 4', frame_of(w, 5, *f)) for f in (([x, 1, 0, 0, 0], 0), ([1, 0, 0, 0, x], 0), ([1, 1, 0, 0, 0], x)))
    yield 'refused 8', good[:1] + bytes(w) + good[1 + w:]
    yield 'conflict 1', frame_of(w, 5, [1] * 5, 2)
    units = [[int(c == j) for c in range(5)] for j in range(5)]
    values = (p // 2, p // 2 + 1, top, 1)
    yield from ((f'new {j + 2}', frame_of(w, 5, units[j], v)) for j, v in enumerate(values))
    yield 'repeat 5', frame_of(w, 5, units[4], (1 - sum(values)) % p)


def width_inputs():
    """On both sides of where one, two and three bytes end; and frames of four bytes a number, where p needs one."""
    for p in (251, 257, 65521, 65537, 16777213, 16777259):
        answers, frames = zip(*width_frames(p))
        data = stream(p, 5, *frames)
        assert sheet(data).decode().splitlines()[:len(answers)] == [*answers]
        yield f'width-{p}', data
    yield 'frame-old-width', stream(7, 3, *(frame_of(4, 3, *f) for f in ROWS), ([0, 0, 0], 0), frame_of(4, 3, [0, 0, 0], 0), FIRST)


def heats():
    rng = random.Random(2029)
    yield 'one-record-modulus-2', stream(2, 1, ([0], 0), ([1], 1), ([1], 0), ([1], 1))
    yield 'modulus-2', heat(rng, 2, 9, 60)
    yield 'both-ends', stream(2147483647, 3, ([1, 0, 0], 1073741823), ([0, 1, 0], 1073741824), ([0, 0, 5], 2147483642))
    yield 'none-settled', stream(7, 3, *ROWS[:2])
    yield '64-records', heat(rng, 2147483629, 64, 90)
    yield '64-records-modulus-2', heat(rng, 2, 64, 120)
    longest = frame_of(4, 64, [1] * 64, 5)
    assert len(longest) == 268
    yield '64-records-longest', stream(2147483647, 64, longest, longest + b'\0', bytes(269))
    yield 'many-frames', heat(rng, 251, 16, 1000)
    yield from ((f'heat-{n}-records', heat(rng, p, n, 3 * n)) for p, n in ((3, 5), (5, 8), (65537, 12), (2147483647, 33), (65521, 20)))


def mixed(rng, p, rows):
    """A combination of the rows."""
    factors = [rng.randrange(p) for _ in rows]
    return [sum(f * x for f, x in zip(factors, column)) % p for column in zip(*rows)]


def damaged(rng, w, frame):
    """Too short, too long, a bit behind the last of at most seven records, without its number and with it, a value that is no
    residue, or no bytes at all. Numbers have w bytes."""
    padded = bytes([frame[0] | 0x80]) + frame[1:]
    return rng.choice([frame[:-1], frame + b'\0', padded, padded + padded[-w:], frame[:-w] + b'\xff' * w, b''])


def long_stream(rng, p, n, late, count):
    """Repeats, conflicts and damaged frames to the end; of n rows the last two come late, and no record is settled before."""
    records = [rng.randrange(p) for _ in range(n)]
    rows = [[0] * j + [1] + [0] * (n - j - 2) + [1] * (j < n - 1) for j in range(n)]
    starts, frames = [*range(n - 2), *late], []
    for i in range(count):
        first = i in starts
        row = rows[starts.index(i)] if first else mixed(rng, p, [row for row, start in zip(rows, starts) if start < i])
        value = sum(x * r for x, r in zip(row, records)) % p
        if not first and rng.random() < 0.3:
            value = (value + rng.randrange(1, p)) % p
        frame = frame_of(width(p), n, row, value)
        frames.append(damaged(rng, width(p), frame) if not first and rng.random() < 0.05 else frame)
    return stream(p, n, *frames)


def conflicts(rng, p, n):
    """A conflict before the first row and behind every new one: with each count from 0 to n."""
    records, heard, frames = [rng.randrange(p) for _ in range(n)], [], [([0] * n, 1)]
    for j in rng.sample(range(n), n):
        heard.append([1 if c == j else x for c, x in enumerate(mixed(rng, p, heard) or [0] * n)])
        for row, off in ((heard[-1], 0), (mixed(rng, p, heard), rng.randrange(1, p))):
            frames.append((row, (sum(x * r for x, r in zip(row, records)) + off) % p))
    return stream(p, n, *frames)


def made():
    """Streams that are too long to be stored, or made for one thing, with a test that they are what they are made for."""
    rng = random.Random(2030)
    for p, n in ((3, 5), (2147483647, 4)):
        data = long_stream(rng, p, n, (66000, 70050), 70200)
        lines = sheet(data).decode().splitlines()
        new = [i for i, line in enumerate(lines) if line.startswith('new')]
        assert new[-2:] == [66000, 70050] and lines[-1] == 'missing 0', 'the last rows come behind 65,536 and 70,000 frames'
        assert {line.split()[0] for line in lines[70100:70200]} == {'repeat', 'conflict', 'refused'}
        assert {'refused 4', 'refused 6', 'refused 7'} <= set(lines)
        yield f'70200-frames-modulus-{p}', data
    for p in (2, 2147483629):
        data = conflicts(rng, p, 64)
        assert [line for line in sheet(data).split(b'\n') if line[:8] == b'conflict'] == [b'conflict %d' % k for k in range(65)]
        yield f'conflicts-modulus-{p}', data


def store(path, data):
    with open(path, 'wb') as f:
        f.write(data)


def store_runs(folder, runs):
    for name, data in runs:
        store(os.path.join(folder, name + '.in'), data)
        store(os.path.join(folder, name + '.out'), sheet(data))


def main():
    if len(sys.argv) > 1:
        store_runs(sys.argv[1], made())
        return
    root = os.path.join(os.path.dirname(os.path.abspath(__file__)), '..')
    example = stream(7, 3, *ROWS)
    assert sheet(example) == EXAMPLE
    store(os.path.join(root, 'crates/sheet/stdin'), example)
    store(os.path.join(root, 'crates/sheet/stdout'), EXAMPLE)
    runs = [*cut_inputs(), *refused_inputs(), *width_inputs(), *heats()]
    store_runs(os.path.join(root, 'tests/sheet'), runs)
    print('%d runs, and the example' % len(runs), file=sys.stderr)


main()
