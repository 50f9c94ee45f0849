"""A model of the board for tools/boards.py and tools/sheets.py: primes, frames, and a ledger with Gaussian elimination on lists of
Python numbers, straight from document 01's sections "Frame bytes" and "The board and its ledger", with document 02's #101, #103, #106
and #111.
"""


def is_prime(p):
    if p < 2 or p > 2147483647:
        return False
    d = 2
    while d * d <= p:
        if p % d == 0:
            return False
        d += 1
    return True


prime_cache = {}


def prime(p):
    if p not in prime_cache:
        prime_cache[p] = is_prime(p)
    return prime_cache[p]


def width(p):
    """The bytes of a number in a frame modulo p: the fewest that hold p - 1, from 1 to 4."""
    return next(w for w in (1, 2, 3, 4) if p - 1 < 256 ** w)


def frame_of(w, n, multipliers, values):
    """With numbers of w bytes."""
    bits = bytearray((n + 7) // 8)
    for j, x in enumerate(multipliers):
        if x:
            bits[j // 8] |= 1 << (j % 8)
    body = b''.join(x.to_bytes(w, 'big') for x in multipliers if x)
    return bytes(bits) + body + b''.join(v.to_bytes(w, 'big') for v in values)


def read(p, n, s, frame):
    """The multipliers and the s values, or the refusal's number."""
    w, size = width(p), (n + 7) // 8
    if len(frame) < size:
        return 6
    bits = [frame[j // 8] >> (j % 8) & 1 for j in range(8 * size)]
    k = sum(bits)
    if len(frame) != size + w * k + w * s:
        return 6
    if any(bits[n:]):
        return 7
    numbers = [int.from_bytes(frame[size + w * t:size + w * t + w], 'big') for t in range(k + s)]
    for x in numbers[:k]:
        if x == 0:
            return 8
        if x >= p:
            return 4
    if any(v >= p for v in numbers[k:]):
        return 4
    rest = iter(numbers)
    return [next(rest) if b else 0 for b in bits[:n]], numbers[k:]


def combination(p, rows, target):
    """The multipliers of the rows that give the target, or None: elimination on the columns of the system."""
    k, n = len(rows), len(target)
    system = [[rows[t][j] for t in range(k)] + [target[j]] for j in range(n)]
    at, pivots = 0, []
    for c in range(k):
        i = next((r for r in range(at, n) if system[r][c]), None)
        if i is None:
            continue
        system[at], system[i] = system[i], system[at]
        inv = pow(system[at][c], -1, p)
        system[at] = [x * inv % p for x in system[at]]
        for r in range(n):
            if r != at and system[r][c]:
                f = system[r][c]
                system[r] = [(x - f * y) % p for x, y in zip(system[r], system[at])]
        pivots.append(c)
        at += 1
    if any(row[k] for row in system[at:]):
        return None
    u = [0] * k
    for r, c in enumerate(pivots):
        u[c] = system[r][k]
    return u


def independent(p, rows):
    return all(combination(p, rows[:t], row) is None for t, row in enumerate(rows))


def mixed(p, factors, columns, s):
    """The combination of s values each."""
    return [sum(f * values[w] for f, values in zip(factors, columns)) % p for w in range(s)]


def board_words(n, s):
    return 4 + n * (n + s)


def is_board(words):
    if len(words) < 4 or not prime(words[0]) or not 1 <= words[1] <= 64 or not 1 <= words[3] <= 16:
        return False
    p, n, k, s = words[:4]
    if len(words) != board_words(n, s) or k > n:
        return False
    rows = [words[4 + i * (n + s):4 + (i + 1) * (n + s)] for i in range(k)]
    if any(x >= p for row in rows for x in row) or any(words[4 + k * (n + s):]):
        return False
    return independent(p, [row[:n] for row in rows])


class Board:
    """Words in memory; each call works on the ledger that they hold, a list of multipliers and s values."""

    def __init__(self, words):
        self.words = words

    def ledger(self):
        p, n, k, s = self.words[:4]
        rows = [self.words[4 + i * (n + s):4 + (i + 1) * (n + s)] for i in range(k)]
        return p, n, s, [(row[:n], row[n:]) for row in rows]

    def lay(self, entries):
        p, n, _, s = self.words[:4]
        flat = [x for row, values in entries for x in row + values]
        self.words = [p, n, len(entries), s] + flat + [0] * (n * (n + s) - len(flat))

    def open(self, p, n, s):
        if not prime(p):
            return 1
        if not 1 <= n <= 64:
            return 2
        if not 1 <= s <= 16:
            return 12
        if len(self.words) != board_words(n, s):
            return 3
        self.words = [p, n, 0, s] + [0] * (n * (n + s))
        return 0

    def take(self, frame, mix):
        if not is_board(self.words):
            return 11, mix
        p, n, s, entries = self.ledger()
        if len(mix) != n:
            return 3, mix
        found = read(p, n, s, frame)
        if isinstance(found, int):
            return found, mix
        row, values = found
        u = combination(p, [r for r, _ in entries], row)
        if u is None:
            self.lay(entries + [(row, values)])
            return 0, mix
        mix = u + [0] * (n - len(u))
        return (100 if mixed(p, u, [v for _, v in entries], s) == values else 9), mix

    def withdraw(self, t):
        if not is_board(self.words):
            return 11
        _, _, _, entries = self.ledger()
        if t > len(entries):
            return 10
        self.lay(entries[:len(entries) - t])
        return 200 + len(entries) - t

    def show(self, low, marks, numbers):
        if not is_board(self.words):
            return 11, marks, numbers
        p, n, s, entries = self.ledger()
        if len(marks) != n or len(numbers) != n * s:
            return 3, marks, numbers
        if low >= p:
            return 4, marks, numbers
        rows = [r for r, _ in entries]
        out_marks, out_numbers = [], []
        for j in range(n):
            # record j is settled exactly if its unit row is a combination of the standing rows
            u = combination(p, rows, [1 if c == j else 0 for c in range(n)])
            if u is None:
                out_marks.append(0)
                out_numbers += [0] * s
            else:
                out_marks.append(1)
                out_numbers += [(v + low) % p - low for v in mixed(p, u, [v for _, v in entries], s)]
        return 200 + n - len(entries), out_marks, out_numbers
