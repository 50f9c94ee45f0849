#!/usr/bin/env python3
"""Cases for the test program of the tables: crates/test_matrix/stdin.

An exact solver of its own, by row reduction with pivots chosen column by column, shares no code and no method with the
library, which recurses on halves of the rows. For each case it works out I, J, D, the kernel and a solution as document 01
describes them, checks ADA = A and DAD = D, and writes all numbers as four bytes, most significant first:

    p m n, A, rank, D, column marks, row marks, kernel count, basis, w, answer, z, u, nearest z, remainder

z and u are what solve leaves where z was lent holding 7 and u holding 9 everywhere; the nearest z and the remainder are what fit
leaves. A case of p = 0 ends this list. Behind it stand tables for check, each with D from elsewhere, right ones and wrong ones:

    p m n, A, how many D, then D and its answer so many times

and a table of p = 0 ends the file. An answer is judged by the whole products ADA and DAD, and by the row reduction. The counts go to
standard error.

  tools/tables.py [SEED]      (seed 2026 makes the stored file)
"""
import collections
import itertools
import random
import struct
import sys

PRIMES = [2, 3, 5, 7, 13, 251, 257, 65521, 65537, 16777213, 1073741789, 2147483629, 2147483647]


def reduced(rows, width, p):
    """Reduced row echelon form and its pivot columns."""
    rows = [r[:] for r in rows]
    pivots, at = [], 0
    for c in range(width):
        k = next((i for i in range(at, len(rows)) if rows[i][c]), None)
        if k is None:
            continue
        rows[at], rows[k] = rows[k], rows[at]
        inv = pow(rows[at][c], p - 2, p) if p > 2 else 1
        rows[at] = [x * inv % p for x in rows[at]]
        for i in range(len(rows)):
            if i != at and rows[i][c]:
                f = rows[i][c]
                rows[i] = [(x - f * y) % p for x, y in zip(rows[i], rows[at])]
        pivots.append(c)
        at += 1
    return rows, pivots


def times(x, y, width, p):
    """The product of two tables, the second of which has so many columns."""
    return [[sum(s * y[t][j] for t, s in enumerate(row)) % p for j in range(width)] for row in x]


def rank_of(x, width, p):
    return len(reduced(x, width, p)[1])


def judged(p, m, n, a, d):
    """Whether ADA = A, and whether DAD = D."""
    ad = times(a, d, m, p)
    return times(ad, a, n, p) == a, times(d, ad, m, p) == d


def quasiinverse(p, m, n, a):
    """I, J and D, as document 01 describes them."""
    _, columns = reduced(a, n, p)
    _, rows = reduced([[a[i][j] for i in range(m)] for j in range(n)], m, p)
    r = len(columns)
    assert r == len(rows)
    # the inverse of A on J and I
    square = [[a[y][c] for c in columns] + [1 if k == t else 0 for t in range(r)] for k, y in enumerate(rows)]
    inv, pivots = reduced(square, r, p)
    assert pivots == list(range(r))
    d = [[0] * m for _ in range(n)]
    for k, c in enumerate(columns):
        for t, y in enumerate(rows):
            d[c][y] = inv[k][r + t]
    assert judged(p, m, n, a, d) == (True, True)
    return columns, rows, d


def solve_case(p, m, n, a, w):
    columns, rows, d = quasiinverse(p, m, n, a)
    r = len(columns)
    # the kernel: column c of 1 - DA for each c outside I
    da = [[sum(d[i][t] * a[t][j] for t in range(m)) % p for j in range(n)] for i in range(n)]
    basis = []
    for c in range(n):
        if c not in columns:
            vector = [((1 if j == c else 0) - da[j][c]) % p for j in range(n)]
            assert all(sum(a[i][j] * vector[j] for j in range(n)) % p == 0 for i in range(m))
            basis += vector
    vectors = n - r
    basis += [0] * (n * n - len(basis))
    z = [sum(d[i][t] * w[t] for t in range(m)) % p for i in range(n)]
    back = [sum(a[i][j] * z[j] for j in range(n)) % p for i in range(m)]
    # the nearest fit, and that it is one: 0 outside I, the remainder 0 on J, and both together w
    nearest, rest = z, [(x - b) % p for x, b in zip(w, back)]
    assert all(nearest[c] == 0 for c in range(n) if c not in columns)
    assert all(rest[y] == 0 for y in rows)
    assert [(b + e) % p for b, e in zip(back, rest)] == w
    if back == w:
        answer, u = 200 + r, [0] * m
    else:
        y = next(i for i in range(m) if back[i] != w[i])
        u = [((1 if t == y else 0) - sum(a[y][j] * d[j][t] for j in range(n))) % p for t in range(m)]
        assert all(sum(u[t] * a[t][j] for t in range(m)) % p == 0 for j in range(n))
        assert sum(x * v for x, v in zip(u, w)) % p
        answer, z = 5, [7] * n
    return r, d, columns, rows, vectors, basis, answer, z, u, nearest, rest


def factored(rng, p, m, n, rank):
    """A random product of m rows of so many numbers and as many rows of n: a table of at most that rank."""
    left = [[rng.randrange(p) for _ in range(rank)] for _ in range(m)]
    right = [[rng.randrange(p) for _ in range(n)] for _ in range(rank)]
    return [[sum(x * right[t][j] for t, x in enumerate(row)) % p for j in range(n)] for row in left]


def table(rng, p, m, n, rank):
    """A random table of at most that rank, with zero rows and columns and permuted lines now and then."""
    kind = rng.randrange(6)
    if kind == 0:
        a = [[rng.randrange(p) for _ in range(n)] for _ in range(m)]
    else:
        a = factored(rng, p, m, n, rank)
    if kind == 2:
        for i in range(m):
            if rng.random() < 0.3:
                a[i] = [0] * n
    if kind == 3:
        for j in range(n):
            if rng.random() < 0.3:
                for i in range(m):
                    a[i][j] = 0
    if kind == 4:
        a = [[x if rng.random() < 0.3 else 0 for x in row] for row in a]
    if kind == 5 and m > 1:
        for _ in range(m // 2):
            i, k = rng.randrange(m), rng.randrange(m)
            a[i] = a[k][:]
        rng.shuffle(a)
    return a


def of_rank(rng, p, m, n, rank):
    """A random table of just that rank."""
    while True:
        a = factored(rng, p, m, n, rank)
        if rank_of(a, n, p) == rank:
            return a


def solved(rng):
    """The first list: tables with a right side each, and what the four calls answer and leave."""
    out = []
    counts = collections.Counter()
    cases = []
    for m in range(4):
        for n in range(4):
            cases.append((rng.choice(PRIMES), m, n))
    for _ in range(276):
        cases.append((rng.choice(PRIMES), rng.randrange(17), rng.randrange(17)))
    for k in range(12):
        cases.append((PRIMES[k + 1], rng.choice([64, 64, 63, 33]), rng.choice([64, 64, 31, 50])))
    tables = []
    for p, m, n in cases:
        a = table(rng, p, m, n, rng.randrange(min(m, n) + 1))
        if rng.random() < 0.6:
            x = [rng.randrange(p) for _ in range(n)]
            w = [sum(r * s for r, s in zip(row, x)) % p for row in a]
        else:
            w = [rng.randrange(p) for _ in range(m)]
        tables.append((p, m, n, a, w))
    # every rank, as high as wide, higher and wider, with any right side
    for m, n in [(8, 8), (9, 5), (5, 9)]:
        for rank in range(min(m, n) + 1):
            p = rng.choice(PRIMES)
            tables.append((p, m, n, of_rank(rng, p, m, n, rank), [rng.randrange(p) for _ in range(m)]))
    for p, m, n, a, w in tables:
        r, d, columns, rows, vectors, basis, answer, z, u, nearest, rest = solve_case(p, m, n, a, w)
        words = [p, m, n] + sum(a, []) + [r] + sum(d, [])
        words += [1 if c in columns else 0 for c in range(n)] + [1 if y in rows else 0 for y in range(m)]
        words += [vectors] + basis + w + [answer] + z + u + nearest + rest
        out += words
        counts['insoluble' if answer == 5 else 'solved'] += 1
    counts['cases'] = len(tables)
    out.append(0)
    return out, counts


def random_table(rng, p, m, n):
    return [[rng.randrange(p) for _ in range(n)] for _ in range(m)]


def every_table(p, m, n):
    """All tables of m rows and n columns."""
    for numbers in itertools.product(range(p), repeat=m * n):
        yield [list(numbers[i * n:(i + 1) * n]) for i in range(m)]


def unit(n):
    return [[int(i == j) for j in range(n)] for i in range(n)]


def unit_minus(x, p):
    return [[(int(i == j) - s) % p for j, s in enumerate(row)] for i, row in enumerate(x)]


def permuted(rng, p, m, n, a):
    """The quasiinverse of A with its rows and its columns in another order, put back: on other rows and columns than ours."""
    rows, columns = rng.sample(range(m), m), rng.sample(range(n), n)
    _, _, e = quasiinverse(p, m, n, [[a[y][c] for c in columns] for y in rows])
    d = [[0] * m for _ in range(n)]
    for j, c in enumerate(columns):
        for i, y in enumerate(rows):
            d[c][y] = e[j][i]
    return d


def inner(rng, p, m, n, a, d):
    """G = D + (1 - DA)X + Y(1 - AD) for any X and Y, with AGA = A. GAG = G exactly where both have one rank."""
    x = times(unit_minus(times(d, a, n, p), p), random_table(rng, p, n, m), m, p)
    y = times(random_table(rng, p, n, m), unit_minus(times(a, d, m, p), p), m, p)
    return [[(s + t + u) % p for s, t, u in zip(*rows)] for rows in zip(d, x, y)]


def mixed(p, m, n, a, g):
    """GAG, a quasiinverse that need not be 0 anywhere."""
    return times(times(g, a, n, p), g, m, p)


def lower(rng, p, m, n, a, rows):
    """A quasiinverse of some rows of J alone, the others being 0: DAD = D, but its rank is too small for ADA = A."""
    kept = rng.sample(rows, rng.randrange(1, len(rows)))
    return permuted(rng, p, m, n, [row if y in kept else [0] * n for y, row in enumerate(a)])


def changed(rng, p, d):
    """D with one number changed, at each place: where p is small to each other residue, otherwise to one of them."""
    for i, row in enumerate(d):
        for j, s in enumerate(row):
            for v in range(p) if p < 8 else [(s + rng.randrange(1, p)) % p]:
                if v != s:
                    yield d[:i] + [row[:j] + [v] + row[j + 1:]] + d[i + 1:]


def several(rng, p, m, n, a):
    """D of each kind for a table, ours among them. Without rows or columns there is only one."""
    _, rows, d = quasiinverse(p, m, n, a)
    pairs = [('own', d)]
    if m == 0 or n == 0:
        return pairs
    for _ in range(2):
        g = inner(rng, p, m, n, a, d)
        pairs += [('permuted', permuted(rng, p, m, n, a)), ('inner', g), ('mixed', mixed(p, m, n, a, g))]
    if len(rows) > 1:
        pairs.append(('lower', lower(rng, p, m, n, a, rows)))
    return pairs + [('zero', [[0] * m for _ in range(n)]), ('random', random_table(rng, p, n, m))]


def largest_pairs(rng):
    """The largest tables, with few D: of a middle rank, and of the full rank with the last number of D changed."""
    p = 2147483647
    a = of_rank(rng, p, 64, 64, 41)
    g = inner(rng, p, 64, 64, a, quasiinverse(p, 64, 64, a)[2])
    yield p, 64, 64, a, [('inner', g), ('mixed', mixed(p, 64, 64, a, g))]
    p = 2147483629
    a = of_rank(rng, p, 64, 64, 64)
    d = quasiinverse(p, 64, 64, a)[2]
    *_, last = changed(rng, p, d)
    yield p, 64, 64, a, [('own', d), ('changed', last)]


def pair_families(rng):
    """Tables for check, each with its D and their kinds."""
    for p, m, n in [(2, 2, 2), (3, 1, 2), (3, 2, 1), (5, 1, 1)]:
        for a in every_table(p, m, n):
            yield p, m, n, a, [('every', d) for d in every_table(p, n, m)]
    # the documents' examples, tables whose products differ at one place alone, and large primes
    small = [(5, [[1, 0]]), (7, [[1, 2, 0], [0, 1, 3]]), (5, [[0, 1], [1, 1]]), (5, [[1, 2], [2, 4]]), (5, [[0, 3]]), (2, [[0]])]
    small += [(3, unit(4)), (3, [[0] * 4 for _ in range(3)]), (2, [[1, 0, 0], [0, 1, 0], [0, 0, 0], [0, 0, 0]])]
    small += [(p, of_rank(rng, p, m, n, r)) for p, m, n, r in [(257, 5, 3, 3), (65537, 5, 5, 5), (2147483647, 4, 5, 2)]]
    for p, a in small:
        m, n = len(a), len(a[0])
        d = quasiinverse(p, m, n, a)[2]
        yield p, m, n, a, [('own', d)] + [('changed', e) for e in changed(rng, p, d)]
    shapes = [(m, n) for m in range(4) for n in range(4)] + [(rng.randrange(13), rng.randrange(13)) for _ in range(60)]
    for m, n in shapes + [(1, 64), (64, 1), (64, 7), (9, 64)]:
        p = rng.choice(PRIMES)
        a = table(rng, p, m, n, rng.randrange(min(m, n) + 1))
        yield p, m, n, a, several(rng, p, m, n, a)
    for m, n in [(6, 6), (7, 4), (4, 7)]:
        for rank in range(min(m, n) + 1):
            p = rng.choice(PRIMES)
            a = of_rank(rng, p, m, n, rank)
            yield p, m, n, a, several(rng, p, m, n, a)
    yield from largest_pairs(rng)


# Whether ADA = A and DAD = D for D of each kind, as far as the kind says it; any other kind may be either.
KINDS = {
    'own': [(True, True)], 'permuted': [(True, True)], 'mixed': [(True, True)],
    'inner': [(True, True), (True, False)], 'lower': [(False, True)], 'zero': [(True, True), (False, True)],
}


def assert_fits(rng, p, m, n, a, d, rank):
    """An accepted D has A's rank, and what it leaves over of w is 0 exactly if the system has a solution. Counts both."""
    assert rank_of(d, m, p) == rank
    counts = collections.Counter()
    for k in range(3):
        w = random_table(rng, p, m, 1) if k else times(a, random_table(rng, p, n, 1), 1, p)
        back = times(a, times(d, w, 1, p), 1, p)
        is_soluble = rank_of([row + x for row, x in zip(a, w)], n + 1, p) == rank
        assert (back == w) == is_soluble
        assert is_soluble or k
        counts['right sides soluble' if is_soluble else 'right sides insoluble'] += 1
    return counts


def assert_every(p, m, n, a, answers):
    """Of all D, p^(mn - rr) have ADA = A; accepted are as many as there are complements of the kernel and of the image."""
    r = rank_of(a, n, p)
    accepted = p ** (r * (n - r)) * p ** (r * (m - r))
    assert answers.count(200 + r) == accepted
    assert answers.count(18) == p ** (m * n - r * r) - accepted


def answer_to(rng, p, m, n, a, d, kind, counts):
    """What check answers, by the two products; it is counted by its kind, and D by its own."""
    rank = rank_of(a, n, p)
    is_inner, is_outer = judged(p, m, n, a, d)
    assert (is_inner, is_outer) in KINDS.get(kind, [(is_inner, is_outer)])
    counts['kind %s' % kind] += 1
    counts['%s, %s' % ('ADA = A' if is_inner else 'ADA differs', 'DAD = D' if is_outer else 'DAD differs')] += 1
    if not is_inner or not is_outer:
        answer = 18 if is_inner else 17
        counts['refused-%d' % answer] += 1
        return answer
    counts['accepted'] += 1
    counts['accepted with a number changed'] += kind == 'changed'
    counts['accepted on other rows and columns'] += kind in ('permuted', 'mixed') and d != quasiinverse(p, m, n, a)[2]
    counts.update(assert_fits(rng, p, m, n, a, d, rank))
    return 200 + rank


def checked(rng):
    """The second list: tables with D from elsewhere, and what check answers."""
    out = []
    counts = collections.Counter()
    for p, m, n, a, pairs in pair_families(rng):
        answers = [answer_to(rng, p, m, n, a, d, kind, counts) for kind, d in pairs]
        if pairs[0][0] == 'every':
            assert_every(p, m, n, a, answers)
        out += [p, m, n] + sum(a, []) + [len(pairs)]
        for (_, d), answer in zip(pairs, answers):
            out += sum(d, []) + [answer]
        counts['tables'] += 1
    # every kind occurs, every answer often, and many accepted D are others than ours
    assert len(counts) == 21 and min(counts.values()) >= 5, counts
    assert min(counts[name] for name in ['accepted', 'refused-17', 'refused-18', 'accepted on other rows and columns']) >= 150, counts
    out.append(0)
    return out, counts


def main():
    seed = int(sys.argv[1]) if len(sys.argv) > 1 else 2026
    # the second list has a generator of its own, so that the first one keeps its draws
    first, first_counts = solved(random.Random(seed))
    second, second_counts = checked(random.Random(seed + 113))
    for name, count in [*sorted(first_counts.items()), *sorted(second_counts.items())]:
        print(name, count, file=sys.stderr)
    words = first + second
    sys.stdout.buffer.write(struct.pack('>%dI' % len(words), *words))


main()
