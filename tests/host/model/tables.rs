//! Tables: quasiinverse, kernel, solve, fit and check.

use super::field::{dot, inverse};
use super::met::{first, lengths, met, no_modulus, note_size};

pub type Table = Vec<Vec<u64>>;

pub fn rows_of(m: usize, n: usize, a: &[u32]) -> Table {
    (0..m).map(|i| a[i * n..(i + 1) * n].iter().map(|&x| x as u64).collect()).collect()
}

pub fn transposed(m: usize, n: usize, a: &Table) -> Table {
    (0..n).map(|j| (0..m).map(|i| a[i][j]).collect()).collect()
}

/// The product of x, whose rows are as wide as y has rows, and y of the given width.
pub fn product(p: u64, x: &Table, y: &Table, width: usize) -> Table {
    let columns = transposed(y.len(), width, y);
    x.iter().map(|row| columns.iter().map(|column| dot(p, row.iter().copied(), column.iter().copied())).collect()).collect()
}

/// Reduces the table on its first `width` columns, row operations going through the whole rows; answers the pivot columns,
/// which are the columns (among those) that are no combination of the columns before them.
pub fn reduce(p: u64, t: &mut Table, width: usize) -> Vec<usize> {
    let mut pivots = Vec::new();
    for c in 0..width {
        let r = pivots.len();
        let Some(at) = (r..t.len()).find(|&i| t[i][c] != 0) else { continue };
        t.swap(r, at);
        let s = inverse(p, t[r][c]);
        for x in &mut t[r][c..] {
            *x = *x * s % p;
        }
        let row = t[r].clone();
        for (i, other) in t.iter_mut().enumerate() {
            if i != r && other[c] != 0 {
                let f = p - other[c];
                for (x, y) in other[c..].iter_mut().zip(&row[c..]) {
                    *x = (*x + f * y) % p;
                }
            }
        }
        pivots.push(c);
    }
    pivots
}

pub struct Quasi {
    pub columns: Vec<usize>,
    pub rows: Vec<usize>,
    pub d: Table,
}

pub fn quasi(p: u64, m: usize, n: usize, a: &Table) -> Quasi {
    let columns = reduce(p, &mut a.clone(), n);
    let rows = reduce(p, &mut transposed(m, n, a), m);
    let r = columns.len();
    assert!(rows.len() == r, "the model's column rank {r} is not its row rank {}", rows.len());
    // the inverse of A on those rows and columns, by reducing (A there | 1)
    let mut s: Table = Vec::new();
    for (x, &i) in rows.iter().enumerate() {
        let mut row: Vec<u64> = columns.iter().map(|&j| a[i][j]).collect();
        row.extend((0..r).map(|y| (x == y) as u64));
        s.push(row);
    }
    assert!(reduce(p, &mut s, r).len() == r, "the model's square part is singular");
    let mut d = vec![vec![0; m]; n];
    for (x, &j) in columns.iter().enumerate() {
        for (y, &i) in rows.iter().enumerate() {
            d[j][i] = s[x][r + y];
        }
    }
    Quasi { columns, rows, d }
}

fn lay(table: &[Vec<u64>], to: &mut [u32]) {
    for (place, x) in to.iter_mut().zip(table.iter().flatten()) {
        *place = *x as u32;
    }
}

fn mark(chosen: &[usize], to: &mut [u32]) {
    for (j, place) in to.iter_mut().enumerate() {
        *place = chosen.contains(&j) as u32;
    }
}

/// Checks 1, 2, 3, 4 of the table calls, and those that a call has after them. The first slice is A; `second`, a name and its numbers,
/// is the other one whose numbers are checked.
#[rustfmt::skip]
fn table_refusal(
    call: &str, (p, m, n): (u32, u32, u32), a: &[u32], second: (&str, &[u32]), slices: &[(&str, usize, u128)], after: &[(u32, bool)],
) -> Option<u32> {
    note_size(call, "m", p, m);
    note_size(call, "n", p, n);
    let in_a = a.iter().any(|&x| x >= p);
    let in_second = second.1.iter().any(|&x| x >= p);
    let four = [(1, no_modulus(call, p)), (2, m > 64 || n > 64), (3, lengths(call, slices)), (4, in_a || in_second)];
    let number = first(call, &[&four, after].concat())?;
    match number {
        2 => met(
            call,
            if m > 64 && n > 64 {
                "2 both"
            } else if m > 64 {
                "2 m"
            } else {
                "2 n"
            },
        ),
        4 => met(
            call,
            &if in_a && in_second {
                "4 both".to_string()
            } else {
                format!("4 {}", if in_a { "a" } else { second.0 })
            },
        ),
        _ => {}
    }
    Some(number)
}

fn note_done(call: &str, m: u32, n: u32, rank: usize) {
    met(call, "done");
    met(call, &format!("m {m}"));
    met(call, &format!("n {n}"));
    if m == 64 && n == 64 {
        met(call, &format!("64 by 64 rank {}", if rank == 64 { "full" } else { "lower" }));
    }
}

pub fn quasiinverse(p: u32, m: u32, n: u32, a: &[u32], d: &mut [u32], columns: &mut [u32], rows: &mut [u32]) -> u32 {
    let size = m as u128 * n as u128;
    let slices =
        [("a", a.len(), size), ("d", d.len(), size), ("columns", columns.len(), n as u128), ("rows", rows.len(), m as u128)];
    if let Some(number) = table_refusal("quasiinverse", (p, m, n), a, ("", &[]), &slices, &[]) {
        return number;
    }
    let q = quasi(p as u64, m as usize, n as usize, &rows_of(m as usize, n as usize, a));
    note_done("quasiinverse", m, n, q.columns.len());
    lay(&q.d, d);
    mark(&q.columns, columns);
    mark(&q.rows, rows);
    200 + q.columns.len() as u32
}

pub fn kernel(p: u32, m: u32, n: u32, a: &[u32], basis: &mut [u32]) -> u32 {
    let slices = [("a", a.len(), m as u128 * n as u128), ("basis", basis.len(), n as u128 * n as u128)];
    if let Some(number) = table_refusal("kernel", (p, m, n), a, ("", &[]), &slices, &[]) {
        return number;
    }
    let (q, m, n) = (p as u64, m as usize, n as usize);
    let a = rows_of(m, n, a);
    let found = quasi(q, m, n, &a);
    note_done("kernel", m as u32, n as u32, found.columns.len());
    let da = product(q, &found.d, &a, n);
    let outside: Vec<usize> = (0..n).filter(|c| !found.columns.contains(c)).collect();
    let vectors: Table = outside.iter().map(|&c| (0..n).map(|i| ((i == c) as u64 + q - da[i][c]) % q).collect()).collect();
    basis.fill(0);
    lay(&vectors, basis);
    200 + outside.len() as u32
}

/// What solve and fit begin with: the refusal, or A, w as u64, D w and the rank. The last slice is lent as many numbers as w has.
fn system(call: &str, p: u32, m: u32, n: u32, a: &[u32], w: &[u32], z: usize, last: (&str, usize)) -> Result<System, u32> {
    let slices =
        [("a", a.len(), m as u128 * n as u128), ("w", w.len(), m as u128), ("z", z, n as u128), (last.0, last.1, m as u128)];
    if let Some(number) = table_refusal(call, (p, m, n), a, ("w", w), &slices, &[]) {
        return Err(number);
    }
    let (q, m, n) = (p as u64, m as usize, n as usize);
    let a = rows_of(m, n, a);
    let found = quasi(q, m, n, &a);
    note_done(call, m as u32, n as u32, found.columns.len());
    let w: Vec<u64> = w.iter().map(|&x| x as u64).collect();
    let dw: Vec<u64> = found.d.iter().map(|row| dot(q, row.iter().copied(), w.iter().copied())).collect();
    let image = a.iter().map(|row| dot(q, row.iter().copied(), dw.iter().copied())).collect();
    Ok(System { rank: found.columns.len() as u32, a, d: found.d, w, dw, image })
}

struct System {
    rank: u32,
    a: Table,
    d: Table,
    w: Vec<u64>,
    dw: Vec<u64>,
    image: Vec<u64>,
}

pub fn solve(p: u32, m: u32, n: u32, a: &[u32], w: &[u32], z: &mut [u32], u: &mut [u32]) -> u32 {
    let t = match system("solve", p, m, n, a, w, z.len(), ("u", u.len())) {
        Err(number) => return number,
        Ok(t) => t,
    };
    let Some(y) = (0..m as usize).find(|&y| t.image[y] != t.w[y]) else {
        met("solve", "solved");
        lay(&[t.dw], z);
        u.fill(0);
        return 200 + t.rank;
    };
    met("solve", "5");
    let q = p as u64;
    let row = product(q, &vec![t.a[y].clone()], &t.d, m as usize).remove(0);
    for (i, place) in u.iter_mut().enumerate() {
        *place = (((i == y) as u64 + q - row[i]) % q) as u32;
    }
    5
}

/// #102: "z = Dw and the remainder w - Az, for each accepted table .. The result is r; the checks are solve's without 5."
pub fn fit(p: u32, m: u32, n: u32, a: &[u32], w: &[u32], z: &mut [u32], rest: &mut [u32]) -> u32 {
    let t = match system("fit", p, m, n, a, w, z.len(), ("rest", rest.len())) {
        Err(number) => return number,
        Ok(t) => t,
    };
    lay(&[t.dw], z);
    for (i, place) in rest.iter_mut().enumerate() {
        *place = ((t.w[i] + p as u64 - t.image[i]) % p as u64) as u32;
    }
    met("fit", if t.image == t.w { "nothing left over" } else { "left over" });
    200 + t.rank
}

/// #113: "Accept D exactly if ADA = A and DAD = D, and give the rank .. Order: 1, 2, 3, 4 (A, then D), then the new two as numbered."
pub fn check(p: u32, m: u32, n: u32, a: &[u32], d: &[u32]) -> u32 {
    let size = m as u128 * n as u128;
    let slices = [("a", a.len(), size), ("d", d.len(), size)];
    // worked out wherever there are two tables to multiply, refused or not, to see that 17 and 18 come after the other checks
    let there = p > 0 && m < 100 && n < 100 && slices.iter().all(|slice| slice.1 as u128 == size);
    let (inner, outer) = if there { differences(p, m as usize, n as usize, a, d) } else { (Vec::new(), Vec::new()) };
    let after = [(17, !inner.is_empty()), (18, !outer.is_empty())];
    if let Some(number) = table_refusal("check", (p, m, n), a, ("d", d), &slices, &after) {
        match number {
            3 => note_crossed(p, (a, a.len() as u128 == size), (d, d.len() as u128 == size)),
            17 => note_place(17, m, n, &inner),
            18 => note_place(18, n, m, &outer),
            _ => {}
        }
        return number;
    }
    let rank = reduce(p as u64, &mut rows_of(m as usize, n as usize, a), n as usize).len();
    note_done("check", m, n, rank);
    200 + rank as u32
}

/// The places where ADA differs from A modulo p, and those where DAD differs from D.
fn differences(p: u32, m: usize, n: usize, a: &[u32], d: &[u32]) -> (Vec<usize>, Vec<usize>) {
    let (q, a, d) = (p as u64, rows_of(m, n, a), rows_of(n, m, d));
    let ad = product(q, &a, &d, m);
    let places = |x: Table, y: &Table| {
        let pairs = x.iter().flatten().zip(y.iter().flatten()).enumerate();
        pairs.filter(|(_, (x, y))| **x != **y % q).map(|(at, _)| at).collect()
    };
    (places(product(q, &ad, &a, n), &a), places(product(q, &d, &ad, m), &d))
}

/// Notes a 3 where one table has the wrong length and the other one a bad number. Each comes with whether its length is right.
fn note_crossed(p: u32, a: (&[u32], bool), d: (&[u32], bool)) {
    let bad = |list: &[u32]| list.iter().any(|&x| x >= p);
    match ((a.1, bad(a.0)), (d.1, bad(d.0))) {
        ((false, false), (true, true)) => met("check", "3 a before 4 d"),
        ((true, true), (false, false)) => met("check", "3 d before 4 a"),
        _ => {}
    }
}

/// Notes where a 17 or 18 is about one corner alone of a table of so many rows, more than one, and so wide.
fn note_place(number: u32, rows: u32, width: u32, places: &[usize]) {
    if let ([at], true) = (places, rows > 1 && width > 1) {
        let last = (rows * width) as usize - 1;
        let corners = [0, width as usize - 1, last + 1 - width as usize, last];
        if let Some(corner) = corners.iter().position(|corner| corner == at) {
            met("check", &format!("{number} at corner {corner} alone"));
            if last == 4095 {
                met("check", &format!("{number} at corner {corner} alone of 64 by 64"));
            }
        }
    }
}
