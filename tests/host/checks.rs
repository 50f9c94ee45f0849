//! Check: quasiinverses that are not ours, on other rows and columns or combined, and tables that are none.

use crate::calls::Group;
use crate::draw::*;
use crate::lent::Rng;
use crate::model::{self, inverse, met, product, rows_of, Table};
use crate::table_calls::{self as calls, Given, Quasi};
use crate::tables::{image, no_combination, passes};
use std::collections::HashSet;

fn flat(table: &Table) -> Vec<u32> {
    table.iter().flatten().map(|x| *x as u32).collect()
}

fn zeros(list: &[u32]) -> bool {
    list.iter().all(|x| *x == 0)
}

/// G = D + (1 - DA)X + Y(1 - AD) for any X and Y, where ADA = A. Then AGA = A, and GAG is a quasiinverse.
fn inner(rng: &mut Rng, t: &Given, d: &[u32]) -> Table {
    let (q, m, n) = (t.p as u64, t.m as usize, t.n as usize);
    let (a, d) = (rows_of(m, n, &t.a), rows_of(n, m, d));
    let mut any = || -> Table { (0..n).map(|_| (0..m).map(|_| rng.under(t.p) as u64).collect()).collect() };
    let (x, y) = (any(), any());
    let dax = product(q, &d, &product(q, &a, &x, m), m);
    let yad = product(q, &product(q, &y, &a, n), &d, m);
    let number = |j: usize, i: usize| (d[j][i] + x[j][i] + (q - dax[j][i]) + y[j][i] + (q - yad[j][i])) % q;
    (0..n).map(|j| (0..m).map(|i| number(j, i)).collect()).collect()
}

/// GAG.
fn outer(t: &Given, g: &Table) -> Table {
    let (q, m, n) = (t.p as u64, t.m as usize, t.n as usize);
    product(q, &product(q, g, &rows_of(m, n, &t.a), n), g, m)
}

/// What may be sent for a quasiinverse of A: ours, ours with a number off, another, an inner one, or anything.
pub fn any_d(rng: &mut Rng, t: &Given) -> Vec<u32> {
    let (q, m, n) = (t.p as u64, t.m as usize, t.n as usize);
    let mut d = flat(&model::quasi(q, m, n, &rows_of(m, n, &t.a)).d);
    match rng.below(6) {
        0 | 1 => {}
        2 if !d.is_empty() => {
            let at = rng.below(d.len());
            d[at] = rng.under(t.p);
        }
        3 => d = flat(&outer(t, &inner(rng, t, &d))),
        4 => d = flat(&inner(rng, t, &d)),
        _ => d = table(rng, t.p, n, m),
    }
    d
}

fn order(rng: &mut Rng, len: usize) -> Vec<usize> {
    let mut order: Vec<usize> = (0..len).collect();
    (1..len).for_each(|i| order.swap(i, rng.below(i + 1)));
    order
}

/// The quasiinverse of A with its rows and columns in this order, put back into A's own order. Where A has several, it is mostly on
/// other rows and columns than ours.
fn reordered(g: &mut Group, t: &Given, rows: &[usize], columns: &[usize]) -> Vec<u32> {
    let (m, n) = (rows.len(), columns.len());
    let a = rows.iter().flat_map(|i| columns.iter().map(move |j| t.a[i * n + j])).collect();
    let found = calls::quasiinverse(g, &Given { a, ..t.clone() }, n * m, n, m);
    let mut d = vec![0; n * m];
    for (y, j) in columns.iter().enumerate() {
        rows.iter().enumerate().for_each(|(x, i)| d[j * m + i] = found.d[y * m + x]);
    }
    d
}

/// Quasiinverses that are mostly not ours: all are accepted with the rank, have that rank themselves, and what they leave over of a
/// right side is all 0 exactly if solve accepts it.
fn others(g: &mut Group, t: &Given, ours: &Quasi, sides: &[Vec<u32>]) {
    let (q, m, n) = (t.p as u64, t.m as usize, t.n as usize);
    let a = rows_of(m, n, &t.a);
    let (rows, columns) = (order(&mut g.rng, m), order(&mut g.rng, n));
    let any_order = reordered(g, t, &rows, &columns);
    let from_the_end = reordered(g, t, &(0..m).rev().collect::<Vec<_>>(), &(0..n).rev().collect::<Vec<_>>());
    let combined = flat(&outer(t, &inner(&mut g.rng, t, &ours.d)));
    let solved: Vec<u32> = sides.iter().map(|w| calls::solve(g, t, w, n, m).0).collect();
    for (name, d) in [("in any order", any_order), ("from the end", from_the_end), ("combined", combined)] {
        passes(g, t, &d, ours.number);
        let mut reduced = rows_of(n, m, &d);
        let rank = model::reduce(q, &mut reduced, m).len();
        g.demand(200 + rank as u32 == ours.number, || format!("rank {rank} of {d:?} for {:?} modulo {q}", t.a));
        for (w, number) in sides.iter().zip(&solved) {
            let nothing = left_over(t, &a, &d, w).iter().all(|x| *x == 0);
            g.demand(nothing == (*number != 5), || {
                format!("{d:?} for {:?} modulo {q} leaves nothing over of {w:?}: {nothing}, solve {number}", t.a)
            });
            if d != ours.d {
                met("check", if nothing { "nothing left over by another" } else { "left over by another" });
            }
        }
        if d != ours.d {
            met("check", &format!("another {name}"));
        }
    }
}

/// w - A(Dw).
fn left_over(t: &Given, a: &Table, d: &[u32], w: &[u32]) -> Vec<u64> {
    let q = t.p as u64;
    let z = image(q, &rows_of(t.n as usize, t.m as usize, d), &wide(w));
    image(q, a, &z).iter().zip(w).map(|(x, w)| (*w as u64 + q - x) % q).collect()
}

/// Tables that are no quasiinverses of A, and which of the two is told.
fn none(g: &mut Group, t: &Given, ours: &Quasi) {
    let (p, zero) = (t.p, zeros(&t.a));
    let all_zeros = calls::check(g, t, &vec![0; ours.d.len()]);
    g.demand(all_zeros == if zero { 200 } else { 17 }, || format!("{all_zeros} for {:?} modulo {p} and zeros", t.a));
    let of_zeros = calls::check(g, &Given { a: vec![0; t.a.len()], ..t.clone() }, &ours.d);
    g.demand(of_zeros == if zeros(&ours.d) { 200 } else { 18 }, || format!("{of_zeros} for zeros modulo {p} and {:?}", ours.d));
    if p > 2 {
        // by c, neither 0 nor 1: ADA is c A, and DAD is c c D
        let c = 2 + g.rng.under(p - 2) as u64;
        let times: Vec<u32> = ours.d.iter().map(|x| (*x as u64 * c % p as u64) as u32).collect();
        let got = calls::check(g, t, &times);
        g.demand(got == if zero { 200 } else { 17 }, || format!("{got} for {:?} modulo {p} and {c} times ours", t.a));
    }
    let inner = inner(&mut g.rng, t, &ours.d);
    let (is_outer, inner) = (outer(t, &inner) == inner, flat(&inner));
    let got = calls::check(g, t, &inner);
    g.demand(got == if is_outer { ours.number } else { 18 }, || format!("{got} for {:?} modulo {p} and {inner:?}, inner", t.a));
    if !ours.d.is_empty() {
        let any = g.rng.below(ours.d.len());
        let (at, by) = (g.rng.pick(&[0, ours.d.len() - 1, any]), 1 + g.rng.under(p - 1));
        one_off(g, t, &ours.d, at, by);
    }
}

/// A quasiinverse with something added to one number, at row j and column i. ADA is then A and a multiple, not by 0, of the product of
/// A's column j and row i: 17 exactly if neither of these is 0. Otherwise it may be another quasiinverse.
fn one_off(g: &mut Group, t: &Given, d: &[u32], at: usize, by: u32) {
    let (m, n) = (t.m as usize, t.n as usize);
    let mut off = d.to_vec();
    off[at] = ((d[at] as u64 + by as u64) % t.p as u64) as u32;
    let got = calls::check(g, t, &off);
    let (j, i) = (at / m, at % m);
    let touched = (0..m).any(|y| t.a[y * n + j] != 0) && !zeros(&t.a[i * n..][..n]);
    g.demand((got == 17) == touched, || format!("{got} for {:?} modulo {} and {off:?}, one off from {d:?}", t.a, t.p));
    met("check", &format!("one off {}", if got < 200 { got.to_string() } else { "accepted".to_string() }));
}

/// Products that differ at one place alone, however large the tables are. A is any table with zeros in row i and column j. Our D then has
/// zeros in row j and column i, and with a number where these meet, DAD lacks just that number. With a number where A's row i and column j
/// meet, D has its inverse there, and with any other number there ADA differs just where they meet.
fn one_place(g: &mut Group, p: u32, (m, n): (usize, usize), (i, j): (usize, usize)) {
    let mut a = table(&mut g.rng, p, m, n);
    a[i * n..][..n].fill(0);
    a.iter_mut().skip(j).step_by(n).for_each(|x| *x = 0);
    let mut t = Given { p, m: m as u32, n: n as u32, a };
    let Quasi { number, mut d, .. } = calls::quasiinverse(g, &t, n * m, n, m);
    let (x, place) = (1 + g.rng.under(p - 1), j * m + i);
    let of_x = inverse(p as u64, x as u64) as u32;
    d[place] = x;
    let not_outer = calls::check(g, &t, &d);
    t.a[i * n + j] = x;
    d[place] = of_x;
    let accepted = calls::check(g, &t, &d);
    d[place] = ((of_x as u64 + 1 + g.rng.under(p - 1) as u64) % p as u64) as u32;
    let not_inner = calls::check(g, &t, &d);
    let got = [not_outer, accepted, not_inner];
    g.demand(got == [18, number + 1, 17], || format!("{got:?} for {:?} modulo {p}, place {i} {j}, rank then {number}", t.a));
}

fn whole_check(g: &mut Group, t: &Given) {
    let (m, n) = (t.m as usize, t.n as usize);
    let ours = calls::quasiinverse(g, t, n * m, n, m);
    let sides = [right_side(&mut g.rng, t), right_side(&mut g.rng, t)];
    others(g, t, &ours, &sides);
    none(g, t, &ours);
}

pub fn checks(g: &mut Group, rounds: usize, most: usize) {
    for _ in 0..rounds {
        let p = any_p(&mut g.rng);
        let (m, n) = (g.rng.below(most + 1), g.rng.below(most + 1));
        let a = table(&mut g.rng, p, m, n);
        whole_check(g, &Given { p, m: m as u32, n: n as u32, a });
        if m * n > 0 {
            let (any_i, any_j) = (g.rng.below(m), g.rng.below(n));
            let place = (g.rng.pick(&[0, m - 1, any_i]), g.rng.pick(&[0, n - 1, any_j]));
            one_place(g, p, (m, n), place);
        }
    }
}

pub fn checks_largest(g: &mut Group, rounds: usize) {
    for round in 0..rounds {
        let p = PRIMES[PRIMES.len() - 1 - round % PRIMES.len()];
        let mut a: Vec<u32> = (0..4096).map(|_| g.rng.under(p)).collect();
        match round % 3 {
            0 => {}
            1 => low_rank(&mut g.rng, p, 64, 64, 32, &mut a),
            _ => a = table(&mut g.rng, p, 64, 64),
        }
        whole_check(g, &Given { p, m: 64, n: 64, a });
        for corner in [(0, 0), (0, 63), (63, 0), (63, 63)] {
            one_place(g, p, (64, 64), corner);
        }
    }
}

/// Small tables, and their quasiinverse and another one with each number replaced by every other residue.
pub fn checks_one_off(g: &mut Group, rounds: usize) {
    for p in [2, 3, 5, 7] {
        for shape in 0..16 * rounds {
            let (m, n) = (1 + shape % 4, 1 + shape / 4 % 4);
            let a = table(&mut g.rng, p, m, n);
            let t = Given { p, m: m as u32, n: n as u32, a };
            let ours = calls::quasiinverse(g, &t, n * m, n, m).d;
            let another = flat(&outer(&t, &inner(&mut g.rng, &t, &ours)));
            for d in [ours, another] {
                (0..n * m).for_each(|at| (1..p).for_each(|by| one_off(g, &t, &d, at, by)));
            }
        }
    }
}

/// Every A and every D of the smallest sizes, and tables that lie in one memory.
pub fn checks_exhaustive(g: &mut Group) {
    for (p, most) in [(2u32, 6), (3, 4), (5, 3), (7, 2)] {
        for m in 0..=6 {
            for n in (0..=6).filter(|n| m * n <= most) {
                each(p, m * n, |a| every_d(g, &Given { p, m: m as u32, n: n as u32, a: a.to_vec() }));
            }
        }
    }
    for (p, m, n) in [(2, 2, 2), (2, 2, 3), (2, 3, 3), (3, 2, 2)] {
        for at in [0, 1, n] {
            each(p, m * n + at, |words| {
                calls::check_within(g, (p, m as u32, n as u32), words, at);
            });
        }
    }
}

/// Every D for one table of rank r: p to the power m n - r r of them have ADA = A, and p to the power r (m + n - 2 r) are quasiinverses.
/// Each of those leaves nothing over of just the right sides that A sends some vector to.
fn every_d(g: &mut Group, t: &Given) {
    let (p, m, n) = (t.p, t.m as usize, t.n as usize);
    let a = rows_of(m, n, &t.a);
    let mut reached = HashSet::new();
    each(p, n, |x| {
        reached.insert(image(p as u64, &a, &wide(x)));
    });
    let rank = no_combination(p, &a).iter().sum::<u32>();
    let (mut inner, mut accepted) = (0, 0);
    each(p, n * m, |d| {
        let got = calls::check(g, t, d);
        inner += (got != 17) as u64;
        if got < 200 {
            return;
        }
        accepted += 1;
        g.demand(got == 200 + rank, || format!("{got} for {:?} modulo {p} and {d:?}, the rank is {rank}", t.a));
        each(p, m, |w| {
            let nothing = left_over(t, &a, d, w).iter().all(|x| *x == 0);
            g.demand(nothing == reached.contains(&wide(w)), || {
                format!("{d:?} for {:?} modulo {p} leaves nothing over of {w:?}: {nothing}", t.a)
            });
        });
    });
    let r = rank as usize;
    let wanted = [m * n - r * r, r * (m + n - 2 * r)].map(|power| (p as u64).pow(power as u32));
    g.demand([inner, accepted] == wanted, || {
        format!("{:?} modulo {p}: {inner} not refused by 17, {accepted} accepted, {wanted:?} wanted", t.a)
    });
}
