//! Quasiinverse, kernel, solve and fit, and check of what quasiinverse leaves; check of other tables is in checks.rs.

use crate::calls::Group;
use crate::checks::any_d;
use crate::draw::*;
use crate::model::{self, Table};
use crate::table_calls::{self as calls, Given};

/// What the calls say of one table: the marks, the number of kernel vectors, and for each right side solve's number and fit's z.
pub struct Whole {
    columns: Vec<u32>,
    rows: Vec<u32>,
    vectors: u32,
    systems: Vec<(u32, Vec<u32>)>,
}

/// Quasiinverse, kernel, solve, fit and check of one table, and what must hold of their results whatever the model says.
pub fn whole_table(g: &mut Group, t: &Given, sides: &[Vec<u32>]) -> Whole {
    let (q, m, n) = (t.p as u64, t.m as usize, t.n as usize);
    let a = model::rows_of(m, n, &t.a);
    let found = calls::quasiinverse(g, t, n * m, n, m);
    let rank = found.number.wrapping_sub(200) as usize;
    let d = model::rows_of(n, m, &found.d);
    let ad = model::product(q, &a, &d, m);
    g.demand(model::product(q, &ad, &a, n) == a, || format!("ADA is not A: {:?} modulo {q}", t.a));
    g.demand(model::product(q, &d, &ad, m) == d, || format!("DAD is not D: {:?} modulo {q}", t.a));
    let ones = |marks: &[u32]| marks.iter().filter(|x| **x == 1).count();
    let marked = ones(&found.columns) == rank && ones(&found.rows) == rank;
    let confined = (0..n).all(|j| (0..m).all(|i| d[j][i] == 0 || found.columns[j] == 1 && found.rows[i] == 1));
    g.demand(marked && confined, || format!("marks and D do not agree: {:?} modulo {q}", t.a));
    passes(g, t, &found.d, found.number);

    let (vectors, basis) = calls::kernel(g, t, n * n);
    let vectors = vectors.wrapping_sub(200) as usize;
    g.demand(vectors + rank == n, || format!("rank {rank} and {vectors} kernel vectors of {n}: {:?} modulo {q}", t.a));
    for vector in model::rows_of(vectors.min(n), n, &basis) {
        let zero = a.iter().all(|row| model::dot(q, row.iter().copied(), vector.iter().copied()) == 0);
        g.demand(zero, || format!("the kernel vector {vector:?} of {:?} modulo {q} is not sent to 0", t.a));
    }

    let systems = sides.iter().map(|w| whole_system(g, t, &a, &found, w)).collect();
    Whole { columns: found.columns, rows: found.rows, vectors: vectors as u32, systems }
}

/// Check accepts D of A, and A of D, with this number: D is a quasiinverse of A, and so is A of D.
pub fn passes(g: &mut Group, t: &Given, d: &[u32], number: u32) {
    let turned = Given { p: t.p, m: t.n, n: t.m, a: d.to_vec() };
    let got = [calls::check(g, t, d), calls::check(g, &turned, &t.a)];
    g.demand(got == [number; 2], || format!("check answers {got:?} for {:?} and {d:?} modulo {}, not {number}", t.a, t.p));
}

/// Solve and fit of one right side of a table, whose quasiinverse is known. Answers solve's number and fit's z.
fn whole_system(g: &mut Group, t: &Given, a: &Table, found: &calls::Quasi, side: &[u32]) -> (u32, Vec<u32>) {
    let (q, m, n) = (t.p as u64, t.m as usize, t.n as usize);
    let w = wide(side);
    let (number, z, u) = calls::solve(g, t, side, n, m);
    if number == 5 {
        let u = wide(&u);
        let combined = model::product(q, &vec![u.clone()], a, n);
        let shows = combined[0].iter().all(|x| *x == 0) && model::dot(q, u.iter().copied(), w.iter().copied()) != 0;
        g.demand(shows, || format!("the mix {u:?} does not show that {:?} {w:?} modulo {q} has no solution", t.a));
    } else {
        let solves = number == found.number && image(q, a, &wide(&z)) == w && u.iter().all(|x| *x == 0);
        g.demand(solves, || format!("solve answers {number} with {z:?} and {u:?} for {:?} {w:?} modulo {q}", t.a));
    }

    let (answer, nearest, rest) = calls::fit(g, t, side, n, m);
    let within = (0..n).all(|j| nearest[j] == 0 || found.columns[j] == 1);
    let spared = (0..m).all(|i| rest[i] == 0 || found.rows[i] == 0);
    let sums = image(q, a, &wide(&nearest)).iter().zip(&rest).map(|(x, e)| (x + *e as u64) % q).eq(w.iter().copied());
    let beside = rest.iter().all(|x| *x == 0) == (number != 5) && (number == 5 || nearest == z);
    g.demand(answer == found.number && within && spared && sums && beside, || {
        format!("fit answers {answer} with {nearest:?} and {rest:?} for {:?} {w:?} modulo {q}, solve {number}", t.a)
    });
    (number, nearest)
}

/// A x.
pub fn image(q: u64, a: &Table, x: &[u64]) -> Vec<u64> {
    a.iter().map(|row| model::dot(q, row.iter().copied(), x.iter().copied())).collect()
}

/// By trying all combinations: the members of this list of vectors that are no combination of the ones before them.
pub fn no_combination(p: u32, vectors: &Table) -> Vec<u32> {
    let q = p as u64;
    let combines = |before: &[Vec<u64>], to: &Vec<u64>| {
        let mut found = false;
        each(p, before.len(), |by| {
            let sum = |i: usize| by.iter().zip(before).map(|(x, vector)| *x as u64 * vector[i]).sum::<u64>() % q;
            found = found || (0..to.len()).all(|i| sum(i) == to[i]);
        });
        found
    };
    (0..vectors.len()).map(|j| !combines(&vectors[..j], &vectors[j]) as u32).collect()
}

pub fn tables_exhaustive(g: &mut Group) {
    // (p, most numbers in a table, most for which all right hand sides and combinations are tried)
    for (p, most, tried) in [(2u32, 16, 12), (3, 9, 6), (5, 5, 4), (7, 4, 4)] {
        for m in 0..=4 {
            for n in 0..=4 {
                let whole = m * n <= tried && p.pow(m as u32) < 100;
                if m * n <= most {
                    each(p, m * n, |a| tiny_table(g, &Given { p, m: m as u32, n: n as u32, a: a.to_vec() }, whole));
                }
            }
        }
    }
}

pub fn tiny_table(g: &mut Group, t: &Given, whole: bool) {
    let (p, m, n) = (t.p, t.m as usize, t.n as usize);
    if !whole {
        let side = right_side(&mut g.rng, t);
        whole_table(g, t, &[side]);
        return;
    }
    let mut sides = Vec::new();
    each(p, m, |w| sides.push(w.to_vec()));
    let Whole { columns, rows, vectors, systems } = whole_table(g, t, &sides);
    let a = model::rows_of(m, n, &t.a);
    let tried = (no_combination(p, &model::transposed(m, n, &a)), no_combination(p, &a));
    g.demand((&columns, &rows) == (&tried.0, &tried.1), || {
        format!("{:?} modulo {p}: columns {columns:?}, rows {rows:?}, by trial {tried:?}", t.a)
    });
    // the vectors sent to each right hand side, counted; those that are 0 outside I, by what they are sent to on J
    let on_j = |w: &[u32]| (0..m).filter(|i| rows[*i] == 1).map(|i| w[i]).collect::<Vec<u32>>();
    let (mut reached, mut fits) = (std::collections::HashMap::new(), std::collections::HashMap::<_, Vec<Vec<u32>>>::new());
    each(p, n, |x| {
        let to: Vec<u32> = image(p as u64, &a, &wide(x)).iter().map(|v| *v as u32).collect();
        if (0..n).all(|j| x[j] == 0 || columns[j] == 1) {
            fits.entry(on_j(&to)).or_default().push(x.to_vec());
        }
        *reached.entry(to).or_insert(0u64) += 1;
    });
    let zeros = reached[&vec![0; m]];
    g.demand((p as u64).checked_pow(vectors) == Some(zeros), || {
        format!("{:?} modulo {p} sends {zeros} vectors to 0, and its basis has {vectors}", t.a)
    });
    for (w, (number, z)) in sides.iter().zip(systems) {
        g.demand((number == 5) != reached.contains_key(w), || format!("{:?} {w:?} modulo {p}: by trial not {number}", t.a));
        let tried = fits.get(&on_j(w));
        g.demand(tried.is_some_and(|all| all.len() == 1 && all[0] == z), || {
            format!("{:?} {w:?} modulo {p}: fit gives {z:?}, by trial {tried:?}", t.a)
        });
    }
}

pub fn tables(g: &mut Group, rounds: usize, most: usize) {
    for round in 0..rounds {
        let p = any_p(&mut g.rng);
        // every size at least once, each way round
        let (m, n) = match round {
            _ if round <= most => (round, g.rng.below(most.min(12) + 1)),
            _ if round <= 2 * most + 1 => (g.rng.below(most.min(12) + 1), round - most - 1),
            _ => (g.rng.below(most + 1), g.rng.below(most + 1)),
        };
        let a = table(&mut g.rng, p, m, n);
        let t = Given { p, m: m as u32, n: n as u32, a };
        let sides = [right_side(&mut g.rng, &t), right_side(&mut g.rng, &t)];
        whole_table(g, &t, &sides);
    }
}

pub fn tables_largest(g: &mut Group, rounds: usize) {
    for round in 0..rounds {
        let p = if round < PRIMES.len() { PRIMES[PRIMES.len() - 1 - round] } else { any_p(&mut g.rng) };
        let (m, n) = (64, 64);
        let a = match round % 4 {
            0 => (0..m * n).map(|_| g.rng.under(p)).collect(),
            1 => {
                let mut a = vec![0; m * n];
                low_rank(&mut g.rng, p, m, n, 32, &mut a);
                a
            }
            2 => vec![p - 1; m * n],
            _ => table(&mut g.rng, p, m, n),
        };
        let t = Given { p, m: 64, n: 64, a };
        let sides = [right_side(&mut g.rng, &t), right_side(&mut g.rng, &t)];
        whole_table(g, &t, &sides);
    }
}

pub fn table_refusals(g: &mut Group, rounds: usize) {
    for _ in 0..rounds {
        let p = any_p(&mut g.rng);
        let most = if g.rng.once_in(16) { 64 } else { 6 };
        let (mut m, mut n) = (g.rng.below(most + 1), g.rng.below(most + 1));
        let a = table(&mut g.rng, p, m, n);
        let mut t = Given { p, m: m as u32, n: n as u32, a };
        let mut w = right_side(&mut g.rng, &t);
        let mut sent = any_d(&mut g.rng, &t);
        if g.rng.once_in(4) {
            t.p = any_bad_p(&mut g.rng);
        }
        if g.rng.once_in(4) {
            let which = g.rng.below(4);
            if which < 3 {
                t.m = if which == 2 { 65 } else { g.rng.pick(&WIDE) };
            }
            if which > 1 {
                t.n = if which == 2 { 65 } else { g.rng.pick(&WIDE) };
            }
            // with lengths that would fit the sizes, where they can be had
            if t.m < 100 && t.n < 100 && g.rng.once_in(2) {
                (m, n) = (t.m as usize, t.n as usize);
                t.a.resize(m * n, 0);
                w.resize(m, 0);
                sent.resize(n * m, 0);
            }
        }
        if !t.a.is_empty() && g.rng.once_in(3) {
            let any = g.rng.below(t.a.len());
            let at = g.rng.pick(&[0, t.a.len() - 1, any]);
            t.a[at] = too_large(&mut g.rng, t.p);
        }
        if !w.is_empty() && g.rng.once_in(3) {
            let at = g.rng.below(w.len());
            w[at] = too_large(&mut g.rng, t.p);
        }
        if !sent.is_empty() && g.rng.once_in(3) {
            let any = g.rng.below(sent.len());
            let at = g.rng.pick(&[0, sent.len() - 1, any]);
            // every other time one that is right but for p
            let more = sent[at].saturating_add(t.p);
            sent[at] = if g.rng.once_in(2) { more } else { too_large(&mut g.rng, t.p) };
        }
        let a_len = length(&mut g.rng, m * n);
        t.a.resize(a_len, 0);
        let w_len = length(&mut g.rng, m);
        w.resize(w_len, 0);
        let (d_len, columns_len, rows_len) = (length(&mut g.rng, n * m), length(&mut g.rng, n), length(&mut g.rng, m));
        calls::quasiinverse(g, &t, d_len, columns_len, rows_len);
        let basis_len = length(&mut g.rng, n * n);
        calls::kernel(g, &t, basis_len);
        let (z_len, u_len) = (length(&mut g.rng, n), length(&mut g.rng, m));
        calls::solve(g, &t, &w, z_len, u_len);
        let (z_len, rest_len) = (length(&mut g.rng, n), length(&mut g.rng, m));
        calls::fit(g, &t, &w, z_len, rest_len);
        let sent_len = length(&mut g.rng, n * m);
        sent.resize(sent_len, 0);
        calls::check(g, &t, &sent);
    }
}
