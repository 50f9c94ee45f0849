//! Residues and signed readings.

use super::met::{first, met, no_modulus, note_four, note_low};
use std::cell::RefCell;
use std::collections::HashMap;

thread_local! {
    static TRIED: RefCell<HashMap<u32, bool>> = RefCell::new(HashMap::new());
}

/// A prime from 2 to 2,147,483,647, by trial division.
pub fn prime(p: u32) -> bool {
    if let Some(known) = TRIED.with(|tried| tried.borrow().get(&p).copied()) {
        return known;
    }
    let q = p as u64;
    let mut answer = q >= 2 && q <= 2_147_483_647 && (q == 2 || q % 2 == 1);
    let mut f = 3;
    while answer && f * f <= q {
        answer = q % f != 0;
        f += 2;
    }
    TRIED.with(|tried| tried.borrow_mut().insert(p, answer));
    answer
}

/// The inverse of a modulo p, by Euclid's division chain.
pub fn inverse(p: u64, a: u64) -> u64 {
    let (mut r0, mut r1) = (p as i64, a as i64);
    let (mut s0, mut s1) = (0i64, 1i64);
    while r1 != 0 {
        let q = r0 / r1;
        (r0, r1) = (r1, r0 - q * r1);
        (s0, s1) = (s1, s0 - q * s1);
    }
    assert!(r0 == 1, "the model divides by {a} modulo {p}");
    s0.rem_euclid(p as i64) as u64
}

pub fn dot(p: u64, x: impl Iterator<Item = u64>, y: impl Iterator<Item = u64>) -> u64 {
    (x.zip(y).map(|(a, b)| a as u128 * b as u128).sum::<u128>() % p as u128) as u64
}

/// The low end that document 01 reads with.
pub fn old_low(p: u32) -> u32 {
    (p - 1) / 2
}

/// v if v < p - low, otherwise v - p.
pub fn reading(p: u32, low: u32, v: u32) -> i32 {
    let (p, low, v) = (p as i64, low as i64, v as i64);
    (if v < p - low { v } else { v - p }) as i32
}

/// From -low to p - 1 - low.
pub fn in_range(p: u32, low: u32, record: i32) -> bool {
    let (p, low, record) = (p as i64, low as i64, record as i64);
    -low <= record && record <= p - 1 - low
}

pub fn residue_of(p: u32, record: i32) -> u32 {
    (record as i64).rem_euclid(p as i64) as u32
}

pub fn signed(p: u32, low: u32, v: u32, record: &mut [i32]) -> u32 {
    let (bad_low, bad) = (low >= p, v >= p);
    let refusal = first("signed", &[(1, no_modulus("signed", p)), (4, bad_low || bad)]);
    note_low("signed", p, low, refusal);
    if let Some(number) = refusal {
        if number == 4 {
            note_four("signed", &[("low", bad_low), ("number", bad)]);
        }
        return number;
    }
    met("signed", "done");
    record[0] = reading(p, low, v);
    0
}

pub fn residue(p: u32, low: u32, record: i32, residue: &mut [u32]) -> u32 {
    let (bad_low, bad) = (low >= p, !in_range(p, low, record));
    let refusal = first("residue", &[(1, no_modulus("residue", p)), (4, bad_low || bad)]);
    note_low("residue", p, low, refusal);
    if let Some(number) = refusal {
        if number == 4 {
            note_four("residue", &[("low", bad_low), ("number", bad)]);
        }
        return number;
    }
    met("residue", "done");
    residue[0] = residue_of(p, record);
    0
}
