//! What was met on the way, counted under a label, and the checks that all calls share.

use super::field::{old_low, prime};
use crate::draw::{BAD, PRIMES};
use std::cell::RefCell;
use std::collections::HashMap;

pub type Met = HashMap<String, u64>;

thread_local! {
    static MET: RefCell<Met> = RefCell::new(HashMap::new());
}

pub fn met(call: &str, what: &str) {
    let mut label = String::with_capacity(call.len() + 1 + what.len());
    label.push_str(call);
    label.push(' ');
    label.push_str(what);
    MET.with(|met| *met.borrow_mut().entry(label).or_insert(0) += 1);
}

pub fn take_met() -> Met {
    MET.with(|met| std::mem::take(&mut *met.borrow_mut()))
}

/// The number of the first check that fails. Notes each pair of a failing check with a later failing one.
pub fn first(call: &str, checks: &[(u32, bool)]) -> Option<u32> {
    let mut failing = checks.iter().filter(|check| check.1).map(|check| check.0);
    let number = failing.next()?;
    met(call, &number.to_string());
    let mut alone = true;
    for later in failing {
        alone = false;
        if later != number {
            met(call, &format!("{number} before {later}"));
        }
    }
    if alone {
        met(call, &format!("{number} alone"));
    }
    Some(number)
}

/// Check 1. Notes the moduli that every call is to meet.
pub fn no_modulus(call: &str, p: u32) -> bool {
    note_modulus(call, p);
    !prime(p)
}

pub fn note_modulus(call: &str, p: u32) {
    if PRIMES.contains(&p) || BAD.contains(&p) {
        met(call, &format!("p {p}"));
    }
}

/// Check 2 for frames and open.
fn no_size(call: &str, p: u32, n: u32) -> bool {
    note_size(call, "n", p, n);
    n == 0 || n > 64
}

/// Check 12. Notes the outer ones that every call is to meet behind a good modulus and size.
fn no_words(call: &str, p: u32, n: u32, s: u32) -> bool {
    if [0, 1, 16, 17, u32::MAX].contains(&s) && prime(p) && (1..=64).contains(&n) {
        met(call, &format!("told s {s}"));
    }
    !(1..=16).contains(&s)
}

/// The checks that open and the frame calls begin with, in this order.
pub fn first_checks(call: &str, p: u32, n: u32, s: u32) -> [(u32, bool); 3] {
    [(1, no_modulus(call, p)), (2, no_size(call, p, n)), (12, no_words(call, p, n, s))]
}

/// Notes the outer sizes that every call is to meet behind a good modulus.
pub fn note_size(call: &str, name: &str, p: u32, size: u32) {
    if [0, 64, 65, u32::MAX].contains(&size) && prime(p) {
        met(call, &format!("told {name} {size}"));
    }
}

/// Whether some slice has not the length named. Notes a slice that is alone in this and one element off.
pub fn lengths(call: &str, slices: &[(&str, usize, u128)]) -> bool {
    let wrong: Vec<_> = slices.iter().filter(|slice| slice.1 as u128 != slice.2).collect();
    if let [(name, got, named)] = wrong[..] {
        if *got as u128 == named + 1 {
            met(call, &format!("3 {name} above"));
        } else if *got as u128 + 1 == *named {
            met(call, &format!("3 {name} below"));
        }
    }
    !wrong.is_empty()
}

/// Notes the low ends that every call is to meet, behind all checks before 4 and with a modulus that tells them apart.
pub fn note_low(call: &str, p: u32, low: u32, number: Option<u32>) {
    if p > 7 && number.unwrap_or(4) == 4 {
        let named = [("0", 0), ("1", 1), ("old", old_low(p)), ("p - 2", p - 2), ("p - 1", p - 1), ("p", p), ("most", u32::MAX)];
        named.iter().filter(|named| named.1 == low).for_each(|named| met(call, &format!("low {}", named.0)));
    }
}

/// Notes which of the numbers that a 4 is about are the bad ones.
pub fn note_four(call: &str, numbers: &[(&str, bool)]) {
    let bad: Vec<&str> = numbers.iter().filter(|number| number.1).map(|number| number.0).collect();
    met(call, &format!("4 {}", bad.join(" and ")));
}
