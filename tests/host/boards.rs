//! Boards as words: what open writes, and take, withdraw, show and relay on words that are no board.

use crate::calls::{self, Group};
use crate::draw::*;
use crate::lent::Rng;
use crate::model::{self, board_words, met, Ledger, Table};
use crate::relays::relay_on_words;

pub fn opens(g: &mut Group) {
    for p in PRIMES.into_iter().chain(BAD) {
        for n in (0..=66).chain(WIDE) {
            for s in SOME_S.map(|s| s as u32).into_iter().chain(BAD_S) {
                let fits = |words: u64| if words <= 5482 { words as usize } else { 4 };
                let named = fits(4 + n as u64 * (n as u64 + s as u64));
                let before = fits(3 + n as u64 * (n as u64 + 1)); // as long as a board was that had no fourth header word
                for len in [named, named - 1, named + 1, 0, 4, before] {
                    calls::open(g, p, n, s, len);
                }
            }
        }
    }
}

/// A ledger of so many independent rows.
pub fn any_ledger(rng: &mut Rng, p: u32, n: usize, s: usize, k: usize) -> Ledger {
    let mut columns: Vec<usize> = (0..n).collect();
    for i in (1..n).rev() {
        columns.swap(i, rng.below(i + 1));
    }
    let dense = rng.once_in(2);
    let draw = |rng: &mut Rng| if dense || rng.once_in(4) { rng.under(p) as u64 } else { 0 };
    // a lower table with ones times an upper table with ones, its columns in any order
    let lower: Table = (0..k).map(|i| (0..k).map(|j| if j < i { draw(rng) } else { (i == j) as u64 }).collect()).collect();
    let upper: Table = (0..k).map(|i| (0..n).map(|j| if j > i { draw(rng) } else { (i == j) as u64 }).collect()).collect();
    let rows = model::product(p as u64, &lower, &upper, n);
    let entries = rows.iter().map(|row| (columns.iter().map(|&j| row[j]).collect(), wide(&values(rng, p, s)))).collect();
    Ledger { p, n, s, entries }
}

/// Words that are a board no longer, most likely.
pub fn tampered(rng: &mut Rng, ledger: &Ledger) -> Vec<u32> {
    let mut words = ledger.words();
    let len = words.len();
    match rng.below(10) {
        0 | 1 => tampered_length(rng, ledger, words),
        2 | 3 => tampered_header(rng, ledger, words),
        4 => with_other_s(rng, ledger),
        5..=7 => tampered_rows(rng, ledger, words),
        8 if rng.once_in(2) => {
            words.iter_mut().for_each(|x| *x = rng.next() as u32);
            words
        }
        8 => {
            words[rng.below(len)] ^= 1 << rng.below(32);
            words
        }
        _ => {
            words[rng.below(len)] = number(rng, ledger.p);
            words
        }
    }
}

/// Cut, with words behind it, or as boards were that had no fourth header word: rows of one value from the fourth word on.
fn tampered_length(rng: &mut Rng, ledger: &Ledger, mut words: Vec<u32>) -> Vec<u32> {
    let (n, len) = (ledger.n, words.len());
    match rng.below(6) {
        0 => words.truncate(rng.below(4)),
        1 => words.truncate(rng.below(len)),
        2 => {
            words.pop();
        }
        3 => words.push(0),
        4 => words.push(rng.next() as u32),
        _ => {
            words.truncate(3);
            ledger.entries.iter().for_each(|entry| words.extend(entry.0.iter().chain(&entry.1[..1]).map(|&x| x as u32)));
            words.resize(3 + n * (n + 1), 0);
        }
    }
    words
}

/// With another p, n, k or s.
fn tampered_header(rng: &mut Rng, ledger: &Ledger, mut words: Vec<u32>) -> Vec<u32> {
    let (n, k, s) = (ledger.n as u32, ledger.count() as u32, ledger.s as u32);
    match rng.below(12) {
        0 | 1 => words[0] = any_bad_p(rng),
        2 => words[0] = any_p(rng),
        3 => words[1] = 0,
        4 => words[1] = rng.pick(&WIDE),
        5 => words[1] = rng.pick(&[n - 1, n + 1]),
        6 => words[2] = rng.pick(&[n + 1, 65, u32::MAX, n * (n + s)]),
        7 => words[2] = k + 1,
        8 => words[2] = k.saturating_sub(1),
        9 => words[3] = rng.pick(&BAD_S),
        10 => words[3] = rng.pick(&[s - 1, s + 1]),
        _ => words.swap(2, 3),
    }
    words
}

/// Rows laid out for an s that is none, or for one more than the ledger's, seldom under a header with the ledger's.
fn with_other_s(rng: &mut Rng, ledger: &Ledger) -> Vec<u32> {
    let (n, s) = (ledger.n, ledger.s as u32);
    let told = rng.pick(&[0, 17, s + 1, u32::MAX]);
    let mut words = vec![ledger.p, n as u32, ledger.count() as u32, told];
    if told == u32::MAX {
        // n × (n + s) comes round to n × (n - 1) in 32 bits
        words[2] = 0;
        words.resize(4 + n * (n - 1), 0);
    } else {
        for (row, values) in &ledger.entries {
            words.extend(row.iter().chain(values.iter().cycle().take(told as usize)).map(|&x| x as u32));
        }
        words.resize(board_words(n, told as usize), 0);
    }
    if rng.once_in(4) {
        words[3] = s;
    }
    words
}

/// With a number of p or more, a word behind the rows, or rows that depend on each other.
fn tampered_rows(rng: &mut Rng, ledger: &Ledger, mut words: Vec<u32>) -> Vec<u32> {
    let (p, n, k, width) = (ledger.p, ledger.n, ledger.count(), ledger.n + ledger.s);
    let (len, rows_end) = (words.len(), 4 + k * width);
    match rng.below(8) {
        0 if k > 0 => words[4 + rng.below(k * width)] = too_large(rng, p),
        1 if k > 0 => words[4 + rng.below(k) * width + n] = too_large(rng, p),
        2 if k > 0 => words[3 + (1 + rng.below(k)) * width] = too_large(rng, p),
        3 if rows_end < len => words[rows_end + rng.below(len - rows_end)] = 1 + rng.under(u32::MAX),
        4 => words[rng.pick(&[len - 1, rows_end.min(len - 1)])] = 1,
        5 if k > 0 => {
            let row = 4 + rng.below(k) * width;
            words[row..row + n].fill(0);
        }
        _ if k > 1 => {
            // one row becomes a combination of the others, or just a multiple of one
            let at = rng.below(k);
            let only = if rng.once_in(2) { Some(rng.pick(&[(at + 1) % k, (at + k - 1) % k])) } else { None };
            let mut sum = vec![0u64; n];
            for (i, (row, _)) in ledger.entries.iter().enumerate() {
                if i != at && only.unwrap_or(i) == i {
                    let by = rng.under(p) as u64;
                    sum.iter_mut().zip(row).for_each(|(place, x)| *place = (*place + by * x) % p as u64);
                }
            }
            let begin = 4 + at * width;
            words[begin..begin + n].iter_mut().zip(&sum).for_each(|(place, x)| *place = *x as u32);
        }
        _ => {}
    }
    words
}

/// Notes why these words are no board, and which checks would have come later.
pub fn note_no_board(call: &str, words: &[u32], why: &str, later: &[(u32, bool)]) {
    met(call, "11");
    met(call, &format!("11 {why}"));
    if why == "modulus" {
        model::note_modulus(call, words[0]);
    }
    if words.len() == 3 {
        met(call, "11 three words");
    }
    if let ("words", [_, n, _, s, ..]) = (why, words) {
        met(call, &format!("11 words {s}"));
        if words.len() == n.wrapping_mul(n.wrapping_add(*s)).wrapping_add(4) as usize {
            met(call, &format!("11 words {s} with the length it names"));
        }
    }
    later.iter().filter(|check| check.1).for_each(|check| met(call, &format!("11 before {}", check.0)));
}

/// Every call on these words; lent are a mix and marks of these lengths, and as many numbers as the words would name for the marks.
pub fn on_words(g: &mut Group, words: &[u32], frame: &[u8], mix_len: usize, t: u32, marks_len: usize) {
    let ledger = Ledger::from_words(words);
    let low = any_low(&mut g.rng, words.first().map_or(7, |&p| p.max(1)));
    let is = |at: usize, what: &dyn Fn(u32) -> bool| words.get(at).is_some_and(|x| what(*x));
    let three = |len: usize| (3, is(1, &|n| n as usize != len));
    let of_show = vec![three(marks_len), (4, is(0, &|p| low >= p))];
    let later = [("take", vec![three(mix_len)]), ("withdraw", vec![(10, is(2, &|k| t > k))]), ("show", of_show)];
    for (call, checks) in &later {
        match &ledger {
            Err(why) => note_no_board(call, words, why, checks),
            Ok(_) => met(call, "tampered and still a board"),
        }
    }
    relay_on_words(g, words, &ledger);
    let s = words.get(3).map_or(1, |&s| s.clamp(1, 16) as usize);
    let mut ledger = ledger.ok();
    calls::show(g, words, ledger.as_ref(), low, marks_len, marks_len * s);
    calls::take(g, words, ledger.clone().as_mut(), frame, mix_len);
    calls::withdraw(g, words, ledger.as_mut(), t);
}

pub fn tampering(g: &mut Group, rounds: usize, most: usize) {
    for _ in 0..rounds {
        let p = any_p(&mut g.rng);
        let (n, s) = (1 + g.rng.below(most), any_s(&mut g.rng));
        let k = if g.rng.once_in(4) { n } else { g.rng.below(n + 1) };
        let ledger = any_ledger(&mut g.rng, p, n, s, k);
        let words = tampered(&mut g.rng, &ledger);
        let mut frame = model::frame_of(p, &multipliers(&mut g.rng, p, n), &values(&mut g.rng, p, s));
        if g.rng.once_in(4) {
            frame = damaged(&mut g.rng, p, n, s, &frame);
        }
        let (mix_len, marks_len) = (length(&mut g.rng, n), length(&mut g.rng, n));
        let t = g.rng.pick(&[0, 1, k as u32, k as u32 + 1, u32::MAX]);
        on_words(g, &words, &frame, mix_len, t, marks_len);
    }
}

pub fn tampering_largest(g: &mut Group, rounds: usize) {
    for round in 0..rounds {
        let p = if round % 2 == 0 { 2_147_483_647 } else { any_p(&mut g.rng) };
        let (k, s) = (g.rng.pick(&[64, 64, 63, 32]), any_s(&mut g.rng));
        let ledger = any_ledger(&mut g.rng, p, 64, s, k);
        let frame = model::frame_of(p, &multipliers(&mut g.rng, p, 64), &values(&mut g.rng, p, s));
        let mut words = tampered(&mut g.rng, &ledger);
        if round % 3 == 0 {
            // the last row is the sum of all the others
            words = ledger.words();
            let begin = 4 + (k - 1) * (64 + s);
            for j in 0..64 {
                let sum: u64 = ledger.entries[..k - 1].iter().map(|entry| entry.0[j]).sum();
                words[begin + j] = (sum % p as u64) as u32;
            }
        }
        on_words(g, &words, &frame, 64, 1, 64);
    }
    lengths_that_come_round(g);
}

/// Sizes whose named length comes round to the length there is, in 32 or 64 bits, and sizes just too large with theirs.
fn lengths_that_come_round(g: &mut Group) {
    for s in [1u32, 2, 16, 0, 17, u32::MAX, 1 << 30] {
        for n in [65u32, 66, 65_535, 65_536, 4_294_967_295, 2_147_483_648, 0, 1, 2, 64] {
            let in_32 = n.wrapping_mul(n.wrapping_add(s)).wrapping_add(4) as u64;
            let in_64 = (n as u64).wrapping_mul(n as u64 + s as u64).wrapping_add(4);
            for len in [in_32, in_64].into_iter().filter(|len| (4..70_000).contains(len)) {
                for k in [0, 1, n] {
                    let mut words = vec![0; len as usize];
                    words[..4].copy_from_slice(&[7, n, k, s]);
                    on_words(g, &words, &[0; 2], 1, 0, 1);
                }
            }
        }
    }
}

/// Every list of small words as a board of one record, and of two records behind a header.
pub fn boards_exhaustive(g: &mut Group) {
    for len in 0..=7 {
        each(4, len, |list| {
            let mut words = list.to_vec();
            // p of 2 to 5; the other words from 0 to 3
            if let Some(p) = words.first_mut() {
                *p += 2;
            }
            on_words(g, &words, &[1, 1, 1], 1, 1, 1);
        });
    }
    for (p, s, top) in [(2, 1, 3), (3, 1, 4), (2, 2, 3)] {
        for k in 0..=3 {
            each(top, 2 * (2 + s as usize), |rest| {
                let words: Vec<u32> = [p, 2, k, s].iter().chain(rest).copied().collect();
                on_words(g, &words, &[3, 1, 1, 0], 2, 1, 2);
            });
        }
    }
}
