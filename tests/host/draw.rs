//! What the tests draw: moduli, numbers, tables, frames and their damage, lengths.

use crate::lent::Rng;
use crate::model::{self, Table};
use crate::table_calls::Given;

/// The primes on both sides of each width's end: the last below and the first above 256, 65,536 and 16,777,216.
pub const ENDS: [u32; 6] = [251, 257, 65_521, 65_537, 16_777_213, 16_777_259];
pub const PRIMES: [u32; 12] = [2, 3, 5, 7, 251, 257, 65_521, 65_537, 16_777_213, 16_777_259, 2_147_483_629, 2_147_483_647];
pub const BAD: [u32; 6] = [0, 1, 4, 2_147_117_569, 2_147_483_648, 4_294_967_295];
pub const WIDE: [u32; 4] = [65, 66, 65_536, 4_294_967_295];
/// Words a record: some that are, and some that are none. Four times 2^30 is 0 in 32 bits.
pub const SOME_S: [usize; 4] = [1, 2, 3, 16];
pub const BAD_S: [u32; 5] = [0, 17, 65_536, 1 << 30, 4_294_967_295];

pub fn any_p(rng: &mut Rng) -> u32 {
    if !rng.once_in(8) {
        return rng.pick(&PRIMES);
    }
    let bits = 2 + rng.below(30);
    let mut p = 2 + rng.below((1 << bits) - 2) as u32;
    while !model::prime(p) {
        p -= 1;
    }
    p
}

pub fn any_bad_p(rng: &mut Rng) -> u32 {
    if !rng.once_in(4) {
        return rng.pick(&BAD);
    }
    loop {
        let p = rng.next() as u32;
        if !model::prime(p) {
            return p;
        }
    }
}

pub fn any_s(rng: &mut Rng) -> usize {
    match rng.below(8) {
        0..=2 => 1,
        3 | 4 => rng.pick(&[2, 3]),
        5 => 16,
        _ => 1 + rng.below(16),
    }
}

/// A number that is not below p, as far as there is one.
pub fn too_large(rng: &mut Rng, p: u32) -> u32 {
    let far = p.saturating_add(rng.under(1 << 20));
    rng.pick(&[p, p.saturating_add(1), far, u32::MAX])
}

/// One of the ends, or anything between.
pub fn number(rng: &mut Rng, p: u32) -> u32 {
    match rng.below(8) {
        0 => 0,
        1 => 1 % p,
        2 => p - 1,
        3 => p / 2,
        _ => rng.under(p),
    }
}

/// A low end: one of the ends, the old one, or anything between.
pub fn low_end(rng: &mut Rng, p: u32) -> u32 {
    match rng.below(8) {
        0 => 0,
        1 => 1 % p,
        2 => p.saturating_sub(2),
        3 => p - 1,
        4 | 5 => model::old_low(p),
        _ => rng.under(p),
    }
}

/// The same, seldom one that is none.
pub fn any_low(rng: &mut Rng, p: u32) -> u32 {
    if rng.once_in(8) {
        too_large(rng, p)
    } else {
        low_end(rng, p)
    }
}

pub fn table(rng: &mut Rng, p: u32, m: usize, n: usize) -> Vec<u32> {
    let mut a = vec![0; m * n];
    if m * n == 0 {
        return a;
    }
    match rng.below(9) {
        0 | 1 => a.iter_mut().for_each(|x| *x = rng.under(p)),
        2 => {
            let r = rng.below(m.min(n) + 1);
            low_rank(rng, p, m, n, r, &mut a);
        }
        3 => low_rank(rng, p, m, n, m.min(n) / 2, &mut a),
        4 => {
            let times = 2 + rng.below(12);
            a.iter_mut().for_each(|x| *x = if rng.once_in(times) { rng.under(p) } else { 0 });
        }
        5 => a.iter_mut().for_each(|x| *x = rng.pick(&[0, 0, 1 % p, p - 1])),
        6 => {
            // zero columns, zero rows, and rows that are multiples of earlier ones
            a.iter_mut().for_each(|x| *x = rng.under(p));
            for j in 0..n {
                if rng.once_in(3) {
                    (0..m).for_each(|i| a[i * n + j] = 0);
                }
            }
            for i in 0..m {
                if rng.once_in(2) {
                    let (from, by) = (rng.below(i + 1), rng.under(p) as u64);
                    let row: Vec<u32> = a[from * n..][..n].to_vec();
                    (0..n).for_each(|j| a[i * n + j] = (row[j] as u64 * by % p as u64) as u32);
                }
            }
        }
        7 => {
            // at most one number in each row and column
            let mut columns: Vec<usize> = (0..n).collect();
            for i in 0..m {
                if !columns.is_empty() && !rng.once_in(4) {
                    let j = columns.swap_remove(rng.below(columns.len()));
                    a[i * n + j] = 1 + rng.under(p - 1);
                }
            }
        }
        _ => {
            // a staircase: row i begins at about column i, from the top or from the bottom
            let up = rng.once_in(2);
            for i in 0..m {
                for j in 0..n {
                    let begin = if up { m - 1 - i } else { i };
                    a[i * n + j] = if j >= begin { rng.under(p) } else { 0 };
                }
            }
        }
    }
    a
}

pub fn low_rank(rng: &mut Rng, p: u32, m: usize, n: usize, r: usize, a: &mut [u32]) {
    let x: Table = (0..m).map(|_| (0..r).map(|_| rng.under(p) as u64).collect()).collect();
    let y: Table = (0..r).map(|_| (0..n).map(|_| rng.under(p) as u64).collect()).collect();
    let table = model::product(p as u64, &x, &y, n);
    a.iter_mut().zip(table.iter().flatten()).for_each(|(place, x)| *place = *x as u32);
}

/// A right hand side: mostly one that has a solution, or one that misses it at few rows.
pub fn right_side(rng: &mut Rng, t: &Given) -> Vec<u32> {
    let (p, m, n) = (t.p as u64, t.m as usize, t.n as usize);
    let x: Vec<u64> = (0..n).map(|_| rng.under(t.p) as u64).collect();
    let rows = model::rows_of(m, n, &t.a);
    let mut w: Vec<u32> = rows.iter().map(|row| model::dot(p, row.iter().copied(), x.iter().copied()) as u32).collect();
    match rng.below(4) {
        0 | 1 => {}
        2 if m > 0 => {
            let any = rng.below(m);
            let i = rng.pick(&[0, m - 1, any]);
            w[i] = ((w[i] as u64 + 1 + rng.under(t.p - 1) as u64) % p) as u32;
        }
        _ => w.iter_mut().for_each(|x| *x = rng.under(t.p)),
    }
    w
}

pub fn multipliers(rng: &mut Rng, p: u32, n: usize) -> Vec<u32> {
    match rng.below(6) {
        0 => {
            let j = rng.below(n);
            (0..n).map(|i| if i == j { 1 + rng.under(p - 1) } else { 0 }).collect()
        }
        1 => (0..n).map(|_| if rng.once_in(4) { number(rng, p) } else { 0 }).collect(),
        2 => (0..n).map(|_| 1 + rng.under(p - 1)).collect(),
        3 => (0..n).map(|_| number(rng, p)).collect(),
        _ => (0..n).map(|_| rng.under(p)).collect(),
    }
}

pub fn values(rng: &mut Rng, p: u32, s: usize) -> Vec<u32> {
    (0..s).map(|_| number(rng, p)).collect()
}

/// What changes some of s values when it is added to them: the first, the last or any one alone, or all.
pub fn changes(rng: &mut Rng, p: u32, s: usize) -> Vec<u64> {
    let (which, any) = (rng.below(4), rng.below(s));
    let changed = |w: usize| match which {
        0 => w == 0,
        1 => w == s - 1,
        2 => w == any,
        _ => true,
    };
    (0..s).map(|w| if changed(w) { 1 + rng.under(p - 1) as u64 } else { 0 }).collect()
}

/// The largest number that a frame modulo p has the bytes for; it is above p, as no prime is a power of 256 or one less.
pub fn most(p: u32) -> u32 {
    (256u64.pow(model::width(p) as u32) - 1) as u32
}

/// The bytes of a number of p or more in a frame.
pub fn too_large_bytes(rng: &mut Rng, p: u32) -> Vec<u8> {
    let any = p + 1 + rng.under(most(p) - p);
    let x = rng.pick(&[p, p + 1, any, most(p)]);
    model::number_bytes(p, x)
}

/// The same frame, its numbers with so many bytes; where these are fewer, the least significant ones.
pub fn with_width(p: u32, n: usize, frame: &[u8], width: usize) -> Vec<u8> {
    let (map, numbers) = frame.split_at(n.div_ceil(8));
    let numbers = model::numbers_of(numbers, model::width(p));
    map.iter().copied().chain(numbers.iter().flat_map(|x| x.to_be_bytes().into_iter().skip(4 - width))).collect()
}

/// The same frame of s values with so many of them: cut behind the front ones, or with further ones.
pub fn with_values(rng: &mut Rng, p: u32, frame: &[u8], s: usize, other: usize) -> Vec<u8> {
    let mut bytes = frame.to_vec();
    bytes.truncate(frame.len() - model::width(p) * s.saturating_sub(other));
    (s..other).for_each(|_| bytes.extend(model::number_bytes(p, number(rng, p))));
    bytes
}

/// A frame with something wrong about its bytes, most likely.
pub fn damaged(rng: &mut Rng, p: u32, n: usize, s: usize, frame: &[u8]) -> Vec<u8> {
    match rng.below(3) {
        0 => damaged_length(rng, p, n, s, frame.to_vec()),
        1 => damaged_numbers(rng, p, n, s, frame.to_vec()),
        _ => damaged_bits(rng, p, n, frame.to_vec()),
    }
}

/// Cut, joined, with another number of values, or with numbers of another width.
fn damaged_length(rng: &mut Rng, p: u32, n: usize, s: usize, mut bytes: Vec<u8>) -> Vec<u8> {
    let (map, len, w) = (n.div_ceil(8), bytes.len(), model::width(p));
    match rng.below(12) {
        0 => bytes.truncate(rng.below(len)),
        1 => bytes.truncate(rng.below(map + 1)),
        2 => bytes.clear(),
        3 => bytes.truncate(len - 1),
        4 => bytes.truncate(len - w),
        5 => bytes.push(rng.next() as u8),
        6 => bytes.extend(model::number_bytes(p, number(rng, p))),
        7 => {
            let more = 1 + rng.below(300);
            bytes.extend((0..more).map(|_| rng.next() as u8));
        }
        8 => return with_width(p, n, &bytes, 4),
        9 => return with_width(p, n, &bytes, 1 + rng.below(4)),
        _ => {
            let other = rng.pick(&[0, 1, 2, s - 1, s + 1, 16, 17]);
            return with_values(rng, p, &bytes, s, other);
        }
    }
    bytes
}

/// With multipliers of 0 and numbers of p or more.
fn damaged_numbers(rng: &mut Rng, p: u32, n: usize, s: usize, mut bytes: Vec<u8>) -> Vec<u8> {
    let (map, w) = (n.div_ceil(8), model::width(p));
    let standing = (bytes.len() - map) / w - s;
    let place = |which: usize| map + w * which..map + w * which + w;
    match rng.below(5) {
        0 | 1 if standing > 0 => bytes[place(rng.below(standing))].fill(0),
        2 if standing > 0 => bytes[place(rng.below(standing))].copy_from_slice(&too_large_bytes(rng, p)),
        3 if standing > 0 => {
            // several numbers wrong at once, perhaps the length too
            for at in 0..standing + s {
                match rng.below(4) {
                    0 => bytes[place(at)].fill(0),
                    1 => bytes[place(at)].copy_from_slice(&too_large_bytes(rng, p)),
                    _ => {}
                }
            }
            if rng.once_in(4) {
                bytes.pop();
            }
        }
        _ => {
            let any = rng.below(s);
            let at = rng.pick(&[0, s - 1, any]);
            bytes[place(standing + at)].copy_from_slice(&too_large_bytes(rng, p));
        }
    }
    bytes
}

/// With a bit turned, bits at n or above that stand, or bytes at random.
fn damaged_bits(rng: &mut Rng, p: u32, n: usize, mut bytes: Vec<u8>) -> Vec<u8> {
    let map = n.div_ceil(8);
    match rng.below(5) {
        0 | 1 if n % 8 != 0 => {
            // a bit at n or above, with the number for it, good or bad, with none, or with one more
            bytes[map - 1] |= 1 << (n % 8 + rng.below(8 - n % 8));
            for _ in 0..rng.below(3) {
                let number = model::number_bytes(p, rng.pick(&[1, 0, p]));
                bytes.splice(map..map, number);
            }
        }
        2 => {
            let at = rng.below(map);
            bytes[at] ^= 1 << rng.below(8);
        }
        3 => {
            let at = rng.below(bytes.len());
            bytes[at] ^= 1 << rng.below(8);
        }
        _ => bytes.iter_mut().for_each(|byte| *byte = rng.next() as u8),
    }
    bytes
}

pub fn off_by_one(rng: &mut Rng, named: usize) -> usize {
    if named > 0 && rng.once_in(2) {
        named - 1
    } else {
        named + 1
    }
}

/// The length that is named, seldom one off.
pub fn length(rng: &mut Rng, named: usize) -> usize {
    if rng.once_in(8) {
        off_by_one(rng, named)
    } else {
        named
    }
}

pub fn resized<T: Copy>(mut from: Vec<T>, len: usize, fill: T) -> Vec<T> {
    from.resize(len, fill);
    from
}

/// All lists of `len` numbers below p.
pub fn each(p: u32, len: usize, mut to: impl FnMut(&[u32])) {
    let mut list = vec![0; len];
    loop {
        to(&list);
        let Some(at) = (0..len).find(|&j| list[j] + 1 < p) else { break };
        list[at] += 1;
        list[..at].fill(0);
    }
}

pub fn wide(list: &[u32]) -> Vec<u64> {
    list.iter().map(|&x| x as u64).collect()
}
