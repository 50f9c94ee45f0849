//! Moduli, signed readings, and frames: read, written and sealed.

use crate::calls::{self, longest, Group, Heat};
use crate::draw::*;
use crate::lent::Rng;
use crate::model;

// ---- the modulus and signed readings ----

pub fn moduli(g: &mut Group, rounds: usize) {
    let mut list: Vec<u32> = (0..3000).chain(PRIMES).chain(BAD).collect();
    // squares and products of neighbouring primes up to the root of the range, and numbers that fool Fermat's test
    let near: Vec<u32> = (46_000..46_341).filter(|&q| model::prime(q)).collect();
    for (i, &q) in near.iter().enumerate() {
        list.push(q * q);
        if i > 0 {
            list.push(q * near[i - 1]);
        }
    }
    list.extend([46_337u32.pow(2), 46_339 * 46_341, 46_341u32.pow(2), 561, 1105, 1729, 2047, 3277, 4033, 1_373_653]);
    list.extend([25_326_001, 1_093u32.pow(2), 3_511u32.pow(2), 2_147_483_587, 3_215_031_751, 65_537 * 32_749]);
    list.extend(2_147_483_547..2_147_483_747);
    list.extend((0..64).map(|i| u32::MAX - i));
    for _ in 0..rounds {
        list.push(g.rng.next() as u32);
        list.push(g.rng.next() as u32 >> 1 | 1);
    }
    for p in list {
        let v = number(&mut g.rng, p.max(1));
        let low = low_end(&mut g.rng, p.max(1));
        calls::signed(g, p, low, v);
        if g.rng.once_in(16) {
            calls::residue(g, p, low, v as i32);
            calls::open(g, p, 1, 1, 6);
        }
    }
}

/// A reading, and back.
fn read_back(g: &mut Group, p: u32, low: u32, v: u32) {
    let (number, record) = calls::signed(g, p, low, v);
    if number == 0 {
        let back = calls::residue(g, p, low, record);
        g.demand(back == (0, v), || format!("p {p}, low {low}: {v} reads as {record}, which goes back as {back:?}"));
    }
}

/// A record's residue, and back.
fn back_read(g: &mut Group, p: u32, low: u32, record: i64) {
    let record = record.clamp(i32::MIN as i64, i32::MAX as i64) as i32;
    let (number, v) = calls::residue(g, p, low, record);
    if number == 0 {
        let back = calls::signed(g, p, low, v);
        g.demand(back == (0, record), || format!("p {p}, low {low}: {record} goes to {v}, which reads as {back:?}"));
    }
}

pub fn readings(g: &mut Group) {
    // whole ranges and their surroundings, for every low end of small moduli and some of others
    for p in [2u32, 3, 5, 7, 11, 13, 251, 257, 1009] {
        let lows: Vec<u32> = if p < 20 { (0..p + 3).collect() } else { vec![0, 1, p / 2, p / 2 - 1, p - 2, p - 1, p, p + 1] };
        for low in lows {
            (0..p + 3).for_each(|v| read_back(g, p, low, v));
            (-(low as i64) - 3..p as i64 - low as i64 + 3).for_each(|record| back_read(g, p, low, record));
        }
    }
    for p in PRIMES.into_iter().chain(BAD) {
        let (wide, half) = (p as i64, p / 2);
        let near =
            [0, 1, half.saturating_sub(1), half, p.saturating_sub(2), p.saturating_sub(1), p, p.saturating_add(1), u32::MAX];
        for low in near {
            let bound = p.saturating_sub(low);
            let ends =
                [0, 1, bound.saturating_sub(1), bound, bound.saturating_add(1), p.saturating_sub(1), p, 1 << 31, u32::MAX];
            ends.into_iter().for_each(|v| read_back(g, p, low, v));
            let (least, most) = (-(low as i64), wide - 1 - low as i64);
            let ends =
                [least - 1, least, least + 1, -1, 0, 1, most - 1, most, most + 1, i32::MIN as i64, i32::MAX as i64, -wide];
            ends.into_iter().for_each(|record| back_read(g, p, low, record));
        }
    }
    for _ in 0..4000 {
        let p = any_p(&mut g.rng);
        let low = any_low(&mut g.rng, p);
        let v = g.rng.under(p);
        read_back(g, p, low, v);
        let any = g.rng.next() as i32;
        calls::residue(g, p, low, any);
    }
}

// ---- frames ----

fn heat(p: u32, n: usize, s: usize) -> Heat {
    Heat { p, n: n as u32, s: s as u32 }
}

/// A written frame reads back, and an accepted one rewrites to its bytes.
pub fn frame_round(g: &mut Group, p: u32, numbers: &[u32], values: &[u32]) {
    let (n, s) = (numbers.len(), values.len());
    let (number, bytes) = calls::write(g, heat(p, n, s), numbers, values, longest(s));
    let written = (200..=200 + longest(s)).contains(&(number as usize));
    g.demand(written, || format!("write refuses {numbers:?} {values:?} modulo {p}: {number}"));
    if written {
        let frame = &bytes[..number as usize - 200];
        let (answer, back, back_values) = calls::read(g, heat(p, n, s), frame, n, s);
        g.demand(answer as usize == 200 + s && back == numbers && back_values == values, || {
            format!("written {frame:02x?} of {numbers:?} {values:?} reads as {answer} {back:?} {back_values:?}")
        });
    }
}

pub fn read_round(g: &mut Group, p: u32, n: usize, s: usize, frame: &[u8]) {
    let (answer, numbers, values) = calls::read(g, heat(p, n, s), frame, n, s);
    if answer as usize == 200 + s {
        let (number, bytes) = calls::write(g, heat(p, n, s), &numbers, &values, longest(s));
        g.demand(number as usize == 200 + frame.len() && bytes[..frame.len()] == *frame, || {
            format!("accepted {frame:02x?} modulo {p}, n {n}, s {s}, rewrites with {number} to {bytes:02x?}")
        });
    }
}

pub fn frames(g: &mut Group, rounds: usize) {
    for round in 0..rounds {
        let p = any_p(&mut g.rng);
        let n = if round < 256 { 1 + round % 64 } else { 1 + g.rng.below(64) };
        let s = any_s(&mut g.rng);
        let numbers = multipliers(&mut g.rng, p, n);
        let values = values(&mut g.rng, p, s);
        frame_round(g, p, &numbers, &values);
        for _ in 0..3 {
            let bad = damaged(&mut g.rng, p, n, s, &model::frame_of(p, &numbers, &values));
            read_round(g, p, n, s, &bad);
        }
    }
}

/// What read, write and seal are given: at first all of it good but perhaps the frame and the low end.
struct Given {
    heat: Heat,
    low: u32,
    numbers: Vec<u32>,
    values: Vec<u32>,
    records: Vec<i32>,
    frame: Vec<u8>,
}

impl Given {
    fn good(rng: &mut Rng) -> Given {
        let p = any_p(rng);
        let most = if rng.once_in(8) { 64 } else { 12 };
        let (n, s) = (1 + rng.below(most), any_s(rng));
        let (numbers, values) = (multipliers(rng, p, n), values(rng, p, s));
        let low = any_low(rng, p);
        let records = (0..n * s).map(|_| model::reading(p, low, rng.under(p))).collect();
        let mut frame = model::frame_of(p, &numbers, &values);
        if rng.once_in(2) {
            frame = damaged(rng, p, n, s, &frame);
        }
        Given { heat: heat(p, n, s), low, numbers, values, records, frame }
    }

    /// Told another p, n or s, with lengths that would fit n and s where they can be had.
    fn spoil_sizes(&mut self, rng: &mut Rng) {
        let (mut n, mut s) = (self.numbers.len(), self.values.len());
        if rng.once_in(4) {
            self.heat.p = any_bad_p(rng);
        }
        if rng.once_in(4) {
            self.heat.n = if rng.once_in(3) { 0 } else { rng.pick(&WIDE) };
            if self.heat.n < 1000 && rng.once_in(2) {
                n = self.heat.n as usize;
            }
        }
        if rng.once_in(4) {
            self.heat.s = rng.pick(&BAD_S);
            if self.heat.s < 1000 && rng.once_in(2) {
                s = self.heat.s as usize;
            }
        }
        self.numbers.resize(n, 1);
        self.values.resize(s, 0);
        self.records.resize(n * s, 0);
    }

    /// With a multiplier, a record or a value that is none.
    fn spoil_numbers(&mut self, rng: &mut Rng) {
        let p = self.heat.p;
        if !self.numbers.is_empty() && rng.once_in(3) {
            let at = rng.below(self.numbers.len());
            self.numbers[at] = too_large(rng, p);
        }
        if !self.records.is_empty() && rng.once_in(3) {
            let (above, below) = (p as i64 - self.low as i64, -(self.low as i64) - 1);
            let (last, any) = (self.records.len() - 1, rng.below(self.records.len()));
            let record = rng.pick(&[above, below, i32::MIN as i64, i32::MAX as i64]);
            self.records[rng.pick(&[last, any, any])] = record.clamp(i32::MIN as i64, i32::MAX as i64) as i32;
        }
        if !self.values.is_empty() && rng.once_in(4) {
            let (last, any) = (self.values.len() - 1, rng.below(self.values.len()));
            self.values[rng.pick(&[0, last, any])] = too_large(rng, p);
        }
    }
}

pub fn frame_refusals(g: &mut Group, rounds: usize) {
    for _ in 0..rounds {
        let mut given = Given::good(&mut g.rng);
        given.spoil_sizes(&mut g.rng);
        given.spoil_numbers(&mut g.rng);
        let Given { heat, low, numbers, values, records, frame } = given;
        let (len, values_len) = (length(&mut g.rng, numbers.len()), length(&mut g.rng, values.len()));
        let bytes_len = length(&mut g.rng, longest(values.len()));
        let bytes_len = if g.rng.once_in(8) { longest(1) } else { bytes_len };
        let records_len = length(&mut g.rng, records.len());
        calls::read(g, heat, &frame, len, values_len);
        let numbers = resized(numbers, len, 0);
        calls::write(g, heat, &numbers, &resized(values, values_len, 0), bytes_len);
        calls::seal(g, heat, low, &resized(records, records_len, 0), &numbers, values_len);
    }
}

pub fn frames_exhaustive(g: &mut Group) {
    // every frame of two bytes at most
    for n in [1, 8, 9] {
        read_round(g, 2, n, 1, &[]);
        for x in 0..=255u8 {
            read_round(g, 7, n, 1, &[x]);
        }
        for x in 0..=65_535u16 {
            read_round(g, 2, n, 1, &x.to_be_bytes());
        }
    }
    // every multiplier and value of one byte, every value of two, and every two values of one
    for x in 0..=65_535u16 {
        let [high, low] = x.to_be_bytes();
        read_round(g, 251, 1, 1, &[1, high, low]);
        read_round(g, 257, 1, 1, &[0, high, low]);
        read_round(g, 65_521, 1, 1, &[0, high, low]);
        read_round(g, 251, 1, 2, &[0, high, low]);
    }
    for n in 1..=8 {
        for map in 0..=255u8 {
            for p in [2, 3, 2_147_483_647].into_iter().chain(ENDS) {
                map_of_one_byte(g, p, n, 1, map);
                map_of_one_byte(g, p, n, SOME_S[1 + (n + map as usize) % 3], map);
            }
        }
    }
    // every row of multipliers and values
    for (p, most, s) in [(2u32, 6, 1), (3, 4, 1), (5, 3, 1), (7, 2, 1), (2, 4, 2), (2, 4, 3), (3, 3, 2), (5, 1, 3), (2, 1, 8)] {
        for n in 1..=most {
            each(p, n + s, |numbers| frame_round(g, p, &numbers[..n], &numbers[n..]));
        }
    }
}

/// This map with its length and with wrong ones; all numbers right, or one of them wrong.
fn map_of_one_byte(g: &mut Group, p: u32, n: usize, s: usize, map: u8) {
    let standing = map.count_ones() as usize;
    let numbers: Vec<u32> = (0..standing).map(|_| 1 + g.rng.under(p - 1)).collect();
    let numbers: Vec<u32> = numbers.into_iter().chain(values(&mut g.rng, p, s)).collect();
    let frame = |numbers: &[u32]| -> Vec<u8> {
        let numbers = numbers.iter().flat_map(|&x| model::number_bytes(p, x));
        [map].into_iter().chain(numbers).collect()
    };
    let right = frame(&numbers);
    read_round(g, p, n, s, &right);
    wrong_lengths(g, p, n, s, &right);
    for at in 0..standing + s {
        for wrong in [0, p, most(p)] {
            let mut numbers = numbers.clone();
            numbers[at] = wrong;
            read_round(g, p, n, s, &frame(&numbers));
        }
    }
}

/// A frame one byte and one number shorter and longer, its numbers with every other width, and with other numbers of values: all of
/// them are refused by 6.
fn wrong_lengths(g: &mut Group, p: u32, n: usize, s: usize, frame: &[u8]) {
    let (len, w) = (frame.len(), model::width(p));
    let mut wrong = [len - w, len - 1, len + 1, len + w].map(|len| resized(frame.to_vec(), len, 0)).to_vec();
    wrong.extend((1..=4).filter(|other| *other != w).map(|other| with_width(p, n, frame, other)));
    for other in [0, 1, 2, 16, 17] {
        if other != s {
            wrong.push(with_values(&mut g.rng, p, frame, s, other));
        }
    }
    for wrong in wrong {
        let (answer, _, _) = calls::read(g, heat(p, n, s), &wrong, n, s);
        g.demand(answer == 6, || format!("{wrong:02x?} modulo {p}, n {n}, s {s}, with a wrong length, is answered {answer}"));
    }
}

/// On both sides of each width's end, every n, all multipliers standing: frames as long as the width says, and refused at other
/// lengths. Writing is lent 264 + 4 × s bytes even where the frame has fewer.
pub fn widths(g: &mut Group) {
    let primes = [(2, 1), (251, 1), (257, 2), (65_521, 2), (65_537, 3), (16_777_213, 3), (16_777_259, 4), (2_147_483_647, 4)];
    for (i, (p, w)) in primes.into_iter().enumerate() {
        for n in 1..=64 {
            let rows = [vec![1; n], vec![p - 1; n], (0..n).map(|_| 1 + g.rng.under(p - 1)).collect()];
            for (at, row) in rows.iter().enumerate() {
                full_frame(g, p, w, row, SOME_S[(i + n + at) % 4]);
            }
        }
    }
}

/// A frame of these multipliers, none of them 0, in numbers of w bytes.
fn full_frame(g: &mut Group, p: u32, w: usize, row: &[u32], s: usize) {
    let n = row.len();
    let values = values(&mut g.rng, p, s);
    frame_round(g, p, row, &values);
    let (number, bytes) = calls::write(g, heat(p, n, s), row, &values, longest(s));
    let len = n.div_ceil(8) + w * n + w * s;
    g.demand(number as usize == 200 + len, || format!("{n} multipliers and {s} values modulo {p} are written with {number}"));
    wrong_lengths(g, p, n, s, &bytes[..len]);
    let (number, _) = calls::write(g, heat(p, n, s), row, &values, len);
    let want = if len == longest(s) { 200 + len } else { 3 };
    g.demand(number as usize == want, || format!("{n} multipliers modulo {p}, s {s}, {len} bytes lent, are answered {number}"));
}

pub fn seals(g: &mut Group, rounds: usize) {
    for round in 0..rounds {
        let p = any_p(&mut g.rng);
        let n = if round < 128 { 1 + round % 64 } else { 1 + g.rng.below(64) };
        let s = any_s(&mut g.rng);
        let ends = g.rng.once_in(4);
        let low = low_end(&mut g.rng, p);
        let records: Vec<i32> = (0..n * s)
            .map(|_| {
                let v = if ends { g.rng.pick(&[p - 1 - low, (p - low) % p, p - 1, 0]) } else { number(&mut g.rng, p) };
                model::reading(p, low, v)
            })
            .collect();
        let numbers = if ends { vec![p - 1; n] } else { multipliers(&mut g.rng, p, n) };
        calls::seal(g, heat(p, n, s), low, &records, &numbers, s);
    }
}
