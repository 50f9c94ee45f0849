//! Frames: their bytes, read, write and seal.

use super::field::{dot, in_range, residue_of};
use super::met::{first, first_checks, lengths, met, note_four, note_low};

/// The bytes of a number in a frame modulo p: the fewest that hold p - 1, from 1 to 4.
pub fn width(p: u32) -> usize {
    (1..4).find(|&w| p as u64 <= 256u64.pow(w)).unwrap_or(4) as usize
}

/// A number of a frame modulo p: p or more it may be, but no more than the width holds.
pub fn number_bytes(p: u32, x: u32) -> Vec<u8> {
    let (bytes, spare) = (x.to_be_bytes(), 4 - width(p));
    assert!(bytes[..spare].iter().all(|byte| *byte == 0), "{x} is too wide for a frame modulo {p}");
    bytes[spare..].to_vec()
}

/// The numbers behind a frame's map, each of so many bytes; bytes too few for another one are left out.
pub fn numbers_of(bytes: &[u8], width: usize) -> Vec<u32> {
    bytes.chunks_exact(width).map(|number| number.iter().fold(0, |x, &byte| 256 * x + byte as u32)).collect()
}

/// The bytes of a frame, and no question asked: numbers may be what no frame has.
pub fn frame_of(p: u32, multipliers: &[u32], values: &[u32]) -> Vec<u8> {
    let mut bytes = vec![0; multipliers.len().div_ceil(8)];
    for (j, _) in multipliers.iter().enumerate().filter(|record| *record.1 != 0) {
        bytes[j / 8] |= 1 << (j % 8);
    }
    bytes.extend(multipliers.iter().filter(|x| **x != 0).chain(values).flat_map(|&x| number_bytes(p, x)));
    bytes
}

/// Notes by how much the length is not the one that the map names, and whether the frame is a good one but for its numbers' width or
/// for how many values it has.
fn note_frame_length(call: &str, p: u32, map: usize, standing: usize, s: usize, frame: &[u8]) {
    let w = width(p);
    let (named, len) = (map + w * standing + w * s, frame.len());
    let side = if len < named { "short" } else { "long" };
    met(call, &format!("6 {side}"));
    if len.abs_diff(named) == 1 {
        met(call, &format!("6 a byte {side} at width {w}"));
    }
    if len.abs_diff(named) == w {
        met(call, &format!("6 a number {side} at width {w}"));
    }
    let good = |w: usize| {
        let numbers = numbers_of(&frame[map..], w);
        numbers[..standing].iter().all(|x| *x != 0) && numbers.iter().all(|x| *x < p)
    };
    if let Some(other) = (1..=4).find(|other| len == map + other * standing + other * s).filter(|other| good(*other)) {
        met(call, &format!("6 numbers of {other} at width {w}"));
    }
    if let Some(other) = (0..=17).find(|other| len == map + w * standing + w * other).filter(|_| good(w)) {
        met(call, &format!("6 of {other} values at s {s}"));
    }
}

/// Notes which value of several is the bad one.
fn note_value(call: &str, at: usize, s: usize) {
    if s > 1 && at == 0 {
        met(call, "4 first value of several");
    } else if s > 1 && at == s - 1 {
        met(call, "4 last value of several");
    }
}

/// Notes which number of p or more a frame was refused for: the ends of what the width can hold, and where it stands.
fn note_large(call: &str, p: u32, x: u32, at: usize, standing: usize, s: usize) {
    let w = width(p);
    met(call, if at < standing { "4 multiplier" } else { "4 value" });
    if at >= standing {
        note_value(call, at - standing, s);
    }
    if x == p {
        met(call, &format!("4 of p at width {w}"));
    }
    if x as u64 == 256u64.pow(w as u32) - 1 {
        met(call, &format!("4 of the most at width {w}"));
    }
}

/// Notes what a good frame was like.
fn note_frame(call: &str, w: usize, values: &[u32]) {
    let s = values.len();
    met(call, &format!("width {w}"));
    met(call, &format!("width {w} s {s}"));
    met(call, &format!("s {s}"));
    if s > 1 && values.contains(&0) {
        met(call, "a value of 0 among several");
    }
}

/// The frame's own checks, then its multipliers and values.
pub fn frame_read(call: &str, p: u32, n: usize, s: usize, frame: &[u8]) -> Result<(Vec<u32>, Vec<u32>), u32> {
    let (map, w) = (n.div_ceil(8), width(p));
    if frame.len() < map {
        met(call, "6 cut map");
        return Err(6);
    }
    let standing: Vec<usize> = (0..8 * map).filter(|&j| frame[j / 8] >> (j % 8) & 1 == 1).collect();
    let named = map + w * standing.len() + w * s;
    let padded = standing.iter().any(|&j| j >= n);
    let numbers = numbers_of(&frame[map..], w);
    let zero = numbers.iter().take(standing.len()).position(|&x| x == 0);
    let large = numbers.iter().position(|&x| x >= p);
    if frame.len() != named {
        note_frame_length(call, p, map, standing.len(), s, frame);
        let padding = if frame.len() < named { "6 short with padding" } else { "6 long with padding" };
        let also = [(padded, padding), (zero.is_some(), "6 with a zero"), (large.is_some(), "6 with a large number")];
        also.iter().filter(|also| also.0).for_each(|also| met(call, also.1));
        return Err(6);
    }
    if padded {
        met(call, if zero.or(large).is_some() { "7 with a bad number" } else { "7 alone" });
        met(call, &format!("7 at width {w}"));
        return Err(7);
    }
    match (zero, large) {
        (Some(_), None) => met(call, &format!("8 alone at width {w}")),
        (Some(z), Some(l)) if z < l => met(call, "8 before 4"),
        (Some(_), Some(_)) => met(call, "4 before 8"),
        (None, Some(l)) => note_large(call, p, numbers[l], l, standing.len(), s),
        (None, None) => {
            let (mut multipliers, values) = (vec![0; n], numbers[standing.len()..].to_vec());
            note_frame(call, w, &values);
            standing.iter().zip(&numbers).for_each(|(&j, &x)| multipliers[j] = x);
            return Ok((multipliers, values));
        }
    }
    Err(if zero.unwrap_or(usize::MAX) < large.unwrap_or(usize::MAX) { 8 } else { 4 })
}

pub fn read(p: u32, n: u32, s: u32, frame: &[u8], multipliers: &mut [u32], values: &mut [u32]) -> u32 {
    let slices = [("multipliers", multipliers.len(), n as u128), ("values", values.len(), s as u128)];
    let [one, two, twelve] = first_checks("read", p, n, s);
    if let Some(number) = first("read", &[one, two, twelve, (3, lengths("read", &slices))]) {
        if [12, 3].contains(&number) && frame_read("read behind,", p, n as usize, s as usize, frame).is_err() {
            met("read", &format!("{number} before the frame"));
        }
        return number;
    }
    match frame_read("read", p, n as usize, s as usize, frame) {
        Err(number) => {
            met("read", &number.to_string());
            number
        }
        Ok((numbers, read)) => {
            met("read", "done");
            met("read", &format!("n {n}"));
            multipliers.copy_from_slice(&numbers);
            values.copy_from_slice(&read);
            200 + s
        }
    }
}

pub fn write(p: u32, n: u32, s: u32, multipliers: &[u32], values: &[u32], bytes: &mut [u8]) -> u32 {
    let named = [n as u128, s as u128, 264 + 4 * s as u128];
    let slices =
        [("multipliers", multipliers.len(), named[0]), ("values", values.len(), named[1]), ("bytes", bytes.len(), named[2])];
    let large = multipliers.iter().any(|&x| x >= p);
    let large_values: Vec<usize> = (0..values.len()).filter(|&w| values[w] >= p).collect();
    let [one, two, twelve] = first_checks("write", p, n, s);
    let numbers = large || !large_values.is_empty();
    if let Some(number) = first("write", &[one, two, twelve, (3, lengths("write", &slices)), (4, numbers)]) {
        if number == 4 {
            note_four("write", &[("multipliers", large), ("values", !large_values.is_empty())]);
            if let [at] = large_values[..] {
                note_value("write", at, s as usize);
            }
        }
        return number;
    }
    met("write", "done");
    met("write", &format!("n {n}"));
    note_frame("write", width(p), values);
    let frame = frame_of(p, multipliers, values);
    if frame.len() == bytes.len() {
        met("write", &format!("all bytes at s {s}"));
    }
    bytes[..frame.len()].copy_from_slice(&frame);
    200 + frame.len() as u32
}

pub fn seal(p: u32, n: u32, s: u32, low: u32, records: &[i32], multipliers: &[u32], values: &mut [u32]) -> u32 {
    let named = [n as u128 * s as u128, n as u128, s as u128];
    let slices = [
        ("records", records.len(), named[0]),
        ("multipliers", multipliers.len(), named[1]),
        ("values", values.len(), named[2]),
    ];
    let large = multipliers.iter().any(|&x| x >= p);
    let bad_low = low >= p;
    let outside: Vec<usize> = (0..records.len()).filter(|&i| !in_range(p, low, records[i])).collect();
    let [one, two, twelve] = first_checks("seal", p, n, s);
    let numbers = large || bad_low || !outside.is_empty();
    let refusal = first("seal", &[one, two, twelve, (3, lengths("seal", &slices)), (4, numbers)]);
    note_low("seal", p, low, refusal);
    if let Some(number) = refusal {
        if number == 4 {
            note_four("seal", &[("multipliers", large), ("low", bad_low), ("records", !outside.is_empty())]);
            if s > 1 && outside == [records.len() - 1] {
                met("seal", "4 last word of several");
            }
        }
        return number;
    }
    met("seal", "done");
    met("seal", &format!("n {n}"));
    met("seal", &format!("s {s}"));
    for (w, value) in values.iter_mut().enumerate() {
        let words = records.iter().skip(w).step_by(s as usize).map(|&x| residue_of(p, x) as u64);
        *value = dot(p as u64, words, multipliers.iter().map(|&x| x as u64)) as u32;
    }
    if (1..values.len()).any(|w| values[w] != values[0]) {
        met("seal", "values that differ");
    }
    200 + s
}
