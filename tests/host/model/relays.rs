//! The relay box: relay.

use super::field::inverse;
use super::frames::{frame_of, width};
use super::ledger::Ledger;
use super::met::{first, lengths, met, note_modulus};
use crate::draw::wide;

/// A combination of the standing frames: its multipliers, its values, and by how much each frame is in it.
struct Sum {
    row: Vec<u64>,
    values: Vec<u64>,
    by: Vec<u64>,
}

impl Sum {
    /// Takes away so many times another one.
    fn less(&mut self, p: u64, times: u64, other: &Sum) {
        let go = |to: &mut Vec<u64>, from: &Vec<u64>| {
            to.iter_mut().zip(from).for_each(|(x, y)| *x = (*x + (p - times) * y) % p);
        };
        go(&mut self.row, &other.row);
        go(&mut self.values, &other.values);
        go(&mut self.by, &other.by);
    }
}

/// What a relay that is not refused gives.
pub struct Given {
    pub values: Vec<u64>,
    pub mix: Vec<u64>,
}

impl Ledger {
    /// The standing frames one after the other, each less those before it at their first multipliers: each then has a first multiplier that
    /// those behind it lack.
    fn stairs(&self) -> Vec<(usize, Sum)> {
        let (p, k) = (self.p as u64, self.count());
        let mut stairs: Vec<(usize, Sum)> = Vec::new();
        for (i, (row, values)) in self.entries.iter().enumerate() {
            let by = (0..k).map(|t| (t == i) as u64).collect();
            let mut sum = Sum { row: row.clone(), values: values.clone(), by };
            for (at, stair) in &stairs {
                sum.less(p, sum.row[*at] * inverse(p, stair.row[*at]) % p, stair);
            }
            let at = sum.row.iter().position(|x| *x != 0).expect("the model's entries are independent");
            stairs.push((at, sum));
        }
        stairs
    }

    /// "the one frame that the standing rows combine to": its values and the combination. None where the row is no combination.
    pub fn relayed(&self, wanted: &[u64]) -> Option<Given> {
        let p = self.p as u64;
        // the wanted row less what the frames have of it; what was taken away comes out with the other sign
        let mut rest = Sum { row: wanted.to_vec(), values: vec![0; self.s], by: vec![0; self.count()] };
        for (at, stair) in &self.stairs() {
            rest.less(p, rest.row[*at] * inverse(p, stair.row[*at]) % p, stair);
        }
        let turned = |list: &[u64]| list.iter().map(|x| (p - x) % p).collect();
        rest.row.iter().all(|x| *x == 0).then(|| Given { values: turned(&rest.values), mix: turned(&rest.by) })
    }

    /// #107: "Given a board and that row, write, as writing does, the one frame that the standing rows combine to, with the combination in a
    /// lent mix of n words; refuse exactly if there is none. Checks: 11, 3, 4, then the new one. .. 15, the wanted row is no combination;
    /// nothing is written." From check 3 on.
    pub fn relay(&self, wanted: &[u32], mix: &mut [u32], bytes: &mut [u8]) -> u32 {
        // worked out wherever there is a row of n numbers, refused or not, to see that 15 comes after the other checks
        let residues = wide(wanted).iter().map(|x| x % self.p as u64).collect::<Vec<_>>();
        let given = if wanted.len() == self.n { self.relayed(&residues) } else { None };
        let no_combination = wanted.len() == self.n && given.is_none();
        if let Some(number) = self.relay_refusal(wanted, mix.len(), bytes.len(), no_combination) {
            return number;
        }
        let given = given.expect("a row of n numbers that combines");
        let values: Vec<u32> = given.values.iter().map(|x| *x as u32).collect();
        let frame = frame_of(self.p, wanted, &values);
        self.note_relayed(wanted, &given, frame.len() == bytes.len());
        mix.fill(0);
        mix.iter_mut().zip(&given.mix).for_each(|(place, x)| *place = *x as u32);
        bytes[..frame.len()].copy_from_slice(&frame);
        200 + frame.len() as u32
    }

    fn relay_refusal(&self, wanted: &[u32], mix_len: usize, bytes_len: usize, no_combination: bool) -> Option<u32> {
        let (n, longest) = (self.n as u128, 264 + 4 * self.s as u128);
        let slices = [("wanted", wanted.len(), n), ("mix", mix_len, n), ("bytes", bytes_len, longest)];
        let bad: Vec<usize> = (0..wanted.len()).filter(|&j| wanted[j] >= self.p).collect();
        let checks = [(3, lengths("relay", &slices)), (4, !bad.is_empty()), (15, no_combination)];
        let number = first("relay", &checks)?;
        match number {
            3 => note_length(self.s, &slices, !bad.is_empty(), no_combination),
            4 => self.note_bad(wanted, &bad),
            _ => self.note_no_combination(wanted),
        }
        Some(number)
    }

    /// Notes which numbers are the bad ones.
    fn note_bad(&self, wanted: &[u32], bad: &[usize]) {
        if let ([at], true) = (bad, self.n > 1) {
            let ends = [("first", *at == 0), ("last", *at == self.n - 1)];
            ends.iter().filter(|end| end.1).for_each(|end| met("relay", &format!("4 {} alone", end.0)));
        }
        for (name, x) in [("p", self.p), ("the most", u32::MAX)] {
            if bad.iter().all(|at| wanted[*at] == x) {
                met("relay", &format!("4 of {name}"));
            }
        }
    }

    /// Notes what a row that is no combination lacks: where another number at one record would make it one.
    fn note_no_combination(&self, wanted: &[u32]) {
        let (n, k) = (self.n, self.count());
        met("relay", &format!("15 s {}", self.s));
        met("relay", &format!("15 at {k}"));
        if k + 1 == n && n > 1 {
            met("relay", "15 for want of one frame");
        }
        if n > 12 || k == 0 {
            return;
        }
        let combines_but_for = |j: usize| {
            let unit: Vec<u64> = (0..n).map(|i| (i == j) as u64).collect();
            if self.relayed(&unit).is_some() {
                return false;
            }
            let mut with = self.clone();
            with.entries.push((unit, vec![0; self.s]));
            with.relayed(&wide(wanted)).is_some()
        };
        for (name, j) in [("first", 0), ("last", n - 1)] {
            if combines_but_for(j) {
                met("relay", &format!("15 by the {name} record"));
            }
        }
    }

    /// Notes what was relayed.
    fn note_relayed(&self, wanted: &[u32], given: &Given, all_bytes: bool) {
        let (call, n, k, s, w) = ("relay", self.n, self.count(), self.s, width(self.p));
        let note = |what: &str, holds: bool| {
            if holds {
                met(call, what);
            }
        };
        met(call, "done");
        note_modulus(call, self.p);
        [format!("n {n}"), format!("at {k}"), format!("s {s}"), format!("width {w} s {s}")]
            .iter()
            .for_each(|what| met(call, what));
        note(&format!("all bytes at s {s}"), all_bytes);
        let zeros = wanted.iter().all(|x| *x == 0);
        let taken = given.mix.iter().filter(|x| **x != 0).count();
        note("zeros", zeros && k > 0);
        note("zeros on an empty board", zeros && k == 0);
        note("a standing row", k > 1 && taken == 1 && given.mix.contains(&1));
        note("of all of several", k > 1 && taken == k);
        note("of the first and the last alone", k > 2 && taken == 2 && given.mix[0] != 0 && given.mix[k - 1] != 0);
        note("on a full board", k == n);
        note("on a full board of several", k == n && n > 1 && taken > 1);
        note("a record by itself", k < n && taken > 1 && wanted.iter().filter(|x| **x != 0).count() == 1);
        note("a value of 0 among several", s > 1 && given.values.contains(&0) && given.values.iter().any(|x| *x != 0));
        note("values that differ", (1..s).any(|word| given.values[word] != given.values[0]));
    }
}

/// Notes which slice has the wrong length alone, where the row would be refused for its numbers or as no combination, and bytes that would
/// be right for one value.
fn note_length(s: usize, slices: &[(&str, usize, u128); 3], bad: bool, no_combination: bool) {
    let wrong: Vec<&str> = slices.iter().filter(|slice| slice.1 as u128 != slice.2).map(|slice| slice.0).collect();
    if let [name] = wrong[..] {
        let later = [("4", bad), ("15", no_combination)];
        later.iter().filter(|later| later.1).for_each(|later| met("relay", &format!("3 {name} before {}", later.0)));
    }
    if s > 1 && slices[2].1 == 268 {
        met("relay", "3 bytes for one value");
    }
}
