//! The ledger and the board's words: open, take, withdraw and show.

use super::field::{dot, prime, reading};
use super::frames::frame_read;
use super::met::{first, first_checks, lengths, met, note_low, note_modulus};
use super::tables::{reduce, Table};
use crate::draw::wide;

#[derive(Clone)]
pub struct Ledger {
    pub p: u32,
    pub n: usize,
    pub s: usize,
    pub entries: Vec<(Vec<u64>, Vec<u64>)>,
}

/// The words of a board.
pub fn board_words(n: usize, s: usize) -> usize {
    4 + n * (n + s)
}

/// Open: the number, and the ledger that begins.
pub fn open(p: u32, n: u32, s: u32, board: &mut [u32]) -> (u32, Option<Ledger>) {
    let slices = [("board", board.len(), 4 + n as u128 * (n as u128 + s as u128))];
    let [one, two, twelve] = first_checks("open", p, n, s);
    if let Some(number) = first("open", &[one, two, twelve, (3, lengths("open", &slices))]) {
        return (number, None);
    }
    met("open", "done");
    met("open", &format!("s {s}"));
    let ledger = Ledger { p, n: n as usize, s: s as usize, entries: Vec::new() };
    board.copy_from_slice(&ledger.words());
    (0, Some(ledger))
}

impl Ledger {
    pub fn count(&self) -> usize {
        self.entries.len()
    }

    /// The board of these entries.
    pub fn words(&self) -> Vec<u32> {
        let mut words = vec![self.p, self.n as u32, self.count() as u32, self.s as u32];
        for (row, values) in &self.entries {
            words.extend(row.iter().chain(values).map(|&x| x as u32));
        }
        words.resize(board_words(self.n, self.s), 0);
        words
    }

    /// The ledger whose board these words are, or why they are no board.
    pub fn from_words(words: &[u32]) -> Result<Ledger, &'static str> {
        if words.len() < 4 {
            return Err("no header");
        }
        let (p, n, k, s) = (words[0], words[1], words[2], words[3]);
        if !prime(p) {
            return Err("modulus");
        }
        if n < 1 || n > 64 {
            return Err("size");
        }
        if s < 1 || s > 16 {
            return Err("words");
        }
        let (n, k, s) = (n as usize, k as usize, s as usize);
        if words.len() != board_words(n, s) {
            return Err("length");
        }
        if k > n {
            return Err("count");
        }
        let (rows, later) = words[4..].split_at(k * (n + s));
        if let Some(at) = rows.iter().position(|&x| x >= p).map(|at| at % (n + s)) {
            return Err(if at < n {
                "multiplier"
            } else if s > 1 && at == n + s - 1 {
                "last value of several"
            } else {
                "value"
            });
        }
        if later.iter().any(|&x| x != 0) {
            return Err("later word");
        }
        let entries: Vec<(Vec<u64>, Vec<u64>)> =
            rows.chunks_exact(n + s).map(|row| (wide(&row[..n]), wide(&row[n..]))).collect();
        let mut table: Table = entries.iter().map(|entry| entry.0.clone()).collect();
        if reduce(p as u64, &mut table, n).len() != k {
            return Err("dependent");
        }
        Ok(Ledger { p, n, s, entries })
    }

    /// The numbers by which the entries' rows combine to this row, if they do.
    pub fn combination(&self, row: &[u64]) -> Option<Vec<u64>> {
        let k = self.count();
        let mut t: Table = (0..self.n).map(|j| self.entries.iter().map(|e| e.0[j]).chain([row[j]]).collect()).collect();
        let pivots = reduce(self.p as u64, &mut t, k + 1);
        if pivots.last() == Some(&k) {
            return None;
        }
        assert!(pivots.len() == k, "the model's entries are not independent");
        Some((0..k).map(|i| t[i][k]).collect())
    }

    /// Take, from check 3 on.
    pub fn take(&mut self, frame: &[u8], mix: &mut [u32]) -> u32 {
        if lengths("take", &[("mix", mix.len(), self.n as u128)]) {
            met("take", "3");
            if frame_read("take behind 3,", self.p, self.n, self.s, frame).is_err() {
                met("take", "3 before the frame");
            }
            return 3;
        }
        let (multipliers, values) = match frame_read("take", self.p, self.n, self.s, frame) {
            Ok((multipliers, values)) => (wide(&multipliers), wide(&values)),
            Err(number) => {
                met("take", &number.to_string());
                return number;
            }
        };
        met("take", &format!("n {}", self.n));
        met("take", &format!("at {}", self.count()));
        note_modulus("take", self.p);
        let Some(by) = self.combination(&multipliers) else {
            met("take", "new");
            met("take", &format!("new s {}", self.s));
            self.entries.push((multipliers, values));
            return 0;
        };
        mix.fill(0);
        for (place, x) in mix.iter_mut().zip(&by) {
            *place = *x as u32;
        }
        let told = |w: usize| dot(self.p as u64, by.iter().copied(), self.entries.iter().map(|e| e.1[w]));
        let differing: Vec<usize> = (0..self.s).filter(|&w| told(w) != values[w]).collect();
        self.note_values(&differing, multipliers.iter().all(|x| *x == 0));
        if differing.is_empty() {
            100
        } else {
            9
        }
    }

    /// Notes which values of a frame are not those of its combination.
    fn note_values(&self, differing: &[usize], empty: bool) {
        let (call, s) = ("take", self.s);
        let number = if differing.is_empty() { "repeat" } else { "9" };
        met(call, number);
        met(call, &format!("{number} s {s}{}", if empty { " of no record" } else { "" }));
        if let ([at], true) = (differing, s > 1) {
            let which = if *at == 0 {
                "first"
            } else if *at == s - 1 {
                "last"
            } else {
                "middle"
            };
            met(call, &format!("9 {which} value alone"));
        } else if s > 1 && differing.len() == s {
            met(call, "9 all values");
        }
    }

    /// Withdraw, from check 10 on.
    pub fn withdraw(&mut self, t: u32) -> u32 {
        if t as usize > self.count() {
            met("withdraw", "10");
            if t as usize == self.count() + 1 {
                met("withdraw", "10 by one");
            }
            return 10;
        }
        met("withdraw", "done");
        met("withdraw", &format!("s {}", self.s));
        note_modulus("withdraw", self.p);
        if t as usize == self.count() {
            met("withdraw", "all");
        }
        self.entries.truncate(self.count() - t as usize);
        200 + self.count() as u32
    }

    /// Show, from check 3 on.
    pub fn show(&self, low: u32, marks: &mut [u32], numbers: &mut [i32]) -> u32 {
        let (n, s) = (self.n, self.s);
        let slices = [("marks", marks.len(), n as u128), ("numbers", numbers.len(), (n * s) as u128)];
        if s > 1 && marks.len() == n && numbers.len() == n {
            met("show", "3 one number a record");
        }
        let refusal = first("show", &[(3, lengths("show", &slices)), (4, low >= self.p)]);
        note_low("show", self.p, low, refusal);
        if let Some(number) = refusal {
            return number;
        }
        met("show", "done");
        met("show", &format!("n {n}"));
        met("show", &format!("at {}", self.count()));
        met("show", &format!("s {s}"));
        note_modulus("show", self.p);
        marks.fill(0);
        numbers.fill(0);
        // reduced, the frames say a record alone exactly where a row has its pivot and nothing else
        let mut t: Table = self.entries.iter().map(|e| e.0.iter().chain(&e.1).copied().collect()).collect();
        for (i, j) in reduce(self.p as u64, &mut t, n).into_iter().enumerate() {
            if t[i][..n].iter().filter(|x| **x != 0).count() == 1 {
                marks[j] = 1;
                (0..s).for_each(|w| numbers[j * s + w] = reading(self.p, low, t[i][n + w] as u32));
            }
        }
        let shown = marks.iter().filter(|x| **x == 1).count();
        if shown > 0 && shown < n {
            met("show", "some settled");
            met("show", &format!("some settled s {s}"));
        }
        200 + (n - self.count()) as u32
    }

    /// Which records are settled and to what, by going through all assignments of s residues to each; for the smallest boards.
    pub fn settled_by_trial(&self) -> Vec<Option<Vec<u64>>> {
        let (p, s) = (self.p as u64, self.s);
        let mut assignment = vec![0u64; self.n * s];
        let mut agreed: Option<Vec<Option<Vec<u64>>>> = None;
        loop {
            let word = |w: usize| assignment.iter().skip(w).step_by(s).copied();
            if self.entries.iter().all(|e| (0..s).all(|w| dot(p, e.0.iter().copied(), word(w)) == e.1[w])) {
                let records = assignment.chunks_exact(s).map(|record| record.to_vec());
                agreed = Some(match agreed {
                    None => records.map(Some).collect(),
                    Some(so_far) => so_far.into_iter().zip(records).map(|(s, x)| s.filter(|s| *s == x)).collect(),
                });
            }
            let Some(j) = (0..self.n * s).find(|&j| assignment[j] + 1 < p) else { break };
            assignment[j] += 1;
            assignment[..j].fill(0);
        }
        agreed.expect("independent frames have a common assignment")
    }
}
