//! Logs of frames: clash.

use super::ledger::Ledger;
use super::met::{first, first_checks, lengths, met, note_size};
use super::tables::{reduce, rows_of, transposed, Table};

/// #109: "select positions such that the chosen frames have no common assignment and leaving out any single one gives them one. The
/// clash taken is that of the first frame contradicting the earlier ones, with the earlier ones in the multiplier rows' J that it
/// combines from. .. Without a clash all are 0 and the answer is 0; otherwise the number selected. Order: 1, 2, 12, 3, 4."
pub fn clash(p: u32, m: u32, n: u32, s: u32, log: &[u32], marks: &mut [u32]) -> u32 {
    if let Some(number) = clash_refusal((p, m, n, s), log, marks.len()) {
        return number;
    }
    let frames = rows_of(m as usize, (n + s) as usize, log);
    note_done(m, n, s);
    marks.fill(0);
    let found = contradicting(p as u64, n as usize, &frames);
    met("clash", &format!("{} s {s}", if found.is_some() { "clash" } else { "no clash" }));
    let Some(y) = found else {
        note_peace(p as u64, n as usize, &frames);
        return 200;
    };
    let clash = Clash::of(p, n as usize, s as usize, &frames, y);
    clash.note(p as u64, n as usize, &frames);
    clash.chosen.iter().for_each(|&i| marks[i] = 1);
    200 + clash.chosen.len() as u32
}

/// Whether some assignment meets all these frames, rows of n multipliers and the values behind them: exactly if no combination of them
/// has multipliers that are all 0 and a value that is not.
fn common_assignment(p: u64, n: usize, frames: &[Vec<u64>]) -> bool {
    let mut rows = frames.to_vec();
    let rank = reduce(p, &mut rows, n).len();
    rows[rank..].iter().all(|row| zeros(&row[n..]))
}

/// The first frame with which the frames before it have no common assignment.
fn contradicting(p: u64, n: usize, frames: &[Vec<u64>]) -> Option<usize> {
    (0..frames.len()).find(|&y| !common_assignment(p, n, &frames[..=y]))
}

fn zeros(list: &[u64]) -> bool {
    list.iter().all(|x| *x == 0)
}

/// The clash of frame y, the first one that contradicts the earlier ones.
struct Clash {
    y: usize,
    /// J among the frames before y.
    independent: Vec<usize>,
    /// The positions selected, y the last of them.
    chosen: Vec<usize>,
    /// The words in which y has another value than the combination.
    differing: Vec<usize>,
}

impl Clash {
    fn of(p: u32, n: usize, s: usize, frames: &[Vec<u64>], y: usize) -> Clash {
        let multipliers: Table = frames[..y].iter().map(|row| row[..n].to_vec()).collect();
        let independent = reduce(p as u64, &mut transposed(y, n, &multipliers), y);
        let entries = independent.iter().map(|&i| (frames[i][..n].to_vec(), frames[i][n..].to_vec())).collect();
        let before = Ledger { p, n, s, entries };
        let by = before.combination(&frames[y][..n]).expect("a frame that contradicts others combines from them");
        let value = |w: usize| by.iter().zip(&before.entries).fold(0, |sum, (x, entry)| (sum + x * entry.1[w]) % p as u64);
        let differing = (0..s).filter(|&w| value(w) != frames[y][n + w]).collect();
        let combined = independent.iter().zip(&by).filter(|(_, x)| **x != 0).map(|(i, _)| *i);
        let chosen = combined.chain([y]).collect();
        Clash { y, independent, chosen, differing }
    }

    /// Notes what the clash is like.
    fn note(&self, p: u64, n: usize, frames: &[Vec<u64>]) {
        let (m, s) = (frames.len(), frames[0].len() - n);
        let note = |what: &str, holds: bool| {
            if holds {
                met("clash", what);
            }
        };
        let count = self.chosen.len();
        note(&format!("of {count}"), count <= 3 || count == 64);
        note("of all of several", m > 1 && count == m);
        note("at the first", m > 1 && self.y == 0);
        note("at the last", m > 1 && self.y == m - 1);
        note("in the middle", self.y > 0 && self.y < m - 1);
        note("first word alone", s > 1 && self.differing == [0]);
        note("last word alone", s > 1 && self.differing == [s - 1]);
        note("middle word alone", s > 2 && self.differing.len() == 1 && (1..s - 1).contains(&self.differing[0]));
        note("all of several words", s > 1 && self.differing.len() == s);
        note("one of J left out", count <= self.independent.len());
        let left_out: Vec<usize> = (0..self.y).filter(|i| !self.independent.contains(i)).collect();
        let double = |i: usize| self.chosen.iter().any(|&j| frames[j] == frames[i]);
        note("a double left out", left_out.iter().any(|&i| !zeros(&frames[i][..n]) && double(i)));
        note("zeros left out", left_out.iter().any(|&i| zeros(&frames[i])));
        let others: Table = (0..m).filter(|&i| i != self.y).map(|i| frames[i].clone()).collect();
        note("another behind it", !common_assignment(p, n, &others));
        if s > 1 && m <= 12 {
            let word = |w: usize| -> Table { frames.iter().map(|row| [&row[..n], &row[n + w..=n + w]].concat()).collect() };
            let later = |w: usize| contradicting(p, n, &word(w)).is_some_and(|y| y > self.y);
            note("another behind it in the first word", later(0));
            note("another behind it in the last word", later(s - 1));
        }
    }
}

fn note_done(m: u32, n: u32, s: u32) {
    met("clash", "done");
    for (name, size) in [("m", m), ("n", n), ("s", s)] {
        met("clash", &format!("{name} {size}"));
    }
    if m == 64 && n == 64 {
        met("clash", &format!("64 by 64 s {s}"));
    }
}

/// Notes what a log without a clash is like.
fn note_peace(p: u64, n: usize, frames: &Table) {
    let rank = reduce(p, &mut frames.iter().map(|row| row[..n].to_vec()).collect(), n).len();
    if frames.iter().any(|row| zeros(row)) {
        met("clash", "none with zeros");
    }
    if rank < frames.len() {
        met("clash", if rank < n { "none among repeats of lower rank" } else { "none among repeats of full rank" });
    }
}

fn clash_refusal((p, m, n, s): (u32, u32, u32, u32), log: &[u32], marks_len: usize) -> Option<u32> {
    let slices = [("log", log.len(), m as u128 * (n as u128 + s as u128)), ("marks", marks_len, m as u128)];
    note_size("clash", "m", p, m);
    let [one, (_, no_n), twelve] = first_checks("clash", p, n, s);
    let bad: Vec<usize> = (0..log.len()).filter(|&at| log[at] >= p).collect();
    let checks = [one, (2, m > 64 || no_n), twelve, (3, lengths("clash", &slices)), (4, !bad.is_empty())];
    let number = first("clash", &checks)?;
    match (number, m > 64, no_n) {
        (2, true, true) => met("clash", "2 both"),
        (2, true, false) => met("clash", "2 m"),
        (2, ..) => met("clash", if n == 0 { "2 n of 0" } else { "2 n" }),
        (12, ..) => met("clash", &format!("12 of {s}")),
        (3, ..) if slices[0].1 as u128 == slices[0].2 && !bad.is_empty() => met("clash", "3 marks before 4"),
        (4, ..) if bad.len() == 1 => note_bad(p, n as usize, (n + s) as usize, log, bad[0]),
        _ => {}
    }
    Some(number)
}

/// Notes where the one number that is none stands in a log, whose frames are so wide.
fn note_bad(p: u32, n: usize, width: usize, log: &[u32], at: usize) {
    met("clash", if at % width < n { "4 multiplier" } else { "4 value" });
    if at == 0 {
        met("clash", "4 first number");
    }
    if at == log.len() - 1 {
        met("clash", "4 last number");
    }
    if log[at] == p {
        met("clash", "4 of p");
    }
    if contradicting(p as u64, n, &rows_of(at / width, width, log)).is_some() {
        met("clash", "4 behind a clash");
    }
}
