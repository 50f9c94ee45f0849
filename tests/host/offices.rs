//! The office fed by the relay beside the box: an office board of the box's p, n and s takes frames that the box relays, lost, doubled and in
//! any order, with withdrawals, shows and refused calls between. After each call it shows nothing that the box does not show alike.

use crate::calls::{self, longest, Group};
use crate::draw::*;
use crate::histories::History;
use crate::model::{self, met, Ledger};
use crate::relays::{any_box, any_row, heat_of, row_in_span, whole_relay};

/// A box that is not changed, and what it shows; an office, and the frames that the box has sent so far.
struct Fed<'a> {
    words: Vec<u32>,
    ledger: &'a Ledger,
    low: u32,
    marks: Vec<u32>,
    numbers: Vec<i32>,
    office: History,
    sent: Vec<Vec<u8>>,
}

impl Fed<'_> {
    fn begin<'a>(g: &mut Group, ledger: &'a Ledger) -> Fed<'a> {
        let (words, low) = (ledger.words(), low_end(&mut g.rng, ledger.p));
        let (_, marks, numbers) = calls::show(g, &words, Some(ledger), low, ledger.n, ledger.n * ledger.s);
        let office = History::begin(g, ledger.p, ledger.n, ledger.s);
        Fed { words, ledger, low, marks, numbers, office, sent: Vec::new() }
    }

    /// A frame that the box relays for a row of its span; seldom as it stood when it had taken fewer frames.
    fn relayed(&mut self, g: &mut Group) -> Vec<u8> {
        let mut from = self.ledger.clone();
        if g.rng.once_in(6) {
            from.entries.truncate(g.rng.below(from.count() + 1));
        }
        let wanted = row_in_span(&mut g.rng, &from);
        let relayed = calls::relay(g, &from.words(), Some(&from), &wanted, from.n, longest(from.s));
        let frame = relayed.frame().map(|frame| frame.to_vec());
        g.demand(frame.is_some(), || format!("a combination {wanted:?} is refused {}: {:?}", relayed.number, self.words));
        let frame = frame.unwrap_or_default();
        self.sent.push(frame.clone());
        frame
    }

    fn take(&mut self, g: &mut Group, frame: &[u8], mix_len: usize) {
        let answer = self.office.take(g, frame, mix_len);
        met("office", &format!("take {answer}"));
        g.demand(answer != 9, || {
            format!("the office {:?} answers 9 to {frame:02x?} of the box {:?}", self.office.words, self.words)
        });
    }

    /// One call at the office, whichever.
    fn step(&mut self, g: &mut Group) {
        let (n, count) = (self.ledger.n, self.office.ledger.count() as u32);
        match g.rng.below(16) {
            0..=7 => {
                let frame = self.relayed(g);
                let lost = g.rng.once_in(4);
                (0..if lost { 0 } else { 1 + g.rng.below(2) }).for_each(|_| self.take(g, &frame, n));
            }
            8 | 9 if !self.sent.is_empty() => {
                let frame = self.sent[g.rng.below(self.sent.len())].clone();
                self.take(g, &frame, n);
            }
            10 => {
                let t = g.rng.pick(&[1, 1, 2, count, count + 1]);
                let answer = self.office.withdraw(g, t);
                met("office", if answer == 10 { "refused withdrawal" } else { "withdrawal" });
            }
            11 => {
                // cut short, or with a mix of another length: refused
                let (frame, mix_len) = (self.relayed(g), off_by_one(&mut g.rng, n));
                let cut = g.rng.below(frame.len().max(1));
                self.take(g, &frame[..cut], n);
                self.take(g, &frame, mix_len);
            }
            12 => self.asked_in_vain(g),
            _ => self.second_hand(g),
        }
    }

    /// Rows that the box may not have, asked of the box: what is refused does not reach the office.
    fn asked_in_vain(&mut self, g: &mut Group) {
        let wanted = any_row(&mut g.rng, self.ledger);
        let relayed = calls::relay(g, &self.words, Some(self.ledger), &wanted, self.ledger.n, longest(self.ledger.s));
        if let Some(frame) = relayed.frame() {
            let frame = frame.to_vec();
            self.take(g, &frame, self.ledger.n);
        }
    }

    /// The office relays in its turn: the same frame that the box relays for that row.
    fn second_hand(&mut self, g: &mut Group) {
        let (office, (n, s)) = (&self.office, (self.ledger.n, self.ledger.s));
        let wanted = row_in_span(&mut g.rng, &office.ledger);
        let second = calls::relay(g, &office.words, Some(&office.ledger), &wanted, n, longest(s));
        let first = calls::relay(g, &self.words, Some(self.ledger), &wanted, n, longest(s));
        g.demand(second.frame().is_some() && second.frame() == first.frame(), || {
            format!("for {wanted:?} the office {:?} relays another frame than the box {:?}", office.words, self.words)
        });
    }

    /// What the office shows the box shows alike, and with as many frames it shows all that.
    fn compare(&self, g: &mut Group) {
        let (n, s, office) = (self.ledger.n, self.ledger.s, &self.office);
        let (answer, marks, numbers) = office.show_from(g, self.low, n, n * s);
        let alike = |j: usize| self.marks[j] == 1 && numbers[j * s..][..s] == self.numbers[j * s..][..s];
        g.demand((0..n).all(|j| marks[j] == 0 || alike(j)), || {
            format!(
                "the office {:?} shows {marks:?} {numbers:?}, the box {:?} {:?} {:?}",
                office.words, self.words, self.marks, self.numbers
            )
        });
        let (count, all) = (office.ledger.count(), self.ledger.count());
        g.demand(count <= all, || {
            format!("the office has {count} frames of a box with {all}: {:?} {:?}", office.words, self.words)
        });
        if count == all {
            let same = marks == self.marks && numbers == self.numbers && answer as usize == 200 + n - all;
            g.demand(same, || {
                format!("the office {:?} has all frames and shows not what the box {:?} does", office.words, self.words)
            });
        }
        self.note(&marks, count);
    }

    fn note(&self, marks: &[u32], count: usize) {
        let sum = |marks: &[u32]| marks.iter().sum::<u32>() as usize;
        let (open, all) = (sum(&self.marks) < self.ledger.n, self.ledger.count());
        let note = |what: &str, holds: bool| {
            if holds {
                met("office", what);
            }
        };
        note("some shown of a box that leaves some open", sum(marks) > 0 && open);
        note("fewer shown than the box shows", sum(marks) < sum(&self.marks));
        note("all that the box shows with fewer frames", count < all && sum(marks) > 0 && sum(marks) == sum(&self.marks));
        note("all frames and some shown", count == all && count > 0 && open && sum(marks) > 0);
        note("all frames and none shown", count == all && count > 0 && sum(marks) == 0);
        note("all frames and all shown", count == all && !open);
        note(&format!("s {}", self.ledger.s), sum(marks) > 0);
    }

    /// Relays until the office has as many frames as the box, which then takes each of these for a repeat.
    fn fill(&mut self, g: &mut Group) {
        let (n, all) = (self.ledger.n, self.ledger.count());
        for _ in 0..40 * n {
            if self.office.ledger.count() == all {
                break;
            }
            let frame = self.relayed(g);
            self.take(g, &frame, n);
        }
        self.compare(g);
        let standing = self.office.ledger.entries.clone();
        for (row, values) in &standing {
            let narrow = |list: &[u64]| list.iter().map(|x| *x as u32).collect::<Vec<_>>();
            let frame = model::frame_of(self.ledger.p, &narrow(row), &narrow(values));
            let (answer, _) = calls::take(g, &self.words, Some(&mut self.ledger.clone()), &frame, n);
            g.demand(answer == 100, || {
                format!("the box {:?} answers {answer} to {row:?} {values:?} of the office", self.words)
            });
        }
    }
}

pub fn offices(g: &mut Group, rounds: usize, most: usize, steps: usize) {
    for round in 0..rounds {
        let (p, s) = (any_p(&mut g.rng), any_s(&mut g.rng));
        let n = if round < most { round + 1 } else { 1 + g.rng.below(most) };
        let any = g.rng.below(n + 1);
        let k = g.rng.pick(&[n, n - 1, any, any]);
        let (ledger, records) = any_box(&mut g.rng, p, n, s, k);
        met("office", if records.is_some() { "honest box" } else { "falsified box" });
        let mut fed = Fed::begin(g, &ledger);
        for _ in 0..steps {
            fed.step(g);
            fed.compare(g);
        }
        fed.fill(g);
        one_by_one(g, &fed);
        if let Some(records) = records {
            shows_records(g, &fed, &records);
        }
    }
}

/// The box relays the row of a record by itself exactly if it shows the record, and then with what it shows.
fn one_by_one(g: &mut Group, fed: &Fed) {
    let (p, n, s) = (fed.ledger.p, fed.ledger.n, fed.ledger.s);
    for j in 0..n {
        let unit: Vec<u32> = (0..n).map(|i| (i == j) as u32).collect();
        let relayed = calls::relay(g, &fed.words, Some(fed.ledger), &unit, n, longest(s));
        let shown = relayed.frame().map(|frame| {
            let (_, _, values) = calls::read(g, heat_of(fed.ledger), frame, n, s);
            values.iter().map(|x| model::reading(p, fed.low, *x)).collect::<Vec<_>>()
        });
        let own = (fed.marks[j] == 1).then(|| fed.numbers[j * s..][..s].to_vec());
        g.demand(shown == own, || {
            format!("record {j} by itself is relayed as {shown:?}, the box {:?} shows {own:?}", fed.words)
        });
    }
}

/// Where all frames were sealed for one set of records, what the office shows are these.
fn shows_records(g: &mut Group, fed: &Fed, records: &[u32]) {
    let (p, n, s) = (fed.ledger.p, fed.ledger.n, fed.ledger.s);
    let (_, marks, numbers) = fed.office.show_from(g, fed.low, n, n * s);
    let right = (0..n * s).all(|i| marks[i / s] == 0 || numbers[i] == model::reading(p, fed.low, records[i]));
    g.demand(right, || format!("the office shows {marks:?} {numbers:?} of {records:?} modulo {p}, low {}", fed.low));
}

/// Relays leave no trace: a list of calls, made once as it is, and once more with relays from the board as it stands and from another one
/// put between, leaves the same words after each call, with the same answers.
pub fn relays_between(g: &mut Group, rounds: usize, most: usize, steps: usize) {
    for _ in 0..rounds {
        let (p, s) = (any_p(&mut g.rng), any_s(&mut g.rng));
        let n = 1 + g.rng.below(most);
        let mut plain = History::begin(g, p, n, s);
        let list: Vec<_> = (0..steps + n).map(|_| (plain.step(g), plain.words.clone())).collect();
        let k = g.rng.below(n + 1);
        let (other, _) = any_box(&mut g.rng, p, n, s, k);
        let mut between = History::begin(g, p, n, s);
        for ((call, answer), words) in &list {
            for _ in 0..g.rng.below(3) {
                let wanted = any_row(&mut g.rng, &between.ledger);
                whole_relay(g, &between.words, &between.ledger, &wanted);
                let wanted = any_row(&mut g.rng, &other);
                calls::relay(g, &other.words(), Some(&other), &wanted, n, longest(s));
            }
            let again = between.make(g, call);
            g.demand(again == *answer && between.words == *words, || {
                format!("with relays between {again} {:?}, without {answer} {words:?}", between.words)
            });
        }
    }
}
