//! Histories: open, then take, withdraw and show, each on the board as the last call left it.

use crate::boards::any_ledger;
use crate::calls::{self, longest, Group, Heat};
use crate::draw::*;
use crate::lent::Rng;
use crate::model::{self, board_words, Ledger};

/// A history under way: the board's words as the last call left them, and the ledger, which reads nothing of them. The records that
/// true frames are of stand record after record, each with its s words.
pub struct History {
    pub words: Vec<u32>,
    pub ledger: Ledger,
    records: Vec<u64>,
    sent: Vec<Vec<u8>>,
}

/// A call on a board: a frame and the length of the mix, how many to withdraw, or a low end and the lengths of marks and numbers.
pub enum Call {
    Take(Vec<u8>, usize),
    Withdraw(u32),
    Show(u32, usize, usize),
}

impl History {
    pub fn begin(g: &mut Group, p: u32, n: usize, s: usize) -> History {
        let (_, ledger) = calls::open(g, p, n as u32, s as u32, board_words(n, s));
        let ledger = ledger.expect("an accepted open");
        let records = (0..n * s).map(|_| g.rng.under(p) as u64).collect();
        History { words: ledger.words(), ledger, records, sent: Vec::new() }
    }

    fn true_frame(&self, numbers: &[u32]) -> Vec<u8> {
        let (p, s) = (self.ledger.p, self.ledger.s);
        let word = |w: usize| self.records.iter().skip(w).step_by(s).copied();
        let values: Vec<u32> = (0..s).map(|w| model::dot(p as u64, wide(numbers).into_iter(), word(w)) as u32).collect();
        model::frame_of(p, numbers, &values)
    }

    /// A frame that standing ones sum to, with these added to its values.
    fn summed_and(&self, rng: &mut Rng, more: &[u64]) -> Vec<u8> {
        let (p, n) = (self.ledger.p as u64, self.ledger.n);
        let mut sum = vec![0; n];
        sum.extend(more);
        let few = rng.once_in(2);
        for (row, values) in &self.ledger.entries {
            if !few || rng.once_in(self.ledger.count().div_ceil(3)) {
                let by = rng.under(self.ledger.p) as u64;
                for (place, x) in sum.iter_mut().zip(row.iter().chain(values)) {
                    *place = (*place + by * x) % p;
                }
            }
        }
        let sum: Vec<u32> = sum.into_iter().map(|x| x as u32).collect();
        model::frame_of(self.ledger.p, &sum[..n], &sum[n..])
    }

    /// A frame that standing ones sum to.
    fn summed(&self, rng: &mut Rng) -> Vec<u8> {
        self.summed_and(rng, &vec![0; self.ledger.s])
    }

    /// The same, but for some of its values.
    fn bent(&self, rng: &mut Rng) -> Vec<u8> {
        let more = changes(rng, self.ledger.p, self.ledger.s);
        self.summed_and(rng, &more)
    }

    fn any_frame(&mut self, rng: &mut Rng) -> Vec<u8> {
        let (p, n, s) = (self.ledger.p, self.ledger.n, self.ledger.s);
        let frame = match rng.below(20) {
            0..=8 => self.true_frame(&multipliers(rng, p, n)),
            9 | 10 if !self.sent.is_empty() => self.sent[rng.below(self.sent.len())].clone(),
            11 | 12 => self.summed(rng),
            13 | 14 => self.bent(rng),
            15 => model::frame_of(p, &multipliers(rng, p, n), &values(rng, p, s)),
            16 => {
                let none = if rng.once_in(2) { vec![0; s] } else { changes(rng, p, s).iter().map(|&x| x as u32).collect() };
                model::frame_of(p, &vec![0; n], &none)
            }
            _ => {
                let good = self.true_frame(&multipliers(rng, p, n));
                damaged(rng, p, n, s, &good)
            }
        };
        if self.sent.len() < 100 {
            self.sent.push(frame.clone());
        }
        frame
    }

    pub fn take(&mut self, g: &mut Group, frame: &[u8], mix_len: usize) -> u32 {
        let (number, words) = calls::take(g, &self.words, Some(&mut self.ledger), frame, mix_len);
        self.words = words;
        number
    }

    pub fn withdraw(&mut self, g: &mut Group, t: u32) -> u32 {
        let (number, words) = calls::withdraw(g, &self.words, Some(&mut self.ledger), t);
        self.words = words;
        number
    }

    pub fn show_from(&self, g: &mut Group, low: u32, marks_len: usize, numbers_len: usize) -> (u32, Vec<u32>, Vec<i32>) {
        calls::show(g, &self.words, Some(&self.ledger), low, marks_len, numbers_len)
    }

    /// Some call, whichever.
    fn any_call(&mut self, rng: &mut Rng) -> Call {
        let (n, named) = (self.ledger.n, self.ledger.n * self.ledger.s);
        let low = any_low(rng, self.ledger.p);
        match rng.below(20) {
            0 => {
                let k = self.ledger.count() as u32;
                let few = rng.under(4);
                let t = rng.pick(&[0, 1, 1, 2, few, few, k, k + 1, k + 1, u32::MAX]);
                // going back to nothing is left seldom, or the large boards never fill
                Call::Withdraw(if t > few && t == k && !rng.once_in(3) { 1 } else { t })
            }
            1 => Call::Show(low, n, named),
            2 if rng.once_in(2) => Call::Show(low, length(rng, n), off_by_one(rng, named)),
            2 => Call::Take(self.any_frame(rng), off_by_one(rng, n)),
            _ => Call::Take(self.any_frame(rng), n),
        }
    }

    /// Makes a call; after it the words are the ledger's.
    pub fn make(&mut self, g: &mut Group, call: &Call) -> u32 {
        let answer = match call {
            Call::Take(frame, mix_len) => self.take(g, frame, *mix_len),
            Call::Withdraw(t) => self.withdraw(g, *t),
            Call::Show(low, marks_len, numbers_len) => self.show_from(g, *low, *marks_len, *numbers_len).0,
        };
        let laid = self.words == self.ledger.words();
        g.demand(laid, || format!("the board {:?} is not the ledger's {:?}", self.words, self.ledger.words()));
        answer
    }

    /// One call, whichever, and its answer. With a show of a wrong length come one with wrong marks alone and one with a number a record.
    pub fn step(&mut self, g: &mut Group) -> (Call, u32) {
        let call = self.any_call(&mut g.rng);
        let answer = self.make(g, &call);
        let (n, named) = (self.ledger.n, self.ledger.n * self.ledger.s);
        if matches!(call, Call::Show(_, _, numbers_len) if numbers_len != named) {
            let low = any_low(&mut g.rng, self.ledger.p);
            let marks_len = off_by_one(&mut g.rng, n);
            self.make(g, &Call::Show(low, marks_len, named));
            let low = any_low(&mut g.rng, self.ledger.p);
            self.make(g, &Call::Show(low, n, n));
        }
        (call, answer)
    }

    /// Show, against a trial of all assignments.
    fn show_by_trial(&mut self, g: &mut Group) {
        let p = self.ledger.p;
        let low = low_end(&mut g.rng, p);
        let (n, s) = (self.ledger.n, self.ledger.s);
        let (_, marks, numbers) = self.show_from(g, low, n, n * s);
        let trial = self.ledger.settled_by_trial();
        let agree = trial.iter().enumerate().all(|(j, settled)| match settled {
            None => marks[j] == 0 && numbers[j * s..][..s].iter().all(|x| *x == 0),
            Some(words) => marks[j] == 1 && (0..s).all(|w| numbers[j * s + w] == model::reading(p, low, words[w] as u32)),
        });
        g.demand(agree, || format!("the board {:?} shows {marks:?} {numbers:?}, by trial {trial:?}", self.words));
    }

    /// A show with the low end that the records were sealed with, and one with another.
    fn shown_records(&self, g: &mut Group, low: u32, records: &[i32], missing: u32) {
        let (p, n, s) = (self.ledger.p, self.ledger.n, self.ledger.s);
        let (answer, marks, numbers) = self.show_from(g, low, n, n * s);
        let told = (0..n * s).all(|i| marks[i / s] == 0 || numbers[i] == records[i]);
        g.demand(answer == 200 + missing && told, || {
            format!("shown {answer} {marks:?} {numbers:?} of {records:?} modulo {p}, low {low}, missing {missing}")
        });
        // with another low end: the number of its range that is congruent to the record
        let other = low_end(&mut g.rng, p);
        let (_, again, others) = self.show_from(g, other, n, n * s);
        let congruent = |x: i32, y: i32| (x as i64 - y as i64) % p as i64 == 0;
        let told = |i: usize| model::in_range(p, other, others[i]) && congruent(others[i], records[i]);
        g.demand(again == marks && (0..n * s).all(|i| marks[i / s] == 0 || told(i)), || {
            format!("shown {again:?} {others:?} with low end {other}, of {records:?} modulo {p} with {low}")
        });
    }

    /// The missing count is enough, and no less is: of the single records exactly so many are new, and then all is settled.
    fn settle(&mut self, g: &mut Group) {
        let (n, s) = (self.ledger.n, self.ledger.s);
        let low = low_end(&mut g.rng, self.ledger.p);
        let (answer, _, _) = self.show_from(g, low, n, n * s);
        let mut new = 0;
        for j in 0..n {
            let unit: Vec<u32> = (0..n).map(|i| (i == j) as u32).collect();
            let frame = self.true_frame(&unit);
            new += (self.take(g, &frame, n) == 0) as u32;
        }
        let (after, marks, _) = self.show_from(g, low, n, n * s);
        g.demand(200 + new == answer && after == 200 && marks.iter().all(|x| *x == 1), || {
            format!("missing {answer}, but {new} new frames settled {marks:?}, then {after}: {:?}", self.words)
        });
    }
}

pub fn histories(g: &mut Group, rounds: usize, most: usize, steps: usize) {
    for round in 0..rounds {
        let p = any_p(&mut g.rng);
        let n = if round < most { round + 1 } else { 1 + g.rng.below(most) };
        let s = any_s(&mut g.rng);
        let mut history = History::begin(g, p, n, s);
        for _ in 0..steps + n {
            history.step(g);
        }
        if (p as u64).saturating_pow((n * s) as u32) <= 729 {
            history.show_by_trial(g);
        }
        if n <= 12 || g.rng.once_in(4) {
            history.settle(g);
        }
    }
}

pub fn histories_largest(g: &mut Group, largest: &[(u32, usize)]) {
    for &(p, s) in largest {
        let mut history = History::begin(g, p, 64, s);
        // new frames up to 62, then whatever comes
        while history.ledger.count() < 62 {
            let frame = history.true_frame(&multipliers(&mut g.rng, p, 64));
            history.take(g, &frame, 64);
        }
        for _ in 0..30 {
            history.step(g);
        }
        history.settle(g);
        let again = history.summed(&mut g.rng);
        let false_one = history.bent(&mut g.rng);
        let answers = (history.take(g, &again, 64), history.take(g, &false_one, 64));
        g.demand(answers == (100, 9), || format!("64 standing frames modulo {p} answer {answers:?} and not (100, 9)"));
        history.withdraw(g, 64);
        let fresh = history.words[..4] == [p, 64, 0, s as u32] && history.words[4..].iter().all(|x| *x == 0);
        g.demand(fresh, || format!("words are left: {:?}", history.words));
    }
}

/// Boards of every size, empty, half full and full, and of 64 records with every count.
pub fn boards(g: &mut Group) {
    let mut sizes: Vec<(usize, usize)> = (1..=64).flat_map(|n| [(n, 0), (n, n / 2), (n, n - 1), (n, n)]).collect();
    sizes.extend((0..=64).map(|k| (64, k)));
    for (n, k) in sizes {
        let (p, s) = (any_p(&mut g.rng), any_s(&mut g.rng));
        let ledger = any_ledger(&mut g.rng, p, n, s, k);
        let records = (0..n * s).map(|_| g.rng.under(p) as u64).collect();
        let mut board = History { words: ledger.words(), ledger, records, sent: Vec::new() };
        let low = low_end(&mut g.rng, p);
        board.show_from(g, low, n, n * s);
        let frames = [board.summed(&mut g.rng), board.bent(&mut g.rng), board.true_frame(&multipliers(&mut g.rng, p, n))];
        let answers = frames.map(|frame| board.take(g, &frame, n));
        g.demand(answers[0] == 100 && answers[1] == 9, || format!("answers {answers:?} on {k} of {n} modulo {p}"));
        let t = g.rng.under(k as u32 + 1);
        board.withdraw(g, t);
    }
}

/// Every list of so many calls over all accepted frames and withdrawals of 1 and 2, with a show after each call.
pub fn histories_exhaustive(g: &mut Group) {
    let one_word = [(2u32, 1, 1, 5), (2, 2, 1, 4), (3, 1, 1, 4), (2, 3, 1, 3), (3, 2, 1, 2), (5, 1, 1, 3)];
    let several = [(2, 1, 2, 4), (2, 2, 2, 3), (3, 1, 2, 3), (2, 1, 3, 3)];
    for (p, n, s, depth) in one_word.into_iter().chain(several) {
        let mut frames = Vec::new();
        each(p, n + s, |numbers| frames.push(model::frame_of(p, &numbers[..n], &numbers[n..])));
        let (_, ledger) = calls::open(g, p, n as u32, s as u32, board_words(n, s));
        let ledger = ledger.expect("an accepted open");
        go_on(g, ledger.words(), &ledger, &frames, depth);
    }
}

pub fn go_on(g: &mut Group, words: Vec<u32>, ledger: &Ledger, frames: &[Vec<u8>], depth: usize) {
    let mut here = History { words: words.clone(), ledger: ledger.clone(), records: Vec::new(), sent: Vec::new() };
    here.show_by_trial(g);
    if depth == 0 {
        return;
    }
    for frame in frames {
        let mut next = ledger.clone();
        let (_, after) = calls::take(g, &words, Some(&mut next), frame, ledger.n);
        go_on(g, after, &next, frames, depth - 1);
    }
    for t in [1, 2] {
        let mut next = ledger.clone();
        let (_, after) = calls::withdraw(g, &words, Some(&mut next), t);
        go_on(g, after, &next, frames, depth - 1);
    }
}

/// After accepted takes adding some entries, a withdrawal of so many restores every word.
pub fn restored(g: &mut Group, rounds: usize) {
    for _ in 0..rounds {
        let p = any_p(&mut g.rng);
        let (n, s) = (1 + g.rng.below(16), any_s(&mut g.rng));
        let mut history = History::begin(g, p, n, s);
        for _ in 0..g.rng.below(12) {
            history.step(g);
        }
        let (before, count) = (history.words.clone(), history.ledger.count());
        for _ in 0..g.rng.below(2 * n) {
            let frame = if g.rng.once_in(3) {
                history.summed(&mut g.rng)
            } else {
                model::frame_of(p, &multipliers(&mut g.rng, p, n), &values(&mut g.rng, p, s))
            };
            history.take(g, &frame, n);
        }
        let added = (history.ledger.count() - count) as u32;
        history.withdraw(g, added);
        g.demand(history.words == before, || format!("withdrawing {added} leaves {:?} and not {before:?}", history.words));
    }
}

/// A heat as the console and the printer play it, with the library alone: records are drawn, sealed, written, taken and shown, with
/// the low end that they were sealed with and with another one.
pub fn heats(g: &mut Group, rounds: usize) {
    for round in 0..rounds {
        let (p, s) = (any_p(&mut g.rng), any_s(&mut g.rng));
        let n = if round % 16 == 0 { 64 } else { 1 + g.rng.below(24) };
        let low = low_end(&mut g.rng, p);
        let records: Vec<i32> = (0..n * s)
            .map(|_| {
                let v = number(&mut g.rng, p);
                calls::signed(g, p, low, v).1
            })
            .collect();
        let heat = Heat { p, n: n as u32, s: s as u32 };
        let mut history = History::begin(g, p, n, s);
        let mut missing = n as u32;
        for _ in 0..20 * n + 40 {
            let numbers = multipliers(&mut g.rng, p, n);
            let (_, values) = calls::seal(g, heat, low, &records, &numbers, s);
            let (len, bytes) = calls::write(g, heat, &numbers, &values, longest(s));
            let frame = &bytes[..len as usize - 200];
            if g.rng.once_in(3) {
                continue; // lost
            }
            for _ in 0..1 + g.rng.once_in(4) as usize {
                let answer = history.take(g, frame, n);
                g.demand(answer == 0 || answer == 100, || format!("a true frame {frame:02x?} is answered {answer}"));
                missing -= (answer == 0) as u32;
            }
            if n <= 24 || missing < 2 {
                history.shown_records(g, low, &records, missing);
            }
            if missing == 0 {
                break;
            }
        }
        g.demand(missing == 0 || n > 1, || format!("a heat of one record modulo {p} is not settled"));
    }
}
