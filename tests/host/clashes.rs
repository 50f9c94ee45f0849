//! Clash: logs of honest and falsified frames, and what must hold of the marks whatever the model says.

use crate::calls::{self, Group};
use crate::draw::*;
use crate::lent::Rng;
use crate::model::{self, dot, inverse, product, rows_of, Table};
use crate::table_calls::{self, Given, Log};
use crate::tables::no_combination;

impl Log {
    fn of(p: u32, n: usize, s: usize, frames: &[Vec<u32>]) -> Log {
        Log { p, m: frames.len() as u32, n: n as u32, s: s as u32, words: frames.concat() }
    }

    fn sizes(&self) -> (usize, usize, usize) {
        (self.m as usize, self.n as usize, self.s as usize)
    }

    /// Rows of n multipliers and s values.
    fn frames(&self) -> Vec<Vec<u32>> {
        self.words.chunks_exact((self.n + self.s) as usize).map(|row| row.to_vec()).collect()
    }
}

// ---- an exact solver of another kind than the model's: it keeps all assignments that meet the frames so far ----

/// In each word an assignment that meets the frames so far is `met` plus a combination of `free`, and every such sum is one.
struct Assignments {
    q: u64,
    met: Table,
    free: Table,
}

#[derive(Clone, Copy, PartialEq)]
enum Says {
    New,
    Repeat,
    Contradiction,
}

impl Assignments {
    /// Of no frames: all there are.
    fn all(q: u64, n: usize, s: usize) -> Assignments {
        let unit = |i: usize| (0..n).map(|j| (i == j) as u64).collect();
        Assignments { q, met: vec![vec![0; n]; s], free: (0..n).map(unit).collect() }
    }

    /// Keeps those that meet this frame too. A frame that none of them meets is left out.
    fn meet(&mut self, frame: &[u32]) -> Says {
        let (q, n) = (self.q, frame.len() - self.met.len());
        let (multipliers, values) = (wide(&frame[..n]), wide(&frame[n..]));
        let sum = |x: &Vec<u64>| dot(q, multipliers.iter().copied(), x.iter().copied());
        let short: Vec<u64> = self.met.iter().zip(&values).map(|(x, value)| (value + q - sum(x)) % q).collect();
        let mut by: Vec<u64> = self.free.iter().map(sum).collect();
        let Some(at) = by.iter().position(|x| *x != 0) else {
            return if short.iter().all(|x| *x == 0) { Says::Repeat } else { Says::Contradiction };
        };
        // the frame's sum of a step is 1
        let once = inverse(q, by.remove(at));
        let step: Vec<u64> = self.free.remove(at).iter().map(|x| x * once % q).collect();
        let go = |x: &mut Vec<u64>, times: u64| x.iter_mut().zip(&step).for_each(|(x, y)| *x = (*x + times * y) % q);
        self.met.iter_mut().zip(short).for_each(|(x, times)| go(x, times));
        self.free.iter_mut().zip(by).for_each(|(x, times)| go(x, q - times));
        Says::New
    }
}

/// What each of these frames says behind those before it.
fn one_by_one<'a>(log: &Log, frames: impl Iterator<Item = &'a Vec<u32>>) -> Vec<Says> {
    let mut assignments = Assignments::all(log.p as u64, log.n as usize, log.s as usize);
    frames.map(|frame| assignments.meet(frame)).collect()
}

// ---- what must hold of every log ----

/// Clash of a log in which all frames but the falsified ones have a common assignment. Answers the number and the marks.
fn whole_clash(g: &mut Group, log: &Log, falsified: &[usize]) -> (u32, Vec<u32>) {
    let m = log.m as usize;
    let (number, marks) = table_calls::clash(g, log, m);
    let frames = log.frames();
    let chosen: Vec<usize> = (0..m).filter(|i| marks[*i] != 0).collect();
    g.demand(number as usize == 200 + chosen.len() && marks.iter().all(|x| *x <= 1), || {
        format!("clash answers {number} with {marks:?}, {log:?}")
    });
    let said = one_by_one(log, frames.iter());
    let first = said.iter().position(|says| *says == Says::Contradiction);
    let (last, earlier) = chosen.split_last().map_or((None, &chosen[..]), |(y, earlier)| (Some(*y), earlier));
    g.demand(last == first && earlier.iter().all(|i| said[*i] == Says::New), || {
        format!("marked {chosen:?}, and the first contradiction is at {first:?}, {log:?}")
    });
    let contradict = |out: Option<usize>| {
        let left = chosen.iter().filter(|i| Some(**i) != out).map(|i| &frames[*i]);
        one_by_one(log, left).contains(&Says::Contradiction)
    };
    g.demand(chosen.is_empty() || contradict(None), || format!("marked {chosen:?} have an assignment, {log:?}"));
    for out in &chosen {
        g.demand(!contradict(Some(*out)), || format!("marked {chosen:?} without {out} have no assignment, {log:?}"));
    }
    let among = chosen.is_empty() || chosen.iter().any(|i| falsified.contains(i));
    g.demand(among, || format!("marked {chosen:?} are all honest, falsified {falsified:?}, {log:?}"));
    (number, marks)
}

/// Solve tells of each word by itself: u is not 0 just at the frames of that word's clash, the last of which contradicts those before
/// it. The log's clash is that of the word in which this frame comes first.
fn beside_solve(g: &mut Group, log: &Log, marks: &[u32]) {
    let (m, n, s) = log.sizes();
    let frames = log.frames();
    let t = Given { p: log.p, m: log.m, n: log.n, a: frames.iter().flat_map(|row| row[..n].to_vec()).collect() };
    let mut clashes: Vec<(Option<usize>, Vec<u32>)> = Vec::new();
    for w in 0..s {
        let values: Vec<u32> = frames.iter().map(|row| row[n + w]).collect();
        let (answer, _, u) = table_calls::solve(g, &t, &values, n, m);
        if answer == 5 {
            clashes.push((u.iter().rposition(|x| *x != 0), u.iter().map(|x| (*x != 0) as u32).collect()));
        }
    }
    let told = clashes.into_iter().min_by_key(|clash| clash.0).map_or(vec![0; m], |clash| clash.1);
    g.demand(told == marks, || format!("clash marks {marks:?}, solve tells {told:?}, {log:?}"));
}

/// A fresh board that takes the frames one after the other answers its first 9 to the last marked one, and 0 to the other marked ones.
fn beside_board(g: &mut Group, log: &Log, marks: &[u32]) {
    let (_, n, s) = log.sizes();
    let (_, ledger) = calls::open(g, log.p, log.n, log.s, model::board_words(n, s));
    let mut ledger = ledger.expect("the model opens a board of these sizes");
    let (mut words, mut first) = (ledger.words(), None);
    for (i, row) in log.frames().iter().enumerate() {
        let frame = model::frame_of(log.p, &row[..n], &row[n..]);
        let (answer, after) = calls::take(g, &words, Some(&mut ledger), &frame, n);
        words = after;
        if answer == 9 {
            first = Some(i);
            break;
        }
        g.demand(marks[i] == 0 || answer == 0, || format!("frame {i} is marked, and take answers {answer}, {log:?}"));
    }
    let last = marks.iter().rposition(|x| *x != 0);
    g.demand(first == last, || format!("take's first 9 is at {first:?}, the last mark at {last:?}, {log:?}"));
}

/// Repeats in front of the contradiction do not count: without them the same frames are marked.
fn without_repeats(g: &mut Group, log: &Log, marks: &[u32]) {
    let (_, n, s) = log.sizes();
    let frames = log.frames();
    let said = one_by_one(log, frames.iter());
    let last = marks.iter().rposition(|x| *x != 0);
    let kept: Vec<usize> = (0..frames.len()).filter(|&i| said[i] != Says::Repeat || last.is_some_and(|y| i > y)).collect();
    let shorter = Log::of(log.p, n, s, &kept.iter().map(|&i| frames[i].clone()).collect::<Vec<_>>());
    let (_, found) = table_calls::clash(g, &shorter, kept.len());
    let told: Vec<u32> = kept.iter().map(|&i| marks[i]).collect();
    g.demand(found == told, || format!("without repeats clash marks {found:?}, with them {told:?}, {log:?}"));
}

// ---- logs ----

/// Puts frames of before in some rows of multipliers: the same again, the sum of two, or zeros.
fn put_repeats(rng: &mut Rng, p: u32, n: usize, a: &mut [u32]) {
    let times = rng.pick(&[2, 4, 16]);
    for i in 0..a.len() / n {
        let (one, two) = (rng.below(i + 1), rng.below(i + 1));
        let kind = if rng.once_in(times) { rng.below(5) } else { 5 };
        for j in 0..n {
            let (x, y) = (a[one * n + j] as u64, a[two * n + j] as u64);
            match kind {
                0 | 1 => a[i * n + j] = x as u32,
                2 | 3 => a[i * n + j] = ((x + y) % p as u64) as u32,
                4 => a[i * n + j] = 0,
                _ => {}
            }
        }
    }
}

/// Changes the values of some frames: of none, of one, of two, of all from one on, or of some. Answers which.
fn falsify(rng: &mut Rng, p: u32, values: &mut Table) -> Vec<usize> {
    let m = values.len();
    let (one, two) = (rng.below(m), rng.below(m));
    let which: Vec<usize> = match rng.below(8) {
        0 | 1 => Vec::new(),
        2 | 3 => vec![rng.pick(&[0, m - 1, one])],
        4 | 5 => vec![one, two],
        6 => (one..m).collect(),
        _ => (0..m).filter(|_| rng.once_in(4)).collect(),
    };
    for i in &which {
        let changes = changes(rng, p, values[*i].len());
        values[*i].iter_mut().zip(changes).for_each(|(x, more)| *x = (*x + more) % p as u64);
    }
    which
}

/// The frames of these multipliers with the values of any one assignment.
fn honest(rng: &mut Rng, p: u32, n: usize, s: usize, a: &[u32]) -> (Table, Table) {
    let assignment: Table = (0..n).map(|_| wide(&values(rng, p, s))).collect();
    let rows = rows_of(a.len() / n, n, a);
    let values = product(p as u64, &rows, &assignment, s);
    (rows, values)
}

fn log_of(p: u32, n: usize, s: usize, rows: &Table, values: &Table) -> Log {
    let frames = rows.iter().zip(values).map(|(row, values)| row.iter().chain(values).map(|x| *x as u32).collect());
    Log::of(p, n, s, &frames.collect::<Vec<Vec<u32>>>())
}

/// A log, and which of its frames are falsified.
fn any_log(rng: &mut Rng, p: u32, m: usize, n: usize, s: usize) -> (Log, Vec<usize>) {
    let mut a = table(rng, p, m, n);
    if rng.once_in(2) {
        put_repeats(rng, p, n, &mut a);
    }
    let (rows, mut values) = honest(rng, p, n, s, &a);
    let falsified = if m > 0 { falsify(rng, p, &mut values) } else { Vec::new() };
    (log_of(p, n, s, &rows, &values), falsified)
}

// ---- the groups ----

pub fn clashes(g: &mut Group, rounds: usize, most: usize) {
    for round in 0..rounds {
        let p = any_p(&mut g.rng);
        // every m and every n at least once
        let (m, n) = match round {
            _ if round <= most => (round, 1 + g.rng.below(most.min(12))),
            _ if round <= 2 * most => (g.rng.below(most.min(12) + 1), round - most),
            _ => (g.rng.below(most + 1), 1 + g.rng.below(most)),
        };
        let s = any_s(&mut g.rng);
        let (log, falsified) = any_log(&mut g.rng, p, m, n, s);
        let (_, marks) = whole_clash(g, &log, &falsified);
        if round % 4 == 0 {
            beside_solve(g, &log, &marks);
            beside_board(g, &log, &marks);
            without_repeats(g, &log, &marks);
        }
    }
}

/// A falsified frame is in every clash, where there is no other: each of forty frames of eight records in its turn, the values of the
/// first word, of the last or of all changed. Without that frame nothing clashes.
pub fn clashes_of_forty(g: &mut Group) {
    for (p, s) in [(257, 1), (65_537, 3), (2_147_483_647, 16)] {
        let a: Vec<u32> = (0..40).flat_map(|_| multipliers(&mut g.rng, p, 8)).collect();
        let (rows, values) = honest(&mut g.rng, p, 8, s, &a);
        for i in 0..40 {
            let mut falsified = values.clone();
            let changes = changes(&mut g.rng, p, s);
            falsified[i].iter_mut().zip(changes).for_each(|(x, more)| *x = (*x + more) % p as u64);
            let log = log_of(p, 8, s, &rows, &falsified);
            let (number, marks) = whole_clash(g, &log, &[i]);
            g.demand(number > 200 && marks[i] == 1, || format!("frame {i} alone is falsified: {number} {marks:?}, {log:?}"));
            let mut frames = log.frames();
            frames.remove(i);
            let (number, _) = whole_clash(g, &Log::of(p, 8, s, &frames), &[]);
            g.demand(number == 200, || format!("{number} without the falsified frame {i}, {log:?}"));
        }
    }
}

/// 64 frames of 64 records: all in one clash, few in one, and none.
pub fn clashes_largest(g: &mut Group, rounds: usize) {
    for round in 0..rounds {
        let p = PRIMES[PRIMES.len() - 1 - round % PRIMES.len()];
        let s = [16, 1, 16, any_s(&mut g.rng)][round % 4];
        let (log, falsified) = match round % 4 {
            0 => one_of_all(&mut g.rng, p, s),
            _ => any_log(&mut g.rng, p, 64, 64, s),
        };
        let (number, marks) = whole_clash(g, &log, &falsified);
        g.demand(round % 4 != 0 || number == 264, || format!("{number} where all 64 frames clash, {log:?}"));
        if round % 2 == 1 {
            beside_solve(g, &log, &marks);
            beside_board(g, &log, &marks);
        }
    }
}

/// 63 frames, each with a multiplier for a record that those before it do not have, then a sum of multiples of them all, none by 0, with
/// its last value changed.
fn one_of_all(rng: &mut Rng, p: u32, s: usize) -> (Log, Vec<usize>) {
    let mut a = vec![0; 64 * 64];
    for i in 0..63 {
        a[i * 64 + i] = 1 + rng.under(p - 1);
        (0..i).for_each(|j| a[i * 64 + j] = rng.under(p));
        let by = 1 + rng.under(p - 1) as u64;
        (0..=i).for_each(|j| a[63 * 64 + j] = ((a[63 * 64 + j] as u64 + by * a[i * 64 + j] as u64) % p as u64) as u32);
    }
    let (rows, mut values) = honest(rng, p, 64, s, &a);
    values[63][s - 1] = (values[63][s - 1] + 1) % p as u64;
    (log_of(p, 64, s, &rows, &values), vec![63])
}

/// Every log of the smallest sizes, its clash found by trying all assignments and all choices of frames.
pub fn clashes_exhaustive(g: &mut Group) {
    for (p, most) in [(2u32, 12), (3, 8), (5, 5), (7, 4)] {
        for m in 0..=5 {
            for (n, s) in (1..=3).flat_map(|n| (1..=3).map(move |s| (n, s))).filter(|(n, s)| m * (n + s) <= most) {
                each(p, m * (n + s), |words| {
                    tiny_log(g, &Log { p, m: m as u32, n: n as u32, s: s as u32, words: words.to_vec() })
                });
            }
        }
    }
}

/// A choice of frames is a number with a bit for each.
fn tiny_log(g: &mut Group, log: &Log) {
    let (m, n, s) = log.sizes();
    let (number, marks) = table_calls::clash(g, log, m);
    let frames: Table = log.frames().iter().map(|row| wide(row)).collect();
    // for each word the choices that the residues of this word meet
    let bit = |i: usize| 1usize << i;
    let mut met: Vec<Vec<usize>> = vec![Vec::new(); s];
    each(log.p, n, |x| {
        let x = wide(x);
        let sums: Vec<u64> = frames.iter().map(|row| dot(log.p as u64, row[..n].iter().copied(), x.iter().copied())).collect();
        (0..s).for_each(|w| met[w].push((0..m).filter(|&i| sums[i] == frames[i][n + w]).map(bit).sum()));
    });
    let common = |choice: usize| met.iter().all(|word| word.iter().any(|met| met & choice == choice));
    let first = (0..m).find(|y| !common(bit(y + 1) - 1));
    let rows: Table = frames.iter().map(|row| row[..n].to_vec()).collect();
    let independent = no_combination(log.p, &rows);
    let allowed = |y: usize| (0..y).filter(|&i| independent[i] == 1).map(bit).sum::<usize>() + bit(y);
    let least = |choice: &usize| !common(*choice) && (0..m).all(|i| choice >> i & 1 == 0 || common(choice - bit(i)));
    let found = first.map_or(vec![0], |y| (1..bit(m)).filter(|choice| choice & !allowed(y) == 0).filter(least).collect());
    let got = (0..m).filter(|&i| marks[i] == 1).map(bit).sum::<usize>();
    g.demand(found == [got] && number == 200 + marks.iter().sum::<u32>(), || {
        format!("{number} {marks:?}, by trial {found:?}, {log:?}")
    });
}

pub fn clash_refusals(g: &mut Group, rounds: usize) {
    for _ in 0..rounds {
        let p = any_p(&mut g.rng);
        let most = if g.rng.once_in(16) { 64 } else { 6 };
        let (m, n, s) = (g.rng.below(most + 1), 1 + g.rng.below(most), any_s(&mut g.rng));
        let (mut log, _) = any_log(&mut g.rng, p, m, n, s);
        let m = spoil_sizes(&mut g.rng, &mut log);
        if !log.words.is_empty() && g.rng.once_in(3) {
            let any = g.rng.below(log.words.len());
            let at = g.rng.pick(&[0, log.words.len() - 1, any, any]);
            // every other time a number that is right but for p
            let more = log.words[at].saturating_add(log.p);
            log.words[at] = if g.rng.once_in(2) { more } else { too_large(&mut g.rng, log.p) };
        }
        let (log_len, marks_len) = (length(&mut g.rng, log.words.len()), length(&mut g.rng, m));
        log.words.resize(log_len, 0);
        table_calls::clash(g, &log, marks_len);
    }
}

/// Tells another p, m, n or s, with lengths that would fit the sizes where they can be had. Answers how many marks would fit.
fn spoil_sizes(rng: &mut Rng, log: &mut Log) -> usize {
    let (mut m, mut n, mut s) = log.sizes();
    if rng.once_in(4) {
        log.p = any_bad_p(rng);
    }
    let fits = |rng: &mut Rng, told: u32, size: usize| if told < 100 && rng.once_in(2) { told as usize } else { size };
    if rng.once_in(6) {
        log.m = rng.pick(&WIDE);
        m = fits(rng, log.m, m);
    }
    if rng.once_in(6) {
        log.n = if rng.once_in(3) { 0 } else { rng.pick(&WIDE) };
        n = fits(rng, log.n, n);
    }
    if rng.once_in(4) {
        log.s = rng.pick(&BAD_S);
        s = fits(rng, log.s, s);
    }
    log.words.resize(m * (n + s), 0);
    m
}
