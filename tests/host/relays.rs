//! Relay: boxes of honest and falsified frames, wanted rows of all kinds, and what must hold of the frame whatever the model says. Offices
//! that are fed by a box are in offices.rs.

use crate::boards::{any_ledger, note_no_board};
use crate::calls::{self, longest, Group, Heat, Relayed};
use crate::draw::*;
use crate::lent::Rng;
use crate::model::{self, board_words, dot, met, Ledger};

pub fn heat_of(ledger: &Ledger) -> Heat {
    Heat { p: ledger.p, n: ledger.n as u32, s: ledger.s as u32 }
}

// ---- wanted rows ----

/// The combination of the standing rows by these numbers.
fn combined(ledger: &Ledger, by: &[u64]) -> Vec<u32> {
    let row = |j: usize| dot(ledger.p as u64, by.iter().copied(), ledger.entries.iter().map(|entry| entry.0[j])) as u32;
    (0..ledger.n).map(row).collect()
}

/// A row that the standing ones combine to: zeros, one of them, a multiple of one, of the first and the last, of few, or of all.
pub fn row_in_span(rng: &mut Rng, ledger: &Ledger) -> Vec<u32> {
    let (p, k) = (ledger.p, ledger.count());
    let mut by = vec![0; k];
    let any = rng.below(k.max(1));
    let not_0 = |rng: &mut Rng| 1 + rng.under(p - 1) as u64;
    match rng.below(8) {
        _ if k == 0 => {}
        0 => {}
        1 => by[rng.pick(&[0, k - 1, any])] = 1,
        2 => by[any] = not_0(rng),
        3 => [0, k - 1].iter().for_each(|t| by[*t] = not_0(rng)),
        4 => by.iter_mut().for_each(|x| *x = not_0(rng)),
        5 => by.iter_mut().filter(|_| rng.once_in(3)).for_each(|x| *x = 1),
        _ => by.iter_mut().for_each(|x| *x = rng.under(p) as u64),
    }
    combined(ledger, &by)
}

/// Whatever may be wanted: a row that combines, one that does but for a number, a record by itself, or anything.
pub fn any_row(rng: &mut Rng, ledger: &Ledger) -> Vec<u32> {
    let (p, n) = (ledger.p, ledger.n);
    match rng.below(8) {
        0..=3 => row_in_span(rng, ledger),
        4 | 5 => {
            let mut row = row_in_span(rng, ledger);
            let any = rng.below(n);
            let j = rng.pick(&[0, n - 1, any]);
            row[j] = ((row[j] as u64 + 1 + rng.under(p - 1) as u64) % p as u64) as u32;
            row
        }
        6 => {
            let j = rng.below(n);
            (0..n).map(|i| (i == j) as u32).collect()
        }
        _ => multipliers(rng, p, n),
    }
}

/// A row that the standing ones do not combine to, where they do not combine to all.
fn row_outside(rng: &mut Rng, ledger: &Ledger) -> Option<Vec<u32>> {
    if ledger.count() == ledger.n {
        return None;
    }
    loop {
        let row = if rng.once_in(2) { any_row(rng, ledger) } else { multipliers(rng, ledger.p, ledger.n) };
        if ledger.relayed(&wide(&row)).is_none() {
            return Some(row);
        }
    }
}

// ---- what must hold of every relay ----

/// Relay of a row of n numbers below p, with what was promised of it asked of the library's other calls. Answers what it gave.
pub fn whole_relay(g: &mut Group, words: &[u32], ledger: &Ledger, wanted: &[u32]) -> Relayed {
    let (n, s) = (ledger.n, ledger.s);
    let relayed = calls::relay(g, words, Some(ledger), wanted, n, longest(s));
    match relayed.frame() {
        Some(frame) => holds_of_frame(g, words, ledger, wanted, &relayed.mix, frame),
        None => {
            // no combination: exactly then a frame with this row is new, whatever its values are
            let frame = model::frame_of(ledger.p, wanted, &values(&mut g.rng, ledger.p, s));
            let (answer, _) = calls::take(g, words, Some(&mut ledger.clone()), &frame, n);
            let number = relayed.number;
            g.demand((number, answer) == (15, 0), || {
                format!("relay of {wanted:?} answers {number}, take {answer}, on {words:?}")
            });
        }
    }
    relayed
}

/// Reading gives the wanted row, and values that are the mix's combination of the standing ones; writing these gives the same bytes; the box
/// answers the frame 100 with the same mix, and one with other values 9.
fn holds_of_frame(g: &mut Group, words: &[u32], ledger: &Ledger, wanted: &[u32], mix: &[u32], frame: &[u8]) {
    let (p, n, s, k) = (ledger.p, ledger.n, ledger.s, ledger.count());
    let (answer, row, values) = calls::read(g, heat_of(ledger), frame, n, s);
    let by = wide(mix);
    let value = |w: usize| dot(p as u64, by.iter().copied(), ledger.entries.iter().map(|entry| entry.1[w])) as u32;
    let read = answer == 200 + s as u32 && row == wanted && (0..s).all(|w| values[w] == value(w));
    let mixed = combined(ledger, &by) == wanted && mix[k..].iter().all(|x| *x == 0);
    g.demand(read && mixed, || format!("relay of {wanted:?} on {words:?}: mix {mix:?}, the frame {row:?} {values:?}"));
    let (len, bytes) = calls::write(g, heat_of(ledger), wanted, &values, longest(s));
    let written = len as usize == 200 + frame.len() && bytes[..frame.len()] == *frame;
    g.demand(written, || format!("relay of {wanted:?} on {words:?} gives {frame:02x?}, write {len} {bytes:02x?}"));
    let (answer, after, own_mix) = calls::take_mix(g, words, Some(&mut ledger.clone()), frame, n);
    g.demand(answer == 100 && after == words && own_mix == mix, || {
        format!("the box {words:?} answers {answer} to its frame {frame:02x?}, mix {own_mix:?}, relay's {mix:?}")
    });
    let changed: Vec<u64> =
        wide(&values).iter().zip(changes(&mut g.rng, p, s)).map(|(x, more)| (x + more) % p as u64).collect();
    let other = model::frame_of(p, wanted, &changed.iter().map(|x| *x as u32).collect::<Vec<_>>());
    let (answer, _) = calls::take(g, words, Some(&mut ledger.clone()), &other, n);
    g.demand(answer == 9, || format!("the box {words:?} answers {answer} to another frame with the row {wanted:?}"));
}

// ---- the groups ----

/// A box whose frames are sealed for one set of records, or that holds any frames.
pub fn any_box(rng: &mut Rng, p: u32, n: usize, s: usize, k: usize) -> (Ledger, Option<Vec<u32>>) {
    let mut ledger = any_ledger(rng, p, n, s, k);
    if rng.once_in(3) {
        return (ledger, None);
    }
    let records: Vec<u32> = (0..n * s).map(|_| number(rng, p)).collect();
    for (row, values) in &mut ledger.entries {
        let word = |w: usize| records.iter().skip(w).step_by(s).map(|x| *x as u64);
        values.iter_mut().enumerate().for_each(|(w, x)| *x = dot(p as u64, row.iter().copied(), word(w)));
    }
    (ledger, Some(records))
}

fn any_count(rng: &mut Rng, n: usize) -> usize {
    let any = rng.below(n + 1);
    rng.pick(&[n, n - 1, any, any])
}

pub fn relays(g: &mut Group, rounds: usize, most: usize) {
    for round in 0..rounds {
        let (p, s) = (any_p(&mut g.rng), any_s(&mut g.rng));
        let n = if round < most { round + 1 } else { 1 + g.rng.below(most) };
        let k = any_count(&mut g.rng, n);
        let (ledger, _) = any_box(&mut g.rng, p, n, s, k);
        let words = ledger.words();
        for _ in 0..4 {
            let wanted = any_row(&mut g.rng, &ledger);
            whole_relay(g, &words, &ledger, &wanted);
        }
        whole_relay(g, &words, &ledger, &vec![0; n]);
        // wherever it begins in the board's own words: in a row, between two, in the header, in the zeros behind
        let row = 4 + g.rng.below(k.max(1)) * (n + s);
        let any = g.rng.below(words.len() - n + 1);
        for begin in [row, row.saturating_sub(1), any, words.len() - n, 0] {
            calls::relay_within(g, &words, &ledger, begin);
        }
    }
}

/// Boxes of every size, empty, half full, with one frame missing and full, and of 64 records with every count.
pub fn relays_all_counts(g: &mut Group) {
    let mut sizes: Vec<(usize, usize)> = (1..=64).flat_map(|n| [(n, 0), (n, n / 2), (n, n - 1), (n, n)]).collect();
    sizes.extend((0..=64).map(|k| (64, k)));
    for (n, k) in sizes {
        let (p, s) = (any_p(&mut g.rng), any_s(&mut g.rng));
        let (ledger, _) = any_box(&mut g.rng, p, n, s, k);
        let inside = row_in_span(&mut g.rng, &ledger);
        let given = whole_relay(g, &ledger.words(), &ledger, &inside);
        g.demand(given.number >= 200, || format!("a combination {inside:?} is refused {}: {:?}", given.number, ledger.words()));
        if let Some(outside) = row_outside(&mut g.rng, &ledger) {
            let number = whole_relay(g, &ledger.words(), &ledger, &outside).number;
            g.demand(number == 15, || {
                format!("{outside:?} is no combination, and the answer is {number}: {:?}", ledger.words())
            });
        }
    }
}

/// 64 records of sixteen words, at the largest moduli and at each width.
pub fn relays_largest(g: &mut Group, rounds: usize) {
    for round in 0..rounds {
        let p = PRIMES[PRIMES.len() - 1 - round % PRIMES.len()];
        let (k, s) = ([64, 63, 32][round % 3], SOME_S[SOME_S.len() - 1 - round / 2 % 4]);
        let (ledger, _) = any_box(&mut g.rng, p, 64, s, k);
        let not_0: Vec<u64> = (0..k).map(|_| 1 + g.rng.under(p - 1) as u64).collect();
        let (inside, wanted) = (combined(&ledger, &not_0), any_row(&mut g.rng, &ledger));
        let given = whole_relay(g, &ledger.words(), &ledger, &inside);
        g.demand(wide(&given.mix[..k]) == not_0, || format!("the mix is {:?} where {not_0:?} was summed", given.mix));
        whole_relay(g, &ledger.words(), &ledger, &wanted);
        // no multiplier is 0: at four bytes the frame has all bytes that are lent
        let ones = vec![1 + g.rng.under(p - 1); 64];
        whole_relay(g, &ledger.words(), &ledger, &ones);
    }
}

/// Every board of the smallest sizes and every wanted row, judged by trying all assignments.
pub fn relays_exhaustive(g: &mut Group) {
    let bits = [(2u32, 1, 1, 1), (2, 2, 1, 2), (2, 3, 1, 3), (2, 4, 1, 2)];
    let one_word = [(3, 1, 1, 1), (3, 2, 1, 2), (3, 3, 1, 2), (5, 1, 1, 1), (5, 2, 1, 2)];
    let several = [(2, 1, 2, 1), (2, 2, 2, 2), (2, 2, 3, 1), (3, 1, 2, 1), (3, 2, 2, 1), (5, 1, 2, 1)];
    for (p, n, s, most) in bits.into_iter().chain(one_word).chain(several) {
        for k in 0..=most {
            each(p, k * (n + s), |rows| {
                let mut words = vec![p, n as u32, k as u32, s as u32];
                words.extend(rows);
                words.resize(board_words(n, s), 0);
                tiny_box(g, &words);
            });
        }
    }
    // boards of more rows, some of them
    for (p, n) in [(5, 3), (3, 3), (2, 4)] {
        for _ in 0..400 {
            let k = n - g.rng.below(2);
            let ledger = any_ledger(&mut g.rng, p, n, 1, k);
            tiny_box(g, &ledger.words());
        }
    }
}

/// Every wanted row over one board. In each word, what the assignments that meet the standing frames give for the row is one value, the
/// frame's, or there is no frame.
fn tiny_box(g: &mut Group, words: &[u32]) {
    let ledger = Ledger::from_words(words).ok();
    let (p, n, s) = (words[0], words[1] as usize, words[3] as usize);
    let mut meeting: Vec<Vec<Vec<u64>>> = vec![Vec::new(); s];
    if let Some(ledger) = &ledger {
        each(p, n, |x| {
            let x = wide(x);
            let meets =
                |w: usize| ledger.entries.iter().all(|e| dot(p as u64, e.0.iter().copied(), x.iter().copied()) == e.1[w]);
            (0..s).filter(|w| meets(*w)).for_each(|w| meeting[w].push(x.clone()));
        });
    }
    each(p, n, |wanted| {
        let relayed = calls::relay(g, words, ledger.as_ref(), wanted, n, longest(s));
        let given = |w: usize| {
            let mut found: Vec<u64> =
                meeting[w].iter().map(|x| dot(p as u64, wide(wanted).into_iter(), x.iter().copied())).collect();
            found.dedup();
            if let [value] = found[..] {
                Some(value as u32)
            } else {
                None
            }
        };
        let values: Option<Vec<u32>> = (0..s).map(given).collect();
        let number = relayed.number;
        let good = match (&ledger, values) {
            (None, _) => number == 11,
            (_, None) => number == 15,
            (_, Some(values)) => relayed.frame() == Some(&model::frame_of(p, wanted, &values)[..]),
        };
        g.demand(good, || format!("relay of {wanted:?} on {words:?} answers {number}, by trial it does not"));
    });
}

// ---- refusals ----

/// A row, now and then with numbers of p or more: right but for p, or not, in one place or in several.
fn spoiled_row(rng: &mut Rng, p: u32, mut row: Vec<u32>) -> Vec<u32> {
    let n = row.len();
    let any = rng.below(n);
    let places = match rng.below(6) {
        0 | 1 => vec![rng.pick(&[0, n - 1, any])],
        2 => (0..n).filter(|_| rng.once_in(2)).collect(),
        _ => Vec::new(),
    };
    for j in places {
        let more = row[j].saturating_add(p);
        row[j] = if rng.once_in(2) { more } else { too_large(rng, p) };
    }
    row
}

/// The bytes that relay is lent, seldom one off or those for another s.
fn any_longest(rng: &mut Rng, s: usize) -> usize {
    let other = rng.pick(&[264, longest(1), longest(s + 1), longest(16), 0]);
    if rng.once_in(12) {
        other
    } else {
        length(rng, longest(s))
    }
}

pub fn relay_refusals(g: &mut Group, rounds: usize) {
    for _ in 0..rounds {
        let (p, s) = (any_p(&mut g.rng), any_s(&mut g.rng));
        let most = if g.rng.once_in(16) { 64 } else { 6 };
        let n = 1 + g.rng.below(most);
        let k = any_count(&mut g.rng, n);
        let (ledger, _) = any_box(&mut g.rng, p, n, s, k);
        let row = any_row(&mut g.rng, &ledger);
        let row = spoiled_row(&mut g.rng, p, row);
        let wanted_len = length(&mut g.rng, n);
        let (mix_len, bytes_len) = (length(&mut g.rng, n), any_longest(&mut g.rng, s));
        calls::relay(g, &ledger.words(), Some(&ledger), &resized(row, wanted_len, 0), mix_len, bytes_len);
    }
}

/// Relay on words that may be no board.
pub fn relay_on_words(g: &mut Group, words: &[u32], ledger: &Result<Ledger, &'static str>) {
    let told = |at: usize, most: u32| words.get(at).map_or(1, |x| *x.min(&most) as usize);
    let (p, n, s) = (words.first().map_or(7, |p| *p.max(&1)), told(1, 66), told(3, 18));
    let row = match ledger {
        Ok(ledger) => any_row(&mut g.rng, ledger),
        Err(_) => (0..n).map(|_| number(&mut g.rng, p)).collect(),
    };
    let row = if n > 0 { spoiled_row(&mut g.rng, p, row) } else { row };
    let wanted_len = length(&mut g.rng, n);
    let (row, mix_len, bytes_len) = (resized(row, wanted_len, 0), length(&mut g.rng, n), any_longest(&mut g.rng, s));
    match ledger {
        Ok(_) => met("relay", "tampered and still a board"),
        Err(why) => {
            let lengths = row.len() != n || mix_len != n || bytes_len != longest(s);
            // the rows that there are, whether or not they depend on each other, do not have this one
            let no_combination = *why == "dependent" && !depends(words, &row);
            note_no_board("relay", words, why, &[(3, lengths), (4, row.iter().any(|x| *x >= p)), (15, no_combination)]);
        }
    }
    calls::relay(g, words, ledger.as_ref().ok(), &row, mix_len, bytes_len);
}

/// Whether a row is a combination of the rows that are laid out in these words.
fn depends(words: &[u32], row: &[u32]) -> bool {
    let (p, n, k, s) = (words[0] as u64, words[1] as usize, words[2] as usize, words[3] as usize);
    let mut table: model::Table = words[4..].chunks_exact(n + s).take(k).map(|row| wide(&row[..n])).collect();
    let before = model::reduce(p, &mut table.clone(), n).len();
    table.push(wide(&resized(row.to_vec(), n, 0)).iter().map(|x| x % p).collect());
    model::reduce(p, &mut table, n).len() == before
}
