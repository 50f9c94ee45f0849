//! Each exported call on boards, frames and readings, made on guarded memory and compared with the model: the number, and every word
//! lent, whole. The calls on tables are in table_calls.rs.

use crate::lent::{Lent, Rng};
use crate::model::{self, Ledger};

#[rustfmt::skip]
extern "C" {
    fn dauneroad_open(p: u32, n: u32, s: u32, board: *mut u32, board_len: usize) -> u32;
    fn dauneroad_take(
        board: *mut u32, board_len: usize, frame: *const u8, frame_len: usize, mix: *mut u32, mix_len: usize,
    ) -> u32;
    fn dauneroad_withdraw(board: *mut u32, board_len: usize, t: u32) -> u32;
    fn dauneroad_show(
        board: *const u32, board_len: usize, low: u32, marks: *mut u32, marks_len: usize, numbers: *mut i32,
        numbers_len: usize,
    ) -> u32;
    fn dauneroad_relay(
        board: *const u32, board_len: usize, wanted: *const u32, wanted_len: usize, mix: *mut u32, mix_len: usize,
        bytes: *mut u8, bytes_len: usize,
    ) -> u32;
    fn dauneroad_read(
        p: u32, n: u32, s: u32, frame: *const u8, frame_len: usize, multipliers: *mut u32, multipliers_len: usize,
        values: *mut u32, values_len: usize,
    ) -> u32;
    fn dauneroad_write(
        p: u32, n: u32, s: u32, multipliers: *const u32, multipliers_len: usize, values: *const u32, values_len: usize,
        bytes: *mut u8, bytes_len: usize,
    ) -> u32;
    fn dauneroad_seal(
        p: u32, n: u32, s: u32, low: u32, records: *const i32, records_len: usize, multipliers: *const u32,
        multipliers_len: usize, values: *mut u32, values_len: usize,
    ) -> u32;
    fn dauneroad_signed(p: u32, low: u32, v: u32, record: *mut i32) -> u32;
    fn dauneroad_residue(p: u32, low: u32, record: i32, residue: *mut u32) -> u32;
}

/// One group of tests: its random numbers, and what it has counted.
pub struct Group {
    pub rng: Rng,
    pub name: &'static str,
    pub calls: u64,
    pub wrong: u64,
}

impl Group {
    pub fn new(name: &'static str, seed: u64) -> Group {
        Group { rng: Rng(seed), name, calls: 0, wrong: 0 }
    }

    /// Counts a disagreement; the first few are told with all that is needed to repeat them.
    pub fn demand(&mut self, good: bool, tell: impl FnOnce() -> String) {
        if !good {
            self.wrong += 1;
            if self.wrong <= 3 {
                let told: String = tell().chars().take(20_000).collect();
                println!("disagreement in {}: {told}", self.name);
            }
        }
    }
}

pub fn open(g: &mut Group, p: u32, n: u32, s: u32, board_len: usize) -> (u32, Option<Ledger>) {
    let mut board = Lent::any(&mut g.rng, board_len);
    let mut want_board = board.entry().to_vec();
    let (want, ledger) = model::open(p, n, s, &mut want_board);
    let got = unsafe { dauneroad_open(p, n, s, board.mut_ptr(), board.len()) };
    g.calls += 1;
    g.demand(got == want && board.holds(&want_board), || {
        format!(
            "open(p {p}, n {n}, s {s}, {board_len} words): library {got} {:?} guards {}, document {want} {want_board:?}",
            board.body(),
            board.guarded()
        )
    });
    (got, ledger)
}

/// Take on these words; the ledger is theirs, or None where they are no board. Answers the number and the words after.
pub fn take(g: &mut Group, words: &[u32], ledger: Option<&mut Ledger>, frame: &[u8], mix_len: usize) -> (u32, Vec<u32>) {
    let (number, after, _) = take_mix(g, words, ledger, frame, mix_len);
    (number, after)
}

/// The same, with the mix.
pub fn take_mix(
    g: &mut Group,
    words: &[u32],
    ledger: Option<&mut Ledger>,
    frame: &[u8],
    mix_len: usize,
) -> (u32, Vec<u32>, Vec<u32>) {
    let mut board = Lent::with(&mut g.rng, words);
    let lent_frame = Lent::read_only(&mut g.rng, frame);
    let mut mix = Lent::any(&mut g.rng, mix_len);
    let mut want_mix = mix.entry().to_vec();
    let (want, want_words) = match ledger {
        None => (11, words.to_vec()),
        Some(ledger) => {
            let number = ledger.take(frame, &mut want_mix);
            (number, if number == 0 { ledger.words() } else { words.to_vec() })
        }
    };
    let got =
        unsafe { dauneroad_take(board.mut_ptr(), board.len(), lent_frame.ptr(), lent_frame.len(), mix.mut_ptr(), mix.len()) };
    g.calls += 1;
    let good = got == want && board.holds(&want_words) && lent_frame.untouched() && mix.holds(&want_mix);
    g.demand(good, || {
        format!(
            "take on {words:?} of frame {frame:02x?} with {mix_len} mix words {:?}: library {got} board {:?} mix {:?} guards \
             {} {} {}, document {want} board {want_words:?} mix {want_mix:?}",
            mix.entry(),
            board.body(),
            mix.body(),
            board.guarded(),
            lent_frame.untouched(),
            mix.guarded()
        )
    });
    (got, board.body().to_vec(), mix.body().to_vec())
}

pub fn withdraw(g: &mut Group, words: &[u32], ledger: Option<&mut Ledger>, t: u32) -> (u32, Vec<u32>) {
    let mut board = Lent::with(&mut g.rng, words);
    let (want, want_words) = match ledger {
        None => (11, words.to_vec()),
        Some(ledger) => {
            let number = ledger.withdraw(t);
            (number, if number == 10 { words.to_vec() } else { ledger.words() })
        }
    };
    let got = unsafe { dauneroad_withdraw(board.mut_ptr(), board.len(), t) };
    g.calls += 1;
    g.demand(got == want && board.holds(&want_words), || {
        format!(
            "withdraw {t} on {words:?}: library {got} {:?} guards {}, document {want} {want_words:?}",
            board.body(),
            board.guarded()
        )
    });
    (got, board.body().to_vec())
}

pub fn show(
    g: &mut Group,
    words: &[u32],
    ledger: Option<&Ledger>,
    low: u32,
    marks_len: usize,
    numbers_len: usize,
) -> (u32, Vec<u32>, Vec<i32>) {
    let board = Lent::read_only(&mut g.rng, words);
    let mut marks = Lent::any(&mut g.rng, marks_len);
    let mut numbers = Lent::any(&mut g.rng, numbers_len);
    let (mut want_marks, mut want_numbers) = (marks.entry().to_vec(), numbers.entry().to_vec());
    let want = match ledger {
        None => 11,
        Some(ledger) => ledger.show(low, &mut want_marks, &mut want_numbers),
    };
    let got = unsafe {
        let (marks, marks_len) = (marks.mut_ptr(), marks.len());
        dauneroad_show(board.ptr(), board.len(), low, marks, marks_len, numbers.mut_ptr(), numbers.len())
    };
    g.calls += 1;
    let good = got == want && board.untouched() && marks.holds(&want_marks) && numbers.holds(&want_numbers);
    g.demand(good, || {
        format!(
            "show on {words:?} with low end {low}, {marks_len} marks and {numbers_len} numbers: library {got} {:?} {:?} guards {} \
             {} {}, document {want} {want_marks:?} {want_numbers:?}",
            marks.body(),
            numbers.body(),
            board.untouched(),
            marks.guarded(),
            numbers.guarded()
        )
    });
    (got, marks.body().to_vec(), numbers.body().to_vec())
}

/// What relay answers and leaves.
pub struct Relayed {
    pub number: u32,
    pub mix: Vec<u32>,
    pub bytes: Vec<u8>,
}

impl Relayed {
    /// The frame, where relay is not refused.
    pub fn frame(&self) -> Option<&[u8]> {
        self.number.checked_sub(200).and_then(|len| self.bytes.get(..len as usize))
    }
}

/// Relay of a wanted row from these words; the ledger is theirs, or None where they are no board.
pub fn relay(
    g: &mut Group,
    words: &[u32],
    ledger: Option<&Ledger>,
    wanted: &[u32],
    mix_len: usize,
    bytes_len: usize,
) -> Relayed {
    let lent_wanted = Lent::read_only(&mut g.rng, wanted);
    let at = (lent_wanted.ptr(), lent_wanted.len());
    let relayed = relay_of(g, words, ledger, wanted, |_| at, (mix_len, bytes_len));
    g.demand(lent_wanted.untouched(), || format!("relay writes to the wanted row {wanted:?} on {words:?}"));
    relayed
}

/// Relay of the wanted row that begins at a word of the board itself. What is only read may overlap.
pub fn relay_within(g: &mut Group, words: &[u32], ledger: &Ledger, begin: usize) -> Relayed {
    let (n, s) = (ledger.n, ledger.s);
    let at = |board: *const u32| (unsafe { board.add(begin) }, n);
    relay_of(g, words, Some(ledger), &words[begin..begin + n], at, (n, longest(s)))
}

/// Relay of the wanted row that lies where `at` says, the board being lent here.
fn relay_of(
    g: &mut Group,
    words: &[u32],
    ledger: Option<&Ledger>,
    wanted: &[u32],
    at: impl Fn(*const u32) -> (*const u32, usize),
    lens: (usize, usize),
) -> Relayed {
    let board = Lent::read_only(&mut g.rng, words);
    let mut mix = Lent::any(&mut g.rng, lens.0);
    let mut bytes = Lent::any(&mut g.rng, lens.1);
    let (mut want_mix, mut want_bytes) = (mix.entry().to_vec(), bytes.entry().to_vec());
    let want = match ledger {
        None => 11,
        Some(ledger) => ledger.relay(wanted, &mut want_mix, &mut want_bytes),
    };
    let (row, row_len) = at(board.ptr());
    let got = unsafe {
        let (mix, mix_len, bytes, bytes_len) = (mix.mut_ptr(), mix.len(), bytes.mut_ptr(), bytes.len());
        dauneroad_relay(board.ptr(), board.len(), row, row_len, mix, mix_len, bytes, bytes_len)
    };
    g.calls += 1;
    let good = got == want && board.untouched() && mix.holds(&want_mix) && bytes.holds(&want_bytes);
    g.demand(good, || {
        let (got_mix, got_bytes, guards) = (mix.body(), bytes.body(), (board.untouched(), mix.guarded(), bytes.guarded()));
        format!(
            "relay of {wanted:?} on {words:?}, {lens:?} lent: library {got} {got_mix:?} {got_bytes:02x?} guards {guards:?}, document \
             {want} {want_mix:?} {want_bytes:02x?}"
        )
    });
    Relayed { number: got, mix: mix.body().to_vec(), bytes: bytes.body().to_vec() }
}

/// What a frame call is told of the heat.
#[derive(Clone, Copy, Debug)]
pub struct Heat {
    pub p: u32,
    pub n: u32,
    pub s: u32,
}

/// The bytes that write and relay are lent.
pub fn longest(s: usize) -> usize {
    264 + 4 * s
}

pub fn read(g: &mut Group, h: Heat, frame: &[u8], multipliers_len: usize, values_len: usize) -> (u32, Vec<u32>, Vec<u32>) {
    let lent_frame = Lent::read_only(&mut g.rng, frame);
    let mut multipliers = Lent::any(&mut g.rng, multipliers_len);
    let mut values = Lent::any(&mut g.rng, values_len);
    let (mut want_multipliers, mut want_values) = (multipliers.entry().to_vec(), values.entry().to_vec());
    let want = model::read(h.p, h.n, h.s, frame, &mut want_multipliers, &mut want_values);
    let got = unsafe {
        let (frame, len, values, values_len) = (lent_frame.ptr(), lent_frame.len(), values.mut_ptr(), values.len());
        dauneroad_read(h.p, h.n, h.s, frame, len, multipliers.mut_ptr(), multipliers.len(), values, values_len)
    };
    g.calls += 1;
    let good = got == want && lent_frame.untouched() && multipliers.holds(&want_multipliers) && values.holds(&want_values);
    g.demand(good, || {
        format!(
            "read({h:?}, frame {frame:02x?}, {multipliers_len} multipliers, {values_len} values): library {got} {:?} {:?} guards {} \
             {} {}, document {want} {want_multipliers:?} {want_values:?}",
            multipliers.body(),
            values.body(),
            lent_frame.untouched(),
            multipliers.guarded(),
            values.guarded()
        )
    });
    (got, multipliers.body().to_vec(), values.body().to_vec())
}

pub fn write(g: &mut Group, h: Heat, multipliers: &[u32], values: &[u32], bytes_len: usize) -> (u32, Vec<u8>) {
    let lent_multipliers = Lent::read_only(&mut g.rng, multipliers);
    let lent_values = Lent::read_only(&mut g.rng, values);
    let mut bytes = Lent::any(&mut g.rng, bytes_len);
    let mut want_bytes = bytes.entry().to_vec();
    let want = model::write(h.p, h.n, h.s, multipliers, values, &mut want_bytes);
    let got = unsafe {
        let (multipliers, len) = (lent_multipliers.ptr(), lent_multipliers.len());
        let (values, values_len) = (lent_values.ptr(), lent_values.len());
        dauneroad_write(h.p, h.n, h.s, multipliers, len, values, values_len, bytes.mut_ptr(), bytes.len())
    };
    g.calls += 1;
    let good = got == want && lent_multipliers.untouched() && lent_values.untouched() && bytes.holds(&want_bytes);
    g.demand(good, || {
        format!(
            "write({h:?}, multipliers {multipliers:?}, values {values:?}, {bytes_len} bytes): library {got} {:02x?} guards {} {} {}, \
             document {want} {want_bytes:02x?}",
            bytes.body(),
            lent_multipliers.untouched(),
            lent_values.untouched(),
            bytes.guarded()
        )
    });
    (got, bytes.body().to_vec())
}

pub fn seal(g: &mut Group, h: Heat, low: u32, records: &[i32], multipliers: &[u32], values_len: usize) -> (u32, Vec<u32>) {
    let lent_records = Lent::read_only(&mut g.rng, records);
    let lent_multipliers = Lent::read_only(&mut g.rng, multipliers);
    let mut values = Lent::any(&mut g.rng, values_len);
    let mut want_values = values.entry().to_vec();
    let want = model::seal(h.p, h.n, h.s, low, records, multipliers, &mut want_values);
    let got = unsafe {
        let (records, records_len) = (lent_records.ptr(), lent_records.len());
        let (multipliers, len) = (lent_multipliers.ptr(), lent_multipliers.len());
        dauneroad_seal(h.p, h.n, h.s, low, records, records_len, multipliers, len, values.mut_ptr(), values.len())
    };
    g.calls += 1;
    let good = got == want && lent_records.untouched() && lent_multipliers.untouched() && values.holds(&want_values);
    g.demand(good, || {
        format!(
            "seal({h:?}, low {low}, records {records:?}, multipliers {multipliers:?}, {values_len} values): library {got} {:?} guards \
             {} {} {}, document {want} {want_values:?}",
            values.body(),
            lent_records.untouched(),
            lent_multipliers.untouched(),
            values.guarded()
        )
    });
    (got, values.body().to_vec())
}

pub fn signed(g: &mut Group, p: u32, low: u32, v: u32) -> (u32, i32) {
    let mut record = Lent::any(&mut g.rng, 1);
    let mut want_record = record.entry().to_vec();
    let want = model::signed(p, low, v, &mut want_record);
    let got = unsafe { dauneroad_signed(p, low, v, record.mut_ptr()) };
    g.calls += 1;
    g.demand(got == want && record.holds(&want_record), || {
        format!("signed(p {p}, low {low}, v {v}): library {got} {:?}, document {want} {want_record:?}", record.body())
    });
    (got, record.body()[0])
}

pub fn residue(g: &mut Group, p: u32, low: u32, record: i32) -> (u32, u32) {
    let mut residue = Lent::any(&mut g.rng, 1);
    let mut want_residue = residue.entry().to_vec();
    let want = model::residue(p, low, record, &mut want_residue);
    let got = unsafe { dauneroad_residue(p, low, record, residue.mut_ptr()) };
    g.calls += 1;
    g.demand(got == want && residue.holds(&want_residue), || {
        format!(
            "residue(p {p}, low {low}, record {record}): library {got} {:?}, document {want} {want_residue:?}",
            residue.body()
        )
    });
    (got, residue.body()[0])
}

/// Calls whose slices are all empty, with nothing behind their pointers.
pub fn empty_slices(g: &mut Group) {
    let none = std::ptr::NonNull::<u32>::dangling().as_ptr();
    let bytes = std::ptr::NonNull::<u8>::dangling().as_ptr();
    let signed = std::ptr::NonNull::<i32>::dangling().as_ptr();
    let got = unsafe {
        [
            dauneroad_open(7, 1, 1, none, 0),
            dauneroad_take(none, 0, bytes, 0, none, 0),
            dauneroad_withdraw(none, 0, 0),
            dauneroad_show(none, 0, 0, none, 0, signed, 0),
            dauneroad_relay(none, 0, none, 0, none, 0, bytes, 0),
            dauneroad_read(7, 1, 1, bytes, 0, none, 0, none, 0),
            dauneroad_write(7, 1, 1, none, 0, none, 0, bytes, 0),
            dauneroad_seal(7, 1, 1, 0, signed, 0, none, 0, none, 0),
            dauneroad_read(7, 1, 0, bytes, 0, none, 0, none, 0),
            dauneroad_seal(7, 1, 0, 0, signed, 0, none, 0, none, 0),
        ]
    };
    let want = [3, 11, 11, 11, 11, 3, 3, 3, 12, 12];
    g.calls += want.len() as u64;
    g.demand(got == want, || format!("empty slices: library {got:?}, document {want:?}"));
}
