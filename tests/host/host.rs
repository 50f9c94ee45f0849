//! The host tests: libdauneroad.a against the model of documents 01 and 02 in model.rs, on seeded random, exhaustive and
//! damaged inputs. One line per group; ends with 0 only if no group disagrees.

mod boards;
mod calls;
mod checks;
mod clashes;
mod draw;
mod frames;
mod histories;
mod lent;
mod model;
mod offices;
mod relays;
mod table_calls;
mod tables;

use boards::*;
use calls::Group;
use checks::*;
use clashes::*;
use draw::{BAD, PRIMES, SOME_S};
use frames::*;
use histories::*;
use lent::{set_fence, Fence};
use model::Met;
use offices::*;
use relays::*;
use std::time::Instant;
use tables::*;

fn fenced(g: &mut Group) {
    for fence in [Fence::Behind, Fence::Before] {
        set_fence(fence);
        readings_few(g);
        opens(g);
        frames(g, 500);
        widths(g);
        frame_refusals(g, 1500);
        seals(g, 150);
        tables(g, 240, 24);
        tables_largest(g, 4);
        table_refusals(g, 1500);
        checks(g, 120, 12);
        checks_largest(g, 1);
        clashes(g, 120, 12);
        clashes_largest(g, 1);
        clash_refusals(g, 1500);
        histories(g, 40, 12, 20);
        tampering(g, 1500, 8);
        histories(g, 2, 64, 20);
        relays(g, 40, 12);
        relays_largest(g, 2);
        relay_refusals(g, 1500);
        offices(g, 12, 9, 12);
        set_fence(Fence::Off);
    }
}

fn readings_few(g: &mut Group) {
    for p in PRIMES.into_iter().chain(BAD) {
        for low in [0, p / 2, p.saturating_sub(1), p] {
            for v in [0, 1, p / 2, p.saturating_sub(1), p] {
                calls::signed(g, p, low, v);
                calls::residue(g, p, low, v as i32);
            }
        }
    }
}

/// Boards of their own may be worked on at the same time.
fn at_once(g: &mut Group) {
    let seeds: Vec<u64> = (0..4).map(|_| g.rng.next()).collect();
    let threads: Vec<_> = seeds
        .into_iter()
        .map(|seed| {
            std::thread::spawn(move || {
                let mut g = Group::new("calls at the same time", seed);
                histories(&mut g, 24, 12, 40);
                tables(&mut g, 60, 12);
                checks(&mut g, 60, 12);
                clashes(&mut g, 60, 12);
                relays(&mut g, 60, 12);
                offices(&mut g, 12, 9, 12);
                (g.calls, g.wrong)
            })
        })
        .collect();
    for thread in threads {
        let (calls, wrong) = thread.join().expect("a thread's own end");
        g.calls += calls;
        g.wrong += wrong;
    }
}

/// What must have been met, call by call; documents 01 and 02 have no other refusal for these calls.
fn required() -> Vec<String> {
    let mut labels = Vec::new();
    let mut of = |call: &str, list: &str| labels.extend(list.split(", ").map(|what| format!("{call} {what}")));
    for call in ["signed", "residue"] {
        of(call, "done, 1 alone, 4 alone, 1 before 4, 4 low, 4 number, 4 low and number");
    }
    for call in ["signed", "residue", "seal", "show"] {
        of(call, "low 0, low 1, low old, low p - 2, low p - 1, low p, low most");
    }
    required_of_frames(&mut of);
    required_of_boards(&mut of);
    required_of_relays(&mut of);
    required_of_tables(&mut of);
    required_of_logs(&mut of);
    let calls = ["signed", "residue", "open", "take", "withdraw", "show", "relay", "read", "write", "seal"];
    for call in calls.into_iter().chain(["quasiinverse", "kernel", "solve", "fit", "check", "clash"]) {
        PRIMES.iter().chain(&BAD).for_each(|p| of(call, &format!("p {p}")));
    }
    labels
}

/// Of read, write, seal and open, and of the frames that take is given.
fn required_of_frames(of: &mut impl FnMut(&str, &str)) {
    for call in ["open", "read", "write", "seal"] {
        of(call, "done, 1 alone, 2 alone, 12 alone, 3 alone, 1 before 2, 1 before 12, 1 before 3, 2 before 12, 2 before 3, 12 before 3");
        of(call, "told n 0, told n 64, told n 65, told n 4294967295");
        of(call, "told s 0, told s 1, told s 16, told s 17, told s 4294967295");
    }
    of("open", "3 board below, 3 board above");
    for call in ["read", "write", "seal"] {
        of(call, "3 multipliers below, 3 multipliers above, 3 values below, 3 values above");
    }
    of("read", "12 before the frame, 3 before the frame");
    for call in ["write", "seal"] {
        of(call, "4 alone, 1 before 4, 2 before 4, 12 before 4, 3 before 4, 4 multipliers");
    }
    of(
        "write",
        "3 bytes below, 3 bytes above, 4 values, 4 multipliers and values, 4 first value of several, 4 last value of several",
    );
    of("seal", "3 records below, 3 records above, 4 records, 4 low, 4 last word of several, values that differ");
    of("seal", "4 multipliers and low, 4 multipliers and records, 4 low and records, 4 multipliers and low and records");
    let frame = "6 cut map, 6 short, 6 long, 6 short with padding, 6 long with padding, 6 with a zero, 6 with a large number, \
                 7 alone, 7 with a bad number, 8 before 4, 4 before 8, 4 multiplier, 4 value, 4 first value of several, \
                 4 last value of several, a value of 0 among several";
    for call in ["read", "take"] {
        of(call, frame);
        for w in 1..=4 {
            of(
                call,
                &format!("width {w}, 7 at width {w}, 8 alone at width {w}, 4 of p at width {w}, 4 of the most at width {w}"),
            );
            of(call, &format!("6 a byte short at width {w}, 6 a byte long at width {w}"));
            of(call, &format!("6 a number short at width {w}, 6 a number long at width {w}"));
            (1..=4).filter(|other| *other != w).for_each(|other| of(call, &format!("6 numbers of {other} at width {w}")));
        }
        of(
            call,
            "6 of 0 values at s 1, 6 of 2 values at s 1, 6 of 16 values at s 1, 6 of 1 values at s 2, 6 of 3 values at s 2",
        );
        of(
            call,
            "6 of 1 values at s 3, 6 of 2 values at s 3, 6 of 1 values at s 16, 6 of 15 values at s 16, 6 of 17 values at s 16",
        );
    }
    for call in ["read", "write", "take"] {
        (1..=4).for_each(|w| SOME_S.iter().for_each(|s| of(call, &format!("width {w} s {s}"))));
    }
    SOME_S.iter().for_each(|s| of("write", &format!("all bytes at s {s}")));
    for size in 1..=64 {
        ["read", "write", "seal"].iter().for_each(|call| of(call, &format!("n {size}")));
    }
    for s in 1..=16 {
        ["open", "read", "write", "seal"].iter().for_each(|call| of(call, &format!("s {s}")));
    }
}

/// Of take, withdraw and show.
fn required_of_boards(of: &mut impl FnMut(&str, &str)) {
    of("take", "new, repeat, 9, 3, 3 mix below, 3 mix above, 3 before the frame, 11, 11 before 3");
    of("take", "9 first value alone, 9 last value alone, 9 middle value alone, 9 all values");
    of("withdraw", "done, all, 10, 10 by one, 11, 11 before 10");
    of("show", "done, some settled, 3 alone, 3 marks below, 3 marks above, 3 numbers below, 3 numbers above, 4 alone");
    of("show", "3 one number a record, 3 before 4, 11, 11 before 3, 11 before 4");
    for call in ["take", "withdraw", "show", "relay"] {
        of(call, "11 no header, 11 three words, 11 modulus, 11 size, 11 words, 11 length, 11 count, 11 multiplier, 11 value");
        of(call, "11 last value of several, 11 later word, 11 dependent");
        for s in ["0", "17", "4294967295"] {
            of(call, &format!("11 words {s}, 11 words {s} with the length it names"));
        }
    }
    for s in 1..=16 {
        of("take", &format!("s {s}, new s {s}, repeat s {s}, 9 s {s}, repeat s {s} of no record, 9 s {s} of no record"));
        of("withdraw", &format!("s {s}"));
        of("show", &format!("s {s}, some settled s {s}"));
    }
    for call in ["take", "show"] {
        (1..=64).for_each(|size| of(call, &format!("n {size}, at {size}")));
        of(call, "at 0");
    }
}

/// Of relay, and of the offices that are fed by it.
fn required_of_relays(of: &mut impl FnMut(&str, &str)) {
    of(
        "relay",
        "done, 3 alone, 4 alone, 15 alone, 11, 11 before 3, 11 before 4, 11 before 15, 3 before 4, 3 before 15, 4 before 15",
    );
    for slice in ["wanted", "mix", "bytes"] {
        of("relay", &format!("3 {slice} below, 3 {slice} above, 3 {slice} before 4"));
    }
    // a wanted row of another length is compared with no standing row
    of("relay", "3 mix before 15, 3 bytes before 15, 3 bytes for one value");
    of("relay", "4 first alone, 4 last alone, 4 of p, 4 of the most");
    of("relay", "15 for want of one frame, 15 by the first record, 15 by the last record");
    of("relay", "zeros, zeros on an empty board, a standing row, of all of several, of the first and the last alone");
    of(
        "relay",
        "on a full board, on a full board of several, a record by itself, a value of 0 among several, values that differ",
    );
    (1..=4).for_each(|w| SOME_S.iter().for_each(|s| of("relay", &format!("width {w} s {s}"))));
    SOME_S.iter().for_each(|s| of("relay", &format!("all bytes at s {s}")));
    (1..=64).for_each(|n| of("relay", &format!("n {n}")));
    (0..=64).for_each(|k| of("relay", &format!("at {k}")));
    (0..=63).for_each(|k| of("relay", &format!("15 at {k}")));
    (1..=16).for_each(|s| of("relay", &format!("s {s}, 15 s {s}")));
    of("office", "honest box, falsified box, take 0, take 100, take 3, take 6, withdrawal, refused withdrawal");
    of(
        "office",
        "some shown of a box that leaves some open, fewer shown than the box shows, all that the box shows with fewer frames",
    );
    of("office", "all frames and some shown, all frames and none shown, all frames and all shown");
    (1..=16).for_each(|s| of("office", &format!("s {s}")));
}

/// Of quasiinverse, kernel, solve, fit and check.
fn required_of_tables(of: &mut impl FnMut(&str, &str)) {
    for call in ["quasiinverse", "kernel", "solve", "fit", "check"] {
        of(
            call,
            "done, 1 alone, 2 alone, 3 alone, 4 alone, 1 before 2, 1 before 3, 1 before 4, 2 before 3, 2 before 4, 3 before 4",
        );
        of(call, "2 m, 2 n, 2 both, 3 a below, 3 a above, 4 a, 64 by 64 rank full, 64 by 64 rank lower");
        (0..=64).for_each(|size| of(call, &format!("m {size}, n {size}")));
        of(call, "told n 0, told n 64, told n 65, told n 4294967295, told m 0, told m 64, told m 65, told m 4294967295");
    }
    of("quasiinverse", "3 d below, 3 d above, 3 columns below, 3 columns above, 3 rows below, 3 rows above");
    of("kernel", "3 basis below, 3 basis above");
    for call in ["solve", "fit"] {
        of(call, "3 w below, 3 w above, 3 z below, 3 z above, 4 w, 4 both");
    }
    of("solve", "solved, 5, 3 u below, 3 u above");
    of("fit", "nothing left over, left over, 3 rest below, 3 rest above");
    of("check", "3 d below, 3 d above, 4 d, 4 both, 3 a before 4 d, 3 d before 4 a, 17 alone, 18 alone, 17 before 18");
    // 3 before 17 and 18 is none: tables of other lengths have no products to compare
    of("check", "1 before 17, 1 before 18, 2 before 17, 2 before 18, 4 before 17, 4 before 18");
    for place in ["17 at corner", "18 at corner"] {
        (0..4).for_each(|corner| of("check", &format!("{place} {corner} alone, {place} {corner} alone of 64 by 64")));
    }
    of("check", "another in any order, another from the end, another combined, one off 17, one off 18, one off accepted");
    of("check", "nothing left over by another, left over by another");
}

/// Of clash.
fn required_of_logs(of: &mut impl FnMut(&str, &str)) {
    of(
        "clash",
        "done, 1 alone, 2 alone, 12 alone, 3 alone, 4 alone, 1 before 2, 1 before 12, 1 before 3, 1 before 4, 2 before 12",
    );
    of("clash", "2 before 3, 2 before 4, 12 before 3, 12 before 4, 3 before 4, 3 marks before 4");
    of("clash", "2 m, 2 n, 2 n of 0, 2 both, 12 of 0, 12 of 17, 12 of 4294967295");
    of("clash", "told n 0, told n 64, told n 65, told n 4294967295, told m 0, told m 64, told m 65, told m 4294967295");
    of("clash", "3 log below, 3 log above, 3 marks below, 3 marks above");
    of("clash", "4 multiplier, 4 value, 4 first number, 4 last number, 4 of p, 4 behind a clash");
    of("clash", "of 1, of 2, of 3, of 64, of all of several, at the first, at the last, in the middle");
    of("clash", "first word alone, last word alone, middle word alone, all of several words");
    of("clash", "one of J left out, a double left out, zeros left out, another behind it");
    of("clash", "another behind it in the first word, another behind it in the last word");
    of(
        "clash",
        "none with zeros, none among repeats of lower rank, none among repeats of full rank, 64 by 64 s 1, 64 by 64 s 16",
    );
    (0..=64).for_each(|m| of("clash", &format!("m {m}")));
    (1..=64).for_each(|n| of("clash", &format!("n {n}")));
    (1..=16).for_each(|s| of("clash", &format!("s {s}, clash s {s}, no clash s {s}")));
}

fn main() {
    let groups: [(&'static str, &dyn Fn(&mut Group)); 43] = [
        ("the prime test", &|g| moduli(g, 1500)),
        ("signed readings", &readings),
        ("frames, tiny ones all", &frames_exhaustive),
        ("frames, on both sides of each width's end", &widths),
        ("frames, written, read and damaged", &|g| frames(g, 6000)),
        ("frames, refusals and their order", &|g| frame_refusals(g, 12_000)),
        ("seals", &|g| seals(g, 3000)),
        ("tables, tiny ones all", &tables_exhaustive),
        ("tables, all sizes", &|g| tables(g, 500, 64)),
        ("tables, small sizes", &|g| tables(g, 6000, 9)),
        ("tables, 64 by 64", &|g| tables_largest(g, 40)),
        ("tables, refusals and their order", &|g| table_refusals(g, 12_000)),
        ("empty slices", &|g| {
            calls::empty_slices(g);
            table_calls::empty_slices(g);
        }),
        ("opens", &opens),
        ("boards, all sizes and counts", &boards),
        ("histories, tiny ones all", &histories_exhaustive),
        ("histories, small boards", &|g| histories(g, 900, 9, 40)),
        ("histories, all sizes", &|g| histories(g, 80, 64, 20)),
        ("histories, 64 standing frames", &|g| {
            histories_largest(g, &[(2, 1), (251, 3), (2_147_483_647, 1), (2_147_483_647, 16)])
        }),
        ("withdrawals restore", &|g| restored(g, 300)),
        ("heats, sealed to shown", &|g| heats(g, 100)),
        ("words that are no board, tiny ones all", &boards_exhaustive),
        ("words that are no board, tampered", &|g| {
            tampering(g, 12_000, 10);
            tampering_largest(g, 60);
        }),
        ("checks, tiny ones all", &checks_exhaustive),
        ("checks, one number off", &|g| checks_one_off(g, 6)),
        ("checks, all sizes", &|g| checks(g, 120, 64)),
        ("checks, small sizes", &|g| checks(g, 3000, 9)),
        ("checks, 64 by 64", &|g| checks_largest(g, 12)),
        ("clashes, tiny ones all", &clashes_exhaustive),
        ("clashes, all sizes", &|g| clashes(g, 600, 64)),
        ("clashes, small sizes", &|g| clashes(g, 6000, 9)),
        ("clashes, one of forty frames falsified", &clashes_of_forty),
        ("clashes, 64 by 64", &|g| clashes_largest(g, 32)),
        ("clashes, refusals and their order", &|g| clash_refusals(g, 12_000)),
        ("relays, tiny ones all", &relays_exhaustive),
        ("relays, all sizes and counts", &relays_all_counts),
        ("relays, all sizes", &|g| relays(g, 160, 64)),
        ("relays, small sizes", &|g| relays(g, 3000, 9)),
        ("relays, 64 records", &|g| relays_largest(g, 24)),
        ("relays, refusals and their order", &|g| relay_refusals(g, 12_000)),
        ("relays between other calls", &|g| relays_between(g, 120, 12, 20)),
        ("offices fed by a relay box", &|g| {
            offices(g, 600, 9, 24);
            offices(g, 24, 64, 12);
        }),
        ("slices at fences, read only where read", &fenced),
    ];
    let begin = Instant::now();
    let (mut total, mut failed) = (0, 0);
    let mut close = |g: Group, began: Instant| {
        total += g.calls;
        let time = began.elapsed().as_secs_f64();
        if g.wrong == 0 {
            println!("ok: {}: {} calls, {time:.1} s", g.name, g.calls);
        } else {
            failed += 1;
            println!("error: {}: {} disagreements in {} calls, {time:.1} s", g.name, g.wrong, g.calls);
        }
    };
    for (i, (name, run)) in groups.iter().enumerate() {
        let began = Instant::now();
        let mut g = Group::new(name, 0x0dd_ba11 + i as u64);
        run(&mut g);
        close(g, began);
    }
    let began = Instant::now();
    let mut g = Group::new("calls at the same time", 0x7177);
    at_once(&mut g);
    close(g, began);

    let seen: Met = model::take_met();
    let missed: Vec<String> = required().into_iter().filter(|label| !seen.contains_key(label)).collect();
    if missed.is_empty() {
        println!(
            "ok: every refusal, every order of two, every size, width, modulus and s was met: {} of them",
            required().len()
        );
    } else {
        failed += 1;
        println!("error: never met: {}", missed.join(", "));
    }
    println!("host: {total} calls in {:.1} s", begin.elapsed().as_secs_f64());
    std::process::exit((failed > 0) as i32);
}
