//! Each exported call on tables and logs, made on guarded memory and compared with the model: the number, and every word lent, whole.

use crate::calls::Group;
use crate::lent::Lent;
use crate::model;

#[rustfmt::skip]
extern "C" {
    fn dauneroad_quasiinverse(
        p: u32, m: u32, n: u32, a: *const u32, a_len: usize, d: *mut u32, d_len: usize, column_marks: *mut u32,
        column_marks_len: usize, row_marks: *mut u32, row_marks_len: usize,
    ) -> u32;
    fn dauneroad_kernel(p: u32, m: u32, n: u32, a: *const u32, a_len: usize, basis: *mut u32, basis_len: usize) -> u32;
    fn dauneroad_solve(
        p: u32, m: u32, n: u32, a: *const u32, a_len: usize, w: *const u32, w_len: usize, z: *mut u32, z_len: usize,
        u: *mut u32, u_len: usize,
    ) -> u32;
    fn dauneroad_fit(
        p: u32, m: u32, n: u32, a: *const u32, a_len: usize, w: *const u32, w_len: usize, z: *mut u32, z_len: usize,
        rest: *mut u32, rest_len: usize,
    ) -> u32;
    fn dauneroad_check(p: u32, m: u32, n: u32, a: *const u32, a_len: usize, d: *const u32, d_len: usize) -> u32;
    fn dauneroad_clash(
        p: u32, m: u32, n: u32, s: u32, log: *const u32, log_len: usize, marks: *mut u32, marks_len: usize,
    ) -> u32;
}

pub struct Quasi {
    pub number: u32,
    pub d: Vec<u32>,
    pub columns: Vec<u32>,
    pub rows: Vec<u32>,
}

/// A table that a call is given, with its sizes as the call is told them.
#[derive(Clone)]
pub struct Given {
    pub p: u32,
    pub m: u32,
    pub n: u32,
    pub a: Vec<u32>,
}

pub fn quasiinverse(g: &mut Group, t: &Given, d_len: usize, columns_len: usize, rows_len: usize) -> Quasi {
    let (p, m, n) = (t.p, t.m, t.n);
    let a = Lent::read_only(&mut g.rng, &t.a);
    let mut d = Lent::any(&mut g.rng, d_len);
    let mut columns = Lent::any(&mut g.rng, columns_len);
    let mut rows = Lent::any(&mut g.rng, rows_len);
    let (mut want_d, mut want_columns, mut want_rows) = (d.entry().to_vec(), columns.entry().to_vec(), rows.entry().to_vec());
    let want = model::quasiinverse(p, m, n, &t.a, &mut want_d, &mut want_columns, &mut want_rows);
    let got = unsafe {
        let (d, d_len) = (d.mut_ptr(), d.len());
        let (columns, columns_len, rows, rows_len) = (columns.mut_ptr(), columns.len(), rows.mut_ptr(), rows.len());
        dauneroad_quasiinverse(p, m, n, a.ptr(), a.len(), d, d_len, columns, columns_len, rows, rows_len)
    };
    g.calls += 1;
    let good = got == want && a.untouched() && d.holds(&want_d) && columns.holds(&want_columns) && rows.holds(&want_rows);
    g.demand(good, || {
        format!(
            "quasiinverse(p {p}, m {m}, n {n}, a {:?}, {d_len} d, {columns_len} columns, {rows_len} rows): library {got} \
             d {:?} columns {:?} rows {:?} guards {} {} {} {}, document {want} d {want_d:?} columns {want_columns:?} \
             rows {want_rows:?}",
            t.a,
            d.body(),
            columns.body(),
            rows.body(),
            a.untouched(),
            d.guarded(),
            columns.guarded(),
            rows.guarded()
        )
    });
    Quasi { number: got, d: d.body().to_vec(), columns: columns.body().to_vec(), rows: rows.body().to_vec() }
}

pub fn kernel(g: &mut Group, t: &Given, basis_len: usize) -> (u32, Vec<u32>) {
    let (p, m, n) = (t.p, t.m, t.n);
    let a = Lent::read_only(&mut g.rng, &t.a);
    let mut basis = Lent::any(&mut g.rng, basis_len);
    let mut want_basis = basis.entry().to_vec();
    let want = model::kernel(p, m, n, &t.a, &mut want_basis);
    let got = unsafe { dauneroad_kernel(p, m, n, a.ptr(), a.len(), basis.mut_ptr(), basis.len()) };
    g.calls += 1;
    g.demand(got == want && a.untouched() && basis.holds(&want_basis), || {
        format!(
            "kernel(p {p}, m {m}, n {n}, a {:?}, {basis_len} basis): library {got} {:?} guards {} {}, document {want} \
             {want_basis:?}",
            t.a,
            basis.body(),
            a.untouched(),
            basis.guarded()
        )
    });
    (got, basis.body().to_vec())
}

/// Solve and fit are lent alike: the table and the right side, and memory for z and for m numbers more.
#[rustfmt::skip]
type System = unsafe extern "C" fn(
    u32, u32, u32, *const u32, usize, *const u32, usize, *mut u32, usize, *mut u32, usize,
) -> u32;
type Document = fn(u32, u32, u32, &[u32], &[u32], &mut [u32], &mut [u32]) -> u32;

/// One of them on a system, with so many words for z and for the last slice. Answers the number and what is left in both.
fn system(
    g: &mut Group,
    of: (&str, System, Document),
    t: &Given,
    w: &[u32],
    lens: (usize, usize),
) -> (u32, Vec<u32>, Vec<u32>) {
    let ((name, library, document), (p, m, n)) = (of, (t.p, t.m, t.n));
    let a = Lent::read_only(&mut g.rng, &t.a);
    let lent_w = Lent::read_only(&mut g.rng, w);
    let mut z = Lent::any(&mut g.rng, lens.0);
    let mut u = Lent::any(&mut g.rng, lens.1);
    let (mut want_z, mut want_u) = (z.entry().to_vec(), u.entry().to_vec());
    let want = document(p, m, n, &t.a, w, &mut want_z, &mut want_u);
    let got = unsafe {
        let (z, z_len, u, u_len) = (z.mut_ptr(), z.len(), u.mut_ptr(), u.len());
        library(p, m, n, a.ptr(), a.len(), lent_w.ptr(), lent_w.len(), z, z_len, u, u_len)
    };
    g.calls += 1;
    let good = got == want && a.untouched() && lent_w.untouched() && z.holds(&want_z) && u.holds(&want_u);
    g.demand(good, || {
        format!(
            "{name}(p {p}, m {m}, n {n}, a {:?}, w {w:?}, {lens:?} lent): library {got} {:?} {:?} guards {} {} {} {}, document \
             {want} {want_z:?} {want_u:?}",
            t.a,
            z.body(),
            u.body(),
            a.untouched(),
            lent_w.untouched(),
            z.guarded(),
            u.guarded()
        )
    });
    (got, z.body().to_vec(), u.body().to_vec())
}

pub fn solve(g: &mut Group, t: &Given, w: &[u32], z_len: usize, u_len: usize) -> (u32, Vec<u32>, Vec<u32>) {
    system(g, ("solve", dauneroad_solve, model::solve), t, w, (z_len, u_len))
}

pub fn fit(g: &mut Group, t: &Given, w: &[u32], z_len: usize, rest_len: usize) -> (u32, Vec<u32>, Vec<u32>) {
    system(g, ("fit", dauneroad_fit, model::fit), t, w, (z_len, rest_len))
}

/// Check is lent two tables and writes to neither.
pub fn check(g: &mut Group, t: &Given, d: &[u32]) -> u32 {
    let (p, m, n) = (t.p, t.m, t.n);
    let a = Lent::read_only(&mut g.rng, &t.a);
    let lent_d = Lent::read_only(&mut g.rng, d);
    let want = model::check(p, m, n, &t.a, d);
    let got = unsafe { dauneroad_check(p, m, n, a.ptr(), a.len(), lent_d.ptr(), lent_d.len()) };
    g.calls += 1;
    g.demand(got == want && a.untouched() && lent_d.untouched(), || {
        let guards = (a.untouched(), lent_d.untouched());
        format!("check(p {p}, m {m}, n {n}, a {:?}, d {d:?}): library {got} guards {guards:?}, document {want}", t.a)
    });
    got
}

/// Check of two tables in one memory: A begins it, and D begins `at` words further on. What is only read may overlap.
pub fn check_within(g: &mut Group, (p, m, n): (u32, u32, u32), words: &[u32], at: usize) -> u32 {
    let size = m as usize * n as usize;
    let lent = Lent::read_only(&mut g.rng, words);
    let want = model::check(p, m, n, &words[..size], &words[at..at + size]);
    let got = unsafe { dauneroad_check(p, m, n, lent.ptr(), size, lent.ptr().add(at), size) };
    g.calls += 1;
    g.demand(got == want && lent.untouched(), || {
        format!("check(p {p}, m {m}, n {n}) within {words:?}, D at {at}: library {got}, document {want}")
    });
    got
}

/// A log that clash is given, with its sizes as the call is told them.
#[derive(Clone, Debug)]
pub struct Log {
    pub p: u32,
    pub m: u32,
    pub n: u32,
    pub s: u32,
    pub words: Vec<u32>,
}

pub fn clash(g: &mut Group, t: &Log, marks_len: usize) -> (u32, Vec<u32>) {
    let log = Lent::read_only(&mut g.rng, &t.words);
    let mut marks = Lent::any(&mut g.rng, marks_len);
    let mut want_marks = marks.entry().to_vec();
    let want = model::clash(t.p, t.m, t.n, t.s, &t.words, &mut want_marks);
    let got = unsafe { dauneroad_clash(t.p, t.m, t.n, t.s, log.ptr(), log.len(), marks.mut_ptr(), marks.len()) };
    g.calls += 1;
    g.demand(got == want && log.untouched() && marks.holds(&want_marks), || {
        let (body, guards) = (marks.body(), (log.untouched(), marks.guarded()));
        format!("clash of {t:?}, {marks_len} marks: library {got} {body:?} guards {guards:?}, document {want} {want_marks:?}")
    });
    (got, marks.body().to_vec())
}

/// Calls whose slices are all empty, with nothing behind their pointers.
pub fn empty_slices(g: &mut Group) {
    let none = std::ptr::NonNull::<u32>::dangling().as_ptr();
    let got = unsafe {
        [
            dauneroad_quasiinverse(7, 0, 0, none, 0, none, 0, none, 0, none, 0),
            dauneroad_kernel(7, 0, 0, none, 0, none, 0),
            dauneroad_solve(7, 0, 0, none, 0, none, 0, none, 0, none, 0),
            dauneroad_fit(7, 0, 0, none, 0, none, 0, none, 0, none, 0),
            dauneroad_check(7, 0, 0, none, 0, none, 0),
            dauneroad_check(7, 64, 0, none, 0, none, 0),
            dauneroad_check(7, 0, 64, none, 0, none, 0),
            dauneroad_check(7, 1, 1, none, 0, none, 0),
            dauneroad_check(7, 65, 0, none, 0, none, 0),
            dauneroad_check(9, 0, 65, none, 0, none, 0),
            dauneroad_clash(7, 0, 1, 1, none, 0, none, 0),
            dauneroad_clash(7, 0, 64, 16, none, 0, none, 0),
            dauneroad_clash(7, 1, 1, 1, none, 0, none, 0),
            dauneroad_clash(7, 0, 1, 0, none, 0, none, 0),
            dauneroad_clash(7, 0, 0, 1, none, 0, none, 0),
            dauneroad_clash(9, 0, 1, 1, none, 0, none, 0),
        ]
    };
    let want = [200, 200, 200, 200, 200, 200, 200, 3, 2, 1, 200, 200, 3, 12, 2, 1];
    g.calls += want.len() as u64;
    g.demand(got == want, || format!("empty slices: library {got:?}, document {want:?}"));
}
