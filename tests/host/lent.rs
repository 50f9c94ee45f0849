//! Lent memory. A slice for the library lies among guard words, all of random contents, and after the call the whole is
//! compared with what it must be. Behind a fence it instead ends (or begins) right at a page that cannot be touched, and
//! what the library may only read lies in pages that cannot be written.

use std::cell::{Cell, RefCell};

/// Splitmix64.
pub struct Rng(pub u64);

impl Rng {
    pub fn next(&mut self) -> u64 {
        self.0 = self.0.wrapping_add(0x9e37_79b9_7f4a_7c15);
        let mut z = self.0;
        z = (z ^ (z >> 30)).wrapping_mul(0xbf58_476d_1ce4_e5b9);
        z = (z ^ (z >> 27)).wrapping_mul(0x94d0_49bb_1331_11eb);
        z ^ (z >> 31)
    }

    /// A number from 0 to below - 1.
    pub fn below(&mut self, below: usize) -> usize {
        (self.next() as u128 * below as u128 >> 64) as usize
    }

    pub fn under(&mut self, below: u32) -> u32 {
        self.below(below as usize) as u32
    }

    /// True once in `times`.
    pub fn once_in(&mut self, times: usize) -> bool {
        self.below(times) == 0
    }

    pub fn pick<T: Copy>(&mut self, from: &[T]) -> T {
        from[self.below(from.len())]
    }
}

pub trait Word: Copy + PartialEq + std::fmt::Debug {
    fn from_bits(bits: u64) -> Self;
}

impl Word for u8 {
    fn from_bits(bits: u64) -> u8 {
        bits as u8
    }
}

impl Word for u32 {
    fn from_bits(bits: u64) -> u32 {
        bits as u32
    }
}

impl Word for i32 {
    fn from_bits(bits: u64) -> i32 {
        bits as i32
    }
}

#[derive(Clone, Copy, PartialEq)]
pub enum Fence {
    Off,
    Behind,
    Before,
}

extern "C" {
    fn mmap(addr: *mut u8, length: usize, prot: i32, flags: i32, fd: i32, offset: i64) -> *mut u8;
    fn mprotect(addr: *mut u8, length: usize, prot: i32) -> i32;
}

const NONE: i32 = 0;
const READ: i32 = 1;
const READ_WRITE: i32 = 3;
const PRIVATE_ANONYMOUS: i32 = 0x22;

/// A fenced yard is this many bytes, a multiple of every page size in use, and so is each fence.
const YARD: usize = 1 << 16;
const MARGIN: usize = 24;

thread_local! {
    static FENCE: Cell<Fence> = const { Cell::new(Fence::Off) };
    static YARDS: RefCell<Vec<*mut u8>> = const { RefCell::new(Vec::new()) };
}

pub fn set_fence(fence: Fence) {
    FENCE.with(|place| place.set(fence));
}

fn yard() -> *mut u8 {
    if let Some(free) = YARDS.with(|yards| yards.borrow_mut().pop()) {
        return free;
    }
    unsafe {
        let area = mmap(std::ptr::null_mut(), 3 * YARD, NONE, PRIVATE_ANONYMOUS, -1, 0);
        assert!(area as isize != -1, "no memory for a fenced yard");
        assert!(mprotect(area.add(YARD), YARD, READ_WRITE) == 0, "a yard cannot be opened");
        area.add(YARD)
    }
}

pub struct Lent<T: Word> {
    base: *mut T,
    at: usize,
    len: usize,
    was: Vec<T>,
    _own: Vec<T>,
    yard: *mut u8,
    frozen: bool,
}

impl<T: Word> Lent<T> {
    fn new(rng: &mut Rng, len: usize, body: Option<&[T]>) -> Lent<T> {
        let fence = FENCE.with(|place| place.get());
        let (at, total) = match fence {
            Fence::Off => {
                let at = MARGIN + rng.below(8);
                (at, at + len + MARGIN)
            }
            Fence::Behind => (MARGIN, MARGIN + len),
            Fence::Before => (0, len + MARGIN),
        };
        let mut was: Vec<T> = (0..total).map(|_| T::from_bits(rng.next())).collect();
        if let Some(body) = body {
            was[at..at + len].copy_from_slice(body);
        }
        let mut own = Vec::new();
        let mut yard_used = std::ptr::null_mut();
        let base = if fence == Fence::Off {
            own = was.clone();
            own.as_mut_ptr()
        } else {
            yard_used = yard();
            let bytes = total * std::mem::size_of::<T>();
            assert!(bytes <= YARD, "the slice is too long for a yard");
            let base = unsafe { yard_used.add(if fence == Fence::Behind { YARD - bytes } else { 0 }) } as *mut T;
            unsafe { std::ptr::copy_nonoverlapping(was.as_ptr(), base, total) };
            base
        };
        Lent { base, at, len, was, _own: own, yard: yard_used, frozen: false }
    }

    /// Memory to be written, with random contents.
    pub fn any(rng: &mut Rng, len: usize) -> Lent<T> {
        Lent::new(rng, len, None)
    }

    /// Memory to be read and written, with these contents.
    pub fn with(rng: &mut Rng, body: &[T]) -> Lent<T> {
        Lent::new(rng, body.len(), Some(body))
    }

    /// Memory to be read only.
    pub fn read_only(rng: &mut Rng, body: &[T]) -> Lent<T> {
        let mut lent = Lent::new(rng, body.len(), Some(body));
        if !lent.yard.is_null() {
            assert!(unsafe { mprotect(lent.yard, YARD, READ) } == 0, "a yard cannot be made read only");
            lent.frozen = true;
        }
        lent
    }

    pub fn ptr(&self) -> *const T {
        unsafe { self.base.add(self.at) }
    }

    pub fn mut_ptr(&mut self) -> *mut T {
        unsafe { self.base.add(self.at) }
    }

    pub fn len(&self) -> usize {
        self.len
    }

    /// The contents when it was lent.
    pub fn entry(&self) -> &[T] {
        &self.was[self.at..self.at + self.len]
    }

    /// The contents now.
    pub fn body(&self) -> &[T] {
        unsafe { std::slice::from_raw_parts(self.ptr(), self.len) }
    }

    /// Whether every guard word around it is as it was.
    pub fn guarded(&self) -> bool {
        let now = unsafe { std::slice::from_raw_parts(self.base as *const T, self.was.len()) };
        now[..self.at] == self.was[..self.at] && now[self.at + self.len..] == self.was[self.at + self.len..]
    }

    /// Whether the contents are these and the guard words as they were.
    pub fn holds(&self, body: &[T]) -> bool {
        self.body() == body && self.guarded()
    }

    /// Whether nothing has changed.
    pub fn untouched(&self) -> bool {
        self.holds(self.entry())
    }
}

impl<T: Word> Drop for Lent<T> {
    fn drop(&mut self) {
        if !self.yard.is_null() {
            if self.frozen {
                assert!(unsafe { mprotect(self.yard, YARD, READ_WRITE) } == 0, "a yard cannot be opened again");
            }
            YARDS.with(|yards| yards.borrow_mut().push(self.yard));
        }
    }
}
