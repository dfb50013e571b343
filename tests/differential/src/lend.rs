//! Memory to lend to a call: bytes of an exact length that end where a page begins which nobody may touch, or begin where
//! such a page ends; what a call may only read lies in pages that cannot be written. Under valgrind the heap's own fences
//! do the same for both ends at once. Assumes Linux and pages of 4,096 bytes.
use std::ffi::{c_char, c_int, c_uint, c_void};

extern "C" {
    fn mmap(addr: *mut c_void, len: usize, prot: c_int, flags: c_int, fd: c_int, offset: i64) -> *mut c_void;
    fn memfd_create(name: *const c_char, flags: c_uint) -> c_int;
    fn ftruncate(fd: c_int, len: i64) -> c_int;
    fn close(fd: c_int) -> c_int;
}

const PROT_NONE: c_int = 0;
const PROT_READ: c_int = 1;
const PROT_WRITE: c_int = 2;
const MAP_SHARED: c_int = 1;
const MAP_PRIVATE: c_int = 2;
const MAP_FIXED: c_int = 16;
const MAP_ANONYMOUS: c_int = 32;

const PAGE: usize = 4096;
/// More than any buffer that a case lends.
pub const MOST: usize = 24 * PAGE;
/// Bytes on the side away from the guard page that must keep their pattern.
const MARGIN: usize = 64;
const PATTERN: u8 = 0xa5;

/// Which end of the lent bytes touches a guard page.
#[derive(Clone, Copy, Debug, PartialEq, Eq)]
pub enum Side {
    Low,
    High,
}

/// Pages seen twice: `own` is where the bytes are laid, `lent` the view between guard pages that a call is given.
pub struct Pages {
    own: *mut u8,
    lent: *mut u8,
}

pub enum Lent {
    Fenced { pages: Pages, from: usize, len: usize },
    Heap(Box<[u8]>),
}

fn map(at: *mut u8, len: usize, prot: c_int, flags: c_int, fd: c_int) -> *mut u8 {
    let got = unsafe { mmap(at.cast(), len, prot, flags, fd, 0) };
    assert!(got as isize != -1, "no memory can be mapped");
    got.cast()
}

impl Pages {
    fn new(writable: bool) -> Self {
        let fd = unsafe { memfd_create(c"lent".as_ptr(), 0) };
        assert!(fd >= 0 && unsafe { ftruncate(fd, MOST as i64) } == 0, "no memory file");
        let fence = map(std::ptr::null_mut(), MOST + 2 * PAGE, PROT_NONE, MAP_PRIVATE | MAP_ANONYMOUS, -1);
        let inner = unsafe { fence.add(PAGE) };
        let prot = if writable { PROT_READ | PROT_WRITE } else { PROT_READ };
        let lent = map(inner, MOST, prot, MAP_SHARED | MAP_FIXED, fd);
        let own = map(std::ptr::null_mut(), MOST, PROT_READ | PROT_WRITE, MAP_SHARED, fd);
        unsafe { close(fd) };
        Pages { own, lent }
    }

    fn own(&self) -> &[u8] {
        unsafe { std::slice::from_raw_parts(self.own, MOST) }
    }

    fn own_mut(&mut self) -> &mut [u8] {
        unsafe { std::slice::from_raw_parts_mut(self.own, MOST) }
    }
}

impl Lent {
    pub fn fenced(writable: bool) -> Self {
        Lent::Fenced { pages: Pages::new(writable), from: 0, len: 0 }
    }

    pub fn heap() -> Self {
        Lent::Heap(Box::new([]))
    }

    /// Lays the bytes out and gives where they are lent.
    pub fn lay(&mut self, bytes: &[u8], side: Side) -> *mut u8 {
        match self {
            Lent::Heap(own) => {
                *own = bytes.into();
                own.as_mut_ptr()
            }
            Lent::Fenced { pages, from, len } => {
                *len = bytes.len();
                *from = if side == Side::Low { 0 } else { MOST - *len };
                let (start, end) = (*from, *from + *len);
                let own = pages.own_mut();
                own[start..end].copy_from_slice(bytes);
                own[start.saturating_sub(MARGIN)..start].fill(PATTERN);
                own[end..MOST.min(end + MARGIN)].fill(PATTERN);
                unsafe { pages.lent.add(start) }
            }
        }
    }

    /// What the bytes are now.
    pub fn bytes(&self) -> &[u8] {
        match self {
            Lent::Heap(own) => own,
            Lent::Fenced { pages, from, len } => &pages.own()[*from..*from + *len],
        }
    }

    /// Nothing was written beside them.
    pub fn margin_kept(&self) -> bool {
        match self {
            Lent::Heap(_) => true,
            Lent::Fenced { pages, from, len } => {
                let (own, end) = (pages.own(), *from + *len);
                let low = &own[from.saturating_sub(MARGIN)..*from];
                let high = &own[end..MOST.min(end + MARGIN)];
                low.iter().chain(high).all(|b| *b == PATTERN)
            }
        }
    }
}
