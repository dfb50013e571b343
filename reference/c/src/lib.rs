//! The reference for C programs that hold the kernel against it: the two calls of stewlattice.h under other names, with
//! the same packed answers. Assumes, as they do, that each pointer is good for its length and that nothing lent overlaps;
//! a pointer may be NULL if its length is 0.
use reference::Answer;

fn packed(answer: Answer) -> u64 {
    u64::from(answer.number) | (answer.actions as u64) << 8 | (answer.bytes as u64) << 16
}

unsafe fn lent<'a>(at: *const u8, len: usize) -> &'a [u8] {
    if len == 0 {
        return &[];
    }
    std::slice::from_raw_parts(at, len)
}

unsafe fn lent_mut<'a>(at: *mut u8, len: usize) -> &'a mut [u8] {
    if len == 0 {
        return &mut [];
    }
    std::slice::from_raw_parts_mut(at, len)
}

/// # Safety
/// As above.
#[no_mangle]
pub unsafe extern "C" fn reference_start(table: *mut u8, table_len: usize, book: *const u8, book_len: usize) -> u64 {
    packed(reference::start(lent_mut(table, table_len), lent(book, book_len)))
}

/// # Safety
/// As above.
#[no_mangle]
pub unsafe extern "C" fn reference_step(
    table: *mut u8,
    table_len: usize,
    book: *const u8,
    book_len: usize,
    event: *const u8,
    event_len: usize,
    out: *mut u8,
    out_len: usize,
) -> u64 {
    packed(reference::step(
        lent_mut(table, table_len),
        lent(book, book_len),
        lent(event, event_len),
        lent_mut(out, out_len),
    ))
}
