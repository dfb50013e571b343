//! A touch of a page that was not lent ends the run; this says which case it was, so that it can be played again.
use std::cell::Cell;
use std::ffi::{c_int, c_void};

extern "C" {
    fn signal(number: c_int, handler: extern "C" fn(c_int)) -> usize;
    fn write(fd: c_int, from: *const c_void, len: usize) -> isize;
    fn _exit(status: c_int) -> !;
}

const SIGBUS: c_int = 7;
const SIGSEGV: c_int = 11;

thread_local! {
    static PLAYING: Cell<(u64, u64)> = const { Cell::new((0, 0)) };
}

pub fn playing(seed: u64, case: u64) {
    PLAYING.set((seed, case));
}

/// The digits of a number, made without memory of the heap.
fn say_number(mut n: u64) {
    let mut digits = [0; 20];
    let mut at = digits.len();
    loop {
        at -= 1;
        digits[at] = b'0' + (n % 10) as u8;
        n /= 10;
        if n == 0 {
            break;
        }
    }
    say(&digits[at..]);
}

fn say(text: &[u8]) {
    unsafe { write(1, text.as_ptr().cast(), text.len()) };
}

extern "C" fn crashed(_: c_int) {
    let (seed, case) = PLAYING.get();
    say(b"the library touched memory that it was not lent: --seed ");
    say_number(seed);
    say(b" --case ");
    say_number(case);
    say(b"\n");
    unsafe { _exit(1) }
}

pub fn watch() {
    for number in [SIGSEGV, SIGBUS] {
        unsafe { signal(number, crashed) };
    }
}
