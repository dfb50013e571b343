//! Damage to a sound table, a kind for each clause of "Sound means" in document 01 that can fail alone. Each changes a
//! byte, or the few that belong together, and says whether it found a place.
use crate::random::Random;
use crate::view::{self, Process, Tab};
use processes::*;
use seats::*;

mod processes;
mod seats;

pub type Damage = fn(&mut Random, &mut [u8]) -> Option<()>;

pub const KINDS: [(&str, Damage); 38] = [
    ("any byte", any_byte),
    ("a tenant over 99", |r, t| seat_byte(r, t, idle_seats, 0, 100, 255)),
    ("options over 1", |r, t| seat_byte(r, t, shared_seats, 1, 2, 255)),
    ("the zero byte of a seat", |r, t| seat_byte(r, t, view::let_seats, 3, 1, 255)),
    ("a byte in a seat not let", in_seat_not_let),
    ("a selected slot that is free", selected_free),
    ("a serial over opens", serial_over_opens),
    ("a serial twice", serial_twice),
    ("a live slot not in the map", |r, t| flip_map(r, t, true)),
    ("a free slot in the map", |r, t| flip_map(r, t, false)),
    ("a map bit past ten", map_past_ten),
    ("a tab without its serial", |r, t| tab_bytes(r, t, |_, row| row[..2].fill(0))),
    ("waiting over 3", |r, t| tab_bytes(r, t, |r, row| row[3] = r.between(4, 255) as u8)),
    ("a tab on no process row", |r, t| tab_bytes(r, t, |_, row| row[2] = 0)),
    ("a tab on a row past 80", |r, t| tab_bytes(r, t, |r, row| row[2] = r.between(81, 255) as u8)),
    ("a tab on a free process row", on_free_row),
    ("a tab on another's process, all counted", on_another),
    ("a tab on no process row or one past 80, all counted", on_none),
    ("a byte in a free tab row", in_free_tab_row),
    ("a byte in a free process row", in_free_row),
    ("the zero byte of a process row", |r, t| process_byte(r, t, 7, |r, _| r.between(1, 255) as u8)),
    ("a tab more counted", |r, t| process_byte(r, t, 5, |_, b| b.wrapping_add(1))),
    ("a tab less counted", |r, t| process_byte(r, t, 5, |_, b| b.wrapping_sub(1))),
    ("another owner", |r, t| process_byte(r, t, 4, |r, b| b ^ 1 << r.below(8))),
    ("a process that no tab hangs on", idle_process),
    ("a number over the last", number_over_last),
    ("a number twice", number_twice),
    ("a last number over the opens", last_over_opens),
    ("a last number below a live one", last_below),
    ("the offset of the seats", |r, t| trailer_byte(r, t, 0)),
    ("the offset of the processes", |r, t| trailer_byte(r, t, 2)),
    ("a capital in a name", |r, t| in_name(r, t, |_, name| name.iter_mut().for_each(u8::make_ascii_uppercase))),
    ("a name that is none", |r, t| in_name(r, t, |r, name| name[r.below(name.len())] = *r.pick(b"._@{ \0-"))),
    ("a name without a dot", |r, t| in_name(r, t, |_, name| dots_out(name))),
    ("an address for a name", |r, t| in_name(r, t, |_, name| digits_last(name))),
    ("a name's length", |r, t| process_byte(r, t, 6, |r, b| b ^ 1 << r.below(7))),
    ("a byte behind a name", behind_name),
    ("owner and name twice", name_twice),
];

fn some<'a, T>(r: &mut Random, from: &'a [T]) -> Option<&'a T> {
    (!from.is_empty()).then(|| r.pick(from))
}

fn some_tab(r: &mut Random, t: &[u8]) -> Option<Tab> {
    some(r, &view::tabs(t)).copied()
}

fn some_process(r: &mut Random, t: &[u8]) -> Option<Process> {
    some(r, &view::processes(t)).cloned()
}
