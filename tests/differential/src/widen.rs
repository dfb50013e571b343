//! Changes that leave a sound table sound and that no step makes: opens and numbers far on, rows elsewhere, marks set. So
//! the calls meet tables that a history of thousands of events does not reach.
use crate::random::Random;
use crate::view::{self, put, row_at, seat_at, tab_at, ROWS, SEATS, TRAILER};

/// The opens of some seats go up, the last number with them.
fn count_on(r: &mut Random, t: &mut [u8]) {
    for seat in view::let_seats(t) {
        if r.percent(50) {
            let least = view::opens(t, seat);
            let most = if r.percent(50) { 65535 } else { r.between(least, 65535) };
            let opens = most - r.below((most - least).min(3) + 1);
            put(&mut t[seat_at(seat) + 4..][..2], opens);
        }
    }
    let sum: usize = (1..=SEATS).map(|s| view::opens(t, s)).sum();
    let least = view::last_number(t);
    let last = if r.percent(50) { sum } else { r.between(least, sum) };
    put(&mut t[TRAILER + 4..], last);
}

/// A live process moves to a free row, and its tabs follow.
fn move_row(r: &mut Random, t: &mut [u8]) {
    let free: Vec<_> = (1..=ROWS).filter(|row| view::process(t, *row).is_none()).collect();
    let live = view::processes(t);
    if free.is_empty() || live.is_empty() {
        return;
    }
    let (from, to) = (r.pick(&live).row, *r.pick(&free));
    t.copy_within(row_at(from)..row_at(from) + 72, row_at(to));
    t[row_at(from)..row_at(from) + 72].fill(0);
    for tab in view::tabs(t).into_iter().filter(|tab| tab.row == from) {
        t[tab_at(tab.seat, tab.slot) + 2] = to as u8;
    }
}

/// A live process gets a number that none has.
fn renumber(r: &mut Random, t: &mut [u8]) {
    let live = view::processes(t);
    let last = view::last_number(t);
    if live.is_empty() {
        return;
    }
    let number = r.between(1, last);
    if live.iter().all(|p| p.number != number) {
        let row = r.pick(&live).row;
        put(&mut t[row_at(row)..][..4], number);
    }
}

/// A tab gets a serial that no tab of its seat has.
fn reserial(r: &mut Random, t: &mut [u8]) {
    let tabs = view::tabs(t);
    if tabs.is_empty() {
        return;
    }
    let tab = *r.pick(&tabs);
    let serial = r.between(1, view::opens(t, tab.seat));
    if tabs.iter().all(|o| o.seat != tab.seat || o.serial != serial) {
        put(&mut t[tab_at(tab.seat, tab.slot)..][..2], serial);
    }
}

/// Marks and selections as they come.
fn remark(r: &mut Random, t: &mut [u8]) {
    for tab in view::tabs(t) {
        if r.percent(30) {
            t[tab_at(tab.seat, tab.slot) + 3] = r.below(4) as u8;
        }
        if r.percent(20) {
            t[seat_at(tab.seat) + 2] = tab.slot as u8;
        }
    }
}

/// Some of these changes; the table must be sound.
pub fn widen(r: &mut Random, t: &mut [u8]) {
    if r.percent(60) {
        count_on(r, t);
    }
    for _ in 0..r.below(6) {
        let change: fn(&mut Random, &mut [u8]) = [move_row, renumber, reserial, remark][r.below(4)];
        change(r, t);
    }
}
