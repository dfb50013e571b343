//! Damage to seats and tab rows.
use super::{some, some_tab};
use crate::random::Random;
use crate::view::{self, put, row_at, seat_at, tab_at, Tab, ROWS, SEATS, SLOTS, TABLE};

pub fn any_byte(r: &mut Random, t: &mut [u8]) -> Option<()> {
    let at = if r.percent(50) { r.below(TABLE) } else { r.below(384 + 5 * 72) };
    t[at] = if r.percent(50) { r.byte() } else { t[at] ^ 1 << r.below(8) };
    Some(())
}

pub fn idle_seats(t: &[u8]) -> Vec<usize> {
    let tabs = view::tabs(t);
    view::let_seats(t).into_iter().filter(|s| tabs.iter().all(|tab| tab.seat != *s)).collect()
}

pub fn shared_seats(t: &[u8]) -> Vec<usize> {
    view::let_seats(t).into_iter().filter(|s| t[seat_at(*s) + 1] == 0).collect()
}

pub fn seat_byte(
    r: &mut Random,
    t: &mut [u8],
    of: fn(&[u8]) -> Vec<usize>,
    byte: usize,
    low: usize,
    high: usize,
) -> Option<()> {
    let seat = *some(r, &of(t))?;
    t[seat_at(seat) + byte] = r.between(low, high) as u8;
    Some(())
}

pub fn in_seat_not_let(r: &mut Random, t: &mut [u8]) -> Option<()> {
    let free: Vec<_> = (1..=SEATS).filter(|s| t[seat_at(*s)] == 0).collect();
    let seat = *some(r, &free)?;
    t[seat_at(seat) + r.between(1, 47)] = r.between(1, 255) as u8;
    Some(())
}

pub fn selected_free(r: &mut Random, t: &mut [u8]) -> Option<()> {
    let seat = *some(r, &view::let_seats(t))?;
    let free: Vec<_> = (1..=SLOTS).filter(|k| view::tab(t, seat, *k).is_none()).collect();
    t[seat_at(seat) + 2] = *some(r, &free)? as u8;
    Some(())
}

pub fn serial_over_opens(r: &mut Random, t: &mut [u8]) -> Option<()> {
    let tab = some_tab(r, t)?;
    let opens = view::opens(t, tab.seat);
    put(&mut t[tab_at(tab.seat, tab.slot)..][..2], (opens + r.between(1, 3)).min(65535));
    Some(())
}

pub fn serial_twice(r: &mut Random, t: &mut [u8]) -> Option<()> {
    let tab = some_tab(r, t)?;
    let others: Vec<_> = view::tabs(t).into_iter().filter(|o| o.seat == tab.seat && o.slot != tab.slot).collect();
    let other = *some(r, &others)?;
    put(&mut t[tab_at(tab.seat, tab.slot)..][..2], other.serial);
    Some(())
}

pub fn flip_map(r: &mut Random, t: &mut [u8], live: bool) -> Option<()> {
    let seat = *some(r, &view::let_seats(t))?;
    let slots: Vec<_> = (1..=SLOTS).filter(|k| view::tab(t, seat, *k).is_some() == live).collect();
    let slot = *some(r, &slots)?;
    t[seat_at(seat) + 7 - (slot - 1) / 8] ^= 1 << ((slot - 1) % 8);
    Some(())
}

pub fn map_past_ten(r: &mut Random, t: &mut [u8]) -> Option<()> {
    let seat = *some(r, &view::let_seats(t))?;
    t[seat_at(seat) + 6] ^= 4 << r.below(6);
    Some(())
}

pub fn tab_bytes(r: &mut Random, t: &mut [u8], change: fn(&mut Random, &mut [u8])) -> Option<()> {
    let tab = some_tab(r, t)?;
    change(r, &mut t[tab_at(tab.seat, tab.slot)..][..4]);
    Some(())
}

pub fn on_free_row(r: &mut Random, t: &mut [u8]) -> Option<()> {
    let tab = some_tab(r, t)?;
    let free: Vec<_> = (1..=ROWS).filter(|row| view::process(t, *row).is_none()).collect();
    t[tab_at(tab.seat, tab.slot) + 2] = *some(r, &free)? as u8;
    Some(())
}

/// A tab of a process that has more than one.
fn one_of_several(r: &mut Random, t: &[u8]) -> Option<Tab> {
    let shared = |tab: &Tab| view::process(t, tab.row).is_some_and(|p| p.tabs > 1);
    let tabs: Vec<_> = view::tabs(t).into_iter().filter(shared).collect();
    some(r, &tabs).copied()
}

/// A tab is moved to the process of another owner, and both count it.
pub fn on_another(r: &mut Random, t: &mut [u8]) -> Option<()> {
    let tab = one_of_several(r, t)?;
    let own = view::process(t, tab.row)?;
    let others: Vec<_> = view::processes(t).into_iter().filter(|p| p.owner != own.owner).collect();
    let other = some(r, &others)?.row;
    t[tab_at(tab.seat, tab.slot) + 2] = other as u8;
    t[row_at(own.row) + 5] -= 1;
    t[row_at(other) + 5] += 1;
    Some(())
}

/// A tab is taken off its process, which counts one less.
pub fn on_none(r: &mut Random, t: &mut [u8]) -> Option<()> {
    let tab = one_of_several(r, t)?;
    t[tab_at(tab.seat, tab.slot) + 2] = *r.pick(&[0, 81, 255]);
    t[row_at(tab.row) + 5] -= 1;
    Some(())
}

pub fn in_free_tab_row(r: &mut Random, t: &mut [u8]) -> Option<()> {
    let seat = *some(r, &view::let_seats(t))?;
    let free: Vec<_> = (1..=SLOTS).filter(|k| view::tab(t, seat, *k).is_none()).collect();
    t[tab_at(seat, *some(r, &free)?) + r.between(2, 3)] = r.between(1, 3) as u8;
    Some(())
}
