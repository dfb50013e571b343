//! Damage to process rows and the trailer.
use super::{some, some_process};
use crate::random::Random;
use crate::view::{self, put, row_at, ROWS, SEATS, TRAILER};

pub fn in_free_row(r: &mut Random, t: &mut [u8]) -> Option<()> {
    let free: Vec<_> = (1..=ROWS).filter(|row| view::process(t, *row).is_none()).collect();
    t[row_at(*some(r, &free)?) + r.between(4, 71)] = r.between(1, 255) as u8;
    Some(())
}

pub fn process_byte(r: &mut Random, t: &mut [u8], byte: usize, change: fn(&mut Random, u8) -> u8) -> Option<()> {
    let at = row_at(some_process(r, t)?.row) + byte;
    t[at] = change(r, t[at]);
    Some(())
}

/// A whole live row, of a number that is free, with no tab.
pub fn idle_process(r: &mut Random, t: &mut [u8]) -> Option<()> {
    let like = some_process(r, t)?;
    let used: Vec<_> = view::processes(t).iter().map(|p| p.number).collect();
    let number = (1..=view::last_number(t)).find(|n| !used.contains(n))?;
    let row = (1..=ROWS).find(|row| view::process(t, *row).is_none())?;
    put(&mut t[row_at(row)..][..4], number);
    t[row_at(row) + 4..][..4].copy_from_slice(&[like.owner, 0, 4, 0]);
    t[row_at(row) + 8..][..4].copy_from_slice(b"i.dl");
    Some(())
}

pub fn number_over_last(r: &mut Random, t: &mut [u8]) -> Option<()> {
    let row = some_process(r, t)?.row;
    let last = view::last_number(t);
    put(&mut t[row_at(row)..][..4], last + r.between(1, 2));
    Some(())
}

pub fn number_twice(r: &mut Random, t: &mut [u8]) -> Option<()> {
    let (one, other) = (some_process(r, t)?, some_process(r, t)?);
    put(&mut t[row_at(one.row)..][..4], other.number);
    (one.row != other.row).then_some(())
}

pub fn last_over_opens(r: &mut Random, t: &mut [u8]) -> Option<()> {
    let sum: usize = (1..=SEATS).map(|s| view::opens(t, s)).sum();
    put(&mut t[TRAILER + 4..], sum + r.between(1, 2));
    Some(())
}

pub fn last_below(r: &mut Random, t: &mut [u8]) -> Option<()> {
    let most = view::processes(t).iter().map(|p| p.number).max()?;
    put(&mut t[TRAILER + 4..], most - r.between(1, most.min(2)));
    Some(())
}

pub fn trailer_byte(r: &mut Random, t: &mut [u8], from: usize) -> Option<()> {
    t[TRAILER + from + r.below(2)] ^= 1 << r.below(8);
    Some(())
}

pub fn in_name(r: &mut Random, t: &mut [u8], change: fn(&mut Random, &mut [u8])) -> Option<()> {
    let p = some_process(r, t)?;
    change(r, &mut t[row_at(p.row) + 8..][..p.name.len()]);
    Some(())
}

pub fn dots_out(name: &mut [u8]) {
    name.iter_mut().filter(|b| **b == b'.').for_each(|b| *b = b'x');
}

pub fn digits_last(name: &mut [u8]) {
    name.iter_mut().rev().take_while(|b| **b != b'.').for_each(|b| *b = b'7');
}

pub fn behind_name(r: &mut Random, t: &mut [u8]) -> Option<()> {
    let p = some_process(r, t)?;
    let room = 64 - p.name.len();
    (room > 0).then(|| t[row_at(p.row) + 8 + p.name.len() + r.below(room)] = r.between(1, 255) as u8)
}

pub fn name_twice(r: &mut Random, t: &mut [u8]) -> Option<()> {
    let one = some_process(r, t)?;
    let others: Vec<_> = view::processes(t).into_iter().filter(|p| p.owner == one.owner && p.row != one.row).collect();
    let other = some(r, &others)?.row;
    t.copy_within(row_at(one.row) + 6..row_at(one.row) + 72, row_at(other) + 6);
    Some(())
}
