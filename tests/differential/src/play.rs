//! What cases are made of: a start, a step, a history, each played on both sides.
use crate::books::Book;
use crate::call::{Call, Outcome, Step};
use crate::compare::{Checked, Compare};
use crate::events;
use crate::random::Random;
use crate::view::TABLE;
use std::sync::Arc;

/// A room, mostly of just the least length, and a pattern in it.
fn room(r: &mut Random) -> Vec<u8> {
    let length = match r.below(60) {
        0 => r.between(4100, 4105),
        1 => r.between(4107, 4112),
        2 => r.below(9000),
        3 => 0,
        _ => 4106,
    };
    let (first, by) = (r.byte(), r.byte() | 1);
    (0..length).map(|i| first.wrapping_add(by.wrapping_mul(i as u8))).collect()
}

pub fn start(c: &mut Compare, table: Vec<u8>, book: &Arc<[u8]>) -> Checked<Outcome> {
    c.check(Call { table, book: book.clone(), step: None })
}

pub fn step(c: &mut Compare, r: &mut Random, table: &[u8], book: &Arc<[u8]>, event: Vec<u8>) -> Checked<Outcome> {
    let step = Some(Step { event, room: room(r) });
    c.check(Call { table: table.to_vec(), book: book.clone(), step })
}

/// So many events from a table on; the table that they leave.
pub fn go_on(c: &mut Compare, r: &mut Random, mut table: Vec<u8>, book: &Book, events: usize) -> Checked<Vec<u8>> {
    let bytes: Arc<[u8]> = book.bytes().into();
    let opens = *r.pick(&[10, 30, 60]);
    for _ in 0..events {
        let event = events::next(r, &table, &book.listed, opens);
        table = step(c, r, &table, &bytes, event)?.table;
    }
    Ok(table)
}

/// A start from the book over memory as it comes, and so many events.
pub fn history(c: &mut Compare, r: &mut Random, book: &Book, events: usize) -> Checked<Vec<u8>> {
    let memory = r.bytes(TABLE);
    let table = start(c, memory, &book.bytes().into())?.table;
    go_on(c, r, table, book, events)
}
