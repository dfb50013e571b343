//! Cases of bytes that mean nothing, or something else than was meant.
use crate::books;
use crate::call::{Call, Step};
use crate::compare::{Checked, Compare};
use crate::events;
use crate::play::{history, start, step};
use crate::random::Random;
use crate::view::TABLE;
use std::sync::Arc;

/// A length: mostly the right one or one beside it, otherwise any.
fn length(r: &mut Random, right: usize) -> usize {
    match r.below(8) {
        0 => r.below(70_000),
        1 => r.below(300),
        2 => right + 1,
        3 => right.saturating_sub(1),
        _ => right,
    }
}

/// Bytes, of which more or fewer are 0.
fn noise(r: &mut Random, n: usize) -> Vec<u8> {
    let chance = *r.pick(&[1, 50, 100]);
    (0..n).map(|_| if r.percent(chance) { r.byte() } else { 0 }).collect()
}

/// Arbitrary bytes of arbitrary length for every buffer.
pub fn arbitrary(c: &mut Compare, r: &mut Random) -> Checked<()> {
    for _ in 0..6 {
        let (table, book, event, room) = (length(r, TABLE), length(r, 8), length(r, 11), length(r, 4106));
        let table = noise(r, table);
        let book: Arc<[u8]> = noise(r, book).into();
        let step = Step { event: noise(r, event), room: noise(r, room) };
        start(c, table.clone(), &book)?;
        c.check(Call { table, book, step: Some(step) })?;
    }
    Ok(())
}

/// Arbitrary and damaged events on a table with tabs.
pub fn noisy_events(c: &mut Compare, r: &mut Random) -> Checked<()> {
    let book = books::lively(r);
    let mut table = history(c, r, &book, 60)?;
    let bytes: Arc<[u8]> = book.bytes().into();
    for _ in 0..100 {
        let mut event = events::next(r, &table, &book.listed, 20);
        if r.percent(20) {
            let n = r.below(5000);
            event = noise(r, n);
        } else if event.len() >= 10 {
            events::damage(r, &mut event);
        }
        table = step(c, r, &table, &bytes, event)?.table;
    }
    Ok(())
}
