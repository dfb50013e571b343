//! The kinds of cases. A case draws all it does from its random numbers, and ends at the first difference. Those of bytes that mean
//! nothing are in noise.rs.
use crate::books;
use crate::compare::{Checked, Compare};
use crate::damage::KINDS;
use crate::events;
use crate::noise::{arbitrary, noisy_events};
use crate::play::{go_on, history, start, step};
use crate::random::Random;
use crate::view::TABLE;
use crate::widen::widen;
use std::sync::Arc;

/// Thousands of events on one table.
fn long_history(c: &mut Compare, r: &mut Random) -> Checked<()> {
    let book = books::lively(r);
    let events = r.between(1000, 4000);
    history(c, r, &book, events).map(drop)
}

/// A history on a table that is sound but that no start leads to.
fn wide_history(c: &mut Compare, r: &mut Random) -> Checked<()> {
    let book = books::lively(r);
    let mut table = history(c, r, &book, 120)?;
    for _ in 0..8 {
        widen(r, &mut table);
        table = go_on(c, r, table, &book, 30)?;
    }
    Ok(())
}

/// Each kind of damage on a table that a history reached, and an event on it; where it is served, a few more.
fn damaged_tables(c: &mut Compare, r: &mut Random) -> Checked<()> {
    let book = books::lively(r);
    let events = r.between(10, 150);
    let mut table = history(c, r, &book, events)?;
    if r.percent(40) {
        widen(r, &mut table);
    }
    for (kind, damage) in KINDS {
        let mut wrong = table.clone();
        if damage(r, &mut wrong).is_none() {
            continue;
        }
        let event = events::next(r, &table, &book.listed, 30);
        let said = step(c, r, &wrong, &book.bytes().into(), event)?;
        let seen = c.seen.damage.entry(kind).or_default();
        seen.0 += 1;
        seen.1 += u64::from(said.number() == 2);
        if said.number() == 0 {
            go_on(c, r, said.table, &book, 3)?;
        }
    }
    Ok(())
}

/// Books that are damaged, for a start and for an open on a table with tabs.
fn damaged_books(c: &mut Compare, r: &mut Random) -> Checked<()> {
    let book = books::lively(r);
    let table = history(c, r, &book, 20)?;
    for _ in 0..40 {
        let wrong: Arc<[u8]> = books::damaged(r).into();
        let memory = r.bytes(TABLE);
        start(c, memory, &wrong)?;
        let event = events::next(r, &table, &book.listed, 90);
        step(c, r, &table, &wrong, event)?;
    }
    Ok(())
}

/// Books of every size, for a start and for opens; some of about the most that a book may have.
fn books_of_all_sizes(c: &mut Compare, r: &mut Random) -> Checked<()> {
    let book = if r.percent(20) {
        let length = r.between(books::MOST - 2, books::MOST + 2);
        books::of_length(r, length)
    } else {
        books::sound(r)
    };
    if history(c, r, &book, 30)?.len() == TABLE {
        let fresh = start(c, vec![0; TABLE], &books::lively(r).bytes().into())?.table;
        go_on(c, r, fresh, &book, 5)?;
    }
    Ok(())
}

/// All 80 slots taken, each seat at its own suffixes, so that process rows run full, and then on.
fn full_house(c: &mut Compare, r: &mut Random) -> Checked<()> {
    let mut book = books::lively(r);
    book.orders = (1..=8).map(|seat| [seat, seat, u8::from(r.percent(50))]).collect();
    let bytes: Arc<[u8]> = book.bytes().into();
    let mut table = start(c, vec![0; TABLE], &bytes)?.table;
    for slot in 0..11u8 {
        for seat in 1..=8 {
            let name = [&[b'a' + slot, b'.'], &r.pick(&book.listed)[..]].concat();
            table = step(c, r, &table, &bytes, events::frame(1, seat, 3, &name))?.table;
        }
    }
    go_on(c, r, table, &book, 200).map(drop)
}

type Case = fn(&mut Compare, &mut Random) -> Checked<()>;

/// By number: the short ones come more often, so that each has its share of the calls.
pub const CASES: [Case; 20] = [
    long_history,
    wide_history,
    wide_history,
    damaged_tables,
    damaged_tables,
    damaged_tables,
    damaged_tables,
    damaged_tables,
    damaged_tables,
    damaged_books,
    damaged_books,
    books_of_all_sizes,
    books_of_all_sizes,
    arbitrary,
    arbitrary,
    arbitrary,
    arbitrary,
    noisy_events,
    noisy_events,
    full_house,
];
