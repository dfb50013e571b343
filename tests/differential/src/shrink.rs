//! A call on which the sides differ, made small: whatever can be left out while they differ still is left out.
use crate::call::{by_reference, Call, Step};
use crate::compare::{Compare, Difference};
use crate::events::frame;
use crate::view::{self, TABLE};

fn without(from: &[u8], at: usize, n: usize) -> Vec<u8> {
    [&from[..at], &from[at + n..]].concat()
}

/// Takes the changed call if the sides differ on it.
fn take(c: &mut Compare, d: &mut Difference, call: Call) -> bool {
    let found = c.differs(&call, d.side);
    let differs = found.is_some();
    if let Some((wanted, got)) = found {
        (d.call, d.wanted, d.got) = (call, wanted, got);
    }
    differs
}

/// Chunks of one buffer go, the large ones first. `put` gives the call with other bytes in that buffer's place.
fn cut(c: &mut Compare, d: &mut Difference, get: fn(&Call) -> Vec<u8>, put: fn(&Call, Vec<u8>) -> Call) {
    let mut chunk = get(&d.call).len();
    while chunk > 0 {
        let mut at = 0;
        while at + chunk <= get(&d.call).len() {
            let call = put(&d.call, without(&get(&d.call), at, chunk));
            if !take(c, d, call) {
                at += chunk;
            }
        }
        chunk /= 2;
    }
}

/// Chunks of the table become zero.
fn clear(c: &mut Compare, d: &mut Difference) {
    let mut chunk = d.call.table.len();
    while chunk > 0 {
        for at in (0..d.call.table.len()).step_by(chunk) {
            let mut call = d.call.clone();
            let end = call.table.len().min(at + chunk);
            if call.table[at..end].iter().any(|b| *b != 0) {
                call.table[at..end].fill(0);
                take(c, d, call);
            }
        }
        chunk /= 2;
    }
}

/// Tabs are closed by the reference's own rules, so that a sound table stays sound.
fn close(c: &mut Compare, d: &mut Difference) {
    if d.call.table.len() != TABLE {
        return;
    }
    for tab in view::tabs(&d.call.table) {
        let mut call = d.call.clone();
        for key in [13 + tab.slot as u8, 25] {
            let step = Step { event: frame(1, tab.seat, 1, &[key]), room: vec![0; 4106] };
            let typed = Call { table: call.table, book: call.book.clone(), step: Some(step) };
            call.table = by_reference(&typed).table;
        }
        take(c, d, call);
    }
}

fn event(call: &Call) -> Vec<u8> {
    call.step.as_ref().map_or(Vec::new(), |s| s.event.clone())
}

fn with_event(call: &Call, event: Vec<u8>) -> Call {
    let step = call.step.as_ref().map(|s| Step { event, room: s.room.clone() });
    Call { step, ..call.clone() }
}

/// The payload alone; the head follows it.
fn payload(call: &Call) -> Vec<u8> {
    event(call).get(10..).map_or(Vec::new(), <[u8]>::to_vec)
}

fn with_payload(call: &Call, payload: Vec<u8>) -> Call {
    let e = event(call);
    if e.len() < 10 {
        return call.clone();
    }
    with_event(call, frame(e[0], view::number(&e[1..5]), e[5], &payload))
}

/// The listed names of a book alone, each with its length byte; the trailer follows them.
fn with_names(call: &Call, names: Vec<u8>) -> Call {
    let b = &call.book;
    let Some(end) = b.len().checked_sub(8) else { return call.clone() };
    let from = view::number(&b[end + 4..end + 6]).min(end);
    let mut count = 0;
    let mut at = 0;
    while at < names.len() {
        at += 1 + usize::from(names[at]);
        count += 1;
    }
    let mut book = [&b[..from], &names, &b[end..]].concat();
    let last = book.len() - 2;
    view::put(&mut book[last..], count);
    Call { book: book.into(), ..call.clone() }
}

/// Listed names go, one by one.
fn unlist(c: &mut Compare, d: &mut Difference) {
    let b = d.call.book.clone();
    let Some(end) = b.len().checked_sub(8) else { return };
    let mut names = b[view::number(&b[end + 4..end + 6]).min(end)..end].to_vec();
    let mut at = 0;
    while at < names.len() {
        let n = (1 + usize::from(names[at])).min(names.len() - at);
        let fewer = without(&names, at, n);
        let call = with_names(&d.call, fewer.clone());
        if take(c, d, call) {
            names = fewer;
        } else {
            at += n;
        }
    }
}

pub fn shrink(c: &mut Compare, d: &mut Difference) {
    close(c, d);
    unlist(c, d);
    cut(c, d, payload, with_payload);
    cut(c, d, event, with_event);
    cut(c, d, |call| call.book.to_vec(), |call, book| Call { book: book.into(), ..call.clone() });
    clear(c, d);
}
