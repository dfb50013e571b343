//! "Rules of a step": results and documents, passed on to the tab that waits for them or refused 10.

use crate::action::Action;
use crate::answer::Refusal;
use crate::table::{Table, COOKIE, DOCUMENT};

/// "Result: passed on if the tab is live, hangs on the sender and waits for a cookie; the mark is cleared."
pub fn result(table: &mut Table, sender_row: u8, tab: u32, cookie: &[u8]) -> Result<Vec<Action>, Refusal> {
    let place = table.find_tab(tab).ok_or(Refusal::NotAwaited)?;
    let row = table.tab_mut(place);
    if row.process_row != sender_row || !row.waits_for(COOKIE) {
        return Err(Refusal::NotAwaited);
    }
    row.waiting &= !COOKIE;
    Ok(vec![Action::Cookie { tab, cookie: cookie.to_vec() }])
}

/// "Document likewise with its mark."
pub fn document(table: &mut Table, tab: u32, body: &[u8]) -> Result<Vec<Action>, Refusal> {
    let place = table.find_tab(tab).ok_or(Refusal::NotAwaited)?;
    let row = table.tab_mut(place);
    if !row.waits_for(DOCUMENT) {
        return Err(Refusal::NotAwaited);
    }
    row.waiting &= !DOCUMENT;
    Ok(vec![Action::Document { tab, body: body.to_vec() }])
}
