//! "Rules of a step": what a let seat sends, keys and mouse here, open in its own file.

use crate::action::Action;
use crate::answer::Refusal;
use crate::frame::SeatMessage;
use crate::open::open;
use crate::table::{Place, ProcessRow, TabRow, Table};

pub fn serve(table: &mut Table, book: &[u8], seat: u8, message: SeatMessage) -> Result<Vec<Action>, Refusal> {
    match message {
        SeatMessage::Key(code) => key(table, seat, code),
        SeatMessage::Mouse(position) => Ok(to_selected_tab(table, seat, |tab| Action::Mouse { tab, position })),
        SeatMessage::Open(suffix) => open(table, book, seat, suffix),
    }
}

/// "A key code not named above" is refused 5, and 24 "is a bad key".
fn key(table: &mut Table, seat: u8, code: u8) -> Result<Vec<Action>, Refusal> {
    match code {
        14..=23 => Ok(select(table, Place { seat, slot: code - 13 })),
        25 => Ok(table.selected_tab(seat).map_or_else(Vec::new, |place| close(table, place))),
        8 | 9 | 10 | 13 | 32..=126 => Ok(to_selected_tab(table, seat, |tab| Action::Key { tab, code })),
        _ => Err(Refusal::Key),
    }
}

/// "Keys [...] go to the selected tab, mouse too; none selected, no action."
fn to_selected_tab(table: &Table, seat: u8, action: impl FnOnce(u32) -> Action) -> Vec<Action> {
    table.selected_tab(seat).map(|place| action(table.tab_id(place))).into_iter().collect()
}

/// "Key 14 to 23 (F1 to F10): a live slot is selected, with render and bar, even if already selected; otherwise no
/// action."
fn select(table: &mut Table, place: Place) -> Vec<Action> {
    if !table.tab(place).is_live() {
        return Vec::new();
    }
    table.seat_mut(place.seat).selected = place.slot;
    let suffix = table.process_of(place).name().to_vec();
    vec![Action::Render { tab: table.tab_id(place) }, Action::Bar { seat: place.seat, suffix }]
}

/// "Key 25 (F12): stop tab, stop process if it was the last tab, empty bar, selection 0; the tab row and its map bit
/// are cleared, the tab count falls by 1, and a process row left without tabs is cleared."
fn close(table: &mut Table, place: Place) -> Vec<Action> {
    let row = table.tab(place).process_row;
    let mut actions = vec![Action::StopTab { tab: table.tab_id(place) }];
    *table.tab_mut(place) = TabRow::FREE;
    let seat = table.seat_mut(place.seat);
    seat.unmark(place.slot);
    seat.selected = 0;
    let process = table.process_mut(row);
    process.tabs -= 1;
    if process.tabs == 0 {
        actions.push(Action::StopProcess { number: process.number });
        *process = ProcessRow::FREE;
    }
    actions.push(Action::Bar { seat: place.seat, suffix: Vec::new() });
    actions
}
