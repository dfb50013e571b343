//! "Rules of a step": open.

use crate::action::Action;
use crate::answer::Refusal;
use crate::names::folded;
use crate::suffix::must_be_its_own_suffix;
use crate::table::{Place, ProcessRow, TabRow, Table};

/// "Open: lowest free slot; opens + 1 becomes the serial", or the refusals of open in their order: 6 unsound book,
/// 7 suffix not acceptable, 8 ten tabs live, 9 opens is 65,535.
pub fn open(table: &mut Table, book: &[u8], seat: u8, suffix: &[u8]) -> Result<Vec<Action>, Refusal> {
    must_be_its_own_suffix(suffix, book)?;
    let slot = table.lowest_free_slot(seat).ok_or(Refusal::TenTabs)?;
    let serial = table.seat(seat).opens.checked_add(1).ok_or(Refusal::Opens)?;
    Ok(open_tab(table, Place { seat, slot }, serial, folded(suffix)))
}

/// "If no live process has this owner and suffix", one is started. "Actions: start process (only then), start tab, go,
/// bar."
fn open_tab(table: &mut Table, place: Place, serial: u16, suffix: Vec<u8>) -> Vec<Action> {
    let owner = table.owner_of(place.seat);
    let mut actions = Vec::new();
    let row = table.find_process_of(owner, &suffix).unwrap_or_else(|| {
        let row = start_process(table, owner, &suffix);
        actions.push(Action::StartProcess { number: table.process(row).number, owner, suffix: suffix.clone() });
        row
    });
    start_tab(table, place, serial, row);
    let tab = table.tab_id(place);
    actions.push(Action::StartTab { tab });
    actions.push(Action::Go { tab, suffix: suffix.clone() });
    actions.push(Action::Bar { seat: place.seat, suffix });
    actions
}

/// "The lowest free process row gets last number + 1 (the new last number), the owner and the folded suffix." Its tabs
/// are counted when the tab starts. A row is free: with a slot free there are at most 79 live tabs, and every live row
/// has one of them.
fn start_process(table: &mut Table, owner: u8, suffix: &[u8]) -> u8 {
    let row = table.lowest_free_row().expect("a sound table with a free slot has a free process row");
    table.last_number += 1;
    let mut process = ProcessRow { number: table.last_number, owner, ..ProcessRow::FREE };
    process.name_length = suffix.len() as u8;
    process.name[..suffix.len()].copy_from_slice(suffix);
    *table.process_mut(row) = process;
    row
}

/// "The tab is selected. [...] The tab row names that process row, with nothing waiting; opens, map and tab count
/// follow."
fn start_tab(table: &mut Table, place: Place, serial: u16, row: u8) {
    *table.tab_mut(place) = TabRow { serial, process_row: row, waiting: 0 };
    let seat = table.seat_mut(place.seat);
    seat.opens = serial;
    seat.selected = place.slot;
    seat.mark(place.slot);
    table.process_mut(row).tabs += 1;
}
