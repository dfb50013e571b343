//! The call step: the order of the refusals, then the rule of the event, then the writing.

use crate::action::Action;
use crate::answer::{Answer, Refusal};
use crate::frame::{Event, NetworkMessage, ProcessMessage};
use crate::table::Table;
use crate::{passing, seat_rules, tab_rules};

/// The most a step ever writes: a set action with a payload of 4,096 bytes.
pub const LEAST_ROOM: usize = 4_106;

/// "0 is done, with the count of actions and of bytes written; output bytes past those stay." A refusal leaves table
/// and room as they were lent.
pub fn step(table: &mut [u8], book: &[u8], event: &[u8], room: &mut [u8]) -> Answer {
    match judge(table, book, event, room.len()) {
        Ok((after, actions)) => {
            let mut frames = Vec::new();
            actions.iter().for_each(|action| action.write(&mut frames));
            table.copy_from_slice(&after.encode());
            room[..frames.len()].copy_from_slice(&frames);
            Answer::done(actions.len(), frames.len())
        }
        Err(refusal) => Answer::refused(refusal),
    }
}

/// The table after the step and its actions, or the first refusal that applies.
fn judge(table: &[u8], book: &[u8], event: &[u8], room: usize) -> Result<(Table, Vec<Action>), Refusal> {
    if room < LEAST_ROOM {
        return Err(Refusal::Room);
    }
    let mut table = Table::decode(table).filter(Table::is_sound).ok_or(Refusal::Table)?;
    let event = Event::read(event).ok_or(Refusal::Frame)?;
    let actions = serve(&mut table, book, event)?;
    Ok((table, actions))
}

/// Refusal 4, "seat not let, tab or process not live, network id not 0", is about the sender; then its rule decides.
fn serve(table: &mut Table, book: &[u8], event: Event) -> Result<Vec<Action>, Refusal> {
    match event {
        Event::Seat(id, message) => {
            let seat = table.find_seat(id).ok_or(Refusal::Sender)?;
            seat_rules::serve(table, book, seat, message)
        }
        Event::Tab(id, message) => {
            let place = table.find_tab(id).ok_or(Refusal::Sender)?;
            Ok(tab_rules::serve(table, place, message))
        }
        Event::Process(number, ProcessMessage::Result { tab, cookie }) => {
            let row = table.find_process(number).ok_or(Refusal::Sender)?;
            passing::result(table, row, tab, cookie)
        }
        Event::Network(0, NetworkMessage::Document { tab, body }) => passing::document(table, tab, body),
        Event::Network(_, _) => Err(Refusal::Sender),
    }
}
