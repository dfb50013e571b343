//! Builders shared by the tests: books, event frames, and a desk that keeps its table from step to step.

// Each test file uses its own part of this module.
#![allow(dead_code)]

use reference::{start, step, Answer};

pub const TABLE_LENGTH: usize = 6_152;
pub const ROOM_LENGTH: usize = 4_106;

pub const SEAT: u8 = 1;
pub const TAB: u8 = 2;
pub const PROCESS: u8 = 3;
pub const NETWORK: u8 = 4;
pub const HOST: u8 = 5;

/// Party, id, tag, payload.
pub type Action = (u8, u32, u8, Vec<u8>);

pub fn action(party: u8, id: u32, tag: u8, payload: &[u8]) -> Action {
    (party, id, tag, payload.to_vec())
}

/// A book of orders (seat, tenant, options) and listed names, with the trailer that belongs to them.
pub fn book(orders: &[[u8; 3]], names: &[&str]) -> Vec<u8> {
    let mut bytes = orders.concat();
    let offset_of_names = bytes.len() as u16;
    for name in names {
        bytes.push(name.len() as u8);
        bytes.extend(name.bytes());
    }
    bytes.extend([0, 0, orders.len() as u8, 0]);
    bytes.extend(offset_of_names.to_be_bytes());
    bytes.extend((names.len() as u16).to_be_bytes());
    bytes
}

pub fn frame(party: u8, id: u32, tag: u8, payload: &[u8]) -> Vec<u8> {
    let mut bytes = vec![party];
    bytes.extend(id.to_be_bytes());
    bytes.push(tag);
    bytes.extend((payload.len() as u32).to_be_bytes());
    bytes.extend(payload);
    bytes
}

pub fn key(seat: u32, code: u8) -> Vec<u8> {
    frame(SEAT, seat, 1, &[code])
}

pub fn open(seat: u32, suffix: &str) -> Vec<u8> {
    frame(SEAT, seat, 3, suffix.as_bytes())
}

pub fn retrieve(tab: u32, domain: &str) -> Vec<u8> {
    frame(TAB, tab, 5, domain.as_bytes())
}

pub fn url(tab: u32, url: &str) -> Vec<u8> {
    frame(TAB, tab, 3, url.as_bytes())
}

pub fn store(tab: u32, domain: &str, cookie: &[u8]) -> Vec<u8> {
    frame(TAB, tab, 4, &[&[domain.len() as u8], domain.as_bytes(), cookie].concat())
}

pub fn result(process: u32, tab: u32, cookie: &[u8]) -> Vec<u8> {
    frame(PROCESS, process, 1, &[&tab.to_be_bytes(), cookie].concat())
}

pub fn document(tab: u32, body: &[u8]) -> Vec<u8> {
    frame(NETWORK, 0, 1, &[&tab.to_be_bytes(), body].concat())
}

pub const fn tab_id(seat: u32, serial: u32) -> u32 {
    seat * 65_536 + serial
}

#[derive(Clone)]
pub struct Desk {
    pub book: Vec<u8>,
    pub table: Vec<u8>,
    pub room: Vec<u8>,
}

impl Desk {
    /// A desk with a fresh table. The room is filled with 0xA5, so that bytes left alone can be told.
    pub fn new(orders: &[[u8; 3]], names: &[&str]) -> Desk {
        let mut desk =
            Desk { book: book(orders, names), table: vec![0xFF; TABLE_LENGTH], room: vec![0xA5; ROOM_LENGTH] };
        assert_eq!(start(&mut desk.table, &desk.book), Answer { number: 0, actions: 0, bytes: 0 });
        desk
    }

    /// Gives an event that must be done; its actions, whose count must be true and the rest of the room untouched.
    pub fn done(&mut self, event: &[u8]) -> Vec<Action> {
        self.room.fill(0xA5);
        let answer = step(&mut self.table, &self.book, event, &mut self.room);
        assert_eq!(answer.number, 0, "event {event:02x?}");
        let actions = read_actions(&self.room[..answer.bytes]);
        assert_eq!(actions.len(), answer.actions);
        assert!(self.room[answer.bytes..].iter().all(|&byte| byte == 0xA5));
        actions
    }

    /// Gives an event that must be refused; its number, with nothing changed and both counts 0.
    pub fn refused(&mut self, event: &[u8]) -> u8 {
        let before = self.clone();
        let answer = step(&mut self.table, &self.book, event, &mut self.room);
        assert_ne!(answer.number, 0, "event {event:02x?}");
        assert_eq!((answer.actions, answer.bytes), (0, 0));
        assert!(self.table == before.table && self.room == before.room);
        answer.number
    }

    /// Gives an event that must be done without action and without change.
    pub fn ignored(&mut self, event: &[u8]) {
        let before = self.table.clone();
        assert_eq!(self.done(event), []);
        assert!(self.table == before);
    }
}

/// The actions in a part of the room that holds whole frames only.
fn read_actions(mut frames: &[u8]) -> Vec<Action> {
    let mut actions = Vec::new();
    while let Some((head, rest)) = frames.split_first_chunk::<10>() {
        let id = u32::from_be_bytes(head[1..5].try_into().unwrap());
        let size = u32::from_be_bytes(head[6..10].try_into().unwrap());
        let (payload, rest) = rest.split_at(size as usize);
        actions.push(action(head[0], id, head[5], payload));
        frames = rest;
    }
    assert!(frames.is_empty());
    actions
}
