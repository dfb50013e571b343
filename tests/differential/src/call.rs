//! One call of start or step with all that is lent to it, played by the library and by the reference.
use crate::lend::{Lent, Side};
use std::sync::Arc;

extern "C" {
    fn stewlattice_start(table: *mut u8, table_len: usize, book: *const u8, book_len: usize) -> u64;
    fn stewlattice_step(
        table: *mut u8,
        table_len: usize,
        book: *const u8,
        book_len: usize,
        event: *const u8,
        event_len: usize,
        out: *mut u8,
        out_len: usize,
    ) -> u64;
}

#[derive(Clone, Debug)]
pub struct Step {
    pub event: Vec<u8>,
    pub room: Vec<u8>,
}

/// A start has no step.
#[derive(Clone, Debug)]
pub struct Call {
    pub table: Vec<u8>,
    pub book: Arc<[u8]>,
    pub step: Option<Step>,
}

#[derive(Clone, Debug, PartialEq, Eq)]
pub struct Outcome {
    /// Packed as the header says.
    pub answer: u64,
    pub table: Vec<u8>,
    pub room: Vec<u8>,
    /// No byte beside the lent ones was written.
    pub in_bounds: bool,
}

impl Outcome {
    pub fn number(&self) -> usize {
        (self.answer & 0xff) as usize
    }

    pub fn actions(&self) -> u64 {
        self.answer >> 8 & 0xff
    }
}

pub fn by_reference(call: &Call) -> Outcome {
    let mut table = call.table.clone();
    let mut room = Vec::new();
    let said = match &call.step {
        None => reference::start(&mut table, &call.book),
        Some(step) => {
            room.clone_from(&step.room);
            reference::step(&mut table, &call.book, &step.event, &mut room)
        }
    };
    let answer = u64::from(said.number) | (said.actions as u64) << 8 | (said.bytes as u64) << 16;
    Outcome { answer, table, room, in_bounds: true }
}

/// The library, with memory to lend.
pub struct Library {
    table: Lent,
    book: Lent,
    event: Lent,
    room: Lent,
}

impl Library {
    pub fn fenced() -> Self {
        Library {
            table: Lent::fenced(true),
            book: Lent::fenced(false),
            event: Lent::fenced(false),
            room: Lent::fenced(true),
        }
    }

    pub fn heap() -> Self {
        Library { table: Lent::heap(), book: Lent::heap(), event: Lent::heap(), room: Lent::heap() }
    }

    pub fn play(&mut self, call: &Call, side: Side) -> Outcome {
        let none = Step { event: Vec::new(), room: Vec::new() };
        let step = call.step.as_ref().unwrap_or(&none);
        let at = |lent: &mut Lent, bytes: &[u8]| {
            let place = lent.lay(bytes, side);
            // a host may lend NULL with length 0
            if bytes.is_empty() && side == Side::Low {
                std::ptr::null_mut()
            } else {
                place
            }
        };
        let (table, book) = (at(&mut self.table, &call.table), at(&mut self.book, &call.book));
        let (event, room) = (at(&mut self.event, &step.event), at(&mut self.room, &step.room));
        let answer = unsafe {
            match &call.step {
                None => stewlattice_start(table, call.table.len(), book, call.book.len()),
                Some(s) => stewlattice_step(
                    table,
                    call.table.len(),
                    book,
                    call.book.len(),
                    event,
                    s.event.len(),
                    room,
                    s.room.len(),
                ),
            }
        };
        let lent = [&self.table, &self.book, &self.event, &self.room];
        Outcome {
            answer,
            table: self.table.bytes().to_vec(),
            room: self.room.bytes().to_vec(),
            in_bounds: lent.iter().all(|l| l.margin_kept())
                && self.book.bytes() == &call.book[..]
                && self.event.bytes() == &step.event[..],
        }
    }
}
