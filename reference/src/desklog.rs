//! "The desk log program": the log of a book and a stream of events, both in memory.

use crate::layout::TABLE_LENGTH;
use crate::start::start;
use crate::step::{step, LEAST_ROOM};

/// The desk log of a book (None: missing) and a whole stream of events in memory, as text.
/// "A missing book is read as empty. [...] A refused start prints `S` and its number only."
pub fn desk_log(book: Option<&[u8]>, stream: &[u8]) -> String {
    let book = book.unwrap_or_default();
    let mut table = vec![0; TABLE_LENGTH];
    let started = start(&mut table, book);
    if started.number != 0 {
        return format!("S {}\n", started.number);
    }
    let mut room = [0; LEAST_ROOM];
    let mut log = String::new();
    for (number, event) in (1_u64..).zip(Reader { rest: stream }) {
        let answer = step(&mut table, book, event, &mut room);
        log += &format!("E {number} {} {}\n", answer.number, answer.actions);
        Reader { rest: &room[..answer.bytes] }.for_each(|action| log_action(&mut log, action));
    }
    log
}

/// "Per action `A`, party, id, tag, size, payload in lower-case hex or `-`."
fn log_action(log: &mut String, action: &[u8]) {
    let Some((&[party, i1, i2, i3, i4, tag, s1, s2, s3, s4], payload)) = action.split_first_chunk() else {
        return;
    };
    let id = u32::from_be_bytes([i1, i2, i3, i4]);
    let size = u32::from_be_bytes([s1, s2, s3, s4]);
    *log += &format!("A {party} {id} {tag} {size} ");
    match payload {
        [] => log.push('-'),
        _ => log.extend(payload.iter().flat_map(|byte| [byte >> 4, byte & 15]).map(hex_digit)),
    }
    log.push('\n');
}

fn hex_digit(value: u8) -> char {
    char::from(b"0123456789abcdef"[usize::from(value)])
}

/// "The reader's position is lent on from frame to frame and moved past each": what is still to be read.
struct Reader<'s> {
    rest: &'s [u8],
}

impl<'s> Iterator for Reader<'s> {
    type Item = &'s [u8];

    /// "A head or payload that is cut short, or a head alone whose size exceeds 4,096, is given as one last event."
    fn next(&mut self) -> Option<&'s [u8]> {
        let (event, rest) = match size_in_head(self.rest) {
            _ if self.rest.is_empty() => return None,
            None => (self.rest, &[][..]),
            Some(size) if size > 4_096 => (&self.rest[..10], &[][..]),
            Some(size) => self.rest.split_at_checked(10 + size).unwrap_or((self.rest, &[])),
        };
        self.rest = rest;
        Some(event)
    }
}

/// The size a whole head gives; None if the head is cut short.
fn size_in_head(frame: &[u8]) -> Option<usize> {
    let (&[_, _, _, _, _, _, s1, s2, s3, s4], _) = frame.split_first_chunk()?;
    usize::try_from(u32::from_be_bytes([s1, s2, s3, s4])).ok()
}
