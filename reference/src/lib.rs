//! A second reading of document 01, to compare the kernel with. It is written to be held beside the document: each
//! function answers to one of its sentences. A step reads the whole table into a struct, changes the struct, and writes
//! it back; a refused call writes nothing. Every call takes any bytes of any length.

mod action;
mod answer;
mod book;
mod desklog;
mod find;
mod frame;
mod layout;
pub mod names;
mod open;
mod passing;
mod seat_rules;
mod sound;
mod start;
mod step;
mod suffix;
mod tab_rules;
mod table;

pub use answer::Answer;
pub use desklog::desk_log;
pub use start::start;
pub use step::step;

/// The suffix question: that part of the host's own bytes, or the refusal 6 or 7.
pub fn suffix<'h>(host: &'h [u8], book: &[u8]) -> Result<&'h [u8], u8> {
    suffix::suffix(host, book).map_err(|refusal| refusal as u8)
}
