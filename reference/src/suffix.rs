//! The suffix question: "the suffix of a host under a book".

use crate::answer::Refusal;
use crate::book::Book;
use crate::names::{is_name, is_under};

/// "An unsound book is refused 6 first."
pub fn suffix<'h>(host: &'h [u8], book: &[u8]) -> Result<&'h [u8], Refusal> {
    let book = Book::read(book).ok_or(Refusal::Book)?;
    part_of(host, &book.names).ok_or(Refusal::Suffix)
}

/// "Refused 7 if the host is malformed, nothing listed fits, no label is left, or the result exceeds 64 bytes."
fn part_of<'h>(host: &'h [u8], listed: &[&[u8]]) -> Option<&'h [u8]> {
    if !is_name(host) {
        return None;
    }
    let longest = listed.iter().filter(|name| is_under(host, name)).max_by_key(|name| name.len())?;
    let part = with_one_label_more(host, longest.len())?;
    (part.len() <= 64).then_some(part)
}

/// "Add one label": the end of the host from the label before the listed name on, "case kept".
fn with_one_label_more(host: &[u8], listed_length: usize) -> Option<&[u8]> {
    let dot = host.len().checked_sub(listed_length + 1)?;
    let label_begins = host[..dot].iter().rposition(|&byte| byte == b'.').map_or(0, |earlier_dot| earlier_dot + 1);
    Some(&host[label_begins..])
}

/// "The suffix must be such that its own suffix under the book is all of it."
pub fn must_be_its_own_suffix(bytes: &[u8], book: &[u8]) -> Result<(), Refusal> {
    match suffix(bytes, book)? {
        part if part.len() == bytes.len() => Ok(()),
        _ => Err(Refusal::Suffix),
    }
}
