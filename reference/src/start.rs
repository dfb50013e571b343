//! The call start: "book into table".

use crate::answer::{Answer, Refusal};
use crate::book::Book;
use crate::layout::TABLE_LENGTH;
use crate::table::{Seat, Table};

/// "Start writes a fresh table. [...] It refuses 2 (wrong length only), then 6; its counts are always 0."
pub fn start(table: &mut [u8], book: &[u8]) -> Answer {
    if table.len() != TABLE_LENGTH {
        return Answer::refused(Refusal::Table);
    }
    match Book::read(book) {
        Some(book) => {
            table.copy_from_slice(&fresh_table(&book).encode());
            Answer::done(0, 0)
        }
        None => Answer::refused(Refusal::Book),
    }
}

/// "Let seats as ordered, the rest zero but for the trailer."
fn fresh_table(book: &Book) -> Table {
    let mut table = Table::empty();
    for order in &book.orders {
        *table.seat_mut(order.seat) = Seat { tenant: order.tenant, options: order.options, ..Seat::default() };
    }
    table
}
