//! The desk log program: reads book.bin in the working directory, then events on standard input to their end, and
//! prints the log. A book that cannot be read counts as missing; a failed read ends the stream as its end would.

use std::io::{self, Read, Write};

fn main() -> io::Result<()> {
    let book = std::fs::read("book.bin").ok();
    let mut stream = Vec::new();
    if let Err(error) = io::stdin().read_to_end(&mut stream) {
        eprintln!("standard input ended early: {error}");
    }
    let log = reference::desk_log(book.as_deref(), &stream);
    io::stdout().write_all(log.as_bytes())
}
