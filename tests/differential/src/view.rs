//! What a table's bytes say, read loosely: enough to write events that fit it. A table need not be sound.

pub const TABLE: usize = 6152;
pub const SEATS: usize = 8;
pub const SLOTS: usize = 10;
pub const ROWS: usize = 80;
pub const TRAILER: usize = TABLE - 8;

/// Where the record of a seat, the row of a tab and the row of a process begin; all are counted from 1.
pub fn seat_at(seat: usize) -> usize {
    48 * (seat - 1)
}

pub fn tab_at(seat: usize, slot: usize) -> usize {
    seat_at(seat) + 8 + 4 * (slot - 1)
}

pub fn row_at(row: usize) -> usize {
    384 + 72 * (row - 1)
}

/// A big-endian number.
pub fn number(from: &[u8]) -> usize {
    from.iter().fold(0, |n, b| n << 8 | usize::from(*b))
}

pub fn put(to: &mut [u8], value: usize) {
    let width = to.len();
    to.copy_from_slice(&value.to_be_bytes()[8 - width..]);
}

#[derive(Clone, Copy, Debug)]
pub struct Tab {
    pub seat: usize,
    pub slot: usize,
    pub serial: usize,
    pub row: usize,
    pub waiting: u8,
}

impl Tab {
    pub fn id(&self) -> usize {
        self.seat * 65536 + self.serial
    }
}

#[derive(Clone, Debug)]
pub struct Process {
    pub row: usize,
    pub number: usize,
    pub owner: u8,
    pub tabs: u8,
    pub name: Vec<u8>,
}

pub fn let_seats(table: &[u8]) -> Vec<usize> {
    (1..=SEATS).filter(|s| table[seat_at(*s)] != 0).collect()
}

pub fn opens(table: &[u8], seat: usize) -> usize {
    let at = seat_at(seat);
    number(&table[at + 4..at + 6])
}

pub fn last_number(table: &[u8]) -> usize {
    number(&table[TRAILER + 4..])
}

pub fn tab(table: &[u8], seat: usize, slot: usize) -> Option<Tab> {
    let row = &table[tab_at(seat, slot)..][..4];
    let serial = number(&row[..2]);
    (serial != 0).then(|| Tab { seat, slot, serial, row: row[2].into(), waiting: row[3] })
}

pub fn tabs(table: &[u8]) -> Vec<Tab> {
    let places = (1..=SEATS).flat_map(|seat| (1..=SLOTS).map(move |slot| (seat, slot)));
    places.filter_map(|(seat, slot)| tab(table, seat, slot)).collect()
}

pub fn process(table: &[u8], row: usize) -> Option<Process> {
    if !(1..=ROWS).contains(&row) {
        return None;
    }
    let bytes = &table[row_at(row)..][..72];
    let number = number(&bytes[..4]);
    let length = usize::from(bytes[6]).min(64);
    (number != 0).then(|| Process { row, number, owner: bytes[4], tabs: bytes[5], name: bytes[8..8 + length].to_vec() })
}

pub fn processes(table: &[u8]) -> Vec<Process> {
    (1..=ROWS).filter_map(|row| process(table, row)).collect()
}
