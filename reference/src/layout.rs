//! "Table, exactly 6,152 bytes": the struct from bytes and the bytes from a struct, without judging either.

use crate::table::{ProcessRow, Seat, TabRow, Table};
use std::array::from_fn;

pub const TABLE_LENGTH: usize = 8 * SEAT_LENGTH + 80 * PROCESS_ROW_LENGTH + 8;
const SEAT_LENGTH: usize = 48;
const PROCESS_ROW_LENGTH: usize = 72;

impl Table {
    /// None if the bytes are not 6,152.
    pub fn decode(bytes: &[u8]) -> Option<Table> {
        let bytes: &[u8; TABLE_LENGTH] = bytes.try_into().ok()?;
        let [rows @ .., s1, s2, p1, p2, n1, n2, n3, n4] = bytes;
        let (seats, processes) = rows.split_at(8 * SEAT_LENGTH);
        let (seats, processes) = (seats.as_chunks().0, processes.as_chunks().0);
        Some(Table {
            seats: from_fn(|index| Seat::decode(&seats[index])),
            processes: from_fn(|index| ProcessRow::decode(&processes[index])),
            offset_of_seats: u16::from_be_bytes([*s1, *s2]),
            offset_of_processes: u16::from_be_bytes([*p1, *p2]),
            last_number: u32::from_be_bytes([*n1, *n2, *n3, *n4]),
        })
    }

    /// The 6,152 bytes of this table.
    pub fn encode(&self) -> Vec<u8> {
        let mut bytes = Vec::with_capacity(TABLE_LENGTH);
        self.seats.iter().for_each(|seat| seat.encode(&mut bytes));
        self.processes.iter().for_each(|process| process.encode(&mut bytes));
        bytes.extend(self.offset_of_seats.to_be_bytes());
        bytes.extend(self.offset_of_processes.to_be_bytes());
        bytes.extend(self.last_number.to_be_bytes());
        bytes
    }
}

impl Seat {
    fn decode(&[tenant, options, selected, zero, o1, o2, m1, m2, ref tabs @ ..]: &[u8; SEAT_LENGTH]) -> Seat {
        let (tabs, _) = tabs.as_chunks();
        Seat {
            tenant,
            options,
            selected,
            zero,
            opens: u16::from_be_bytes([o1, o2]),
            map: u16::from_be_bytes([m1, m2]),
            tabs: from_fn(|index| TabRow::decode(tabs[index])),
        }
    }

    fn encode(&self, bytes: &mut Vec<u8>) {
        bytes.extend([self.tenant, self.options, self.selected, self.zero]);
        bytes.extend(self.opens.to_be_bytes());
        bytes.extend(self.map.to_be_bytes());
        self.tabs.iter().for_each(|tab| tab.encode(bytes));
    }
}

impl TabRow {
    fn decode([s1, s2, process_row, waiting]: [u8; 4]) -> TabRow {
        TabRow { serial: u16::from_be_bytes([s1, s2]), process_row, waiting }
    }

    fn encode(&self, bytes: &mut Vec<u8>) {
        bytes.extend(self.serial.to_be_bytes());
        bytes.extend([self.process_row, self.waiting]);
    }
}

impl ProcessRow {
    fn decode(bytes: &[u8; PROCESS_ROW_LENGTH]) -> ProcessRow {
        let &[n1, n2, n3, n4, owner, tabs, name_length, zero, ref name @ ..] = bytes;
        ProcessRow { number: u32::from_be_bytes([n1, n2, n3, n4]), owner, tabs, name_length, zero, name: *name }
    }

    fn encode(&self, bytes: &mut Vec<u8>) {
        bytes.extend(self.number.to_be_bytes());
        bytes.extend([self.owner, self.tabs, self.name_length, self.zero]);
        bytes.extend(self.name);
    }
}
