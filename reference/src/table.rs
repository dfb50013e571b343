//! "Table": its fields as a struct, one for one, and the facts that follow from them. Seats, slots and process rows are
//! counted from 1 as in document 01; those handed to the functions here are in range.

pub const SEATS: u8 = 8;
pub const SLOTS: u8 = 10;
pub const PROCESS_ROWS: u8 = 80;

/// The two marks of waiting: "1 = cookie, 2 = document, 3 = both".
pub const COOKIE: u8 = 1;
pub const DOCUMENT: u8 = 2;

pub struct Table {
    pub seats: [Seat; SEATS as usize],
    pub processes: [ProcessRow; PROCESS_ROWS as usize],
    pub offset_of_seats: u16,
    pub offset_of_processes: u16,
    pub last_number: u32,
}

#[derive(Clone, Copy, PartialEq, Eq, Default)]
pub struct Seat {
    pub tenant: u8,
    pub options: u8,
    pub selected: u8,
    pub zero: u8,
    pub opens: u16,
    pub map: u16,
    pub tabs: [TabRow; SLOTS as usize],
}

#[derive(Clone, Copy, PartialEq, Eq, Default)]
pub struct TabRow {
    pub serial: u16,
    pub process_row: u8,
    pub waiting: u8,
}

#[derive(Clone, Copy, PartialEq, Eq)]
pub struct ProcessRow {
    pub number: u32,
    pub owner: u8,
    pub tabs: u8,
    pub name_length: u8,
    pub zero: u8,
    pub name: [u8; 64],
}

/// Where a tab row lies: slot `slot` of seat `seat`.
#[derive(Clone, Copy, PartialEq, Eq)]
pub struct Place {
    pub seat: u8,
    pub slot: u8,
}

impl Table {
    /// "Let seats as ordered, the rest zero but for the trailer", here with no seat let yet.
    pub fn empty() -> Table {
        Table {
            seats: Default::default(),
            processes: [ProcessRow::FREE; PROCESS_ROWS as usize],
            offset_of_seats: 0,
            offset_of_processes: 384,
            last_number: 0,
        }
    }

    pub fn seat(&self, seat: u8) -> &Seat {
        &self.seats[usize::from(seat) - 1]
    }

    pub fn seat_mut(&mut self, seat: u8) -> &mut Seat {
        &mut self.seats[usize::from(seat) - 1]
    }

    pub fn tab(&self, place: Place) -> &TabRow {
        self.seat(place.seat).tab(place.slot)
    }

    pub fn tab_mut(&mut self, place: Place) -> &mut TabRow {
        &mut self.seat_mut(place.seat).tabs[usize::from(place.slot) - 1]
    }

    pub fn process(&self, row: u8) -> &ProcessRow {
        &self.processes[usize::from(row) - 1]
    }

    pub fn process_mut(&mut self, row: u8) -> &mut ProcessRow {
        &mut self.processes[usize::from(row) - 1]
    }

    /// The process a live tab hangs on.
    pub fn process_of(&self, place: Place) -> &ProcessRow {
        self.process(self.tab(place).process_row)
    }

    /// "A seat's owner is 100 + seat if separate is 1, otherwise its tenant."
    pub fn owner_of(&self, seat: u8) -> u8 {
        match self.seat(seat) {
            Seat { options, .. } if options & 1 == 1 => 100 + seat,
            Seat { tenant, .. } => *tenant,
        }
    }

    /// "Tab id = seat x 65,536 + serial."
    pub fn tab_id(&self, place: Place) -> u32 {
        u32::from(place.seat) * 65_536 + u32::from(self.tab(place).serial)
    }
}

impl Seat {
    /// "Tenant (0 = not let [...])."
    pub fn is_let(&self) -> bool {
        self.tenant != 0
    }

    pub fn tab(&self, slot: u8) -> &TabRow {
        &self.tabs[usize::from(slot) - 1]
    }

    /// "Map of occupied slots (2: slot k is bit k-1)."
    pub fn is_marked(&self, slot: u8) -> bool {
        self.map & map_bit(slot) != 0
    }

    pub fn mark(&mut self, slot: u8) {
        self.map |= map_bit(slot);
    }

    pub fn unmark(&mut self, slot: u8) {
        self.map &= !map_bit(slot);
    }
}

fn map_bit(slot: u8) -> u16 {
    1 << (slot - 1)
}

impl TabRow {
    pub const FREE: TabRow = TabRow { serial: 0, process_row: 0, waiting: 0 };

    /// "Serial (2; 0 = free)."
    pub fn is_live(&self) -> bool {
        self.serial != 0
    }

    pub fn waits_for(&self, mark: u8) -> bool {
        self.waiting & mark != 0
    }
}

impl ProcessRow {
    pub const FREE: ProcessRow = ProcessRow { number: 0, owner: 0, tabs: 0, name_length: 0, zero: 0, name: [0; 64] };

    /// "Number (4; 0 = free)."
    pub fn is_live(&self) -> bool {
        self.number != 0
    }

    /// The name without the fill; of a length above 64 only the 64 bytes there are.
    pub fn name(&self) -> &[u8] {
        &self.name[..usize::from(self.name_length).min(64)]
    }
}
