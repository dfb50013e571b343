//! What is let, live or free in a table, and where.

use crate::table::{Place, Table, PROCESS_ROWS, SEATS, SLOTS};

impl Table {
    /// The let seat with this id, which counts with all its 4 bytes.
    pub fn find_seat(&self, id: u32) -> Option<u8> {
        (1..=SEATS).find(|&seat| self.seat(seat).is_let() && u32::from(seat) == id)
    }

    /// The place of the live tab with this id.
    pub fn find_tab(&self, id: u32) -> Option<Place> {
        self.live_tabs().find(|&place| self.tab_id(place) == id)
    }

    /// The row of the live process with this number.
    pub fn find_process(&self, number: u32) -> Option<u8> {
        self.live_rows().find(|&row| self.process(row).number == number)
    }

    /// The row of the live process that "has this owner and suffix".
    pub fn find_process_of(&self, owner: u8, folded_suffix: &[u8]) -> Option<u8> {
        self.live_rows().find(|&row| self.process(row).owner == owner && self.process(row).name() == folded_suffix)
    }

    /// The place of the selected tab of a seat, if one is selected.
    pub fn selected_tab(&self, seat: u8) -> Option<Place> {
        match self.seat(seat).selected {
            0 => None,
            slot => Some(Place { seat, slot }),
        }
    }

    pub fn lowest_free_slot(&self, seat: u8) -> Option<u8> {
        (1..=SLOTS).find(|&slot| !self.seat(seat).tab(slot).is_live())
    }

    pub fn lowest_free_row(&self) -> Option<u8> {
        (1..=PROCESS_ROWS).find(|&row| !self.process(row).is_live())
    }

    /// The places of all live tabs, seat by seat.
    pub fn live_tabs(&self) -> impl Iterator<Item = Place> + '_ {
        let places = (1..=SEATS).flat_map(|seat| (1..=SLOTS).map(move |slot| Place { seat, slot }));
        places.filter(|&place| self.tab(place).is_live())
    }

    /// The rows of all live processes.
    pub fn live_rows(&self) -> impl Iterator<Item = u8> + '_ {
        (1..=PROCESS_ROWS).filter(|&row| self.process(row).is_live())
    }
}
