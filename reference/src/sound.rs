//! "Sound means": one function for each clause of that sentence, in its order. A clause judges any table, the unsound
//! ones too, and leaves to the other clauses what is theirs.

use crate::book::MOST_OPTIONS;
use crate::names::{is_folded, is_name};
use crate::table::{Place, ProcessRow, Seat, TabRow, Table, SLOTS};

const CLAUSES: &[fn(&Table) -> bool] = &[
    tenants_are_in_range,
    options_are_in_range,
    selected_slots_are_in_range,
    waiting_marks_are_in_range,
    offsets_are_as_given,
    zero_bytes_of_seats_are_zero,
    zero_bytes_of_process_rows_are_zero,
    seats_not_let_are_zero,
    free_tab_rows_are_zero,
    free_process_rows_are_zero,
    fill_after_names_is_zero,
    maps_agree_with_rows,
    map_bits_10_to_15_are_zero,
    selected_is_0_or_live,
    live_serials_of_a_seat_are_distinct,
    live_serials_are_at_most_opens,
    live_tabs_point_at_live_rows,
    live_tabs_point_at_rows_of_their_owner,
    tab_counts_are_the_tabs_pointing,
    live_rows_have_tabs,
    live_numbers_are_distinct,
    live_numbers_are_at_most_the_last,
    last_number_is_at_most_the_sum_of_opens,
    live_names_are_well_formed,
    live_names_are_folded,
    live_names_are_of_3_to_64_bytes,
    live_names_have_a_dot,
    no_two_live_rows_have_equal_owner_and_name,
];

impl Table {
    pub fn is_sound(&self) -> bool {
        CLAUSES.iter().all(|holds| holds(self))
    }

    fn all_tab_rows(&self) -> impl Iterator<Item = &TabRow> {
        self.seats.iter().flat_map(|seat| &seat.tabs)
    }

    fn live_processes(&self) -> impl Iterator<Item = &ProcessRow> + Clone {
        self.processes.iter().filter(|process| process.is_live())
    }

    /// The process row a tab points at, whatever it holds, if there is a row of that number.
    fn row_pointed_at(&self, place: Place) -> Option<&ProcessRow> {
        let row = usize::from(self.tab(place).process_row);
        row.checked_sub(1).and_then(|index| self.processes.get(index))
    }
}

impl Seat {
    fn live_serials(&self) -> impl Iterator<Item = u16> + Clone + '_ {
        self.tabs.iter().filter(|tab| tab.is_live()).map(|tab| tab.serial)
    }
}

/// Whether no two of the items are equal.
fn are_distinct<T: PartialEq>(mut items: impl Iterator<Item = T> + Clone) -> bool {
    while let Some(item) = items.next() {
        if items.clone().any(|other| other == item) {
            return false;
        }
    }
    true
}

fn tenants_are_in_range(table: &Table) -> bool {
    table.seats.iter().all(|seat| seat.tenant <= 99)
}

fn options_are_in_range(table: &Table) -> bool {
    table.seats.iter().all(|seat| seat.options <= MOST_OPTIONS)
}

/// Never fails alone: a slot above 10 is not live either.
fn selected_slots_are_in_range(table: &Table) -> bool {
    table.seats.iter().all(|seat| seat.selected <= 10)
}

fn waiting_marks_are_in_range(table: &Table) -> bool {
    table.all_tab_rows().all(|tab| tab.waiting <= 3)
}

fn offsets_are_as_given(table: &Table) -> bool {
    table.offset_of_seats == 0 && table.offset_of_processes == 384
}

fn zero_bytes_of_seats_are_zero(table: &Table) -> bool {
    table.seats.iter().all(|seat| seat.zero == 0)
}

fn zero_bytes_of_process_rows_are_zero(table: &Table) -> bool {
    table.processes.iter().all(|process| process.zero == 0)
}

fn seats_not_let_are_zero(table: &Table) -> bool {
    table.seats.iter().all(|seat| seat.is_let() || *seat == Seat::default())
}

fn free_tab_rows_are_zero(table: &Table) -> bool {
    table.all_tab_rows().all(|tab| tab.is_live() || *tab == TabRow::FREE)
}

fn free_process_rows_are_zero(table: &Table) -> bool {
    table.processes.iter().all(|process| process.is_live() || *process == ProcessRow::FREE)
}

fn fill_after_names_is_zero(table: &Table) -> bool {
    table.live_processes().all(|process| {
        let length = process.name().len();
        process.name[length..] == ProcessRow::FREE.name[length..]
    })
}

fn maps_agree_with_rows(table: &Table) -> bool {
    table.seats.iter().all(|seat| (1..=SLOTS).all(|slot| seat.is_marked(slot) == seat.tab(slot).is_live()))
}

fn map_bits_10_to_15_are_zero(table: &Table) -> bool {
    table.seats.iter().all(|seat| seat.map >> 10 == 0)
}

fn selected_is_0_or_live(table: &Table) -> bool {
    table.seats.iter().all(|seat| match usize::from(seat.selected).checked_sub(1) {
        None => true,
        Some(index) => seat.tabs.get(index).is_some_and(TabRow::is_live),
    })
}

fn live_serials_of_a_seat_are_distinct(table: &Table) -> bool {
    table.seats.iter().all(|seat| are_distinct(seat.live_serials()))
}

fn live_serials_are_at_most_opens(table: &Table) -> bool {
    table.seats.iter().all(|seat| seat.live_serials().all(|serial| serial <= seat.opens))
}

fn live_tabs_point_at_live_rows(table: &Table) -> bool {
    table.live_tabs().all(|place| table.row_pointed_at(place).is_some_and(ProcessRow::is_live))
}

fn live_tabs_point_at_rows_of_their_owner(table: &Table) -> bool {
    table.live_tabs().all(|place| {
        let owner = table.owner_of(place.seat);
        table.row_pointed_at(place).is_none_or(|process| process.owner == owner)
    })
}

fn tab_counts_are_the_tabs_pointing(table: &Table) -> bool {
    let pointing: Vec<u8> = table.live_tabs().map(|place| table.tab(place).process_row).collect();
    let tabs_pointing_at = |row: u8| pointing.iter().filter(|&&other| other == row).count();
    (1..).zip(&table.processes).all(|(row, process)| usize::from(process.tabs) == tabs_pointing_at(row))
}

fn live_rows_have_tabs(table: &Table) -> bool {
    table.live_processes().all(|process| process.tabs >= 1)
}

fn live_numbers_are_distinct(table: &Table) -> bool {
    are_distinct(table.live_processes().map(|process| process.number))
}

fn live_numbers_are_at_most_the_last(table: &Table) -> bool {
    table.live_processes().all(|process| process.number <= table.last_number)
}

fn last_number_is_at_most_the_sum_of_opens(table: &Table) -> bool {
    table.last_number <= table.seats.iter().map(|seat| u32::from(seat.opens)).sum()
}

fn live_names_are_well_formed(table: &Table) -> bool {
    table.live_processes().all(|process| is_name(process.name()))
}

fn live_names_are_folded(table: &Table) -> bool {
    table.live_processes().all(|process| is_folded(process.name()))
}

fn live_names_are_of_3_to_64_bytes(table: &Table) -> bool {
    table.live_processes().all(|process| (3..=64).contains(&process.name_length))
}

fn live_names_have_a_dot(table: &Table) -> bool {
    table.live_processes().all(|process| process.name().contains(&b'.'))
}

fn no_two_live_rows_have_equal_owner_and_name(table: &Table) -> bool {
    are_distinct(table.live_processes().map(|process| (process.owner, process.name())))
}
