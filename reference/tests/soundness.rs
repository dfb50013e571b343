//! One test for each clause of "Sound means", named as the clause in src/sound.rs: a sound table with one thing wrong
//! is answered 2. Other bytes are edited along where that keeps the other clauses true.

mod common;
use common::{key, open, Desk};

const TRAILER: usize = 6_144;

fn seat(seat: usize) -> usize {
    48 * (seat - 1)
}

fn tab(seat: usize, slot: usize) -> usize {
    48 * (seat - 1) + 8 + 4 * (slot - 1)
}

fn process(row: usize) -> usize {
    384 + 72 * (row - 1)
}

/// Seats 1 to 3 are let. Rows 1 and 2 are a.com and b.com of seat 1 alone (slots 1 and 2, serials 1 and 2); row 3 is
/// a.com of tenant 7, with slot 1 of seats 2 and 3. The last number is 3, the sum of opens 4.
fn desk() -> Desk {
    let mut desk = Desk::new(&[[1, 7, 1], [2, 7, 0], [3, 7, 0]], &["com"]);
    for event in [open(1, "a.com"), open(1, "b.com"), open(2, "a.com"), open(3, "a.com")] {
        desk.done(&event);
    }
    desk
}

fn edited(edits: &[(usize, u8)]) -> Desk {
    let mut desk = desk();
    for &(place, value) in edits {
        assert_ne!(desk.table[place], value, "an edit at {place} that changes nothing");
        desk.table[place] = value;
    }
    desk
}

fn is_unsound(edits: &[(usize, u8)]) {
    assert_eq!(edited(edits).refused(&key(1, b'a')), 2, "{edits:?}");
}

fn is_sound(edits: &[(usize, u8)]) {
    edited(edits).done(&key(1, b'a'));
}

#[test]
fn the_length_is_6152() {
    for length in [0, 1, 6_151, 6_153] {
        let mut desk = desk();
        desk.table.resize(length, 0);
        assert_eq!(desk.refused(&key(1, b'a')), 2, "{length}");
    }
}

#[test]
fn tenants_are_in_range() {
    is_sound(&[(seat(1), 99)]);
    is_unsound(&[(seat(1), 100)]);
}

#[test]
fn options_are_in_range() {
    is_unsound(&[(seat(2) + 1, 2)]);
}

#[test]
fn selected_slots_are_in_range() {
    is_unsound(&[(seat(1) + 2, 11)]);
    is_unsound(&[(seat(1) + 2, 255)]);
}

#[test]
fn waiting_marks_are_in_range() {
    is_sound(&[(tab(1, 1) + 3, 3)]);
    is_unsound(&[(tab(1, 1) + 3, 4)]);
}

#[test]
fn offsets_are_as_given() {
    for place in 0..4 {
        is_unsound(&[(TRAILER + place, 2)]);
    }
}

#[test]
fn zero_bytes_of_seats_are_zero() {
    is_unsound(&[(seat(1) + 3, 1)]);
}

#[test]
fn zero_bytes_of_process_rows_are_zero() {
    is_unsound(&[(process(1) + 7, 1)]);
}

#[test]
fn seats_not_let_are_zero() {
    is_unsound(&[(seat(4) + 1, 1)]);
    is_unsound(&[(seat(4) + 5, 1)]);
}

#[test]
fn free_tab_rows_are_zero() {
    is_unsound(&[(tab(1, 3) + 2, 1)]);
    is_unsound(&[(tab(1, 3) + 3, 1)]);
}

#[test]
fn free_process_rows_are_zero() {
    for place in 4..72 {
        is_unsound(&[(process(4) + place, 1)]);
    }
}

#[test]
fn fill_after_names_is_zero() {
    is_unsound(&[(process(1) + 13, b'm')]);
    is_unsound(&[(process(1) + 71, 1)]);
}

#[test]
fn maps_agree_with_rows() {
    is_unsound(&[(seat(1) + 7, 0b001)]);
    is_unsound(&[(seat(1) + 7, 0b111)]);
    is_unsound(&[(seat(1) + 6, 0b010)]);
}

#[test]
fn map_bits_10_to_15_are_zero() {
    for bit in 2..8 {
        is_unsound(&[(seat(1) + 6, 1 << bit)]);
    }
}

#[test]
fn selected_is_0_or_live() {
    is_sound(&[(seat(1) + 2, 0)]);
    is_sound(&[(seat(1) + 2, 1)]);
    is_unsound(&[(seat(1) + 2, 3)]);
}

#[test]
fn live_serials_of_a_seat_are_distinct() {
    is_unsound(&[(tab(1, 2) + 1, 1)]);
}

#[test]
fn live_serials_are_at_most_opens() {
    is_unsound(&[(tab(1, 2) + 1, 3)]);
    is_sound(&[(tab(1, 2) + 1, 3), (seat(1) + 5, 3)]);
}

#[test]
fn live_tabs_point_at_live_rows() {
    is_unsound(&[(tab(3, 1) + 2, 0), (process(3) + 5, 1)]);
    is_unsound(&[(tab(3, 1) + 2, 81), (process(3) + 5, 1)]);
    is_unsound(&[(tab(3, 1) + 2, 4), (process(3) + 5, 1)]);
}

#[test]
fn live_tabs_point_at_rows_of_their_owner() {
    is_unsound(&[(tab(3, 1) + 2, 1), (process(3) + 5, 1), (process(1) + 5, 2)]);
}

#[test]
fn tab_counts_are_the_tabs_pointing() {
    is_unsound(&[(process(1) + 5, 2)]);
    is_unsound(&[(process(3) + 5, 1)]);
}

#[test]
fn live_rows_have_tabs() {
    let row: Vec<u8> = [&[0, 0, 0, 4, 7, 0, 5, 0], &b"c.com"[..]].concat();
    let mut edits: Vec<(usize, u8)> = (process(4)..).zip(row).filter(|&(_, value)| value != 0).collect();
    edits.push((TRAILER + 7, 4));
    is_unsound(&edits);
}

#[test]
fn live_numbers_are_distinct() {
    is_unsound(&[(process(2) + 3, 1)]);
}

#[test]
fn live_numbers_are_at_most_the_last() {
    is_unsound(&[(process(2) + 3, 4)]);
    is_sound(&[(process(2) + 3, 4), (TRAILER + 7, 4)]);
}

#[test]
fn last_number_is_at_most_the_sum_of_opens() {
    is_sound(&[(TRAILER + 7, 4)]);
    is_unsound(&[(TRAILER + 7, 5)]);
    is_unsound(&[(TRAILER + 4, 1)]);
}

#[test]
fn live_names_are_well_formed() {
    is_unsound(&[(process(1) + 10, b'.')]);
    is_unsound(&[(process(1) + 8, b'-')]);
    is_unsound(&[(process(1) + 10, b'1'), (process(1) + 11, b'2'), (process(1) + 12, b'3')]);
}

#[test]
fn live_names_are_folded() {
    is_unsound(&[(process(1) + 8, b'A')]);
}

#[test]
fn live_names_are_of_3_to_64_bytes() {
    let tail: Vec<(usize, u8)> = (process(1) + 13..process(2)).map(|place| (place, b'm')).collect();
    is_sound(&[&tail[..], &[(process(1) + 6, 64)]].concat());
    is_unsound(&[&tail[..], &[(process(1) + 6, 65)]].concat());
    is_unsound(&[(process(1) + 6, 2), (process(1) + 10, 0), (process(1) + 11, 0), (process(1) + 12, 0)]);
}

#[test]
fn live_names_have_a_dot() {
    is_unsound(&[(process(1) + 9, b'b')]);
}

#[test]
fn no_two_live_rows_have_equal_owner_and_name() {
    is_unsound(&[(process(2) + 8, b'a')]);
}
