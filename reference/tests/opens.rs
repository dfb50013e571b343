//! Open, and the tables that start and open leave.

mod common;
use common::{action, book, key, open, tab_id, Desk, HOST, SEAT, TAB, TABLE_LENGTH};
use reference::{start, step, Answer};

fn put(table: &mut [u8], place: usize, bytes: &[u8]) {
    table[place..place + bytes.len()].copy_from_slice(bytes);
}

#[test]
fn start_writes_a_fresh_table() {
    let mut expected = vec![0; TABLE_LENGTH];
    put(&mut expected, 48, &[99, 1]);
    put(&mut expected, 7 * 48, &[7, 0]);
    put(&mut expected, TABLE_LENGTH - 6, &[1, 128]);
    assert_eq!(Desk::new(&[[2, 99, 1], [8, 7, 0]], &["com"]).table, expected);
}

#[test]
fn start_refuses_another_length_before_an_unsound_book_and_writes_nothing() {
    let sound = book(&[[1, 7, 0]], &[]);
    for (length, book, number) in [(6_151, &sound[..], 2), (6_153, &[], 2), (0, &[], 2), (TABLE_LENGTH, &[], 6)] {
        let mut table = vec![0xFF; length];
        assert_eq!(start(&mut table, book), Answer { number, actions: 0, bytes: 0 });
        assert_eq!(table, vec![0xFF; length]);
    }
}

#[test]
fn open_writes_the_tab_row_and_the_process_row() {
    let mut desk = Desk::new(&[[1, 7, 0], [3, 8, 1]], &["com"]);
    let mut expected = desk.table.clone();
    let tab = tab_id(3, 1);
    let rest = [action(HOST, tab, 1, b""), action(TAB, tab, 1, b"a.com"), action(SEAT, 3, 1, b"a.com")];
    assert_eq!(desk.done(&open(3, "A.CoM")), [&[action(HOST, 1, 3, b"\x67a.com")], &rest[..]].concat());
    put(&mut expected, 96, &[8, 1, 1, 0, 0, 1, 0, 1, 0, 1, 1, 0]);
    put(&mut expected, 384, b"\0\0\0\x01\x67\x01\x05\0a.com");
    put(&mut expected, TABLE_LENGTH - 1, &[1]);
    assert_eq!(desk.table, expected);

    let tab = tab_id(3, 2);
    let rest = [action(HOST, tab, 1, b""), action(TAB, tab, 1, b"a.com"), action(SEAT, 3, 1, b"a.com")];
    assert_eq!(desk.done(&open(3, "a.com")), rest);
    put(&mut expected, 96, &[8, 1, 2, 0, 0, 2, 0, 3, 0, 1, 1, 0, 0, 2, 1, 0]);
    expected[384 + 5] = 2;
    assert_eq!(desk.table, expected);
}

#[test]
fn open_takes_the_lowest_free_slot_and_row_and_a_new_number() {
    let mut desk = Desk::new(&[[1, 7, 0]], &["com"]);
    for name in ["a.com", "b.com", "c.com"] {
        desk.done(&open(1, name));
    }
    desk.done(&key(1, 15));
    desk.done(&key(1, 25));
    assert_eq!(desk.done(&open(1, "d.com"))[0], action(HOST, 4, 3, b"\x07d.com"));
    assert_eq!(desk.table[2..8], [2, 0, 0, 4, 0, 7]);
    assert_eq!(desk.table[12..16], [0, 4, 2, 0]);
    assert_eq!(desk.table[384 + 72..384 + 85], *b"\0\0\0\x04\x07\x01\x05\0d.com");
}

#[test]
fn the_suffix_must_be_all_of_its_own_suffix() {
    let mut desk = Desk::new(&[[1, 7, 0]], &["co.uk", "com", "uk"]);
    for suffix in ["", "com", "www.a.com", "a.org", "-a.com", "co.uk", "a.b.uk", "a.com.", "a com"] {
        assert_eq!(desk.refused(&open(1, suffix)), 7, "{suffix}");
    }
    for suffix in ["a.com", "b.uk", "b.co.uk", "9.com"] {
        assert_eq!(desk.done(&open(1, suffix)).len(), 4, "{suffix}");
    }
}

#[test]
fn only_the_listed_names_of_the_book_lent_count() {
    let mut desk = Desk::new(&[[1, 7, 0]], &["com"]);
    desk.book = book(&[[2, 9, 1]], &["org"]);
    assert_eq!(desk.refused(&open(2, "a.org")), 4);
    assert_eq!(desk.refused(&open(1, "a.com")), 7);
    assert_eq!(desk.done(&open(1, "a.org"))[0], action(HOST, 1, 3, b"\x07a.org"));
    desk.book = book(&[[2, 9, 2]], &["org"]);
    assert_eq!(desk.refused(&open(1, "a.org")), 6);
}

#[test]
fn the_book_is_read_for_open_only() {
    let mut desk = Desk::new(&[[1, 7, 0]], &["com"]);
    desk.done(&open(1, "a.com"));
    for event in [key(1, b'a'), common::retrieve(tab_id(1, 1), "a.com"), common::result(1, tab_id(1, 1), b"")] {
        assert_eq!(step(&mut desk.table, &[], &event, &mut desk.room).number, 0);
    }
}
