//! The order of the refusals: "First that applies". Each case has two or more faults.

mod common;
use common::{book, document, frame, key, open, result, tab_id, Desk, NETWORK, PROCESS, SEAT, TAB};

fn desk() -> Desk {
    let mut desk = Desk::new(&[[1, 7, 0]], &["com"]);
    desk.done(&open(1, "a.com"));
    desk
}

#[test]
fn room_then_table_then_frame() {
    let mut desk = desk();
    desk.table[3] = 1;
    assert_eq!(desk.refused(&[]), 2);
    desk.room.truncate(4_105);
    assert_eq!(desk.refused(&[]), 1);
    desk.table.clear();
    assert_eq!(desk.refused(&[]), 1);
}

#[test]
fn frame_then_sender() {
    let mut desk = desk();
    assert_eq!(desk.refused(&frame(SEAT, 9, 1, &[1, 2])), 3);
    assert_eq!(desk.refused(&frame(TAB, 0, 4, &[1])), 3);
    assert_eq!(desk.refused(&frame(PROCESS, 9, 1, &[0; 3])), 3);
    assert_eq!(desk.refused(&frame(NETWORK, 1, 1, &[0; 3])), 3);
}

#[test]
fn a_seat_that_sends_is_let() {
    for seat in [0, 2, 8, 9, 256, 257, 65_537, 16_777_217, u32::MAX] {
        assert_eq!(desk().refused(&key(seat, b'a')), 4, "{seat}");
    }
}

#[test]
fn a_tab_that_sends_is_live() {
    for tab in [0, 1, 65_535, tab_id(1, 0), tab_id(1, 2), tab_id(2, 1), tab_id(8, 0), tab_id(9, 1), tab_id(257, 1)] {
        assert_eq!(desk().refused(&frame(TAB, tab, 5, b"a.com")), 4, "{tab}");
    }
}

#[test]
fn a_process_that_sends_is_live() {
    for number in [0, 2, 257, 16_777_217, u32::MAX] {
        assert_eq!(desk().refused(&result(number, tab_id(1, 1), b"")), 4, "{number}");
    }
    assert_eq!(desk().refused(&result(1, tab_id(1, 1), b"")), 10);
}

#[test]
fn the_network_has_id_0() {
    let payload = tab_id(1, 1).to_be_bytes();
    for id in [1, 256, tab_id(1, 1), u32::MAX] {
        assert_eq!(desk().refused(&frame(NETWORK, id, 1, &payload)), 4, "{id}");
    }
    assert_eq!(desk().refused(&document(tab_id(1, 1), b"")), 10);
}

#[test]
fn sender_then_key() {
    assert_eq!(desk().refused(&key(2, 24)), 4);
    assert_eq!(desk().refused(&key(1, 24)), 5);
}

#[test]
fn sender_then_book_then_suffix_then_ten_tabs_then_opens() {
    let mut desk = desk();
    for _ in 2..=10 {
        desk.done(&open(1, "a.com"));
    }
    desk.table[4..6].copy_from_slice(&65_535_u16.to_be_bytes());
    let sound = std::mem::replace(&mut desk.book, book(&[[0, 0, 0]], &["com"]));
    assert_eq!(desk.refused(&open(2, "-")), 4);
    assert_eq!(desk.refused(&open(1, "-")), 6);
    desk.book = sound;
    assert_eq!(desk.refused(&open(1, "-")), 7);
    assert_eq!(desk.refused(&open(1, "a.com")), 8);
    desk.done(&key(1, 25));
    assert_eq!(desk.refused(&open(1, "-")), 7);
    assert_eq!(desk.refused(&open(1, "a.com")), 9);
}
