//! The limits that document 01 asks to be run: rooms, tabs, opens, suffixes, and the largest action.

mod common;
use common::{action, key, open, store, tab_id, Desk, PROCESS, ROOM_LENGTH};

#[test]
fn the_room_has_at_least_4106_bytes() {
    let mut desk = Desk::new(&[[1, 7, 0]], &["com"]);
    for length in [0, 4_105] {
        desk.room.resize(length, 0xA5);
        assert_eq!(desk.refused(&open(1, "a.com")), 1);
    }
    for length in [ROOM_LENGTH, 4_107] {
        desk.room.resize(length, 0xA5);
        assert_eq!(desk.done(&open(1, "a.com")).len(), if length == ROOM_LENGTH { 4 } else { 3 });
    }
}

#[test]
fn the_largest_action_fills_the_least_room() {
    let mut desk = Desk::new(&[[1, 7, 0]], &["com"]);
    desk.done(&open(1, "a.com"));
    let cookie = vec![b'c'; 4_090];
    let actions = desk.done(&store(tab_id(1, 1), "A.com", &cookie));
    assert_eq!(actions, [action(PROCESS, 1, 1, &[b"\x05a.com", &cookie[..]].concat())]);
    assert_eq!(desk.room[ROOM_LENGTH - 1], b'c');
}

#[test]
fn the_tenth_tab_opens_and_the_eleventh_is_refused() {
    let mut desk = Desk::new(&[[1, 7, 0], [2, 7, 0]], &["com"]);
    for serial in 1..=10 {
        let actions = desk.done(&open(1, "a.com"));
        assert_eq!(actions[actions.len() - 2].1, tab_id(1, serial));
    }
    assert_eq!(desk.refused(&open(1, "a.com")), 8);
    desk.done(&open(2, "a.com"));
    desk.done(&key(1, 25));
    desk.done(&open(1, "a.com"));
    assert_eq!(desk.refused(&open(1, "a.com")), 8);
}

#[test]
fn open_number_65535_is_done_and_the_next_refused() {
    let mut desk = Desk::new(&[[1, 7, 0]], &["com"]);
    desk.done(&open(1, "a.com"));
    desk.table[4..6].copy_from_slice(&65_534_u16.to_be_bytes());
    let actions = desk.done(&open(1, "a.com"));
    assert_eq!(actions[0], action(5, tab_id(1, 65_535), 1, b""));
    assert_eq!(desk.refused(&open(1, "a.com")), 9);
    desk.done(&key(1, 25));
    assert_eq!(desk.refused(&open(1, "a.com")), 9);
    desk.done(&key(1, 14));
}

#[test]
fn all_eighty_process_rows_can_be_live() {
    let orders: Vec<[u8; 3]> = (1..=8).map(|seat| [seat, 7, 1]).collect();
    let mut desk = Desk::new(&orders, &["com"]);
    for (seat, letter) in (1..=8).flat_map(|seat| ('a'..='j').map(move |letter| (seat, letter))) {
        assert_eq!(desk.done(&open(seat, &format!("{letter}.com"))).len(), 4);
    }
    assert_eq!(desk.table[6_148..], 80_u32.to_be_bytes());
    assert_eq!(desk.done(&key(8, 25)).len(), 3);
    assert_eq!(desk.done(&open(8, "k.com"))[0], action(5, 81, 3, b"\x6ck.com"));
}

#[test]
fn a_suffix_of_64_bytes_opens_and_one_of_65_is_refused() {
    let mut desk = Desk::new(&[[1, 7, 0]], &["com"]);
    let longest = "X".repeat(60) + ".com";
    let folded = longest.to_ascii_lowercase();
    let actions = desk.done(&open(1, &longest));
    assert_eq!(actions[0], action(5, 1, 3, &[b"\x07", folded.as_bytes()].concat()));
    assert_eq!(desk.table[384 + 8..384 + 72], *folded.as_bytes());
    assert_eq!(desk.refused(&open(1, &format!("x{longest}"))), 7);
}
