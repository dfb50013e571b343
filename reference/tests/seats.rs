//! Keys and mouse.

mod common;
use common::{action, frame, key, open, tab_id, Desk, HOST, SEAT, TAB};

/// Seats 1 and 2 of tenant 7; seat 1 has a.com in slots 1 and 2 and b.com in slot 3, seat 2 has b.com.
fn desk() -> Desk {
    let mut desk = Desk::new(&[[1, 7, 0], [2, 7, 0], [3, 7, 0]], &["com"]);
    for event in [open(1, "a.com"), open(1, "A.com"), open(1, "B.com"), open(2, "b.com")] {
        desk.done(&event);
    }
    desk
}

#[test]
fn every_key_code_is_done_or_refused_5() {
    for code in 0..=255 {
        let named = matches!(code, 8..=10 | 13..=23 | 25 | 32..=126);
        for seat in [1, 3] {
            match named {
                true => drop(desk().done(&key(seat, code))),
                false => assert_eq!(desk().refused(&key(seat, code)), 5, "{code}"),
            }
        }
    }
}

#[test]
fn keys_and_mouse_go_to_the_selected_tab() {
    let mut desk = desk();
    let tab = tab_id(1, 3);
    for code in [8, 9, 10, 13, 32, b'A', 126] {
        assert_eq!(desk.done(&key(1, code)), [action(TAB, tab, 3, &[code])]);
    }
    assert_eq!(desk.done(&frame(SEAT, 1, 2, &[1, 2, 3, 4])), [action(TAB, tab, 4, &[1, 2, 3, 4])]);
}

#[test]
fn with_none_selected_keys_and_mouse_do_nothing() {
    let mut desk = desk();
    desk.done(&key(1, 25));
    for seat in [1, 3] {
        desk.ignored(&key(seat, b'a'));
        desk.ignored(&key(seat, 25));
        desk.ignored(&frame(SEAT, seat, 2, &[0; 4]));
    }
}

#[test]
fn f1_to_f10_select_a_live_slot() {
    let mut desk = desk();
    for slot in [1, 3, 3, 2] {
        let suffix: &[u8] = if slot == 3 { b"b.com" } else { b"a.com" };
        let tab = tab_id(1, slot.into());
        assert_eq!(desk.done(&key(1, 13 + slot)), [action(TAB, tab, 2, b""), action(SEAT, 1, 1, suffix)]);
        assert_eq!(desk.table[2], slot);
        assert_eq!(desk.done(&key(1, b'a')), [action(TAB, tab, 3, b"a")]);
    }
    for slot in 4..=10 {
        desk.ignored(&key(1, 13 + slot));
    }
}

#[test]
fn f12_stops_the_tab_and_the_process_with_its_last_tab() {
    let mut desk = desk();
    let before = desk.table.clone();
    assert_eq!(desk.done(&key(1, 25)), [action(HOST, tab_id(1, 3), 2, b""), action(SEAT, 1, 1, b"")]);
    assert_eq!(desk.table[..20], [&before[..2], &[0, 0, 0, 3, 0, 3], &before[8..16], &[0; 4]].concat());
    assert_eq!(desk.table[384 + 72 + 5], 1);
    let last = [action(HOST, tab_id(2, 1), 2, b""), action(HOST, 2, 4, b""), action(SEAT, 2, 1, b"")];
    assert_eq!(desk.done(&key(2, 25)), last);
    assert_eq!(desk.table[384 + 72..384 + 144], [0; 72]);
    assert_eq!(desk.table[48..96], [&[7, 0, 0, 0, 0, 1][..], &[0; 42]].concat());
    assert_eq!(desk.table[6_148..], [0, 0, 0, 2]);
}
