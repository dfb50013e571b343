//! "Mistakes we have seen or expect": one test for each.

mod common;
use common::{action, frame, key, open, result, retrieve, tab_id, Desk, HOST, PROCESS, SEAT, TAB};

#[test]
fn a_process_is_sought_by_owner_and_suffix() {
    let mut desk = Desk::new(&[[1, 7, 1], [2, 7, 0], [3, 7, 0], [4, 8, 0], [5, 7, 1]], &["com"]);
    let mut started = |seat| desk.done(&open(seat, "a.com")).into_iter().find(|action| action.2 == 3);
    assert_eq!(started(1), Some(action(HOST, 1, 3, b"\x65a.com")));
    assert_eq!(started(2), Some(action(HOST, 2, 3, b"\x07a.com")));
    assert_eq!(started(3), None);
    assert_eq!(started(4), Some(action(HOST, 3, 3, b"\x08a.com")));
    assert_eq!(started(5), Some(action(HOST, 4, 3, b"\x69a.com")));
    assert_eq!(started(1), None);
}

#[test]
fn a_match_of_last_bytes_needs_the_dot() {
    let mut desk = Desk::new(&[[1, 7, 0]], &["com"]);
    let tab = tab_id(1, 1);
    desk.done(&open(1, "a.com"));
    assert_eq!(desk.done(&retrieve(tab, "ba.com")), [action(TAB, tab, 5, b"")]);
    assert_eq!(desk.done(&frame(TAB, tab, 2, b"\0\x50ba.com")), [action(TAB, tab, 5, b"")]);
    assert_eq!(desk.done(&retrieve(tab, "b.a.com"))[0].0, PROCESS);
    assert_eq!(desk.refused(&open(1, "acom")), 7);
}

#[test]
fn a_result_is_passed_on_for_the_process_of_the_tab_only() {
    let mut desk = Desk::new(&[[1, 7, 0], [2, 8, 0]], &["com"]);
    let tab = tab_id(1, 1);
    desk.done(&open(1, "a.com"));
    desk.done(&open(2, "a.com"));
    desk.done(&retrieve(tab, "a.com"));
    assert_eq!(desk.refused(&result(2, tab, b"x")), 10);
    assert_eq!(desk.done(&result(1, tab, b"x")), [action(TAB, tab, 7, b"x")]);
}

#[test]
fn a_closed_tabs_serial_never_comes_back() {
    let mut desk = Desk::new(&[[1, 7, 0]], &["com"]);
    desk.done(&open(1, "a.com"));
    desk.done(&key(1, 25));
    let actions = desk.done(&open(1, "a.com"));
    assert_eq!(actions[0], action(HOST, 2, 3, b"\x07a.com"));
    assert_eq!(actions[1], action(HOST, tab_id(1, 2), 1, b""));
    assert_eq!(desk.refused(&retrieve(tab_id(1, 1), "a.com")), 4);
}

#[test]
fn f12_leaves_an_empty_bar() {
    let mut desk = Desk::new(&[[1, 7, 0]], &["com"]);
    desk.done(&open(1, "a.com"));
    desk.done(&open(1, "b.com"));
    assert_eq!(desk.done(&key(1, 25)).last(), Some(&action(SEAT, 1, 1, b"")));
    desk.ignored(&key(1, b'a'));
    assert_eq!(desk.done(&key(1, 14)).last(), Some(&action(SEAT, 1, 1, b"a.com")));
}
