//! Results and documents: passed on to the tab that waits, or refused 10.

mod common;
use common::{action, document, key, open, result, retrieve, tab_id, url, Desk, TAB};

/// Seats 1 and 2 share process 1 for a.com; seat 1 also has b.com, process 2.
fn desk() -> Desk {
    let mut desk = Desk::new(&[[1, 7, 0], [2, 7, 0]], &["com"]);
    for event in [open(1, "a.com"), open(1, "b.com"), open(2, "a.com")] {
        desk.done(&event);
    }
    desk
}

#[test]
fn a_result_is_passed_on_once() {
    let mut desk = desk();
    for (seat, cookie) in [(1, &b"K=v"[..]), (2, b"")] {
        let tab = tab_id(seat, 1);
        desk.done(&retrieve(tab, "a.com"));
        assert_eq!(desk.done(&result(1, tab, cookie)), [action(TAB, tab, 7, cookie)]);
        assert_eq!(desk.refused(&result(1, tab, cookie)), 10);
    }
}

#[test]
fn a_result_needs_its_tab_to_wait_for_a_cookie() {
    let mut desk = desk();
    desk.done(&url(tab_id(1, 1), "http://x"));
    for tab in [tab_id(1, 1), tab_id(1, 2), tab_id(1, 3), tab_id(1, 0), tab_id(3, 1), tab_id(9, 1), 0, u32::MAX] {
        assert_eq!(desk.refused(&result(1, tab, b"x")), 10, "{tab}");
    }
}

#[test]
fn a_result_for_a_closed_tab_is_refused() {
    let mut desk = desk();
    let tab = tab_id(1, 2);
    desk.done(&retrieve(tab, "b.com"));
    desk.done(&key(1, 25));
    assert_eq!(desk.refused(&result(2, tab, b"x")), 4);
    assert_eq!(desk.refused(&result(1, tab, b"x")), 10);
    desk.done(&open(1, "b.com"));
    assert_eq!(desk.refused(&result(3, tab, b"x")), 10);
    assert_eq!(desk.refused(&result(3, tab_id(1, 3), b"x")), 10);
}

#[test]
fn a_document_is_passed_on_once() {
    let mut desk = desk();
    let tab = tab_id(1, 2);
    for body in [&b"<A>"[..], b"", &[0; 4_092]] {
        desk.done(&url(tab, "http://x"));
        assert_eq!(desk.done(&document(tab, body)), [action(TAB, tab, 6, body)]);
        assert_eq!(desk.refused(&document(tab, body)), 10);
    }
}

#[test]
fn a_document_needs_its_tab_to_wait_for_a_document() {
    let mut desk = desk();
    desk.done(&retrieve(tab_id(1, 1), "a.com"));
    for tab in [tab_id(1, 1), tab_id(1, 2), tab_id(1, 3), tab_id(1, 0), tab_id(3, 1), tab_id(9, 1), 0, u32::MAX] {
        assert_eq!(desk.refused(&document(tab, b"x")), 10, "{tab}");
    }
}
