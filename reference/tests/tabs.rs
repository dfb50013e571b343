//! What a tab may ask: display, socket, URL, store, retrieve.

mod common;
use common::{action, document, frame, open, result, retrieve, store, tab_id, url, Desk};
use common::{HOST, NETWORK, PROCESS, SEAT, TAB};

const FIRST: u32 = tab_id(1, 1);
const SECOND: u32 = tab_id(1, 2);

/// Seat 1 with a.com in two tabs, the second selected.
fn desk() -> Desk {
    let mut desk = Desk::new(&[[1, 7, 0]], &["com"]);
    desk.done(&open(1, "a.com"));
    desk.done(&open(1, "a.com"));
    desk
}

fn is_denied(desk: &mut Desk, tab: u32, event: &[u8]) {
    let before = desk.table.clone();
    assert_eq!(desk.done(event), [action(TAB, tab, 5, b"")], "{event:02x?}");
    assert!(desk.table == before);
}

#[test]
fn display_paints_for_the_selected_tab_only() {
    let mut desk = desk();
    let numbers = *b"\0\xff\0\x01abcdefgh";
    assert_eq!(desk.done(&frame(TAB, SECOND, 1, &numbers)), [action(SEAT, 1, 2, &numbers)]);
    desk.ignored(&frame(TAB, FIRST, 1, &numbers));
}

#[test]
fn a_socket_needs_a_port_and_a_host_under_the_suffix() {
    let mut desk = desk();
    let opened = [action(HOST, FIRST, 5, b"\x01\xbbwww.a.com")];
    assert_eq!(desk.done(&frame(TAB, FIRST, 2, b"\x01\xbbWWW.a.Com")), opened);
    for payload in [&b"\0\0www.a.com"[..], b"\0\x50", b"\0\x50b.com", b"\0\x50-.a.com", b"\0\x50.a.com", b"\0\x50com"] {
        is_denied(&mut desk, FIRST, &frame(TAB, FIRST, 2, payload));
    }
}

#[test]
fn a_store_needs_a_domain_under_the_suffix() {
    let mut desk = desk();
    let before = desk.table.clone();
    assert_eq!(desk.done(&store(FIRST, "X.A.com", b"K=V")), [action(PROCESS, 1, 1, b"\x07x.a.comK=V")]);
    assert_eq!(desk.done(&store(FIRST, "a.com", b"")), [action(PROCESS, 1, 1, b"\x05a.com")]);
    assert!(desk.table == before);
    for domain in ["", "com", "ba.com", "a..com", ".a.com", "a.com.", "b.com"] {
        is_denied(&mut desk, FIRST, &store(FIRST, domain, b"K=V"));
    }
}

#[test]
fn a_domain_is_a_name_of_at_most_253_bytes() {
    let labels = format!("{0}.{0}.{0}.", "x".repeat(63));
    for (length, party) in [(253, PROCESS), (254, TAB)] {
        let domain = labels.clone() + &"y".repeat(length - labels.len() - 6) + ".a.com";
        assert_eq!(domain.len(), length);
        assert_eq!(desk().done(&retrieve(FIRST, &domain))[0].0, party);
        assert_eq!(desk().done(&store(FIRST, &domain, b""))[0].0, party);
        assert_eq!(desk().done(&frame(TAB, FIRST, 2, format!("xx{domain}").as_bytes()))[0].0 == HOST, length == 253);
    }
}

#[test]
fn a_retrieve_needs_a_domain_under_the_suffix_and_no_cookie_waiting() {
    let mut desk = desk();
    for domain in ["", "com", "ba.com", "a..com", "b.com"] {
        is_denied(&mut desk, FIRST, &retrieve(FIRST, domain));
    }
    assert_eq!(desk.done(&retrieve(FIRST, "W.A.com")), [action(PROCESS, 1, 2, b"\0\x01\0\x01w.a.com")]);
    is_denied(&mut desk, FIRST, &retrieve(FIRST, "a.com"));
    assert_eq!(desk.done(&retrieve(SECOND, "a.com"))[0].0, PROCESS);
    desk.done(&result(1, FIRST, b""));
    assert_eq!(desk.done(&retrieve(FIRST, "a.com"))[0].0, PROCESS);
}

#[test]
fn a_url_is_of_8_to_2048_printing_bytes_with_something_after_the_scheme() {
    let longest = "http://".to_string() + &"x".repeat(2_041);
    for text in ["http://x", "https://x", "http:///", "http://B.org/%20#~", "https:///", &longest] {
        assert_eq!(desk().done(&url(FIRST, text)), [action(NETWORK, FIRST, 1, text.as_bytes())], "{text}");
    }
    let too_long = longest.clone() + "x";
    let bad =
        ["", "http://", "https://", "HTTP://x", "ftp://xyz", " http://x", "http:/xx", "http://x y", "http://\x7f"];
    for text in bad.into_iter().chain([&too_long[..], "httpss://x", "http://x\n", "http://\u{e9}"]) {
        is_denied(&mut desk(), FIRST, &url(FIRST, text));
    }
}

#[test]
fn a_url_needs_no_document_waiting() {
    let mut desk = desk();
    desk.done(&url(FIRST, "http://x"));
    is_denied(&mut desk, FIRST, &url(FIRST, "http://x"));
    desk.done(&document(FIRST, b""));
    desk.done(&url(FIRST, "http://x"));
}

#[test]
fn the_two_marks_are_kept_apart() {
    let mut desk = desk();
    desk.done(&retrieve(FIRST, "a.com"));
    assert_eq!(desk.table[8..12], [0, 1, 1, 1]);
    desk.done(&url(FIRST, "http://x"));
    assert_eq!(desk.table[8..12], [0, 1, 1, 3]);
    desk.done(&result(1, FIRST, b"c"));
    assert_eq!(desk.table[8..12], [0, 1, 1, 2]);
    desk.done(&retrieve(FIRST, "a.com"));
    desk.done(&document(FIRST, b"d"));
    assert_eq!(desk.table[8..12], [0, 1, 1, 1]);
}
