//! Refusal 3: which bytes are an event. The senders asked for are none, so an event that can be read is refused 4.

mod common;
use common::{frame, Desk};

fn desk() -> Desk {
    Desk::new(&[], &[])
}

/// Whether a payload of so many zero bytes fits this party's tag.
fn fits(party: u8, tag: u8, size: usize) -> bool {
    match (party, tag) {
        (1, 1) => size == 1,
        (1, 2) => size == 4,
        (2, 1) => size == 12,
        (2, 2) => size >= 2,
        (2, 4) => size >= 1,
        (3, 1) | (4, 1) => size >= 4,
        (1, 3) | (2, 3) | (2, 5) => true,
        _ => false,
    }
}

#[test]
fn a_known_tag_with_a_payload_that_fits_is_read() {
    let mut desk = desk();
    for party in [0, 1, 2, 3, 4, 5, 255] {
        for tag in [0, 1, 2, 3, 4, 5, 6, 7, 255] {
            for size in (0..=14).chain([4_095, 4_096]) {
                let expected = if fits(party, tag, size) { 4 } else { 3 };
                let event = frame(party, 1, tag, &vec![0; size]);
                assert_eq!(desk.refused(&event), expected, "party {party}, tag {tag}, size {size}");
            }
        }
    }
}

#[test]
fn a_size_over_4096_is_not_read() {
    let mut desk = desk();
    assert_eq!(desk.refused(&frame(1, 1, 3, &[0; 4_096])), 4);
    assert_eq!(desk.refused(&frame(1, 1, 3, &[0; 4_097])), 3);
}

#[test]
fn the_size_is_the_bytes_present() {
    let mut desk = desk();
    let whole = frame(1, 1, 3, b"a.com");
    assert_eq!(desk.refused(&whole), 4);
    for length in 0..whole.len() {
        assert_eq!(desk.refused(&whole[..length]), 3, "{length}");
    }
    assert_eq!(desk.refused(&[&whole[..], b"m"].concat()), 3);
    for place in 6..9 {
        let mut event = whole.clone();
        event[place] = 1;
        assert_eq!(desk.refused(&event), 3, "{place}");
    }
}

#[test]
fn a_store_holds_its_length_and_a_domain_of_that_length() {
    let mut desk = desk();
    assert_eq!(desk.refused(&frame(2, 1, 4, &[5, b'a', b'.', b'c', b'o', b'm'])), 4);
    assert_eq!(desk.refused(&frame(2, 1, 4, &[6, b'a', b'.', b'c', b'o', b'm'])), 3);
    assert_eq!(desk.refused(&frame(2, 1, 4, &[255; 256])), 4);
    assert_eq!(desk.refused(&frame(2, 1, 4, &[255; 255])), 3);
}
