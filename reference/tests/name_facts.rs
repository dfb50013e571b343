//! The marked name facts P1 to P12 as one table, and the limits of labels and names.

mod common;
use common::book;
use reference::names::{is_name, is_under};
use reference::suffix;

enum Fact {
    Under(&'static str, &'static str),
    NotUnder(&'static str, &'static str),
    Malformed(&'static str),
    Gives(&'static str, &'static str),
    Refused(&'static str),
}

use Fact::{Gives, Malformed, NotUnder, Refused, Under};

const FACTS: [(&str, Fact); 12] = [
    ("P1", Under("www.a.com", "a.com")),
    ("P2", Under("a.com", "a.com")),
    ("P3", NotUnder("ba.com", "a.com")),
    ("P4", NotUnder("a.com", "www.a.com")),
    ("P5", Under("A.COM", "a.com")),
    ("P6", Malformed("")),
    ("P7", Malformed("a..com")),
    ("P8", Malformed("-a.com")),
    ("P9", Gives("www.b.co.uk", "b.co.uk")),
    ("P10", Refused("co.uk")),
    ("P11", Gives("b.uk", "b.uk")),
    ("P12", Refused("a.org")),
];

#[test]
fn p1_to_p12() {
    let book = book(&[], &["co.uk", "com", "uk"]);
    for (mark, fact) in FACTS {
        match fact {
            Under(h, t) => assert!(is_under(h.as_bytes(), t.as_bytes()), "{mark}"),
            NotUnder(h, t) => assert!(!is_under(h.as_bytes(), t.as_bytes()), "{mark}"),
            Malformed(name) => assert!(!is_name(name.as_bytes()), "{mark}"),
            Gives(host, part) => assert_eq!(suffix(host.as_bytes(), &book), Ok(part.as_bytes()), "{mark}"),
            Refused(host) => assert_eq!(suffix(host.as_bytes(), &book), Err(7), "{mark}"),
        }
    }
}

#[test]
fn a_label_has_1_to_63_bytes() {
    for (length, expected) in [(1, true), (63, true), (64, false)] {
        let label = "x".repeat(length);
        for name in [label.clone(), format!("{label}.com"), format!("www.{label}.com"), format!("www.{label}")] {
            assert_eq!(is_name(name.as_bytes()), expected, "{name}");
        }
    }
}

#[test]
fn a_name_has_1_to_253_bytes() {
    let labels = format!("{0}.{0}.{0}.", "x".repeat(63));
    for (length, expected) in [(192, false), (193, true), (253, true), (254, false)] {
        let name = labels.clone() + &"y".repeat(length - labels.len());
        assert_eq!(is_name(name.as_bytes()), expected, "{length}");
    }
}

#[test]
fn only_the_last_label_must_not_be_all_digits() {
    for name in ["a", "9.a", "1.2.3.4x", "a.1-2", "0.0.0.0a", "x1"] {
        assert!(is_name(name.as_bytes()), "{name}");
    }
    for name in ["1", "123", "a.1", "1.2.3.4"] {
        assert!(!is_name(name.as_bytes()), "{name}");
    }
}

#[test]
fn dots_stand_single_and_between_labels() {
    for name in [".", ".a", "a.", "a..b", "..", "a.com."] {
        assert!(!is_name(name.as_bytes()), "{name}");
    }
}

#[test]
fn a_hyphen_stands_inside_a_label_only() {
    assert!(is_name(b"a-b.c--d"));
    for name in ["-", "-a", "a-", "a-.b", "a.-b", "a.b-"] {
        assert!(!is_name(name.as_bytes()), "{name}");
    }
}

#[test]
fn a_label_is_made_of_letters_digits_and_hyphens() {
    for byte in 0..=255_u8 {
        let expected = byte.is_ascii_lowercase() || byte.is_ascii_uppercase() || byte.is_ascii_digit();
        assert_eq!(is_name(&[b'a', byte, b'b']), expected || byte == b'-' || byte == b'.', "{byte}");
    }
}
