//! The soundness of an order book, asked through start: 0 if it is sound, 6 if not.

mod common;
use common::{book, TABLE_LENGTH};

fn number(book: &[u8]) -> u8 {
    reference::start(&mut [0; TABLE_LENGTH], book).number
}

/// The number for a sound book with the byte `back` places before its end set to another value.
fn number_with(orders: &[[u8; 3]], names: &[&str], back: usize, value: u8) -> u8 {
    let mut bytes = book(orders, names);
    assert_eq!(number(&bytes), 0);
    let place = bytes.len() - back;
    assert_ne!(bytes[place], value);
    bytes[place] = value;
    number(&bytes)
}

#[test]
fn no_orders_or_no_names_is_sound() {
    assert_eq!(number(&book(&[], &[])), 0);
    assert_eq!(number(&book(&[[1, 1, 0]], &[])), 0);
    assert_eq!(number(&book(&[], &["com"])), 0);
}

#[test]
fn a_book_has_8_to_32768_bytes() {
    assert_eq!(number(&[]), 6);
    assert_eq!(number(&[0; 7]), 6);
    assert_eq!(number(&[0; 8]), 0);
    let names: Vec<String> = (0..8_190).map(three_letters).collect();
    let names: Vec<&str> = names.iter().map(String::as_str).collect();
    let longest = book(&[], &names);
    assert_eq!((longest.len(), number(&longest)), (32_768, 0));
    let (last, others) = names.split_last().unwrap();
    let too_long = book(&[], &[others, &[&format!("{last}a")]].concat());
    assert_eq!((too_long.len(), number(&too_long)), (32_769, 6));
}

/// The names aaa, aab, ..., in rising order.
fn three_letters(index: usize) -> String {
    [index / 676, index / 26 % 26, index % 26].iter().map(|&letter| char::from(b'a' + letter as u8)).collect()
}

#[test]
fn the_trailer_points_back_with_no_gap() {
    let (orders, names) = (&[[1, 1, 0], [2, 1, 0]], &["com", "uk"]);
    for (back, value, what) in [
        (8, 1, "offset of orders, first byte"),
        (7, 1, "offset of orders, second byte"),
        (6, 1, "one order fewer"),
        (6, 3, "one order more"),
        (5, 1, "the zero byte"),
        (4, 1, "offset of names, first byte"),
        (3, 3, "offset of names, an order too low"),
        (3, 7, "offset of names, a gap"),
        (2, 1, "number of names, first byte"),
        (1, 1, "one name fewer"),
        (1, 3, "one name more"),
        (11, 1, "a length byte too low"),
        (11, 3, "a length byte past the trailer"),
    ] {
        assert_eq!(number_with(orders, names, back, value), 6, "{what}");
    }
    assert_eq!(number(&[0; 9]), 6);
    assert_eq!(number_with(&[], &[], 3, 1), 6);
}

#[test]
fn seats_are_1_to_8_strictly_rising() {
    let all: Vec<[u8; 3]> = (1..=8).map(|seat| [seat, 99, 1]).collect();
    assert_eq!(number(&book(&all, &[])), 0);
    for seats in [&[0][..], &[9], &[2, 1], &[1, 1], &[1, 3, 2], &[1, 2, 3, 4, 5, 6, 7, 8, 9]] {
        let orders: Vec<[u8; 3]> = seats.iter().map(|&seat| [seat, 1, 0]).collect();
        assert_eq!(number(&book(&orders, &[])), 6, "{seats:?}");
    }
}

#[test]
fn tenants_are_1_to_99_and_options_are_0_or_1() {
    for (tenant, options, expected) in [(1, 0, 0), (99, 1, 0), (0, 0, 6), (100, 0, 6), (1, 2, 6), (1, 255, 6)] {
        assert_eq!(number(&book(&[[1, tenant, options]], &[])), expected, "{tenant} {options}");
    }
}

#[test]
fn listed_names_are_folded_names_of_1_to_62() {
    let longest = "x".repeat(58) + ".com";
    for (name, expected) in [("c", 0), (&longest[..], 0), ("9.a", 0)] {
        assert_eq!(number(&book(&[], &[name])), expected, "{name}");
    }
    for name in ["", "Com", "a..b", "-a", "a.1", "a_b", &format!("x{longest}")] {
        assert_eq!(number(&book(&[], &[name])), 6, "{name}");
    }
}

#[test]
fn names_rise_strictly_in_byte_order() {
    assert_eq!(number(&book(&[], &["co", "co-x", "co.uk", "co0", "com", "d", "uk"])), 0);
    for names in [["com", "co"], ["co", "co"], ["co.uk", "co-x"], ["co0", "co.uk"], ["d", "com"]] {
        assert_eq!(number(&book(&[], &names)), 6, "{names:?}");
    }
}
