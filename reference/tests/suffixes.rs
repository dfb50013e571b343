//! The suffix question.

mod common;
use common::book;
use reference::suffix;

#[test]
fn the_result_has_at_most_64_bytes() {
    let book = book(&[], &["com"]);
    let longest = "x".repeat(60) + ".com";
    assert_eq!(suffix(longest.as_bytes(), &book), Ok(longest.as_bytes()));
    let host = format!("www.{longest}");
    assert_eq!(suffix(host.as_bytes(), &book), Ok(longest.as_bytes()));
    assert_eq!(suffix(format!("x{longest}").as_bytes(), &book), Err(7));
}

#[test]
fn the_longest_listed_name_decides_even_if_it_fails() {
    let listed = "x".repeat(58) + ".com";
    let book = book(&[], &["com", &listed]);
    assert_eq!(suffix(format!("a.{listed}").as_bytes(), &book), Ok(format!("a.{listed}").as_bytes()));
    assert_eq!(suffix(format!("abc.{listed}").as_bytes(), &book), Err(7));
    assert_eq!(suffix(listed.as_bytes(), &book), Err(7));
}

#[test]
fn the_answer_is_the_hosts_own_bytes() {
    let book = book(&[], &["co.uk", "uk"]);
    let host = b"WWW.b.Co.UK";
    let part = suffix(host, &book).unwrap();
    assert_eq!(part, b"b.Co.UK");
    assert_eq!(part.as_ptr(), host[4..].as_ptr());
}

#[test]
fn an_unsound_book_is_refused_first() {
    assert_eq!(suffix(b"", &[]), Err(6));
    assert_eq!(suffix(b"a.com", &[0; 7]), Err(6));
    assert_eq!(suffix(b"-", &[0; 9]), Err(6));
    assert_eq!(suffix(b"-", &[0; 8]), Err(7));
}

#[test]
fn a_malformed_host_or_one_that_nothing_fits_is_refused() {
    let book = book(&[], &["com"]);
    for host in ["", "com", ".com", "a..com", "a-.com", "acom", "a.org", "a.com.", "a_b.com"] {
        assert_eq!(suffix(host.as_bytes(), &book), Err(7), "{host}");
    }
    let labels = format!("{0}.{0}.{0}.", "x".repeat(63));
    for (length, expected) in [(253, Ok(&b"z.com"[..])), (254, Err(7))] {
        let host = labels.clone() + &"y".repeat(length - labels.len() - 6) + ".z.com";
        assert_eq!((host.len(), suffix(host.as_bytes(), &book)), (length, expected));
    }
}
