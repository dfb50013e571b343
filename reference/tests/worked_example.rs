//! The worked example of document 01, line by line.

mod common;
use common::{book, key, open, result, retrieve, tab_id};

const LOG: &str = "\
E 1 0 4
A 5 1 3 6 65612e636f6d
A 5 65537 1 0 -
A 2 65537 1 5 612e636f6d
A 1 1 1 5 612e636f6d
E 2 0 1
A 3 1 2 13 000100017777772e612e636f6d
E 3 0 4
A 5 2 3 6 07612e636f6d
A 5 131073 1 0 -
A 2 131073 1 5 612e636f6d
A 1 2 1 5 612e636f6d
E 4 10 0
E 5 0 1
A 2 65537 7 3 6b3d76
E 6 0 3
A 5 65537 2 0 -
A 5 1 4 0 -
A 1 1 1 0 -
";

#[test]
fn the_log_is_the_one_printed_in_document_01() {
    let book = book(&[[1, 7, 1], [2, 7, 0]], &["com"]);
    let tab = tab_id(1, 1);
    let events = [
        open(1, "a.com"),
        retrieve(tab, "www.a.com"),
        open(2, "A.com"),
        result(2, tab, b"x"),
        result(1, tab, b"k=v"),
        key(1, 25),
    ];
    let log = reference::desk_log(Some(&book), &events.concat());
    for (number, (line, expected)) in (1..).zip(log.lines().zip(LOG.lines())) {
        assert_eq!(line, expected, "line {number}");
    }
    assert_eq!(log, LOG);
}
