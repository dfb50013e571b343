//! Calls on bytes that no one chose: none panics, a refusal changes nothing, and a sound table stays sound.

mod common;
use common::{book, frame, Desk};
use reference::{start, step, suffix};

/// A fixed sequence of numbers without visible order (xorshift), the same in every run.
struct Numbers(u64);

impl Numbers {
    fn below(&mut self, limit: usize) -> usize {
        self.0 ^= self.0 << 13;
        self.0 ^= self.0 >> 7;
        self.0 ^= self.0 << 17;
        (self.0 >> 11) as usize % limit
    }

    fn bytes(&mut self, longest: usize) -> Vec<u8> {
        (0..self.below(longest + 1)).map(|_| self.below(256) as u8).collect()
    }

    fn pick<T: Clone>(&mut self, items: &[T]) -> T {
        items[self.below(items.len())].clone()
    }
}

/// Party, tag and payload of messages, most of which fit.
const MESSAGES: [(u8, u8, &[u8]); 23] = [
    (1, 1, b"a"),
    (1, 1, b"\x0e"),
    (1, 1, b"\x11"),
    (1, 1, b"\x18"),
    (1, 1, b"\x19"),
    (1, 1, b""),
    (1, 2, b"x, y"),
    (1, 3, b"a.com"),
    (1, 3, b"B.com"),
    (1, 3, b"c.com"),
    (1, 3, b"www.a.com"),
    (2, 1, b"twelve bytes"),
    (2, 2, b"\0\x50www.a.com"),
    (2, 3, b"http://x"),
    (2, 4, b"\x05a.comk=v"),
    (2, 5, b"A.com"),
    (2, 5, b"b.com"),
    (3, 1, b"\0\x01\0\x01c"),
    (3, 1, b"\0\x02\0\x02c"),
    (3, 1, b"\0\x03\0\x01c"),
    (4, 1, b"\0\x01\0\x01d"),
    (4, 1, b"\0\x02\0\x02d"),
    (4, 2, b"\0\x02\0\x02d"),
];

/// An event that often fits, from a sender that often lives.
fn event(numbers: &mut Numbers) -> Vec<u8> {
    let (party, tag, payload) = numbers.pick(&MESSAGES);
    let id = match party {
        1 => 1 + numbers.below(3),
        2 => 65_536 * (1 + numbers.below(3)) + 1 + numbers.below(12),
        3 => 1 + numbers.below(4),
        _ => 0,
    };
    frame(party, id as u32, tag, payload)
}

#[test]
fn a_sound_table_stays_sound() {
    let mut numbers = Numbers(1);
    let mut answers = [0; 11];
    for _ in 0..20 {
        let mut desk = Desk::new(&[[1, 7, 1], [2, 7, 0], [3, 7, 0]], &["com"]);
        for _ in 0..300 {
            let (event, before) = (event(&mut numbers), desk.clone());
            let answer = step(&mut desk.table, &desk.book, &event, &mut desk.room);
            answers[usize::from(answer.number)] += 1;
            if answer.number != 0 {
                assert!(desk.table == before.table && desk.room == before.room);
            }
        }
    }
    assert_eq!(answers[2], 0);
    for number in [0, 3, 4, 5, 7, 8, 10] {
        assert!(answers[number] > 0, "{number} never given: {answers:?}");
    }
}

#[test]
fn a_byte_changed_in_a_table_is_refused_or_served() {
    let mut numbers = Numbers(2);
    let mut desk = Desk::new(&[[1, 7, 1], [2, 7, 0], [3, 7, 0]], &["com"]);
    for _ in 0..200 {
        let event = event(&mut numbers);
        step(&mut desk.table, &desk.book, &event, &mut desk.room);
    }
    for place in 0..desk.table.len() {
        let mut changed = desk.clone();
        changed.table[place] ^= 1 << numbers.below(8);
        let before = changed.clone();
        let answer = step(&mut changed.table, &changed.book, &event(&mut numbers), &mut changed.room);
        assert!(answer.number == 0 || changed.table == before.table && changed.room == before.room);
    }
}

#[test]
fn books_hosts_and_events_of_any_bytes_are_answered() {
    let mut numbers = Numbers(3);
    let mut desk = Desk::new(&[[1, 7, 0]], &["com"]);
    let sound = book(&[[1, 7, 0], [2, 9, 1]], &["co.uk", "com", "uk"]);
    for _ in 0..3_000 {
        let mut near = sound.clone();
        let place = numbers.below(near.len());
        near[place] = numbers.below(256) as u8;
        for book in [near, numbers.bytes(40)] {
            let before = desk.clone();
            let sound = start(&mut desk.table, &book).number == 0;
            let question = suffix(b"www.a.com", &book);
            assert_eq!(question == Err(6), !sound);
            assert!(sound || desk.table == before.table);
        }
        let answer = step(&mut desk.table, &sound, &numbers.bytes(20), &mut desk.room);
        assert!(answer.number <= 10 && answer.number != 2);
        assert_eq!(suffix(&numbers.bytes(20), &sound), Err(7));
    }
}
