//! Order books: sound ones, short and long, and damaged ones.
use crate::names;
use crate::random::Random;
use std::collections::BTreeSet;

pub const MOST: usize = 32768;

#[derive(Clone)]
pub struct Book {
    pub orders: Vec<[u8; 3]>,
    pub listed: Vec<Vec<u8>>,
}

impl Book {
    pub fn bytes(&self) -> Vec<u8> {
        let mut b = self.orders.concat();
        let names = b.len();
        for name in &self.listed {
            b.push(name.len() as u8);
            b.extend(name);
        }
        b.extend([0, 0, self.orders.len() as u8, 0]);
        b.extend((names as u16).to_be_bytes());
        b.extend((self.listed.len() as u16).to_be_bytes());
        b
    }
}

fn orders(r: &mut Random) -> Vec<[u8; 3]> {
    let tenants = [1, 7, 7, 99, r.between(1, 99)];
    let chance = *r.pick(&[30, 80, 100]);
    (1..=8)
        .filter(|_| r.percent(chance))
        .collect::<Vec<u8>>()
        .into_iter()
        .map(|seat| [seat, *r.pick(&tenants) as u8, u8::from(r.percent(35))])
        .collect()
}

fn listed_name(r: &mut Random) -> Vec<u8> {
    let common = ["com", "co.uk", "uk", "c", "org", "de", "co", "a.com", "z", "com.de"];
    match r.below(8) {
        0..=3 => r.pick(&common).as_bytes().to_vec(),
        4 => {
            let n = r.between(55, 62);
            names::label_of(r, n)
        }
        5 => {
            let n = *r.pick(&[3, 3, 50, 56, 58]);
            names::before(names::label_of(r, n), b"com")
        }
        _ => {
            let n = r.between(1, 12);
            names::label_of(r, n)
        }
    }
}

/// A sound book with so many listed names, or as many as fit.
pub fn with_names(r: &mut Random, count: usize) -> Book {
    let orders = orders(r);
    let mut listed = BTreeSet::new();
    let mut room = MOST - 8 - 3 * orders.len();
    for _ in 0..2 * count {
        let name = if count > 40 {
            let n = r.between(3, 8);
            names::label_of(r, n)
        } else {
            listed_name(r)
        };
        if listed.len() < count && name.len() < room && listed.insert(name.clone()) {
            room -= name.len() + 1;
        }
    }
    Book { orders, listed: listed.into_iter().collect() }
}

pub fn sound(r: &mut Random) -> Book {
    let count = match r.below(20) {
        0 => 0,
        1 => r.between(1000, 4000),
        2 => r.between(50, 400),
        _ => r.between(1, 12),
    };
    with_names(r, count)
}

/// A book to work with: all seats may be let, and something is listed.
pub fn lively(r: &mut Random) -> Book {
    loop {
        let book = sound(r);
        if !book.orders.is_empty() && !book.listed.is_empty() && book.listed.len() < 500 {
            return book;
        }
    }
}

/// A book of exactly so many bytes, sound but perhaps for its length; at least 200.
pub fn of_length(r: &mut Random, length: usize) -> Book {
    let orders = orders(r);
    let mut room = length - 8 - 3 * orders.len();
    let mut listed = BTreeSet::new();
    while room > 60 {
        let n = r.between(5, 9);
        let name = names::label_of(r, n);
        if listed.insert(name) {
            room -= n + 1;
        }
    }
    listed.insert(vec![b'z'; room - 1]);
    Book { orders, listed: listed.into_iter().collect() }
}

/// Damage to what the parts say, laid out as a book again.
fn wrong_parts(r: &mut Random, book: &mut Book) {
    let (orders, listed) = (&mut book.orders, &mut book.listed);
    let (o, n) = (r.below(orders.len().max(1)), r.below(listed.len().max(1)));
    match r.below(10) {
        0 if !orders.is_empty() => orders[o][0] = *r.pick(&[0, 9, 1, 8]),
        1 if !orders.is_empty() => orders[o][1] = *r.pick(&[0, 100, 99, 255]),
        2 if !orders.is_empty() => orders[o][2] = r.between(0, 3) as u8,
        3 if !orders.is_empty() => orders.push(orders[o]),
        4 if !listed.is_empty() => listed.insert(n, listed[n].clone()),
        5 if listed.len() > 1 => listed.swap(0, n),
        6 if !listed.is_empty() => listed[n] = names::spoiled(r, &listed[n].clone()),
        7 if !listed.is_empty() => names::in_capitals(r, &mut listed[n]),
        8 if !listed.is_empty() => {
            let length = r.between(62, 64);
            listed[n] = names::label_of(r, length);
        }
        _ => listed.push(b"zzz.zz".to_vec()),
    }
}

/// A book, damaged in its parts or in its bytes; it may be sound still.
pub fn damaged(r: &mut Random) -> Vec<u8> {
    let mut book = sound(r);
    if r.percent(50) {
        wrong_parts(r, &mut book);
        return book.bytes();
    }
    let mut b = book.bytes();
    let end = b.len();
    match r.below(7) {
        0 => b.truncate(r.below(end)),
        1 => b.insert(r.below(end), r.byte()),
        2 => drop(b.remove(r.below(end))),
        3 => b[end - 1 - r.below(8)] ^= 1 << r.below(8),
        4 => b[end - 1 - r.below(8)] = r.byte(),
        5 => b.resize(MOST + r.below(3), 0),
        _ => b[r.below(end)] = r.byte(),
    }
    b
}
