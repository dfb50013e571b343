//! The suffix question, as the program asksuffix answers it, against the reference on generated books and hosts.
//!   hosts PROGRAM [SEED [HOSTS]]     at least so many hosts
//! The exit status is 0 only if nothing differed and a suffix was given often enough.
use differential::program::{hex, Program};
use differential::random::Random;
use differential::{books, names};
use std::process::ExitCode;

fn host(r: &mut Random, listed: &[Vec<u8>]) -> Vec<u8> {
    let base = if listed.is_empty() { b"com".to_vec() } else { r.pick(listed).clone() };
    match r.below(40) {
        0 => Vec::new(),
        1 => {
            let n = *r.pick(&[1, 2, 63, 64, 253, 254, 300, 65535]);
            r.bytes(n)
        }
        2 => base,
        3..=9 => {
            let name = names::under(r, &base);
            names::spoiled(r, &name)
        }
        10..=13 => {
            let n = r.between(61, 66).saturating_sub(base.len() + 1).clamp(1, 64);
            let name = names::before(names::label_of(r, n), &base);
            if r.percent(50) {
                name
            } else {
                names::before(names::label(r), &name)
            }
        }
        14 => names::label(r),
        _ => names::under(r, &base),
    }
}

fn laid_out(hosts: &[Vec<u8>]) -> Vec<u8> {
    hosts.iter().flat_map(|h| [&(h.len() as u16).to_be_bytes()[..], h].concat()).collect()
}

fn wanted(book: Option<&[u8]>, host: &[u8]) -> String {
    match reference::suffix(host, book.unwrap_or_default()) {
        Ok(part) => format!("0 {}\n", hex(part)),
        Err(number) => format!("{number} -\n"),
    }
}

/// What the program says, line by line, the line feed with each.
fn said(program: &Program, book: Option<&[u8]>, hosts: &[Vec<u8>]) -> Vec<String> {
    let out = program.run(book, &laid_out(hosts));
    String::from_utf8_lossy(&out).split_inclusive('\n').map(str::to_owned).collect()
}

/// The book of a round: sound, damaged, too long or missing.
fn any_book(r: &mut Random, round: u64) -> (Option<Vec<u8>>, Vec<Vec<u8>>) {
    let book = if round.is_multiple_of(10) { books::with_names(r, 3000) } else { books::sound(r) };
    match round % 8 {
        5 => (Some(books::damaged(r)), book.listed),
        6 => (Some([book.bytes(), vec![0; books::MOST]].concat()), book.listed),
        7 if round % 16 == 7 => (None, book.listed),
        _ => (Some(book.bytes()), book.listed),
    }
}

/// Bytes of a host go while the answers differ.
fn small_host(program: &Program, book: Option<&[u8]>, mut host: Vec<u8>) -> Vec<u8> {
    let mut at = 0;
    while at < host.len() {
        let mut fewer = host.clone();
        fewer.remove(at);
        if said(program, book, std::slice::from_ref(&fewer)) != [wanted(book, &fewer)] {
            host = fewer;
        } else {
            at += 1;
        }
    }
    host
}

fn ask(program: &Program, seed: u64, least: usize) -> bool {
    let (mut asked, mut given, mut round) = (0, 0, 0);
    while asked < least {
        let mut r = Random::of_case(seed, round);
        let (book, listed) = any_book(&mut r, round);
        let book = book.as_deref();
        let hosts: Vec<_> = (0..1000).map(|_| host(&mut r, &listed)).collect();
        let want: Vec<_> = hosts.iter().map(|h| wanted(book, h)).collect();
        let got = said(program, book, &hosts);
        if got != want {
            let n = (0..hosts.len()).find(|n| got.get(*n) != want.get(*n)).unwrap_or(0);
            let small = small_host(program, book, hosts[n].clone());
            println!("asksuffix differs: seed {seed}, round {round}, host {n}: {}", hex(&hosts[n]));
            println!("  reference {:?}, program {:?}; {} lines of {}", want.get(n), got.get(n), got.len(), want.len());
            println!("  made small: host {}, book {:?}", hex(&small), book.map(hex));
            return false;
        }
        asked += hosts.len();
        given += want.iter().filter(|l| l.starts_with('0')).count();
        round += 1;
    }
    println!("{asked} hosts under {round} books, {given} of them with a suffix");
    given * 4 > asked
}

fn main() -> ExitCode {
    let words: Vec<_> = std::env::args().collect();
    let number = |n: usize, otherwise| words.get(n).map_or(otherwise, |w| w.parse().expect("a number"));
    let program = Program::new(words.get(1).expect("the program's path"));
    if ask(&program, number(2, 1), number(3, 100_000) as usize) {
        ExitCode::SUCCESS
    } else {
        ExitCode::FAILURE
    }
}
