//! The desk log program against the reference on generated recordings.
//!   recordings PROGRAM [SEED [RECORDINGS [--as-found]]]
//! A recording that differs is made small and printed; with --as-found its number is enough. The exit status is 0 only if
//! nothing differed.
use differential::books::{self, Book};
use differential::program::{hex, Program};
use differential::random::Random;
use differential::{events, view};
use std::process::ExitCode;

/// The frames of a history, and a last one that is cut in its head, cut anywhere or damaged.
fn recording(r: &mut Random, book: &Book) -> Vec<Vec<u8>> {
    let bytes = book.bytes();
    let mut table = vec![0; view::TABLE];
    reference::start(&mut table, &bytes);
    let mut frames = Vec::new();
    for _ in 0..r.below(2000) {
        let event = events::next(r, &table, &book.listed, 30);
        if event.len() >= 10 && view::number(&event[6..10]) == event.len() - 10 {
            reference::step(&mut table, &bytes, &event, &mut vec![0; 4106]);
            frames.push(event);
        }
    }
    if let Some(mut last) = frames.last().cloned() {
        match r.below(3) {
            0 => last.truncate(r.below(10)),
            1 => last.truncate(r.below(last.len())),
            _ => events::damage(r, &mut last),
        }
        frames.push(last);
    }
    frames
}

/// What the reference and the program say of a stream, where they differ.
fn differ(program: &Program, book: &[u8], frames: &[Vec<u8>]) -> Option<(String, Vec<u8>)> {
    let stream = frames.concat();
    let (want, got) = (reference::desk_log(Some(book), &stream), program.run(Some(book), &stream));
    (want.as_bytes() != got).then_some((want, got))
}

/// Frames go while the two differ, and what is left is printed.
fn report(program: &Program, book: &[u8], mut frames: Vec<Vec<u8>>) {
    let mut at = 0;
    while at < frames.len() {
        let fewer = [&frames[..at], &frames[at + 1..]].concat();
        if differ(program, book, &fewer).is_some() {
            frames = fewer;
        } else {
            at += 1;
        }
    }
    let (want, got) = differ(program, book, &frames).expect("a difference that stays");
    println!("made small: {}\nbook {}", hex(&frames.concat()), hex(book));
    println!("reference:\n{want}program:\n{}", String::from_utf8_lossy(&got));
}

fn log(program: &Program, seed: u64, streams: u64, as_found: bool) -> bool {
    let (mut lines, mut bytes) = (0, 0);
    for round in 0..streams {
        let mut r = Random::of_case(seed, round);
        let book = books::lively(&mut r);
        let image = if round % 9 == 8 { books::damaged(&mut r) } else { book.bytes() };
        let frames = recording(&mut r, &book);
        if differ(program, &image, &frames).is_some() {
            println!("desklog differs: seed {seed}, recording {round}");
            if !as_found {
                report(program, &image, frames);
            }
            return false;
        }
        lines += reference::desk_log(Some(&image), &frames.concat()).lines().count();
        bytes += frames.iter().map(Vec::len).sum::<usize>();
    }
    println!("{streams} recordings of {bytes} bytes, {lines} lines");
    lines > 0
}

fn main() -> ExitCode {
    let words: Vec<_> = std::env::args().collect();
    let number = |n: usize, otherwise| words.get(n).map_or(otherwise, |w| w.parse().expect("a number"));
    let program = Program::new(words.get(1).expect("the program's path"));
    if log(&program, number(2, 1), number(3, 100), words.get(4).is_some_and(|w| w == "--as-found")) {
        ExitCode::SUCCESS
    } else {
        ExitCode::FAILURE
    }
}
