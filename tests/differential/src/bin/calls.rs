//! The static library against the reference, on generated calls. Answer, counts, table and whole room are compared at each.
//!   calls [--seed N] [--calls N] [--threads N] [--case N] [--heap] [--as-found]
//! Each thread plays its own cases until the calls are made; --case plays one again. --heap lends memory of the heap, for
//! valgrind, instead of pages between guard pages. --as-found prints a difference at once, not made small. The exit status is 0
//! only if nothing differed and all was covered.
use differential::call::Library;
use differential::cases::CASES;
use differential::compare::{Compare, Difference, Seen};
use differential::random::Random;
use differential::{crash, report, shrink};
use std::process::ExitCode;
use std::sync::atomic::{AtomicBool, Ordering};

/// A run of fewer calls may miss something.
const HELD_TO_COVERAGE: u64 = 100_000;

#[derive(Clone, Copy)]
struct Options {
    seed: u64,
    calls: u64,
    threads: u64,
    case: Option<u64>,
    heap: bool,
    as_found: bool,
}

fn options() -> Options {
    let mut o = Options { seed: 1, calls: 1_000_000, threads: 2, case: None, heap: false, as_found: false };
    let mut words = std::env::args().skip(1);
    while let Some(word) = words.next() {
        let mut number = || words.next().and_then(|w| w.parse().ok()).expect("a number after the word");
        match word.as_str() {
            "--seed" => o.seed = number(),
            "--calls" => o.calls = number(),
            "--threads" => o.threads = number(),
            "--case" => o.case = Some(number()),
            "--heap" => o.heap = true,
            "--as-found" => o.as_found = true,
            _ => panic!("unknown word {word}"),
        }
    }
    o
}

struct Failure {
    case: u64,
    difference: Box<Difference>,
}

fn play(c: &mut Compare, o: Options, case: u64) -> Result<(), Failure> {
    crash::playing(o.seed, case);
    let kind = CASES[(case % CASES.len() as u64) as usize];
    kind(c, &mut Random::of_case(o.seed, case)).map_err(|difference| Failure { case, difference })
}

/// A thread's cases: its own number, and from there on every so many-th.
fn work(o: Options, first: u64, stop: &AtomicBool) -> (Seen, Option<Failure>) {
    let mut c = Compare::new(if o.heap { Library::heap() } else { Library::fenced() });
    let mut case = o.case.unwrap_or(first);
    let share = o.calls.div_ceil(o.threads);
    while c.seen.calls < share && !stop.load(Ordering::Relaxed) {
        if let Err(mut failure) = play(&mut c, o, case) {
            stop.store(true, Ordering::Relaxed);
            if !o.as_found {
                shrink::shrink(&mut c, &mut failure.difference);
            }
            return (c.seen, Some(failure));
        }
        if o.case.is_some() {
            break;
        }
        case += o.threads;
    }
    (c.seen, None)
}

fn main() -> ExitCode {
    let o = options();
    crash::watch();
    let stop = AtomicBool::new(false);
    let done: Vec<_> = std::thread::scope(|scope| {
        let stop = &stop;
        let threads: Vec<_> = (0..o.threads).map(|n| scope.spawn(move || work(o, n, stop))).collect();
        threads.into_iter().map(|t| t.join().expect("a thread of the test")).collect()
    });
    let mut all = Seen::default();
    done.iter().for_each(|(seen, _)| all.add(seen));
    if let Some(failure) = done.iter().find_map(|(_, f)| f.as_ref()) {
        let how = if o.as_found { "as it was found" } else { "made small" };
        println!("after {} calls; the call below is {how}:", all.calls);
        report::difference(o.seed, failure.case, &failure.difference);
        return ExitCode::FAILURE;
    }
    let covered = report::coverage(&all) || all.calls < HELD_TO_COVERAGE;
    if !covered {
        println!("not all was covered: a number or a kind of damage above was never seen");
    }
    if covered {
        ExitCode::SUCCESS
    } else {
        ExitCode::FAILURE
    }
}
