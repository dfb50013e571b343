//! What is printed: a difference with all that is needed to see it again, and what a run has covered.
use crate::compare::{Difference, Seen};
use crate::damage::KINDS;
use crate::program::hex;

/// The bytes that are not 0, each stretch with its place.
fn stretches(bytes: &[u8]) -> String {
    let mut text = String::new();
    let mut at = 0;
    while at < bytes.len() {
        let end = at + bytes[at..].iter().take_while(|b| **b != 0).count();
        if end > at {
            text += &format!(" {at}:{}", hex(&bytes[at..end]));
        }
        at = end + 1;
    }
    text
}

fn first_difference(what: &str, wanted: &[u8], got: &[u8]) {
    if let Some(at) = (0..wanted.len().max(got.len())).find(|i| wanted.get(*i) != got.get(*i)) {
        println!("  {what} from byte {at} on: reference {:02x?}", &wanted[at..wanted.len().min(at + 16)]);
        println!("  {what} from byte {at} on: library   {:02x?}", &got[at..got.len().min(at + 16)]);
    }
}

fn answer(packed: u64) -> String {
    format!("{} with {} actions of {} bytes ({packed:#x})", packed & 0xff, packed >> 8 & 0xff, packed >> 16)
}

pub fn difference(seed: u64, case: u64, d: &Difference) {
    println!("the library and the reference differ: --seed {seed} --case {case}; the call:");
    println!(
        "  {} bytes lent, flush with the page {:?}",
        if d.call.step.is_some() { "step," } else { "start," },
        d.side
    );
    println!("  table of {} bytes:{}", d.call.table.len(), stretches(&d.call.table));
    println!("  book of {} bytes: {}", d.call.book.len(), hex(&d.call.book));
    if let Some(step) = &d.call.step {
        println!("  event of {} bytes: {}", step.event.len(), hex(&step.event));
        println!("  room of {} bytes", step.room.len());
    }
    println!("  answer: reference {}", answer(d.wanted.answer));
    println!("  answer: library   {}", answer(d.got.answer));
    first_difference("table", &d.wanted.table, &d.got.table);
    first_difference("room", &d.wanted.room, &d.got.room);
    if !d.got.in_bounds {
        println!("  the library wrote beside what it was lent, or what it was lent to read");
    }
}

/// What was covered; false where a number or a kind of damage was never seen, so that the run shows less than it should.
pub fn coverage(seen: &Seen) -> bool {
    println!("answers 0 to 10 of starts: {:?}", seen.starts);
    println!("answers 0 to 10 of steps:  {:?}", seen.steps);
    let mut all = [0, 2, 6].iter().all(|n| seen.starts[*n] > 0) && seen.steps.iter().all(|n| *n > 0);
    for (kind, _) in KINDS {
        let (laid, refused) = seen.damage.get(kind).copied().unwrap_or_default();
        println!("damage: {kind}: {laid} laid, {refused} answered 2");
        all &= refused > 0;
    }
    println!(
        "{} calls compared, {} of them done, with {} actions",
        seen.calls,
        seen.starts[0] + seen.steps[0],
        seen.actions
    );
    all
}
