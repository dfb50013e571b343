//! Plays each call on both sides and holds the outcomes against each other; counts what was seen.
use crate::call::{by_reference, Call, Library, Outcome};
use crate::lend::Side;
use std::collections::BTreeMap;

/// A call on which the two sides differ.
pub struct Difference {
    pub call: Call,
    pub side: Side,
    pub wanted: Outcome,
    pub got: Outcome,
}

pub type Checked<T> = Result<T, Box<Difference>>;

/// What a run has covered.
#[derive(Default)]
pub struct Seen {
    pub calls: u64,
    /// How often each number was given, by starts and by steps.
    pub starts: [u64; 11],
    pub steps: [u64; 11],
    pub actions: u64,
    /// How often each kind of damage was laid on a table, and how often that was answered 2.
    pub damage: BTreeMap<&'static str, (u64, u64)>,
}

impl Seen {
    pub fn add(&mut self, other: &Seen) {
        self.calls += other.calls;
        self.actions += other.actions;
        for n in 0..11 {
            self.starts[n] += other.starts[n];
            self.steps[n] += other.steps[n];
        }
        for (kind, (laid, refused)) in &other.damage {
            let sum = self.damage.entry(kind).or_default();
            sum.0 += laid;
            sum.1 += refused;
        }
    }
}

pub struct Compare {
    library: Library,
    pub seen: Seen,
}

impl Compare {
    pub fn new(library: Library) -> Self {
        Compare { library, seen: Seen::default() }
    }

    /// Both sides of a call; what the reference says is given where they agree.
    pub fn check(&mut self, call: Call) -> Checked<Outcome> {
        let side = if self.seen.calls.is_multiple_of(2) { Side::High } else { Side::Low };
        let wanted = by_reference(&call);
        let got = self.library.play(&call, side);
        self.seen.calls += 1;
        if got != wanted {
            return Err(Box::new(Difference { call, side, wanted, got }));
        }
        let numbers = if call.step.is_some() { &mut self.seen.steps } else { &mut self.seen.starts };
        numbers[wanted.number()] += 1;
        self.seen.actions += wanted.actions();
        Ok(wanted)
    }

    /// What both say where they differ on the call, laid at this side.
    pub fn differs(&mut self, call: &Call, side: Side) -> Option<(Outcome, Outcome)> {
        let (wanted, got) = (by_reference(call), self.library.play(call, side));
        (wanted != got).then_some((wanted, got))
    }
}
