//! "Numbers given back": the refusals with the document's numbers, and the answer of a call.

/// The first that applies is the one given.
#[derive(Clone, Copy, Debug, PartialEq, Eq)]
#[repr(u8)]
pub enum Refusal {
    /// output room below 4,106 bytes
    Room = 1,
    /// table of another length, or unsound
    Table = 2,
    /// frame that cannot be read
    Frame = 3,
    /// seat not let, tab or process not live, network id not 0
    Sender = 4,
    /// a key code not named in the rules
    Key = 5,
    /// unsound book
    Book = 6,
    /// suffix not acceptable
    Suffix = 7,
    /// ten tabs live
    TenTabs = 8,
    /// opens is 65,535
    Opens = 9,
    /// result or document that no such tab waits for
    NotAwaited = 10,
}

/// What a call gives back: the number (0 done, 1..=10 refused), the count of actions, the count of bytes written.
#[derive(Clone, Copy, Debug, PartialEq, Eq)]
pub struct Answer {
    pub number: u8,
    pub actions: usize,
    pub bytes: usize,
}

impl Answer {
    /// "0 is done, with the count of actions and of bytes written."
    pub(crate) fn done(actions: usize, bytes: usize) -> Answer {
        Answer { number: 0, actions, bytes }
    }

    /// "A refusal reports both counts 0."
    pub(crate) fn refused(refusal: Refusal) -> Answer {
        Answer { number: refusal as u8, actions: 0, bytes: 0 }
    }
}
