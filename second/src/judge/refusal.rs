//! What the judge answers: an acceptance with a length, or a refusal.

/// A refusal: document 01's number and the place that goes with it.
#[derive(Clone, Copy, Debug, PartialEq, Eq)]
pub struct Refusal {
    pub number: u32,
    pub place: u32,
}

/// The judge's answer.
#[derive(Clone, Copy, Debug, PartialEq, Eq)]
pub enum Verdict {
    Accepted(u32),
    Refused(Refusal),
}

// A refusal from a number and a position in a slice.
pub fn refusal(number: u32, place: usize) -> Refusal {
    Refusal { number, place: place as u32 }
}
