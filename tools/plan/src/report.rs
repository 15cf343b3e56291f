//! What is said about one answer: the verdict as the library gave it, and the commentary beside it.

/// A verdict with its commentary.
#[derive(Clone, Debug, Default, PartialEq, Eq)]
pub struct Report {
    pub accepted: bool,
    /// The refusal's number; 0 where accepted.
    pub number: u32,
    /// The refusal's place; where accepted the timetable's length.
    pub place: u32,
    /// Exactly the program's first line: `accepted 2 3` or `refused 8 22`.
    pub first: String,
    /// For 3 to 5, 61 to 64 and 8 in the text, for 7 in the candidate.
    pub line: Option<LineAt>,
    /// Accepted: by time, then by name.
    pub times: Vec<Time>,
    /// Accepted: the differences in force that are tight: time of x - time of y = k.
    pub tight: Vec<Edge>,
    /// The atoms of the candidate.
    pub atoms: Vec<Atom>,
    /// For 10 the differences of the negative cycle, in its order.
    pub cycle: Vec<Edge>,
    /// For 10 the sum of their bounds.
    pub sum: i64,
    pub warnings: Vec<String>,
    /// The commentary, a line each, below the first line.
    pub comment: Vec<String>,
}

/// A place in a line: the line's number from 1, the line, and the column from 1 in characters of `text`.
#[derive(Clone, Debug, Default, PartialEq, Eq)]
pub struct LineAt {
    pub number: usize,
    pub text: String,
    pub column: usize,
}

/// A name with its time, and the time less that of the numeric term 0 where that is a name.
#[derive(Clone, Debug, Default, PartialEq, Eq)]
pub struct Time {
    pub term: u32,
    pub name: String,
    pub time: u32,
    pub since_zero: Option<i64>,
}

/// An atom with its name.
#[derive(Clone, Debug, Default, PartialEq, Eq)]
pub struct Atom {
    pub atom: u32,
    pub name: String,
}

/// A difference x - y <= k: its theory atom, and the number of the line that states it.
#[derive(Clone, Debug, Default, PartialEq, Eq)]
pub struct Edge {
    pub atom: u32,
    pub name: String,
    pub x: String,
    pub y: String,
    pub k: i64,
    pub line: usize,
}
