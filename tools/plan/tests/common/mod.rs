//! What the tests share: plan P, texts of a few lines, and reports on them.
#![allow(dead_code)]

use plan::explain::report;
use plan::report::Report;
use plan::text::Plan;

/// Plan P of docs/RULES.md.
pub const P: &str = include_str!("../../../../examples/plan.aspif");

/// Plan P with one of its lines replaced.
pub fn p_with(old: &str, new: &str) -> String {
    let (old, new) = (format!("\n{old}\n"), format!("\n{new}\n"));
    assert_eq!(P.matches(&old).count(), 1, "{old}");
    P.replace(&old, &new)
}

/// A text of the first line, some lines, and the last one.
pub fn only(lines: &[&str]) -> String {
    format!("asp 1 0 0\n{}\n0\n", lines.join("\n"))
}

/// A text or a candidate from the other desk: each byte 10 with a 13 before it.
pub fn other_desk(text: &str) -> String {
    text.replace('\n', "\r\n")
}

/// The report on a text and a candidate.
pub fn on(text: &str, cand: &str) -> Report {
    report(&Plan::new(text.as_bytes()), cand.as_bytes())
}

/// A report's commentary as one text.
pub fn comment(report: &Report) -> String {
    report.comment.join("\n")
}

/// Random numbers, the same in each run.
pub struct Random(pub u64);

impl Random {
    /// The next number below a bound above 0.
    pub fn below(&mut self, bound: usize) -> usize {
        self.0 ^= self.0 << 13;
        self.0 ^= self.0 >> 7;
        self.0 ^= self.0 << 17;
        (self.0 >> 11) as usize % bound
    }
}
