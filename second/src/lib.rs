//! A second opinion on the plan judge: the judge itself, and beside it what both judges are tried with.

pub mod judge;
pub mod testing;

pub use judge::candidate::read_candidate;
pub use judge::differences::{terms, Difference};
pub use judge::judging::{check_cycle, judge, report, show};
pub use judge::reading::{read_text, Base, Body, Line, Literal, Statement, Use, Used, Weighted};
pub use judge::refusal::{Refusal, Verdict};
pub use judge::timetable::time;
pub use testing::describing::{describe, describe_candidate};
