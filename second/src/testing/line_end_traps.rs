//! Texts and candidates whose lines end in 13 10, or not all alike: what each is answered, and what is shown for it.

use super::line_ends::returned;
use super::vectors::PLAN;
use crate::judge::refusal::Refusal;

/// A text and a candidate, the refusal if they get one, and what is shown for it.
pub struct Answered {
    pub name: &'static str,
    pub text: Vec<u8>,
    pub cand: Vec<u8>,
    pub refusal: Option<Refusal>,
    pub shown: &'static str,
}

// A name, some bytes, the number and place of the refusal if there is one, and what is shown for it.
type Row = (&'static str, &'static str, Option<(u32, u32)>, &'static str);

// Whole texts; the candidate is empty.
const TEXTS: &[Row] = &[
    // The first line.
    ("ends-first-cut", "asp 1 0 0\r", Some((3, 9)), "\r"),
    ("ends-first-alone", "asp 1 0 0\r\n", Some((3, 11)), ""),
    ("ends-first-two-13", "asp 1 0 0\r\r\n0\r\n", Some((3, 9)), "\r"),
    ("ends-first-byte", "asp 1 0 0\rx\r\n0\r\n", Some((3, 9)), "\rx"),
    ("ends-first-13-alone", "asp 1 0 0\r0\r", Some((3, 9)), "\r0\r"),
    ("ends-first-short", "asp 1 0\r\n0\r\n", Some((3, 7)), ""),
    ("ends-first-tag", "asp 1 0 0 incremental\r\n0\r\n", Some((4, 9)), " incremental"),
    ("ends-first-space", "asp 1 0 0 \r\n0\r\n", Some((4, 9)), " "),
    ("ends-first-other", "asp 1 0 1\r\n0\r\n", Some((3, 8)), "1"),
    ("ends-first-none", "\r\nasp 1 0 0\r\n0\r\n", Some((3, 0)), ""),
    ("ends-first-unlike", "xx\r\r\n", Some((3, 0)), "xx\r"),
    ("ends-first-10-then-13-10", "asp 1 0 0\n1 1 1 1 0 0\r\n0\r\n", Some((3, 21)), "\r"),
    ("ends-first-13-10-then-10", "asp 1 0 0\r\n1 1 1 1 0 0\n0\n", Some((3, 22)), ""),
    // The line `0`.
    ("ends-last", "asp 1 0 0\r\n0\r\n", None, ""),
    ("ends-last-cut", "asp 1 0 0\r\n0\r", Some((3, 11)), "0\r"),
    ("ends-last-bare", "asp 1 0 0\r\n0", Some((3, 12)), ""),
    ("ends-last-10", "asp 1 0 0\r\n0\n", Some((3, 12)), ""),
    ("ends-last-13-10", "asp 1 0 0\n0\r\n", Some((3, 11)), "\r"),
    ("ends-last-two-13", "asp 1 0 0\r\n0\r\r\n", Some((3, 11)), "0\r"),
    ("ends-last-behind", "asp 1 0 0\r\n0\r\n\n", Some((3, 14)), ""),
    ("ends-last-behind-13-10", "asp 1 0 0\r\n0\r\n\r\n", Some((3, 14)), ""),
    ("ends-last-behind-13", "asp 1 0 0\n0\n\r", Some((3, 12)), "\r"),
    // Fields: they end at either line end, and hold a 13 without a 10 after it.
    ("ends-field-beyond", "asp 1 0 0\n1 0 1 5000\r\n0\n", Some((5, 16)), "5000\r"),
    ("ends-field-not-carried", "asp 1 0 0\n2\r\n0\n", Some((4, 10)), "2\r"),
    ("ends-field-form", "asp 1 0 0\n1 0 0 0 01\r\n0\n", Some((3, 18)), "01\r"),
    ("ends-field-right", "asp 1 0 0\n1 0 0 0 0\r\n0\n", Some((3, 19)), "\r"),
    ("ends-field-beyond-10", "asp 1 0 0\r\n1 0 1 5000\n0\r\n", Some((5, 17)), "5000"),
    ("ends-field-form-10", "asp 1 0 0\r\n1 0 0 0 x\n0\r\n", Some((3, 19)), "x"),
    ("ends-field-13", "asp 1 0 0\r\n1 0 1\r 1 0 0\r\n0\r\n", Some((3, 15)), "1\r 1 0 0"),
    ("ends-field-13-first", "asp 1 0 0\r\n1 0 \r1 1 0 0\r\n0\r\n", Some((3, 15)), "\r1 1 0 0"),
    ("ends-field-13-inside", "asp 1 0 0\r\n9 0 1 4\r0\r\n0\r\n", Some((3, 17)), "4\r0"),
    ("ends-field-13-last", "asp 1 0 0\r\n1 0 0 0 0\r\r\n0\r\n", Some((3, 19)), "0\r"),
    ("ends-field-13-cut", "asp 1 0 0\r\n1 0 0 0 0\r", Some((3, 19)), "0\r"),
    ("ends-field-13-beyond", "asp 1 0 0\n1 0 1 5000\rx\n0\n", Some((3, 16)), "5000\rx"),
    ("ends-field-empty", "asp 1 0 0\r\n\r\n0\r\n", Some((3, 11)), ""),
    ("ends-field-empty-last", "asp 1 0 0\r\n1 0 0 0 \r\n0\r\n", Some((3, 19)), ""),
    ("ends-field-space-last", "asp 1 0 0\r\n1 0 0 0 0 \r\n0\r\n", Some((3, 20)), " "),
    ("ends-field-missing", "asp 1 0 0\r\n1 0 0 0 1\r\n0\r\n", Some((3, 20)), ""),
    ("ends-field-minus", "asp 1 0 0\r\n1 0 0 0 1 -\r\n0\r\n", Some((3, 21)), "-"),
    // Comments: 13 is a part but right before such a line end.
    ("ends-comment-10", "asp 1 0 0\n10 a\r\n0\n", None, ""),
    ("ends-comment-13", "asp 1 0 0\r\n10 a\r\r\n0\r\n", None, ""),
    ("ends-comment-13-inside", "asp 1 0 0\r\n10 a\rb\r\n0\r\n", None, ""),
    ("ends-comment-13-only", "asp 1 0 0\r\n10 \r\r\n0\r\n", None, ""),
    ("ends-comment-empty", "asp 1 0 0\r\n10 \r\n0\r\n", None, ""),
    ("ends-comment-other", "asp 1 0 0\r\n10 a\n0\r\n", Some((3, 15)), ""),
    ("ends-comment-other-empty", "asp 1 0 0\r\n10 \n0\r\n", Some((3, 14)), ""),
    ("ends-comment-bare", "asp 1 0 0\r\n10\r\n0\r\n", Some((3, 13)), ""),
    ("ends-comment-13-for-space", "asp 1 0 0\r\n10\ra\r\n0\r\n", Some((3, 11)), "10\ra"),
    ("ends-comment-cut", "asp 1 0 0\r\n10 a\r", Some((3, 16)), ""),
    ("ends-comment-zero", "asp 1 0 0\r\n10 a\r\0\r\n0\r\n", Some((3, 16)), "\0"),
    // Strings: they take 13 like any byte.
    ("ends-string-short", "asp 1 0 0\r\n9 1 0 3 ab\r\n0\r\n", Some((3, 22)), ""),
    ("ends-string-shorter", "asp 1 0 0\r\n9 1 0 4 ab\r\n0\r\n", Some((3, 22)), ""),
    ("ends-string-13", "asp 1 0 0\r\n9 1 0 3 ab\r\r\n0\r\n", None, ""),
    ("ends-string-13-inside", "asp 1 0 0\r\n9 1 0 3 a\rb\r\n0\r\n", None, ""),
    ("ends-string-right", "asp 1 0 0\r\n9 1 0 2 ab\r\n0\r\n", None, ""),
    ("ends-string-behind", "asp 1 0 0\r\n9 1 0 2 ab\rx\r\n0\r\n", Some((3, 21)), "\rx"),
    ("ends-string-other", "asp 1 0 0\r\n9 1 0 2 ab\n0\r\n", Some((3, 21)), ""),
    ("ends-string-empty", "asp 1 0 0\r\n9 1 0 0 \r\n0\r\n", None, ""),
    ("ends-string-no-space", "asp 1 0 0\r\n9 1 0 0\r\n0\r\n", Some((3, 18)), ""),
    ("ends-string-10-text", "asp 1 0 0\n9 1 0 3 ab\r\n0\n", None, ""),
    ("ends-string-10-text-behind", "asp 1 0 0\n9 1 0 2 ab\r\n0\n", Some((3, 20)), "\r"),
    ("ends-string-output", "asp 1 0 0\r\n4 1 \r 0\r\n0\r\n", None, ""),
    ("ends-string-output-cut", "asp 1 0 0\r\n4 1 a\r\n0\r\n", Some((3, 16)), ""),
    ("ends-string-output-13", "asp 1 0 0\r\n4 2 a\r\n0\r\n", Some((3, 17)), ""),
];

// Candidates for the text of no statements.
const CANDIDATES: &[Row] = &[
    ("ends-cand-empty", "\r\n", None, ""),
    ("ends-cand-cut", "1\r", Some((7, 0)), "1\r"),
    ("ends-cand-13", "\r", Some((7, 0)), "\r"),
    ("ends-cand-13-first", "\r1\n", Some((7, 0)), "\r1"),
    ("ends-cand-13-inside", "1\rx\n", Some((7, 0)), "1\rx"),
    ("ends-cand-13-for-space", "1\r2\r\n", Some((7, 0)), "1\r2"),
    ("ends-cand-13-before-space", "1\r 2\n", Some((7, 0)), "1\r 2"),
    ("ends-cand-two-13", "1 2\r\r\n", Some((7, 2)), "2\r"),
    ("ends-cand-behind", "\r\n\n", Some((7, 2)), ""),
    ("ends-cand-behind-13-10", "1\r\n\r\n", Some((7, 3)), ""),
    ("ends-cand-behind-10", "1\n\r\n", Some((7, 2)), "\r"),
    ("ends-cand-behind-13", "1\r\n\r", Some((7, 3)), "\r"),
    ("ends-cand-next-line", "1\r\n2\n", Some((7, 3)), "2"),
    ("ends-cand-space", "1 \r\n", Some((7, 2)), ""),
    ("ends-cand-order", "3 1\r\n", Some((7, 2)), "1"),
    ("ends-cand-beyond", "4097\r\n", Some((7, 0)), "4097"),
];

// Candidates for plan P with lines that end in 13 10.
const OF_PLAN: &[Row] = &[
    ("ends-P", "1 2 3\n", None, ""),
    ("ends-P-both", "1 2 3\r\n", None, ""),
    ("ends-P-cand", "1 2 3\r", Some((7, 4)), "3\r"),
    ("ends-P-broken", "1 3\n", Some((8, 24)), "1 0 1 2 0 1 1"),
    ("ends-P-broken-both", "1 3\r\n", Some((8, 24)), "1 0 1 2 0 1 1"),
    ("ends-P-broken-empty", "\r\n", Some((8, 39)), "1 0 1 3 0 0"),
    ("ends-P-unfounded", "2 3\r\n", Some((9, 2)), ""),
];

// What a row says of a text and a candidate.
fn answered(text: &[u8], cand: &str, (name, _, refusal, shown): &Row) -> Answered {
    let refusal = refusal.map(|(number, place)| Refusal { number, place });
    Answered { name, text: text.to_vec(), cand: cand.into(), refusal, shown }
}

/// The texts, each with the empty candidate.
pub fn texts() -> Vec<Answered> {
    TEXTS.iter().map(|row| answered(row.1.as_bytes(), "\n", row)).collect()
}

/// The candidates, each with the text of no statements or with plan P.
pub fn candidates() -> Vec<Answered> {
    let plan = returned(PLAN.as_bytes());
    let of_nothing = CANDIDATES.iter().map(|row| answered(b"asp 1 0 0\n0\n", row.1, row));
    of_nothing.chain(OF_PLAN.iter().map(|row| answered(&plan, row.1, row))).collect()
}
