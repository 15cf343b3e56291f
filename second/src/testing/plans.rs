//! The judge's test vectors: pairs of a plan text and a candidate, from documents 01 and 02, the source documents and P's
//! neighbours.

use super::container::Case;
use super::generating::{candidate_of, long_text};
use super::line_end_traps;
use super::line_ends::returned;
use super::vectors::{LISTING_49, LISTING_50, PLAN};
use crate::judge::judging::{judge, report, show, CYCLE_PLACES, ROOM_BYTES};
use crate::judge::refusal::{Refusal, Verdict};
use crate::judge::timetable::time;

/// A plan text and a candidate, with a name that has no space and no line end.
#[derive(Clone, Debug, PartialEq, Eq)]
pub struct Pair {
    pub name: String,
    pub text: Vec<u8>,
    pub cand: Vec<u8>,
}

// The terms whose times are asked of each timetable.
const ASKED: u32 = 16;

// Candidates of P: right ones, then each fault.
const CANDIDATES: &[&str] = &[
    "\n", "1\n", "2\n", "3\n", "1 2\n", "1 3\n", "2 3\n", "1 2 3\n", "4\n", "1 2 3 4\n", "4096\n", "1 2 3\r\n", "",
    "1 2 3", "1 2 3 ", "1 2 3 \n", "1  2 3\n", " 1 2 3\n", "1 2 3\n\n", "1 2 3\n4\n", "3 2 1\n", "1 2 2\n", "0\n",
    "1 0\n", "4097\n", "1 2 3 4097\n", "18446744073709551617\n", "01\n", "-1\n", "1 -2\n", "x\n", "1 2 3x\n",
    "1,2,3\n", "1\t2\n", "1 2 3\r", "\n\n", "{1 2 3}\n",
];

// Neighbours of P: some lines of it, and what stands there instead; each is judged with `1 2 3`.
const CHANGES: &[(&str, &str, &str)] = &[
    // The first line and the end.
    ("incremental", "asp 1 0 0\n", "asp 1 0 0 incremental\n"),
    ("version", "asp 1 0 0\n", "asp 1 0 1\n"),
    ("no-end", "\n0\n", "\n"),
    ("end-cut", "\n0\n", "\n0"),
    ("end-space", "\n0\n", "\n0 \n"),
    ("after-end", "\n0\n", "\n0\n10 x\n"),
    ("comments", "1 1 1 1 0 0\n", "10 \n10 a comment, 0 1 2\n1 1 1 1 0 0\n10 -\n"),
    ("crlf", "1 1 1 1 0 0\n", "1 1 1 1 0 0\r\n"),
    // Statements that are not carried, or never were.
    ("minimize", "1 1 1 1 0 0\n", "1 1 1 1 0 0\n2 0 1 1 1\n"),
    ("project", "1 1 1 1 0 0\n", "1 1 1 1 0 0\n3 1 1\n"),
    ("external", "1 1 1 1 0 0\n", "5 1 0\n"),
    ("edge", "\n0\n", "\n8 0 1 1 1\n0\n"),
    ("type-11", "\n0\n", "\n11 1\n0\n"),
    ("disjunction", "1 0 1 2 0 1 1\n", "1 0 2 2 3 0 1 1\n"),
    ("directive", "9 6 3 0 1 1 2 9\n", "9 6 0 0 1 1 2 9\n"),
    // Numbers beyond their bounds.
    ("bound-1000001", "9 0 5 40\n", "9 0 5 1000001\n"),
    ("bound-1000000", "9 0 5 40\n", "9 0 5 1000000\n"),
    ("bound-least", "9 0 8 5\n", "9 0 8 -1000000\n"),
    ("bound-beyond", "9 0 8 5\n", "9 0 8 -1000001\n"),
    ("bound-minus-zero", "9 0 5 40\n", "9 0 5 -0\n"),
    ("head-zero", "1 0 1 3 0 0\n", "1 0 1 0 0 0\n"),
    ("head-4097", "1 0 1 3 0 0\n", "1 0 1 4097 0 0\n"),
    ("literal-zero", "1 0 1 2 0 1 1\n", "1 0 1 2 0 1 0\n"),
    ("literal-4097", "1 0 1 2 0 1 1\n", "1 0 1 2 0 1 -4097\n"),
    ("output-4097", "\n0\n", "\n4 1 a 1 4097\n0\n"),
    ("term-1024", "9 1 3 4 send\n", "9 1 1024 4 send\n"),
    ("tuple-minus-4", "9 2 7 1 2 3 4\n", "9 2 7 -4 2 3 4\n"),
    ("theory-4097", "9 6 3 0 1 1 2 9\n", "9 6 4097 0 1 1 2 9\n"),
    // Strings.
    ("string-short", "9 1 3 4 send\n", "9 1 3 4 sen\n"),
    ("string-long", "9 1 3 4 send\n", "9 1 3 4 sends\n"),
    ("string-empty", "9 1 3 4 send\n", "9 1 3 0 \n"),
    ("string-zero", "9 1 3 4 send\n", "9 1 3 4 se\0d\n"),
    ("string-space", "9 1 3 4 send\n", "9 1 3 4 s  d\n"),
    // What makes a difference.
    ("name-diffs", "9 1 0 4 diff\n", "9 1 0 5 diffs\n"),
    ("name-dif", "9 1 0 4 diff\n", "9 1 0 3 dif\n"),
    ("name-Diff", "9 1 0 4 diff\n", "9 1 0 4 Diff\n"),
    ("name-number", "9 1 0 4 diff\n", "9 0 0 4\n"),
    ("plus", "9 1 1 1 -\n", "9 1 1 1 +\n"),
    ("less", "9 1 2 2 <=\n", "9 1 2 1 <\n"),
    ("greater", "9 1 2 2 <=\n", "9 1 2 2 >=\n"),
    ("type-5", "9 6 3 0 1 1 2 9\n", "9 5 3 0 1 1\n"),
    ("no-element", "9 6 3 0 1 1 2 9\n", "9 6 3 0 0 2 9\n"),
    ("two-elements", "9 6 3 0 1 1 2 9\n", "9 6 3 0 2 0 1 2 9\n"),
    ("wrong-name", "9 6 3 0 1 1 2 9\n", "9 6 3 1 1 1 2 9\n"),
    ("wrong-operator", "9 6 3 0 1 1 2 9\n", "9 6 3 0 1 1 1 9\n"),
    ("second-theory-atom", "9 6 3 0 1 1 2 9\n", "9 6 2 0 1 1 2 9\n"),
    ("element-unknown", "9 6 3 0 1 1 2 9\n", "9 6 3 0 1 2 2 9\n"),
    ("bound-unknown", "9 6 3 0 1 1 2 9\n", "9 6 3 0 1 1 2 77\n"),
    ("bound-string", "9 6 3 0 1 1 2 9\n", "9 6 3 0 1 1 2 3\n"),
    ("condition", "9 4 1 1 7 0\n", "9 4 1 1 7 1 1\n"),
    ("two-terms", "9 4 1 1 7 0\n", "9 4 1 2 7 7 0\n"),
    ("no-term", "9 4 1 1 7 0\n", "9 4 1 0 0\n"),
    ("one-argument", "9 4 1 1 7 0\n", "9 4 1 1 9 0\n"),
    ("no-compound", "9 4 1 1 7 0\n", "9 4 1 1 3 0\n"),
    ("element-again", "9 4 1 1 7 0\n", "9 4 0 1 7 0\n"),
    ("three-arguments", "9 2 7 1 2 3 4\n", "9 2 7 1 3 3 4 4\n"),
    ("other-base", "9 2 7 1 2 3 4\n", "9 2 7 3 2 3 4\n"),
    ("number-base", "9 2 7 1 2 3 4\n", "9 2 7 5 2 3 4\n"),
    ("tuple-base", "9 2 7 1 2 3 4\n", "9 2 7 -1 2 3 4\n"),
    ("own-argument", "9 2 7 1 2 3 4\n", "9 2 7 1 2 3 7\n"),
    ("term-again", "9 0 8 5\n", "9 0 4 5\n"),
    // Bounds: a minus on a number, which may be negative itself.
    ("negated-two", "9 2 9 1 1 8\n", "9 2 9 1 2 8 8\n"),
    ("negated-none", "9 2 9 1 1 8\n", "9 2 9 1 0\n"),
    ("negated-string", "9 2 9 1 1 8\n", "9 2 9 1 1 3\n"),
    ("negated-tuple", "9 2 9 1 1 8\n", "9 2 9 -1 1 8\n"),
    ("negated-twice", "9 6 3 0 1 1 2 9\n", "9 2 10 1 1 9\n9 6 3 0 1 1 2 10\n"),
    ("negated-negative", "9 0 8 5\n", "9 0 8 -5\n"),
    ("negated-zero", "9 0 8 5\n", "9 0 8 0\n"),
    ("negated-40", "9 0 8 5\n", "9 0 8 40\n"),
    ("negated-41", "9 0 8 5\n", "9 0 8 41\n"),
    ("bound-plain", "9 6 3 0 1 1 2 9\n", "9 6 3 0 1 1 2 8\n"),
    ("sum-zero", "9 0 5 40\n", "9 0 5 5\n"),
    ("sum-below", "9 0 5 40\n", "9 0 5 4\n"),
    ("both-below", "9 0 5 40\n", "9 0 5 -40\n"),
    // Names.
    ("same-way", "9 2 7 1 2 3 4\n", "9 2 7 1 2 4 3\n"),
    ("x-x", "9 2 7 1 2 3 4\n", "9 2 7 1 2 3 3\n"),
    ("number-name", "9 2 7 1 2 3 4\n", "9 2 7 1 2 3 8\n"),
    ("compound-name", "9 2 7 1 2 3 4\n", "9 2 7 1 2 3 9\n"),
    ("operator-name", "9 2 7 1 2 3 4\n", "9 2 7 1 2 2 0\n"),
    // Rules.
    ("negation", "1 0 1 2 0 1 1\n", "1 0 1 2 0 1 -1\n"),
    ("own-support", "1 0 1 2 0 1 1\n", "1 0 1 2 0 1 2\n"),
    ("two-literals", "1 0 1 2 0 1 1\n", "1 0 1 2 0 2 3 1\n"),
    ("choice-of-two", "1 0 1 2 0 1 1\n", "1 1 2 1 2 0 0\n"),
    ("choice-false", "1 0 1 2 0 1 1\n", "1 1 1 2 0 1 -3\n"),
    ("choice-empty", "1 0 1 2 0 1 1\n", "1 1 0 0 1 1\n"),
    ("constraint", "1 0 1 2 0 1 1\n", "1 0 0 0 1 1\n"),
    ("constraint-two", "\n0\n", "\n1 0 0 0 2 2 3\n0\n"),
    ("constraint-false", "\n0\n", "\n1 0 0 0 2 2 -3\n0\n"),
    ("constraint-empty", "\n0\n", "\n1 0 0 0 0\n0\n"),
    ("no-choice", "1 1 1 1 0 0\n", ""),
    // Weights: atom 2, which has a difference, by a weight rule; then fields that are wrong.
    ("weights", "1 0 1 2 0 1 1\n", "1 0 1 2 1 1 1 1 1\n"),
    ("weights-sum", "1 0 1 2 0 1 1\n", "1 0 1 2 1 7 2 1 3 3 4\n"),
    ("weights-above", "1 0 1 2 0 1 1\n", "1 0 1 2 1 8 2 1 3 3 4\n"),
    ("weights-one-enough", "1 0 1 2 0 1 1\n", "1 0 1 2 1 4 3 1 3 3 4 4 9\n"),
    ("weights-zero", "1 0 1 2 0 1 1\n", "1 0 1 2 1 0 0\n"),
    ("weights-largest", "1 0 1 2 0 1 1\n", "1 0 1 2 1 1000000000 2 1 100000 3 100000\n"),
    ("weights-own-support", "1 0 1 2 0 1 1\n", "1 0 1 2 1 1 1 2 1\n"),
    ("weights-own-beside", "1 0 1 2 0 1 1\n", "1 0 1 2 1 2 3 2 2 1 1 3 1\n"),
    ("weights-taken-off", "1 0 1 2 0 1 1\n", "1 0 1 2 1 3 2 -4 2 1 1\n"),
    ("weights-negated", "1 0 1 2 0 1 1\n", "1 0 1 2 1 3 2 -3 2 1 1\n"),
    ("weights-choice", "1 1 1 1 0 0\n", "1 1 1 1 1 2 2 3 1 3 1\n"),
    ("weights-constraint", "\n0\n", "\n1 0 0 1 6 3 1 1 2 2 3 3\n0\n"),
    ("weights-constraint-not", "\n0\n", "\n1 0 0 1 7 3 1 1 2 2 3 3\n0\n"),
    ("weights-kind-2", "1 0 1 2 0 1 1\n", "1 0 1 2 2 1 1 1 1\n"),
    ("weights-no-bound", "1 0 1 2 0 1 1\n", "1 0 1 2 1\n"),
    ("weights-bound-beyond", "1 0 1 2 0 1 1\n", "1 0 1 2 1 1000000001 1 1 1\n"),
    ("weights-bound-minus", "1 0 1 2 0 1 1\n", "1 0 1 2 1 -1 1 1 1\n"),
    ("weights-weight-0", "1 0 1 2 0 1 1\n", "1 0 1 2 1 1 1 1 0\n"),
    ("weights-weight-beyond", "1 0 1 2 0 1 1\n", "1 0 1 2 1 1 1 1 100001\n"),
    ("weights-weight-minus", "1 0 1 2 0 1 1\n", "1 0 1 2 1 1 1 1 -1\n"),
    ("weights-weight-missing", "1 0 1 2 0 1 1\n", "1 0 1 2 1 1 1 1\n"),
    ("weights-literal-zero", "1 0 1 2 0 1 1\n", "1 0 1 2 1 1 1 0 0\n"),
    ("weights-count-4097", "1 0 1 2 0 1 1\n", "1 0 1 2 1 1 4097\n"),
];

// Programs without differences: lines after the first and before `0`, and candidates.
const PROGRAMS: &[(&str, &str, &[&str])] = &[
    ("nothing", "", &["\n", "1\n", ""]),
    ("loop", "1 0 1 1 0 1 2\n1 0 1 2 0 1 1\n", &["\n", "1\n", "1 2\n"]),
    ("odd", "1 0 1 1 0 1 -1\n", &["\n", "1\n"]),
    ("even", "1 0 1 1 0 1 -2\n1 0 1 2 0 1 -1\n", &["\n", "1\n", "2\n", "1 2\n"]),
    ("odd-three", "1 0 1 1 0 1 -2\n1 0 1 2 0 1 -3\n1 0 1 3 0 1 -1\n", &["1\n", "1 2\n", "1 2 3\n"]),
    ("choice", "1 1 2 1 2 0 0\n1 0 1 3 0 2 1 2\n1 0 0 0 2 1 -2\n", &["\n", "1\n", "2\n", "1 2\n", "1 2 3\n", "2 3\n"]),
    ("choice-loop", "1 1 2 1 2 0 2 1 2\n", &["\n", "1 2\n"]),
    ("choice-negated", "1 1 1 1 0 1 -2\n1 1 1 2 0 1 -1\n", &["1\n", "2\n", "1 2\n"]),
    ("backwards", "1 0 1 1 0 1 2\n1 0 1 2 0 1 3\n1 0 1 3 0 1 4\n1 0 1 4 0 0\n", &["1 2 3 4\n", "2 3 4\n", "4\n"]),
    ("supported-loop", "1 0 1 1 0 1 2\n1 0 1 2 0 1 1\n1 1 1 3 0 0\n1 0 1 1 0 1 3\n", &["\n", "1 2\n", "1 2 3\n"]),
    ("far-atoms", "1 1 2 4095 4096 0 0\n1 0 0 0 1 -4096\n", &["4096\n", "4095 4096\n", "4095\n"]),
    ("bodies-repeat", "1 0 1 1 0 3 2 2 2\n1 0 1 2 0 0\n1 0 1 2 0 1 -2\n", &["1 2\n", "2\n"]),
    // At least two of five links.
    ("links", "1 1 5 1 2 3 4 5 0 0\n1 0 1 6 1 2 5 1 1 2 1 3 1 4 1 5 1\n", &["1 2 6\n", "1 2\n", "1 6\n", "\n", "1\n", "6\n", "3 5 6\n", "1 2 3 4 5 6\n", "1 2 3 4 5\n"]),
    ("weights-far", "1 1 2 4095 4096 0 0\n1 0 1 1 1 200000 2 4095 100000 4096 100000\n1 0 0 1 100000 1 -4096 100000\n", &["1 4095 4096\n", "4095 4096\n", "4096\n", "1 4096\n", "4095\n"]),
    ("weights-many", "1 1 12 1 2 3 4 5 6 7 8 9 10 11 12 0 0\n1 0 1 13 1 1100001 12 1 100000 2 100000 3 100000 4 100000 5 100000 6 100000 7 100000 8 100000 9 100000 10 100000 11 100000 12 1\n", &["1 2 3 4 5 6 7 8 9 10 11 12 13\n", "1 2 3 4 5 6 7 8 9 10 11 12\n", "1 2 3 4 5 6 7 8 9 10 11\n", "1 2 3 4 5 6 7 8 9 10 12\n", "1 2 3 4 5 6 7 8 9 10 11 13\n"]),
];

// Programs with weights, each with every set of its first atoms as a candidate.
const WEIGHTS: &[(&str, &str, u32)] = &[
    // A bound that is just reached and just not reached, one literal or all; the largest bound is never reached.
    ("weights-short", "1 1 3 1 2 3 0 0\n1 0 1 4 1 5 3 1 1 2 2 3 3\n", 4),
    ("weights-exact", "1 1 3 1 2 3 0 0\n1 0 1 4 1 6 3 1 1 2 2 3 3\n", 4),
    ("weights-above", "1 1 3 1 2 3 0 0\n1 0 1 4 1 7 3 1 1 2 2 3 3\n", 4),
    ("weights-any", "1 1 2 1 2 0 0\n1 0 1 3 1 1 2 1 1 2 100000\n", 3),
    ("weights-heavy", "1 1 2 1 2 0 0\n1 0 1 3 1 100000 2 1 99999 2 100000\n", 3),
    ("weights-largest", "1 1 2 1 2 0 0\n1 0 1 3 1 1000000000 2 1 100000 2 100000\n", 3),
    ("weights-nothing", "1 0 1 1 1 1 0\n", 1),
    // A literal twice, and with both signs.
    ("weights-twice", "1 1 1 1 0 0\n1 0 1 2 1 2 2 1 1 1 1\n", 2),
    ("weights-twice-above", "1 1 1 1 0 0\n1 0 1 2 1 3 2 1 1 1 1\n", 2),
    ("weights-twice-unlike", "1 1 1 1 0 0\n1 0 1 2 1 5 2 1 2 1 3\n", 2),
    ("weights-thrice-negated", "1 1 1 1 0 0\n1 0 1 2 1 3 3 -1 1 -1 1 -1 1\n", 2),
    ("weights-both-1", "1 1 1 1 0 0\n1 0 1 2 1 1 2 1 1 -1 2\n", 2),
    ("weights-both-2", "1 1 1 1 0 0\n1 0 1 2 1 2 2 1 1 -1 2\n", 2),
    ("weights-both-3", "1 1 1 1 0 0\n1 0 1 2 1 3 2 1 1 -1 2\n", 2),
    // Weights taken off the bound: all of it, all but one, more than it.
    ("weights-off", "1 0 1 1 1 5 2 1 5 -2 5\n", 2),
    ("weights-off-but-one", "1 0 1 1 1 6 2 1 5 -2 5\n", 2),
    ("weights-off-more", "1 0 1 1 1 5 2 1 1 -2 9\n", 2),
    ("weights-off-two", "1 1 2 1 2 0 0\n1 0 1 3 1 5 3 -1 2 -2 3 3 4\n", 3),
    ("weights-off-helped", "1 1 2 1 2 0 0\n1 0 1 3 1 4 3 -1 2 2 2 3 4\n", 3),
    // The bound 0.
    ("weights-zero", "1 0 1 1 1 0 0\n", 1),
    ("weights-zero-listed", "1 0 1 1 1 0 2 2 1 -1 1\n", 2),
    ("weights-zero-choice", "1 1 2 1 2 1 0 1 3 1\n", 3),
    ("weights-zero-constraint", "1 0 0 1 0 0\n", 1),
    // Loops.
    ("weights-loop", "1 0 1 1 1 1 2 2 1 3 1\n1 0 1 2 0 1 1\n", 3),
    ("weights-loop-choice", "1 1 1 3 0 0\n1 0 1 1 1 1 2 2 1 3 1\n1 0 1 2 0 1 1\n", 3),
    ("weights-loop-bound-2", "1 1 1 3 0 0\n1 0 1 1 1 2 2 2 1 3 1\n1 0 1 2 0 1 1\n", 3),
    ("weights-loop-weights", "1 0 1 1 1 3 2 2 3 3 1\n1 0 1 2 1 2 2 1 2 3 1\n1 1 1 3 0 0\n", 3),
    ("weights-own", "1 0 1 1 1 2 2 1 1 1 1\n", 1),
    ("weights-own-negated", "1 0 1 1 1 1 2 1 1 -1 1\n", 1),
    ("weights-odd", "1 0 1 1 1 1 1 -1 1\n", 1),
    ("weights-even", "1 0 1 1 1 2 1 -2 2\n1 0 1 2 1 1 1 -1 1\n", 2),
    // Several rounds, the last rule first.
    ("weights-backwards", "1 0 1 1 1 3 2 2 1 3 2\n1 0 1 2 1 2 2 3 2 1 1\n1 0 1 3 1 0 0\n", 3),
    ("weights-gathered", "1 0 1 1 1 4 3 2 1 3 2 1 9\n1 0 1 1 1 3 2 2 1 3 2\n1 0 1 2 0 0\n1 0 1 3 1 1 1 2 1\n", 3),
    // Choice heads and constraints.
    ("weights-choice", "1 1 2 1 2 0 0\n1 1 1 3 1 3 2 1 2 2 2\n", 3),
    ("weights-choice-own", "1 1 1 1 1 1 2 1 1 -2 1\n", 2),
    ("weights-choice-two", "1 1 1 1 0 0\n1 1 2 2 3 1 1 2 1 1 2 1\n", 3),
    ("weights-constraint", "1 1 3 1 2 3 0 0\n1 0 0 1 4 3 1 1 2 2 3 3\n", 3),
    ("weights-constraint-not", "1 1 3 1 2 3 0 0\n1 0 0 1 2 3 -1 1 -2 1 -3 1\n", 3),
    ("weights-constraint-second", "1 1 2 1 2 0 0\n1 0 0 1 3 2 1 1 2 1\n1 0 0 1 2 2 1 1 2 1\n", 2),
];

// Plans of differences: rules, then for each difference its atom, x, y and the bound; and candidates.
type Plan = (&'static str, &'static str, &'static [(u32, u32, u32, i32)], &'static [&'static str]);
const DIFFERENCES: &[Plan] = &[
    ("x-x-below", "", &[(7, 3, 3, -1)], &["7\n", "\n"]),
    ("x-x-zero", "", &[(7, 3, 3, 0)], &["7\n"]),
    (
        "chain",
        "",
        &[(1, 4, 3, -1), (2, 5, 4, -10), (3, 6, 5, -100), (4, 7, 6, -1000)],
        &["1 2 3 4\n", "1 3\n", "2 4\n", "\n"],
    ),
    ("chain-backwards", "", &[(1, 3, 4, -1), (2, 4, 5, -10), (3, 5, 6, -100), (4, 6, 7, -1000)], &["1 2 3 4\n", "4\n"]),
    ("two-ways", "", &[(1, 3, 4, -7), (2, 3, 5, -2), (3, 5, 4, -6), (4, 4, 3, 8)], &["1 2 3 4\n", "1 4\n", "2 3 4\n"]),
    ("round", "", &[(9, 3, 4, -1), (2, 4, 5, -1), (8, 5, 6, -1), (4, 6, 3, 2)], &["2 4 8 9\n", "2 8 9\n"]),
    ("round-zero", "", &[(9, 3, 4, -1), (2, 4, 5, -1), (8, 5, 6, -1), (4, 6, 3, 3)], &["2 4 8 9\n"]),
    (
        "round-beside",
        "",
        &[(1, 3, 4, -1), (2, 4, 5, -1), (3, 5, 4, 0), (5, 6, 7, -3), (6, 5, 6, -1)],
        &["1 2 3 5 6\n", "1 2 5 6\n", "1 3 5 6\n"],
    ),
    ("far", "", &[(4096, 1023, 99, -1000000), (4095, 99, 1022, -1000000)], &["4095 4096\n", "4095\n"]),
    ("same-twice", "", &[(1, 3, 4, -5), (2, 3, 4, -9)], &["1\n", "2\n", "1 2\n"]),
    ("defined", "1 1 1 5 0 0\n1 0 1 1 0 1 5\n", &[(1, 3, 4, -2)], &["\n", "1 5\n", "1\n", "5\n"]),
    ("choice-defined", "1 1 1 1 0 1 5\n1 1 1 5 0 0\n", &[(1, 3, 4, -2)], &["\n", "1 5\n", "1\n", "5\n"]),
    ("in-body", "1 0 1 5 0 1 1\n", &[(1, 3, 4, -2)], &["\n", "1 5\n", "1\n", "5\n"]),
    ("negated-in-body", "1 0 1 5 0 1 -1\n", &[(1, 3, 4, -2)], &["5\n", "1\n", "\n", "1 5\n"]),
    ("demanded", "1 0 0 0 1 -1\n", &[(1, 3, 4, -2)], &["1\n", "\n"]),
    ("external-loop", "1 0 1 5 0 1 6\n1 0 1 6 0 1 5\n1 0 1 6 0 1 1\n", &[(1, 3, 4, -2)], &["1 5 6\n", "5 6\n"]),
    ("unfounded-first", "1 0 1 5 0 1 5\n", &[(1, 3, 4, -2), (2, 4, 3, 1)], &["1 2 5\n", "1 2\n"]),
    // A difference by a weight rule; external atoms in a weight body; some of several differences demanded.
    (
        "weights-defined",
        "1 1 2 5 6 0 0\n1 0 1 1 1 2 2 5 1 6 1\n",
        &[(1, 3, 4, -2)],
        &["\n", "5\n", "5 6\n", "1 5 6\n", "1 5\n", "1\n"],
    ),
    (
        "weights-choice-defined",
        "1 1 1 5 0 0\n1 1 2 1 2 1 2 2 5 2 1 2\n",
        &[(1, 3, 4, -2), (2, 4, 5, -3)],
        &["\n", "5\n", "1 5\n", "2 5\n", "1 2 5\n", "1\n"],
    ),
    (
        "weights-external",
        "1 0 1 5 1 3 2 1 1 2 2\n",
        &[(1, 3, 4, -2), (2, 4, 5, -3)],
        &["\n", "1\n", "2\n", "1 2\n", "1 2 5\n", "2 5\n"],
    ),
    (
        "weights-external-negated",
        "1 0 1 5 1 3 2 -1 1 2 2\n",
        &[(1, 3, 4, -2), (2, 4, 5, -3)],
        &["\n", "2\n", "2 5\n", "1 2\n", "1 2 5\n"],
    ),
    ("weights-external-head", "1 1 1 1 1 1 1 9 1\n", &[(1, 3, 4, -2)], &["\n", "1\n"]),
    (
        "weights-external-loop",
        "1 0 1 5 1 2 3 6 1 1 1 7 1\n1 0 1 6 1 1 2 5 1 1 1\n",
        &[(1, 3, 4, -2)],
        &["1 5 6\n", "5 6\n", "1 6\n"],
    ),
    (
        "weights-demanded",
        "1 0 0 1 2 3 -1 1 -2 1 -3 1\n",
        &[(1, 3, 4, -2), (2, 4, 5, -3), (3, 5, 3, 4)],
        &["\n", "3\n", "1 2\n", "1 3\n", "2 3\n", "1 2 3\n"],
    ),
    (
        "weights-round",
        "1 1 3 1 2 3 0 0\n1 0 1 4 1 6 3 1 1 2 2 3 3\n",
        &[(1, 3, 4, -1), (2, 4, 5, -1), (3, 5, 6, -1), (4, 6, 3, 2)],
        &["1 2 3 4\n", "1 2 3\n", "1 2\n", "4\n"],
    ),
];

/// A text that one of 61 to 64 refuses, the refusal, and what is shown for it.
pub struct Unsound {
    pub name: &'static str,
    pub text: String,
    pub refusal: Refusal,
    pub shown: &'static str,
}

// Lines that one of 61 to 64 refuses: a name, the lines, the number and place, and what is shown.
type Faulty = (&'static str, &'static str, (u32, u32), &'static str);
const FAULTY: &[Faulty] = &[
    // Twice, also where the line uses what is undefined; a term and an element are of two countings.
    ("terms-twice", "9 0 5 7\n9 0 5 7\n", (61, 18), "9 0 5 7"),
    ("terms-twice-and-use", "9 0 5 7\n9 2 5 1 1 8\n", (61, 18), "9 2 5 1 1 8"),
    ("terms-element-twice", "9 4 3 0 0\n9 4 3 0 1 1\n", (61, 20), "9 4 3 0 1 1"),
    ("terms-element-twice-and-use", "9 4 3 0 0\n9 4 3 1 8 0\n", (61, 20), "9 4 3 1 8 0"),
    ("terms-two-countings", "9 0 3 1\n9 4 3 1 3 0\n9 5 3 3 1 3\n", (64, 30), "9 5 3 3 1 3"),
    ("terms-element-no-term", "9 4 3 0 0\n9 5 1 3 0\n", (62, 26), "3 0"),
    ("terms-term-no-element", "9 0 3 1\n9 5 1 3 1 3\n", (62, 28), "3"),
    // Uses in compounds and elements: the leftmost, by what earlier lines define.
    ("terms-t", "9 2 7 1 1 8\n", (62, 16), "1 1 8"),
    ("terms-argument", "9 0 1 5\n9 2 7 1 2 1 88\n", (62, 30), "88"),
    ("terms-own", "9 0 1 5\n9 2 7 1 1 7\n", (62, 28), "7"),
    ("terms-list", "9 2 7 -3 1 12\n", (62, 21), "12"),
    ("terms-later", "9 4 0 1 6 0\n9 0 6 1\n", (62, 18), "6 0"),
    ("terms-last-of-two", "9 0 6 1\n9 4 0 2 6 7 1 -9\n", (62, 28), "7 1 -9"),
    // Uses in theory atoms.
    ("terms-elements", "9 1 0 4 diff\n9 6 100 0 2 7 8 2 5\n", (62, 35), "7 8 2 5"),
    ("terms-operator", "9 1 0 4 diff\n9 6 100 0 0 2 5\n", (62, 35), "2 5"),
    ("terms-plain-element", "9 1 0 4 diff\n9 5 9 0 1 3\n", (62, 33), "3"),
    ("terms-plain", "9 1 0 4 diff\n9 5 9 0 0\n", (64, 23), "9 5 9 0 0"),
    // Two faults in one line, and in two.
    ("terms-no-difference-then-twice", "9 1 0 4 diff\n9 5 9 0 0\n9 1 0 4 diff\n", (64, 23), "9 5 9 0 0"),
    ("terms-twice-then-no-difference", "9 1 0 4 diff\n9 1 0 4 diff\n9 5 9 0 0\n", (61, 23), "9 1 0 4 diff"),
];

// Lines that are refused behind those of one difference; the places are counted from there.
const FAULTY_BEHIND: &[Faulty] = &[
    ("terms-name", "9 6 6 9 1 0 2 3\n", (62, 6), "9 1 0 2 3"),
    ("terms-last-of-three", "9 6 6 0 3 0 0 1 2 3\n", (62, 14), "1 2 3"),
    ("terms-operator-and-bound", "9 6 6 0 1 0 9 9\n", (62, 12), "9 9"),
    ("terms-bound", "9 6 6 0 1 0 2 9\n", (62, 14), "9"),
    ("terms-bound-many", "9 6 6 0 12 0 0 0 0 0 0 0 0 0 0 0 0 2 999\n", (62, 37), "999"),
    ("terms-second", "9 6 5 0 1 0 2 3\n", (63, 0), "9 6 5 0 1 0 2 3"),
    ("terms-second-and-use", "9 6 5 0 1 0 2 9\n", (62, 14), "9"),
    ("terms-second-no-difference", "9 5 5 0 0\n", (63, 0), "9 5 5 0 0"),
    ("terms-second-use-no-difference", "9 5 5 0 2 0 9\n", (62, 12), "9"),
    ("terms-two-elements", "9 6 6 0 2 0 0 2 3\n", (64, 0), "9 6 6 0 2 0 0 2 3"),
];

// The lines of one difference: atom 5, x and y and the bound the numeric term 3.
const DIFFERENCE: &str = "9 1 0 4 diff\n9 1 1 1 -\n9 1 2 2 <=\n9 0 3 7\n9 2 4 1 2 3 3\n9 4 0 1 4 0\n9 6 5 0 1 0 2 3\n";

// The terms of every plan of differences: 0 `diff`, 1 `-`, 2 `<=`; each other name is a string.
fn differences(rules: &str, differences: &[(u32, u32, u32, i32)]) -> String {
    let mut names: Vec<u32> = differences.iter().flat_map(|d| [d.1, d.2]).collect();
    names.sort_unstable();
    names.dedup();
    let mut lines = String::from(rules) + "9 1 0 4 diff\n9 1 1 1 -\n9 1 2 2 <=\n";
    lines.extend(names.iter().map(|n| format!("9 1 {n} 1 a\n")));
    for (i, (atom, x, y, k)) in differences.iter().enumerate() {
        let (bound, minus) = (200 + 2 * i, 201 + 2 * i);
        lines +=
            &format!("9 0 {bound} {k}\n9 2 {minus} 1 2 {x} {y}\n9 4 {i} 1 {minus} 0\n9 6 {atom} 0 1 {i} 2 {bound}\n");
    }
    text(&lines)
}

// The first line.
const FIRST_LINE: &str = "asp 1 0 0\n";

// A text with these lines between the first line and `0`.
fn text(lines: &str) -> String {
    format!("{FIRST_LINE}{lines}0\n")
}

// A pair.
fn pair(name: impl Into<String>, text: impl AsRef<[u8]>, cand: impl AsRef<[u8]>) -> Pair {
    Pair { name: name.into(), text: text.as_ref().to_vec(), cand: cand.as_ref().to_vec() }
}

// One text with several candidates; the names are numbered.
fn each(name: &str, text: &str, cands: &[impl AsRef<[u8]>]) -> Vec<Pair> {
    cands.iter().enumerate().map(|(i, c)| pair(format!("{name}-{i}"), text, c)).collect()
}

/// One text with every set of its first atoms as a candidate; the names are numbered by the sets.
pub fn every(name: &str, text: &str, atoms: u32) -> Vec<Pair> {
    let set = |bits: u32| -> Vec<u32> { (1..=atoms).filter(|a| bits >> (a - 1) & 1 == 1).collect() };
    (0..1 << atoms).map(|bits| pair(format!("{name}-{bits}"), text, candidate_of(&set(bits)))).collect()
}

// Document 01's own list.
fn document() -> Vec<Pair> {
    let q = PLAN.replace("9 0 8 5\n", "9 0 8 45\n");
    let without = PLAN.replace("1 0 1 2 0 1 1\n", "");
    let subsets = ["\n", "1\n", "2\n", "3\n", "1 2\n", "1 3\n", "2 3\n", "1 2 3\n"];
    let mut pairs = each("P", PLAN, CANDIDATES);
    pairs.extend(each("Q", &q, &subsets));
    pairs.extend(each("P-without-third", &without, &subsets));
    pairs.extend(each("empty-text", "", &["\n", "", "x"]));
    pairs
}

// An unsound text from lines in front, lines that are refused, and where places are counted from.
fn unsound_text(front: &str, (name, lines, (number, place), shown): &Faulty, from: usize) -> Unsound {
    let refusal = Refusal { number: *number, place: *place + from as u32 };
    Unsound { name, text: text(&format!("{front}{lines}")), refusal, shown }
}

/// Texts with each thing that is wrong with terms, alone or several at once.
pub fn unsound() -> Vec<Unsound> {
    let from = FIRST_LINE.len() + DIFFERENCE.len();
    let behind = FAULTY_BEHIND.iter().map(|faulty| unsound_text(DIFFERENCE, faulty, from));
    FAULTY.iter().map(|faulty| unsound_text("", faulty, 0)).chain(behind).collect()
}

// The unsound texts, plan Q and the traps with lines that end in 13 10; P with one line end of the other kind.
fn ended() -> Vec<Pair> {
    let q = returned(PLAN.replace("9 0 8 5\n", "9 0 8 45\n").as_bytes());
    let traps = line_end_traps::texts().into_iter().chain(line_end_traps::candidates());
    let mut pairs: Vec<Pair> = traps.map(|trap| pair(trap.name, trap.text, trap.cand)).collect();
    pairs.push(pair("Q-13-10", q, "1 2 3\r\n"));
    pairs.extend(unsound().iter().map(|u| pair(format!("{}-13-10", u.name), returned(u.text.as_bytes()), "\r\n")));
    pairs.extend(mixed("P-10-but", "\n", "\r\n"));
    pairs.extend(mixed("P-13-10-but", "\r\n", "\n"));
    pairs
}

// P with one line end of another kind than the others.
fn mixed(name: &str, all: &str, one: &str) -> Vec<Pair> {
    let lines: Vec<&str> = PLAN.lines().collect();
    let end = |i: usize, j: usize| if i == j { one } else { all };
    let text = |i: usize| -> String { (0..lines.len()).map(|j| lines[j].to_string() + end(i, j)).collect() };
    (0..lines.len()).map(|i| pair(format!("{name}-{i}"), text(i), "1 2 3\n")).collect()
}

// P with each line left out, doubled, and moved behind the next.
fn moved() -> Vec<Pair> {
    let lines: Vec<&str> = PLAN.split_inclusive('\n').collect();
    let with = |name: String, lines: Vec<&str>| pair(name, lines.concat(), "1 2 3\n");
    let one = |i: usize| {
        let (before, after) = (&lines[..i], &lines[i + 1..]);
        let left_out = [before, after].concat();
        let doubled = [before, &[lines[i], lines[i]], after].concat();
        let next = after.len().min(1);
        let behind = [before, &after[..next], &[lines[i]], &after[next..]].concat();
        [
            with(format!("left-out-{i}"), left_out),
            with(format!("doubled-{i}"), doubled),
            with(format!("behind-{i}"), behind),
        ]
    };
    (0..lines.len()).flat_map(one).collect()
}

// P with each change.
fn changed() -> Vec<Pair> {
    let one = |(name, from, to): &(&str, &str, &str)| {
        let at = PLAN.rfind(from).unwrap_or(0);
        pair(*name, [&PLAN[..at], to, &PLAN[at + from.len()..]].concat(), "1 2 3\n")
    };
    CHANGES.iter().map(one).collect()
}

// The refusals in their order: a plan with two faults gives the smaller number, or what is read first.
fn ordered() -> Vec<Pair> {
    let q = PLAN.replace("9 0 8 5\n", "9 0 8 45\n");
    vec![
        pair("3-before-5", text("9 0 5 -0\n9 0 6 1000001\n"), "\n"),
        pair("5-before-3", text("9 0 6 1000001\n9 0 5 -0\n"), "\n"),
        pair("4-before-3", text("2 x\n"), "\n"),
        pair("3-before-62", text("9 2 0 1 0\n") + "\n", ""),
        pair("62-before-7", text("9 2 0 1 0\n"), ""),
        pair("7-before-8", text("1 0 0 0 0\n"), "x\n"),
        pair("8-before-9", text("1 0 0 0 0\n"), "1\n"),
        pair("8-first", text("1 1 0 0 0\n10 x\n1 0 0 0 1 1\n1 0 1 2 0 0\n"), "1\n"),
        pair("9-before-10", q, "1 2 3 4\n"),
    ]
}

// Texts of the source documents, in the part that is carried.
fn published() -> Vec<Pair> {
    let slides = LISTING_50.replace("9 1 8 5 start\n", "9 1 8 3 beg\n");
    // The slides' external reading: `:- duration(T,D), not &diff { end(T)-beg(T) } <= D.`
    let external = slides.replace("1 0 1 5 0 0\n1 0 1 6 0 0\n", "1 0 0 0 2 3 -5\n1 0 0 0 2 4 -6\n");
    let mut pairs = each("listing-49", LISTING_49, &["1 2\n", "3\n", "\n", "1\n", "1 2 3\n", "2 3\n"]);
    pairs.extend(each("listing-50", LISTING_50, &["1 2 3 4 5 6\n", "1 2 3 4 5\n", "1 2 3 4 5 6 7\n"]));
    pairs.extend(each("slides-theory", &slides, &["1 2 3 4 5 6\n", "1 2 3 4\n"]));
    pairs.extend(each("slides-external", &external, &["1 2 3 4 5 6\n", "1 2 3 4 5\n"]));
    // 002, section 7.1: `&diff { 0-x } <= -2.` with `a :- &diff { 0-x } <= -1.`, then with `&diff { 0-x } <= -1 :- a.`
    let zero = |rules: &str| differences(rules, &[(1, 4, 3, -2), (2, 4, 3, -1)]).replace("9 1 4 1 a\n", "9 0 4 0\n");
    pairs.extend(each("strict-example", &zero("1 0 1 1 0 0\n1 0 1 5 0 1 2\n"), &["1 2 5\n", "1\n", "1 2\n", "1 5\n"]));
    pairs.extend(each("defined-example", &zero("1 0 1 1 0 0\n1 0 1 2 0 1 5\n"), &["1\n", "1 2\n", "1 2 5\n"]));
    pairs.extend(each("flow-shop", &flow_shop("1 1 6 1 2 3 4 5 6 0 0\n"), FLOW_SHOP));
    pairs.extend(each("flow-shop-whole", &flow_shop(&permutations()), &flow_shop_answers()));
    pairs.extend(grounded());
    pairs.extend(GROUNDED.iter().enumerate().flat_map(answered));
    pairs
}

// At least some and at most some of these atoms, as a grounder sends it: of three atoms more, one says that the least are
// reached, one that more than the most are, and one that the first holds without the second; the last is demanded.
fn least_most(least: u32, most: u32, atoms: &[u32], first: u32) -> String {
    let pairs: String = atoms.iter().map(|a| format!(" {a} 1")).collect();
    let reached = |atom: u32, bound: u32| format!("1 0 1 {atom} 1 {bound} {}{pairs}\n", atoms.len());
    let (more, both) = (first + 1, first + 2);
    reached(first, least) + &reached(more, most + 1) + &format!("1 0 1 {both} 0 2 {first} -{more}\n1 0 0 0 1 -{both}\n")
}

// Forms with bounds and sums, ground: `{a;b;c} = 1`, `1 {a;b;c} 2`, `:- #sum {3:a; 4:b; 5:c} >= 8`, which 002 uses to
// bound an objective, and `d :- #sum {2:a; 3:not b; 4:c} >= 5`.
fn grounded() -> Vec<Pair> {
    let choice = "1 1 3 1 2 3 0 0\n";
    let of_three = |least: u32, most: u32| text(&(String::from(choice) + &least_most(least, most, &[1, 2, 3], 4)));
    let mut pairs = each(
        "one-of-three",
        &of_three(1, 1),
        &["1 4 6\n", "2 4 6\n", "3 4 6\n", "\n", "1\n", "1 4\n", "1 2 4 5\n", "1 2 4 6\n", "1 2 4 5 6\n", "4 6\n"],
    );
    pairs.extend(each("one-or-two", &of_three(1, 2), &["1 4 6\n", "1 3 4 6\n", "1 2 3 4 5\n", "1 2 3 4 6\n", "\n"]));
    pairs.extend(every("objective", &text(&format!("{choice}1 0 0 1 8 3 1 3 2 4 3 5\n")), 3));
    pairs.extend(every("sum", &text(&format!("{choice}1 0 1 4 1 5 3 1 2 -2 3 3 4\n")), 4));
    pairs
}

/// What gringo 5.4.1 writes for an encoding, how many atoms that has, and the answers that clasp 3.3.5 gives.
pub struct Grounded {
    pub encoding: &'static str,
    pub text: &'static str,
    pub atoms: u32,
    pub answers: &'static [&'static str],
}

/// Encodings with bounds, counts and sums.
pub const GROUNDED: &[Grounded] = &[
    Grounded {
        encoding: "{a;b;c} = 1.",
        text: "asp 1 0 0\n1 0 1 1 0 0\n1 1 3 2 3 4 0 1 1\n1 0 1 5 1 1 3 2 1 3 1 4 1\n1 0 1 6 1 2 3 2 1 3 1 4 1\n1 0 1 7 0 2 5 -6\n1 0 0 0 2 1 -7\n4 1 a 1 4\n4 1 b 1 3\n4 1 c 1 2\n0\n",
        atoms: 7,
        answers: &["1 3 5 7\n", "1 4 5 7\n", "1 2 5 7\n"],
    },
    Grounded {
        encoding: "2 {a;b;c}.",
        text: "asp 1 0 0\n1 0 1 1 0 0\n1 1 3 2 3 4 0 1 1\n1 0 1 5 1 2 3 2 1 3 1 4 1\n1 0 0 0 2 1 -5\n4 1 a 1 4\n4 1 b 1 3\n4 1 c 1 2\n0\n",
        atoms: 5,
        answers: &["1 3 4 5\n", "1 2 3 4 5\n", "1 2 4 5\n", "1 2 3 5\n"],
    },
    Grounded {
        encoding: "{a;b;c}. d :- #count {1:a; 2:b; 3:c} >= 2.",
        text: "asp 1 0 0\n1 1 3 1 2 3 0 0\n1 0 1 4 1 2 3 1 1 2 1 3 1\n1 0 1 5 0 1 4\n4 1 a 1 1\n4 1 b 1 2\n4 1 c 1 3\n4 1 d 1 5\n0\n",
        atoms: 5,
        answers: &["1 2 3 4 5\n", "1 2 4 5\n", "2 3 4 5\n", "\n", "3\n", "1\n", "2\n", "1 3 4 5\n"],
    },
    Grounded {
        encoding: "{a;b;c}. :- #sum {3,a:a; 4,b:b; 5,c:c} >= 8.",
        text: "asp 1 0 0\n1 1 3 1 2 3 0 0\n1 0 1 4 1 8 3 1 3 2 4 3 5\n1 0 0 0 1 4\n4 1 a 1 1\n4 1 b 1 2\n4 1 c 1 3\n0\n",
        atoms: 4,
        answers: &["\n", "2\n", "1\n", "1 2\n", "3\n"],
    },
    Grounded {
        encoding: "{a;b}. c :- #sum {2:a; 3:not b; 4,z:a} > 4.",
        text: "asp 1 0 0\n1 1 2 1 2 0 0\n1 0 1 3 1 5 3 1 2 -2 3 1 4\n1 0 1 4 0 1 3\n4 1 a 1 1\n4 1 b 1 2\n4 1 c 1 4\n0\n",
        atoms: 4,
        answers: &["\n", "2\n", "1 3 4\n", "1 2 3 4\n"],
    },
];

// A grounded encoding with its answers, and each of these without its first atom.
fn answered((i, grounded): (usize, &Grounded)) -> Vec<Pair> {
    let less = |a: &&str| a.split_once(' ').map_or(String::from("\n"), |(_, rest)| rest.to_string());
    let mut pairs = each(&format!("gringo-{i}"), grounded.text, grounded.answers);
    pairs.extend(each(
        &format!("gringo-{i}-less"),
        grounded.text,
        &grounded.answers.iter().map(less).collect::<Vec<_>>(),
    ));
    pairs
}

// The six answers that 002 prints for its flow shop, each as the atoms that hold, then two that are wrong: no
// fact in it, and one machine of a pair left out.
const FLOW_SHOP: &[&str] = &[
    "2 3 11 12 13 20 21 22 23 24 25 33 34 35 36\n", "3 6 11 12 13 20 21 22 23 24 25 35 36 41 42\n",
    "2 6 11 12 13 20 21 22 23 24 25 33 34 41 42\n", "4 5 11 12 13 20 21 22 23 24 25 37 38 39 40\n",
    "1 4 11 12 13 20 21 22 23 24 25 31 32 37 38\n", "1 5 11 12 13 20 21 22 23 24 25 31 32 39 40\n", "1 4\n",
    "2 3 11 12 13 20 21 22 23 24 25 33 34 35\n",
];

// The pairs of tasks a, b and c.
const NEXTS: [(usize, usize); 6] = [(0, 1), (0, 2), (1, 0), (1, 2), (2, 0), (2, 1)];

// The flow shop of 002, Listings 39 and 40, ground: atoms 1 to 6 say which task is next to which, in pairs ab, ac, ba,
// bc, ca, cb, by the rules given; 11 to 13 are a task's two machines, 20 to 25 say 0 - (T,M) <= 0, 31 to 42 two machines
// of each pair.
fn flow_shop(next: &str) -> String {
    // Term 3 is the number 0; the terms 4 to 9 are (a,1), (a,2), (b,1), (b,2), (c,1), (c,2).
    let durations = [[3, 4], [1, 6], [5, 5]];
    let name = |task: usize, machine: usize| (4 + 2 * task + machine) as u32;
    let mut rules = String::from(next);
    let mut list = Vec::new();
    for (task, times) in durations.iter().enumerate() {
        let atom = 11 + task as u32;
        rules += &format!("1 0 1 {atom} 0 0\n");
        list.push((atom, name(task, 0), name(task, 1), -times[0]));
    }
    for i in 0..6 {
        rules += &format!("1 0 1 {} 0 0\n", 20 + i);
        list.push((20 + i, 3, 4 + i, 0));
    }
    for (i, (first, second)) in NEXTS.into_iter().enumerate() {
        for (machine, time) in durations[first].iter().enumerate() {
            let atom = (31 + 2 * i + machine) as u32;
            rules += &format!("1 0 1 {atom} 0 1 {}\n", 1 + i);
            list.push((atom, name(first, machine), name(second, machine), -time));
        }
    }
    differences(&rules, &list).replace("9 1 3 1 a\n", "9 0 3 0\n")
}

// The cycle and the start behind each of the six answers.
const CYCLES: [&str; 6] = ["52 53 56 58", "52 53 56 59", "52 53 56 57", "51 54 55 58", "51 54 55 57", "51 54 55 59"];

// The six answers with all that holds in the whole encoding, then two that are wrong: two starts, counted as one and as
// more than one.
fn flow_shop_answers() -> Vec<String> {
    let whole = |(answer, cycle): (&&str, &str)| {
        format!("{} {cycle} 60 61 62 70 72 73 75 76 78 79 81 82 84 85 87 88 90\n", answer.trim_end())
    };
    let mut cands: Vec<String> = FLOW_SHOP.iter().zip(CYCLES).map(whole).collect();
    cands.push(cands[2].replace(" 57 ", " 57 58 "));
    cands.push(cands[6].replace(" 90\n", " 89\n"));
    cands
}

// The cycle's atoms for the pairs that have a task on a side.
fn cycle_at(task: usize, side: fn(&(usize, usize)) -> usize) -> Vec<u32> {
    (51..).zip(&NEXTS).filter(|(_, next)| side(next) == task).map(|(atom, _)| atom).collect()
}

// Lines 1 to 8 of Listing 40, ground: atoms 51 to 56 are the cycle in the same pairs, 57 to 59 the start, 60 to 62 what
// is reached; 70 to 90 say how many hold of the pairs from each task, to each task, and of the starts.
fn permutations() -> String {
    let mut groups: Vec<Vec<u32>> = (0..3).map(|task| cycle_at(task, |next| next.0)).collect();
    groups.extend((0..3).map(|task| cycle_at(task, |next| next.1)));
    groups.push(vec![57, 58, 59]);
    let mut rules = String::new();
    for (atoms, first) in groups.iter().zip((70..).step_by(3)) {
        let head: String = atoms.iter().map(|a| format!(" {a}")).collect();
        rules += &format!("1 1 {}{head} 0 0\n{}", atoms.len(), least_most(1, 1, atoms, first));
    }
    rules += "1 0 1 60 0 0\n";
    for (i, (from, to)) in NEXTS.into_iter().enumerate() {
        let (next, cycle) = (1 + i, 51 + i);
        rules += &format!("1 0 1 {} 0 2 {} {cycle}\n1 0 1 {next} 0 2 {cycle} -{}\n", 60 + to, 60 + from, 57 + to);
    }
    rules + "1 0 0 0 1 -60\n1 0 0 0 1 -61\n1 0 0 0 1 -62\n"
}

/// The pairs.
pub fn pairs() -> Vec<Pair> {
    let mut pairs = document();
    pairs.extend(published());
    pairs.extend(PROGRAMS.iter().flat_map(|(name, lines, cands)| each(name, &text(lines), cands)));
    pairs.extend(WEIGHTS.iter().flat_map(|(name, lines, atoms)| every(name, &text(lines), *atoms)));
    pairs
        .extend(DIFFERENCES.iter().flat_map(|(name, rules, list, cands)| each(name, &differences(rules, list), cands)));
    pairs.extend(changed());
    pairs.extend(ordered());
    pairs.extend(unsound().iter().map(|u| pair(u.name, &u.text, "\n")));
    pairs.extend(ended());
    pairs.extend(moved());
    pairs
}

/// A text as long as one may be, and one that is a byte longer: too long for a container, so the program makes them.
pub fn long() -> Vec<Pair> {
    [60_000, 60_001].into_iter().map(|n| pair(format!("long-{n}"), long_text(n), "\n")).collect()
}

/// The pairs as cases of a container: each text, and behind it its candidate.
pub fn cases(pairs: &[Pair]) -> Vec<Case> {
    let two = |p: &Pair| {
        let case = |bytes: &[u8]| Case { name: p.name.clone(), bytes: bytes.to_vec() };
        [case(&p.text), case(&p.cand)]
    };
    pairs.iter().flat_map(two).collect()
}

/// The pairs of some cases; a last case that has no other is left.
pub fn paired(cases: &[Case]) -> Vec<Pair> {
    cases.chunks_exact(2).map(|c| pair(&c[0].name, &c[0].bytes, &c[1].bytes)).collect()
}

/// What judging gives for each pair, and for the long texts.
pub fn run(pairs: &[Pair]) -> String {
    pairs.iter().chain(&long()).map(judged).collect()
}

/// What judging gives for a pair, below its name.
pub fn judged(pair: &Pair) -> String {
    let Pair { name, text, cand } = pair;
    format!("{name}\n{}{}", report(text, cand), more(text, cand))
}

// What is asked besides the verdict: the timetable's bytes and times, or the faulty part.
fn more(text: &[u8], cand: &[u8]) -> String {
    let (mut room, mut cycle) = (vec![0; ROOM_BYTES], vec![0; CYCLE_PLACES]);
    match judge(text, cand, &mut room, &mut cycle) {
        Verdict::Accepted(n) => told(&room[..n as usize]),
        Verdict::Refused(r) => numbers("shown", show(text, cand, r.number, r.place)),
    }
}

// The timetable's bytes, the times of the first terms, and what is given for a timetable without its last byte.
fn told(table: &[u8]) -> String {
    let times: String = (0..ASKED).map(|term| reading(table, term)).collect();
    format!("{}times{times}\ncut{}\n", numbers("table", table), reading(&table[..table.len() - 1], 0))
}

// A space and a time, or a space and why there is none.
fn reading(table: &[u8], term: u32) -> String {
    match time(table, term) {
        Ok(time) => format!(" {time}"),
        Err(Refusal { number, place }) => format!(" {number}/{place}"),
    }
}

// A word, how many bytes there are, and each as a number.
fn numbers(word: &str, bytes: &[u8]) -> String {
    let each: String = bytes.iter().map(|b| format!(" {b}")).collect();
    format!("{word} {}{each}\n", bytes.len())
}
