//! Judgings by the proved judge in threads of a given stack. A stack that overflows ends the process.

use super::generating::{
    all_atoms, chain, choice, long_text, longest, padded, rule_chain, same_differences, shortest_rules, weight_chain,
    Case,
};
use super::proved;
use super::vectors::PLAN;
use crate::judge::judging::{CYCLE_PLACES, ROOM_BYTES};
use crate::judge::reading::TEXT_BYTES;
use crate::judge::refusal::Verdict;

/// The longest text that is short.
pub const SHORT_BYTES: usize = 2_000;

/// What is judged: a name, a case, and the number of its verdict, which is 0 for an acceptance.
pub struct Input {
    name: &'static str,
    case: Case,
    number: u32,
}

// An input.
fn input(name: &'static str, case: Case, number: u32) -> Input {
    Input { name, case, number }
}

// Plan P and its neighbours: one for each number that reading and judging it can give.
fn neighbours() -> Vec<Input> {
    let p = |cand: &str| (PLAN.into(), cand.into());
    let changed = |from: &str, to: &str| (PLAN.replace(from, to).into(), b"1 2 3\n".to_vec());
    vec![
        input("plan P", p("1 2 3\n"), 0),
        input("no end", changed("\n0\n", "\n"), 3),
        input("not carried", changed("1 1 1 1 0 0\n", "1 1 1 1 0 0\n2 0 1 1 1\n"), 4),
        input("beyond its bounds", changed("9 6 3 0 1 1 2 9\n", "9 6 4097 0 1 1 2 9\n"), 5),
        input("defined twice", changed("9 0 8 5\n", "9 0 4 5\n"), 61),
        input("used before", changed("9 1 4 4 recv\n", ""), 62),
        input("second theory atom", changed("9 6 3 0 1 1 2 9\n", "9 6 2 0 1 1 2 9\n"), 63),
        input("no difference", changed("9 6 3 0 1 1 2 9\n", "9 5 3 0 1 1\n"), 64),
        input("candidate malformed", p("3 1\n"), 7),
        input("broken rule", p("1 3\n"), 8),
        input("unfounded atom", p("2 3\n"), 9),
        input("negative cycle", changed("9 0 8 5\n", "9 0 8 45\n"), 10),
    ]
}

// Texts of exactly so many bytes that hold as much of each kind as fits.
fn full(bytes: usize) -> Vec<Input> {
    vec![
        input("shortest rules", longest(bytes, shortest_rules), 0),
        input("founded rules", longest(bytes, |n| rule_chain(n, true)), 0),
        input("unfounded rules", longest(bytes, |n| rule_chain(n, false)), 9),
        input("weight rules", longest(bytes, |n| weight_chain(n, 20, true)), 0),
        input("differences", longest(bytes, same_differences), 0),
        input("a comment", (long_text(bytes), all_atoms(0)), 0),
    ]
}

/// Texts that are short, with any candidate.
pub fn short() -> Vec<Input> {
    let mut all = neighbours();
    all.extend(full(SHORT_BYTES));
    all.extend([
        input("chain", longest(SHORT_BYTES, |n| chain(n, -1_000_000, None)), 0),
        input("long cycle", longest(SHORT_BYTES, |n| chain(n, -1, Some(n as i64 - 2))), 10),
        input("largest candidate", (padded(PLAN.as_bytes(), SHORT_BYTES), all_atoms(4_096)), 9),
    ]);
    all
}

/// Texts that are not short.
pub fn long() -> Vec<Input> {
    let whole = |(text, cand): Case| (padded(&text, TEXT_BYTES), cand);
    let mut all = full(TEXT_BYTES);
    all.extend([
        input("plan P and a comment", (padded(PLAN.as_bytes(), SHORT_BYTES + 1), b"1 2 3\n".to_vec()), 0),
        input("chain", whole(chain(508, -1_000_000, None)), 0),
        input("long cycle", whole(chain(508, -1, Some(506))), 10),
        input("all atoms", whole(choice(4_096)), 0),
        input("too long", (long_text(TEXT_BYTES + 1), all_atoms(0)), 2),
    ]);
    all
}

/// Judges each input in a thread of so many bytes of stack; texts and rooms are not on it.
// Says the input's name first, so that it is known which one ended the process.
pub fn judge_all(inputs: Vec<Input>, stack: usize) {
    for Input { name, case, number } in inputs {
        eprintln!("{name}, {} bytes", case.0.len());
        let (mut room, mut cycle) = (vec![0u8; ROOM_BYTES], vec![0u32; CYCLE_PLACES]);
        let judging = move || proved::judge(&case.0, &case.1, &mut room, &mut cycle);
        let thread = std::thread::Builder::new().stack_size(stack).spawn(judging);
        let verdict = thread.expect("a thread").join().expect("a verdict");
        let got = if let Verdict::Refused(refused) = verdict { refused.number } else { 0 };
        assert_eq!(got, number, "{name}");
    }
}
