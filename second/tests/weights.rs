//! Weights: what the generator makes of them, and relations between texts that say the same.
mod common;
use common::writing::written;
use common::*;
use second::testing::random::Random;
use second::testing::{cases, generating};
use second::{read_text, Body, Line, Literal, Refusal, Statement, Verdict, Weighted};
use std::collections::BTreeMap;

/// How often each thing was seen.
type Seen = BTreeMap<&'static str, u32>;

// The weights of some literals together.
fn sum(literals: &[Weighted]) -> u32 {
    literals.iter().map(|w| w.weight).sum()
}

// What a bound is beside the sum of the weights.
fn bound_word(bound: u32, literals: &[Weighted]) -> &'static str {
    match (bound, sum(literals)) {
        (0, _) => "bound 0",
        (1_000_000_000, _) => "bound 1,000,000,000",
        (b, s) if b == s => "bound the sum",
        (b, s) if b == s + 1 => "bound one above the sum",
        (1, _) => "bound 1",
        (b, s) if b < s => "bound between",
        _ => "bound above",
    }
}

// What a weight is.
fn weight_word(weighted: &Weighted) -> &'static str {
    match weighted.weight {
        1 => "weight 1",
        2 => "weight 2",
        100_000 => "weight 100,000",
        3..=9 => "weight small",
        _ => "weight other",
    }
}

// What a rule's head is.
fn head_word(choice: bool, head: &[u32]) -> &'static str {
    match (choice, head) {
        (true, []) => "choice of none",
        (true, _) => "choice",
        (false, []) => "constraint",
        (false, _) => "plain",
    }
}

// What the literals of a weight body are like.
fn literal_words(literals: &[Weighted]) -> Vec<&'static str> {
    let twice = |same: fn(&Literal, &Literal) -> bool| {
        (0..literals.len()).any(|i| literals[..i].iter().any(|w| same(&w.literal, &literals[i].literal)))
    };
    let mut words = Vec::new();
    words.extend(literals.is_empty().then_some("no literal"));
    words.extend(twice(|a, b| a == b).then_some("a literal twice"));
    words.extend(twice(|a, b| a.atom == b.atom && a.negated != b.negated).then_some("both signs"));
    words.extend(literals.iter().any(|w| w.literal.negated).then_some("negated"));
    words
}

// Notes what a rule is; all that it says of a weight body.
fn note(seen: &mut Seen, statement: &Statement) {
    let Statement::Rule { choice, head, body } = statement else { return };
    let mut words = vec!["rules"];
    if let Body::Weights { bound, literals } = body {
        words.extend(["with weights", head_word(*choice, head), bound_word(*bound, literals)]);
        words.extend(literals.iter().map(weight_word));
        words.extend(literal_words(literals));
    }
    words.into_iter().for_each(|word| *seen.entry(word).or_default() += 1);
}

/// What the rules with weights must be, each often enough.
const WANTED: &[&str] = &[
    "plain", "choice", "choice of none", "constraint", "bound 0", "bound 1", "bound the sum",
    "bound one above the sum", "bound 1,000,000,000", "bound between", "weight 1", "weight 2", "weight 100,000",
    "weight small", "no literal", "a literal twice", "both signs", "negated",
];

// Asks that a third of the rules in some texts have weights, and that these are all that is wanted.
fn check_rules(name: &str, generate: fn(&mut Random) -> Vec<u8>) {
    let (mut random, mut seen) = (Random::new(11), Seen::new());
    for _ in 0..10_000 {
        let lines = read_text(&generate(&mut random)).unwrap_or_default();
        lines.iter().for_each(|l| note(&mut seen, &l.statement));
    }
    println!("{name} {seen:?}");
    assert!(3 * seen["with weights"] >= seen["rules"], "{seen:?}");
    assert!(WANTED.iter().all(|w| seen.get(w).is_some_and(|n| *n >= 50)), "{seen:?}");
}

#[test]
fn generated_rules() {
    check_rules("plans", generating::plan);
    check_rules("loose theories", generating::loose);
    check_rules("cases", |random| cases::case(random).0);
}

// The judging, with the line of a broken rule as its place.
fn by_line(text: &[u8], cand: &[u8]) -> Judged {
    let mut got = judged(text, cand);
    if let Verdict::Refused(Refusal { number: 8, place }) = got.verdict {
        let line = read_text(text).unwrap().iter().position(|l| l.place == place).unwrap();
        got.verdict = refused(8, line as u32);
    }
    got
}

// A text with each body changed.
fn with_bodies(text: &[u8], change: impl Fn(&Body) -> Body) -> Vec<u8> {
    let line = |l: &Line| match &l.statement {
        Statement::Rule { choice, head, body } => {
            written(&Statement::Rule { choice: *choice, head: head.clone(), body: change(body) })
        }
        other => written(other),
    };
    generating::text_of(&read_text(text).unwrap().iter().map(line).collect::<Vec<_>>())
}

// Asks that a change of each body leaves all as it was, on many plans; it must change many texts that are accepted and
// refused in each way.
fn says_the_same(seed: u64, change: impl Fn(&Body) -> Body) {
    let (mut random, mut changed) = (Random::new(seed), BTreeMap::<u32, u32>::new());
    for _ in 0..5_000 {
        let text = generating::plan(&mut random);
        let cand = generating::candidate(&mut random, &text);
        let other = with_bodies(&text, &change);
        let got = by_line(&text, &cand);
        assert_eq!(got, by_line(&other, &cand), "{}\n{}", text.escape_ascii(), other.escape_ascii());
        let number = if let Verdict::Refused(r) = got.verdict { r.number } else { 0 };
        *changed.entry(number).or_default() += u32::from(text != other);
    }
    println!("{changed:?}");
    assert!([0, 8, 9, 10].iter().all(|n| changed[n] > 100), "{changed:?}");
}

// A literal with a weight.
fn weighted(literal: Literal, weight: u32) -> Weighted {
    Weighted { literal, weight }
}

#[test]
fn a_normal_body_is_one_of_weights() {
    says_the_same(12, |body| match body {
        Body::Normal(literals) => {
            let ones = literals.iter().map(|l| weighted(*l, 1)).collect();
            Body::Weights { bound: literals.len() as u32, literals: ones }
        }
        other => other.clone(),
    });
}

#[test]
fn a_body_that_needs_all_is_normal() {
    says_the_same(13, |body| match body {
        Body::Weights { bound, literals } if *bound == sum(literals) => Body::Normal(literals_of(body)),
        other => other.clone(),
    });
}

// A weight body with its literals changed.
fn with_literals(body: &Body, change: impl Fn(&[Weighted]) -> Vec<Weighted>) -> Body {
    match body {
        Body::Weights { bound, literals } => Body::Weights { bound: *bound, literals: change(literals) },
        other => other.clone(),
    }
}

#[test]
fn the_order_does_not_matter() {
    says_the_same(14, |body| with_literals(body, |list| list.iter().rev().copied().collect()));
}

#[test]
fn a_literal_twice_counts_twice() {
    let split = |w: &Weighted| match w.weight {
        1 => vec![*w],
        n => vec![weighted(w.literal, n - 1), weighted(w.literal, 1)],
    };
    says_the_same(15, |body| with_literals(body, |list| list.iter().flat_map(split).collect()));
}

#[test]
fn what_can_not_be_true_counts_nothing() {
    // No atom above 1,000 is in a head or has a difference.
    says_the_same(16, |body| {
        with_literals(body, |list| [list, &[weighted(Literal { atom: 1_001, negated: false }, 7)]].concat())
    });
}

#[test]
fn a_larger_measure_is_the_same() {
    says_the_same(17, |body| match body {
        Body::Weights { bound, literals } if *bound < 1_000 && sum(literals) < 1_000 => {
            let larger = literals.iter().map(|w| weighted(w.literal, 11 * w.weight)).collect();
            Body::Weights { bound: 11 * bound, literals: larger }
        }
        other => other.clone(),
    });
}

#[test]
fn a_negated_atom_outside_comes_off_the_bound() {
    let outside = weighted(Literal { atom: 1_001, negated: true }, 100_000);
    says_the_same(18, |body| match body {
        Body::Weights { bound, literals } if *bound < 1_000_000_000 => {
            Body::Weights { bound: bound + 100_000, literals: [literals.as_slice(), &[outside]].concat() }
        }
        other => other.clone(),
    });
}
