//! Random bytes and damaged texts as plans and as answers: everything ends, and nothing panics.

mod common;
use common::{other_desk, Random, P};
use plan::answers::{read, Answers};
use plan::explain::report;
use plan::json::object;
use plan::judge::{judge, Verdict};
use plan::numbered::numbered;
use plan::report::Report;
use plan::svg::picture;
use plan::text::Plan;
use std::collections::BTreeSet;

const NET: &str = include_str!("data/net.aspif");

/// How many random bytes are tried, each way.
const BYTES: usize = 100_000;

/// The bytes that a text is made of mostly.
const USUAL: &[u8] = b"0123456789 0123456789 -\n\n\r\"ab(<=";

// Some random bytes: any, or those that texts are made of.
fn bytes(random: &mut Random, length: usize) -> Vec<u8> {
    let any = random.below(3) == 0;
    (0..length).map(|_| if any { random.below(256) as u8 } else { USUAL[random.below(USUAL.len())] }).collect()
}

// A text with some bytes replaced, left out or put in.
fn damaged(random: &mut Random, text: &[u8]) -> Vec<u8> {
    let mut text = text.to_vec();
    for _ in 0..1 + random.below(4) {
        let at = random.below(text.len());
        let byte = bytes(random, 1)[0];
        match random.below(3) {
            0 => text[at] = byte,
            1 => text.insert(at, byte),
            _ => drop(text.remove(at)),
        }
    }
    text
}

// The number of a verdict, 0 where accepted.
fn number(text: &[u8], cand: &[u8]) -> u32 {
    match judge(text, cand) {
        Verdict::Accepted { .. } => 0,
        Verdict::Refused { number, .. } => number,
    }
}

// The report with everything that is made of it; its verdict is the library's, and that of the numbered text.
fn tried(text: &[u8], cand: &[u8]) -> Report {
    let plan = Plan::new(text);
    let report = report(&plan, cand);
    let number_of = number(text, cand);
    assert_eq!((report.number, report.accepted), (number_of, number_of == 0));
    assert_eq!(number(&numbered(&plan), cand), number_of, "{}", String::from_utf8_lossy(text));
    assert!(!(61..=64).contains(&number_of) || report.comment.len() == 3, "{:?}", report.comment);
    assert!(report.comment.iter().all(|l| !l.contains(char::is_control)), "{:?}", report.comment);
    let _ = (object(&report), picture(&report));
    for line in 0..plan.lines.len() {
        let _ = (plan.rule(line), plan.theory_atom(line), plan.difference_at(line));
    }
    report
}

// Each answer of a file tried against a text.
fn tried_answers(text: &[u8], file: &[u8]) -> usize {
    let answers = match read(file) {
        Answers::Candidate(candidate) => vec![candidate],
        Answers::Solver { answers, .. } => answers,
    };
    let reports: Vec<Report> = answers.iter().map(|a| tried(text, a)).collect();
    reports.len()
}

#[test]
fn random_bytes_as_a_plan() {
    let (mut random, mut used, mut refused) = (Random(0x9e37_79b9_7f4a_7c15), 0, 0);
    while used < BYTES {
        let length = 1 + random.below(400);
        let mut text = bytes(&mut random, length);
        if random.below(2) == 0 {
            text.splice(0..0, *b"asp 1 0 0\n");
        }
        refused += usize::from(!tried(&text, b"1 2 3\n").accepted);
        used += length;
    }
    assert!(refused > 400, "{refused}");
}

#[test]
fn random_bytes_as_answers() {
    let (mut random, mut used, mut judged) = (Random(0x0123_4567_89ab_cdef), 0, 0);
    while used < BYTES {
        let length = random.below(400);
        let mut file = bytes(&mut random, length);
        if random.below(2) == 0 {
            file.splice(0..0, *b"clasp version\nAnswer: 1\n");
        }
        judged += tried_answers(P.as_bytes(), &file) + tried_answers(NET.as_bytes(), &file);
        used += length;
    }
    assert!(judged > 800, "{judged}");
}

#[test]
fn damaged_plans_and_candidates() {
    let mut random = Random(0xdead_beef_cafe_f00d);
    let mut seen = BTreeSet::new();
    for _ in 0..4_000 {
        let (text, cand) = if random.below(2) == 0 { (P, "1 2 3\n") } else { (NET, "1 2 3 4 7 8\n") };
        let mut desk = |text: &str| if random.below(2) == 0 { other_desk(text) } else { String::from(text) };
        let (mut text, mut cand) = (desk(text).into_bytes(), desk(cand).into_bytes());
        match random.below(4) {
            0 => cand = damaged(&mut random, &cand),
            _ => text = damaged(&mut random, &text),
        }
        seen.insert(tried(&text, &cand).number);
    }
    assert!([0, 3, 4, 5, 61, 62, 64, 7, 8, 9].iter().all(|n| seen.contains(n)), "{seen:?}");
}

#[test]
fn every_beginning_of_a_plan() {
    for text in [String::from(P), String::from(NET), other_desk(P), other_desk(NET)] {
        for end in 0..text.len() {
            let report = tried(&text.as_bytes()[..end], b"1 2 3\n");
            assert!(report.number == 3 && report.comment.len() == 3, "{:?}", report.comment);
            assert!(report.comment[2].starts_with("expected "), "{:?}", report.comment);
        }
    }
}
