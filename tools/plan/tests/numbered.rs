//! Numbered texts: what they hold, and that they are judged as the texts they were made of.

mod common;
use common::{on, only, other_desk, p_with, P};
use plan::judge::{judge, Verdict};
use plan::numbered::numbered;
use plan::text::Plan;

const NET: &str = include_str!("data/net.aspif");

// The numbered text of a text.
fn of(text: &str) -> String {
    String::from_utf8(numbered(&Plan::new(text.as_bytes()))).unwrap()
}

// The number of a verdict, 0 where accepted.
fn number(text: &str, cand: &str) -> u32 {
    match judge(text.as_bytes(), cand.as_bytes()) {
        Verdict::Accepted { .. } => 0,
        Verdict::Refused { number, .. } => number,
    }
}

#[test]
fn an_output_for_each_atom_and_no_other() {
    let outputs = "4 1 1 1 1\n4 1 2 1 2\n4 1 3 1 3\n0\n";
    assert_eq!(of(P), P.replace("\n0\n", &format!("\n{outputs}")));
    let lines = of(NET);
    let outputs: Vec<&str> = lines.lines().filter(|l| l.starts_with("4 ")).collect();
    assert_eq!(outputs, (1..=8).map(|a| format!("4 1 {a} 1 {a}")).collect::<Vec<_>>());
    let kept = NET.lines().filter(|l| !l.starts_with("4 ")).collect::<Vec<_>>();
    assert_eq!(lines.lines().filter(|l| !l.starts_with("4 ")).collect::<Vec<_>>(), kept);
}

#[test]
fn atoms_of_every_place() {
    let text = only(&["1 1 1 10 0 1 -11", "1 0 0 1 1 1 -12 1", "4 1 x 2 13 -14", "9 4 0 0 1 -15", "9 5 16 0 0"]);
    let outputs = (10..=16).map(|a| format!("4 2 {a} 1 {a}\n")).collect::<String>();
    assert!(of(&text).ends_with(&format!("9 5 16 0 0\n{outputs}0\n")), "{}", of(&text));
}

#[test]
fn numbering_twice_is_numbering_once() {
    assert_eq!(of(&of(NET)), of(NET));
}

#[test]
fn what_is_damaged_stays() {
    for text in ["", "asp 1 0 0\n", "asp 1 0 0\n4 3 ab 1 1\n", "x\n4 1 a 1 1", "4 1 a 0\n", "4 1 a 0\nasp 1 0 0\n0\n"] {
        assert_eq!(of(text), text);
    }
    for line in ["4 3 ab 1 1", "4 1 a 1 0", "4 1 \u{0} 1 1", "4 1 a 1 4097", "4 1 a 1"] {
        assert!(of(&only(&[line])).contains(line), "{line}");
    }
    assert_eq!(of("asp 1 0 0\n1 0 1 1 0 0\n0"), "asp 1 0 0\n1 0 1 1 0 0\n4 1 1 1 1\n0");
}

// Texts that get each verdict that a text can get, with candidates.
fn cases() -> Vec<(String, &'static str, u32)> {
    let own = |line: &str| only(&[line, "4 1 a 1 1"]);
    vec![
        (P.into(), "1 2 3\n", 0),
        (NET.into(), "1 2 3 4 7 8\n", 0),
        (NET.into(), "8\n", 0),
        (own("1 0 1 1 0 1 -0"), "\n", 3),
        (own("4 1 ab 0"), "\n", 3),
        (own("2 0 0"), "\n", 4),
        (own("1 0 2 1 2 0 0"), "\n", 4),
        (own("4 1 a 1 0"), "\n", 5),
        (own("4 1 a 1 5000"), "\n", 5),
        (own("1 0 1 5000 0 0"), "\n", 5),
        (p_with("9 0 8 5", "9 0 5 40"), "\n", 61),
        (p_with("9 4 0 1 6 0", "9 4 0 1 70 0"), "\n", 62),
        (p_with("9 6 3 0 1 1 2 9", "9 6 2 0 1 1 2 9"), "\n", 63),
        (p_with("9 6 3 0 1 1 2 9", "9 5 3 0 1 1"), "\n", 64),
        (NET.into(), "2 1\n", 7),
        (NET.into(), "1 2 8\n", 8),
        (NET.into(), "5 6 8\n", 9),
        (p_with("9 0 8 5", "9 0 8 45"), "1 2 3\n", 10),
    ]
}

#[test]
fn a_numbered_text_is_judged_alike() {
    for (text, cand, verdict) in cases() {
        for text in [other_desk(&text), text] {
            assert_eq!(number(&text, cand), verdict, "{text}");
            assert_eq!(number(&of(&text), cand), verdict, "{}", of(&text));
        }
    }
}

#[test]
fn outputs_end_as_the_text_does() {
    for text in [P, NET] {
        assert_eq!(of(&other_desk(text)), other_desk(&of(text)));
    }
    let mixed = other_desk(&only(&["4 1 a 1 1", "4 1 b 1 2"])).replace("a 1 1\r\n", "a 1 1\n");
    assert_eq!(of(&mixed), "asp 1 0 0\r\n4 1 a 1 1\n4 1 2 1 2\r\n0\r\n");
    assert_eq!((on(&mixed, "\n").first, on(&of(&mixed), "\n").first), ("refused 3 20".into(), "refused 3 20".into()));
}
