//! Names of terms, atoms and rules, and the warnings for names.

mod common;
use common::{on, only, p_with, P};
use plan::text::Plan;
use plan::warnings::warnings;

// A plan of some lines.
fn plan(lines: &[&str]) -> Plan {
    Plan::new(only(lines).as_bytes())
}

// Terms of every kind: 0 to 9 are strings and numbers, the others are made of them.
const TERMS: [&str; 27] = [
    "9 1 0 1 f", "9 1 1 1 a", "9 0 2 5", "9 0 3 -7", "9 1 4 1 -", "9 1 5 1 *", "9 1 6 3 b c", "9 1 7 5 \"b c\"",
    "9 1 8 2 **", "9 1 9 2 A\"", "9 2 10 0 2 1 2", "9 2 11 -1 2 1 2", "9 2 12 -1 1 1", "9 2 13 -2 2 1 2",
    "9 2 14 -3 1 3", "9 2 15 4 2 1 2", "9 2 16 4 2 1 15", "9 2 17 4 2 15 1", "9 2 18 5 2 15 2", "9 2 19 4 1 15",
    "9 2 20 4 2 1 3", "9 2 21 0 3 6 7 9", "9 2 22 0 0", "9 2 23 8 2 3 2", "9 2 24 8 2 1 2", "9 2 25 8 2 24 2",
    "9 2 26 5 2 24 3",
];

#[test]
fn terms_by_name() {
    let plan = plan(&TERMS);
    let names = [
        (2, "5"),
        (3, "-7"),
        (6, "\"b c\""),
        (7, "\"b c\""),
        (9, "\"A\\\"\""),
        (10, "f(a,5)"),
        (11, "(a,5)"),
        (12, "(a,)"),
        (13, "{a,5}"),
        (14, "[-7]"),
        (15, "a-5"),
        (16, "a-(a-5)"),
        (17, "a-5-a"),
        (18, "(a-5)*5"),
        (19, "-(a-5)"),
        (20, "a-(-7)"),
        (21, "f(\"b c\",\"b c\",\"A\\\"\")"),
        (22, "f()"),
        (23, "(-7)**5"),
        (25, "(a**5)**5"),
        (26, "a**5*(-7)"),
        (99, "?99"),
    ];
    for (term, name) in names {
        assert_eq!(plan.term(term), name);
    }
}

#[test]
fn deep_long_and_cyclic_terms_are_cut() {
    let mut lines = vec![String::from("9 1 0 1 f"), String::from("9 2 1 0 1 1"), String::from("9 1 2 2 fx")];
    lines.extend((3..900).map(|i| format!("9 2 {i} 0 2 {} {}", i - 1, i - 1)));
    lines.push(format!("9 1 900 4000 {}", "x".repeat(4000)));
    let plan = plan(&lines.iter().map(String::as_str).collect::<Vec<_>>());
    for term in [1, 899, 900] {
        let name = plan.term(term);
        assert!(name.ends_with(&format!(" (term {term})")) && name.contains(".."), "{name}");
        assert!(name.len() < 2_000, "{}", name.len());
    }
    assert_eq!(plan.term(4), "f(f(fx,fx),f(fx,fx))");
}

#[test]
fn names_are_the_texts_own() {
    let text = include_str!("data/net.aspif");
    let plan = Plan::new(text.as_bytes());
    let mut compared = 0;
    for line in text.lines().filter(|l| l.starts_with("4 ")) {
        let fields: Vec<&str> = line.split(' ').collect();
        if let ["1", atom] = fields[3..] {
            let Ok(atom) = atom.parse::<u32>() else { continue };
            assert_eq!(plan.atom(atom), fields[2]);
            compared += 1;
        }
    }
    assert_eq!(compared, 4);
    assert_eq!(plan.atom(6), "#6");
    assert_eq!(plan.atom(8), "&diff{0-send(pmu2)}<=-3");
}

#[test]
fn rules_by_names() {
    let plan = plan(&[
        "1 0 1 1 0 2 2 -3", "1 1 2 1 2 0 1 3", "1 0 0 0 1 1", "1 1 0 0 0", "1 0 1 2 1 6 2 1 4 -3 2", "1 0 0 0 0",
        "4 1 a 1 1", "4 4 b(1) 1 2", r#"4 8 f("x y") 1 3"#,
    ]);
    let rules = [
        "a :- b(1), not f(\"x y\").", "{a; b(1)} :- f(\"x y\").", ":- a.", "{}.",
        "b(1) :- 6 <= #sum{4: a; 2: not f(\"x y\")}.", ":- .",
    ];
    for (i, rule) in rules.iter().enumerate() {
        assert_eq!(plan.rule(i + 1), *rule);
    }
}

#[test]
fn the_first_output_with_one_positive_literal_names_an_atom() {
    let plan = plan(&["4 1 a 1 -1", "4 1 b 2 1 2", "4 1 c 0", "4 1 d 1 1", "4 1 e 1 1"]);
    assert_eq!((plan.atom(1), plan.atom(2)), (String::from("d"), String::from("#2")));
}

// The warnings for plan P with its first name defined by some lines.
fn warned(lines: &str) -> Vec<String> {
    warnings(&Plan::new(p_with("9 1 3 4 send", lines).as_bytes()))
}

#[test]
fn warnings_for_arithmetic_that_was_left() {
    let two = warned("9 1 50 4 open\n9 0 51 2\n9 0 52 1\n9 2 53 1 2 51 52\n9 2 3 50 1 53");
    assert_eq!(two.len(), 1, "{two:?}");
    for part in ["`open(2-1)` has `2-1` in it", "not `open(1)`", "`open(T)` in the atom", "`T = 2-1`"] {
        assert!(two[0].contains(part), "{part}\n{}", two[0]);
    }
    assert!(!two[0].contains("is a name too"));
    let both = warned("9 1 50 4 recv\n9 0 51 2\n9 0 52 2\n9 2 53 1 2 51 52\n9 2 3 50 1 53\n9 0 54 0\n9 2 55 50 1 54");
    assert!(both[0].contains("not `recv(0)`") && !both[0].contains("is a name too"), "{both:?}");
    assert_eq!(on(&p_with("9 1 3 4 send", "9 0 51 2\n9 2 3 1 1 51"), "1 2 3\n").warnings.len(), 1);
}

#[test]
fn warnings_say_where_the_meant_name_is_there_too() {
    let text = P.replace("9 1 3 4 send", "9 1 50 4 open\n9 0 51 2\n9 0 52 1\n9 2 53 1 2 51 52\n9 2 3 50 1 53");
    let text = text.replace("9 1 4 4 recv", "9 2 4 50 1 52");
    let warnings = warnings(&Plan::new(text.as_bytes()));
    assert!(warnings[0].contains("and `open(1)` is a name too"), "{warnings:?}");
}

#[test]
fn warnings_for_numbers() {
    assert!(warned("9 0 3 7")[0].contains("`7` is a number and stands as a name"));
    assert!(warned("9 0 50 7\n9 2 3 1 1 50")[0].contains("`-7` is arithmetic that gringo left unevaluated"));
    assert_eq!(warned("9 0 3 0"), Vec::<String>::new());
    assert_eq!(warned("9 1 3 4 send"), Vec::<String>::new());
    assert_eq!(warned("9 1 50 1 a\n9 0 51 1\n9 2 3 1 2 50 51"), Vec::<String>::new());
}

#[test]
fn arithmetic_in_terms_that_share_and_loop_ends() {
    let mut lines: Vec<String> = vec![String::from("9 0 60 2"), String::from("9 2 61 61 1 61")];
    lines.extend((62..900).map(|i| format!("9 2 {i} 1 2 {} {}", if i == 62 { 60 } else { i - 1 }, 60)));
    lines.push(String::from("9 2 3 -1 3 61 899 899"));
    assert!(warned(&lines.join("\n")).len() <= 1);
}
