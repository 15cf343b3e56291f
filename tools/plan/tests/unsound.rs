//! 61 to 64: what is said of a number and a place, and that the judge gives these; then the mark, JSON and picture.

mod common;
use common::{comment, on, only, p_with, P};

use plan::judge::shown;
use plan::text::Plan;
use plan::unsound::unsound;
use plan::{json, svg};

/// A text, the number and the place of its refusal, and what is said of them.
type Case = (String, u32, usize, String);

/// Plan P's last theory statement, at place 205, and the first, at 143.
const LAST: &str = "9 6 3 0 1 1 2 9";
const FIRST: &str = "9 6 2 0 1 0 2 5";

// A number defined twice, in a line that stands for one of plan P or behind others.
fn twice() -> Vec<Case> {
    let of = |text: String, place: usize, number: &str, line: usize, name: &str| {
        (text, 61, place, format!("{number} is defined twice: line {line} has it already, as `{name}`"))
    };
    vec![
        of(p_with("9 0 8 5", "9 0 5 40"), 159, "term 5", 10, "40"),
        of(p_with("9 0 8 5", "9 1 6 1 x"), 159, "term 6", 11, "recv-send"),
        of(p_with("9 2 7 1 2 3 4", "9 2 3 1 2 3 4"), 179, "term 3", 8, "send"),
        of(p_with("9 4 1 1 7 0", "9 4 0 1 7 0"), 193, "element 0", 12, "{recv-send}"),
        of(only(&["9 4 3 0 0", "9 4 3 0 0"]), 20, "element 3", 2, "{}"),
        of(only(&["9 0 5 7", "9 0 5 7"]), 18, "term 5", 2, "7"),
    ]
}

// A use of what no line defines, in each field that is a use.
fn nowhere() -> Vec<Case> {
    let of = |text: String, place: usize, number: &str, role: &str| {
        (text, 62, place, format!("{number} is used here, as {role}, and no line defines it"))
    };
    let diff = "9 1 0 4 diff";
    vec![
        of(only(&["9 2 7 1 1 8"]), 16, "term 1", "the function of term 7"),
        of(only(&["9 2 7 -3 1 12"]), 21, "term 12", "an argument of term 7"),
        of(p_with("9 2 9 1 1 8", "9 2 9 1 1 88"), 177, "term 88", "an argument of term 9"),
        of(p_with("9 2 7 1 2 3 4", "9 2 7 1 2 3 70"), 191, "term 70", "an argument of term 7"),
        of(p_with("9 4 0 1 6 0", "9 4 0 1 70 0"), 139, "term 70", "a term of element 0"),
        of(p_with("9 4 0 1 6 0", "9 4 0 2 6 70 0"), 141, "term 70", "a term of element 0"),
        of(p_with(LAST, "9 6 3 13 1 1 2 9"), 211, "term 13", "the name of atom 3"),
        of(p_with(LAST, "9 6 3 0 1 7 2 9"), 215, "element 7", "an element of atom 3"),
        of(p_with(LAST, "9 6 3 0 1 1 12 9"), 217, "term 12", "the operator of atom 3"),
        of(p_with(LAST, "9 6 3 0 1 1 2 19"), 219, "term 19", "the bound of atom 3"),
        of(only(&[diff, "9 6 100 0 0 2 5"]), 35, "term 2", "the operator of atom 100"),
        of(only(&[diff, "9 5 9 0 1 3"]), 33, "element 3", "an element of atom 9"),
    ]
}

// A use of what this line or a later one defines.
fn too_early() -> Vec<Case> {
    let of = |text: String, place: usize, words: &str| (text, 62, place, String::from(words));
    vec![
        of(
            p_with("9 2 9 1 1 8", "9 2 9 1 1 9"),
            177,
            "term 9 is used here, as an argument of term 9, in the line that defines it",
        ),
        of(
            p_with("9 4 0 1 6 0", "9 4 0 1 7 0"),
            139,
            "term 7 is used here, as a term of element 0, before its definition: line 16 has it, as `send-recv`",
        ),
        of(
            p_with(FIRST, "9 6 2 0 2 0 1 2 5"),
            155,
            "element 1 is used here, as an element of atom 2, before its definition: line 17 has it, as `{send-recv}`",
        ),
    ]
}

// A second theory statement of atom 2.
fn second() -> Vec<Case> {
    let of = |new: &str, stated: &str| {
        let words = "line 13 states `&diff{recv-send}<=40`";
        (p_with(LAST, new), 63, 205, format!("atom 2 has a second theory statement, `{stated}`: {words}"))
    };
    vec![of("9 6 2 0 1 1 2 9", "&diff{send-recv}<=-5"), of("9 5 2 0 1 1", "&diff{send-recv}")]
}

// A theory atom that is no difference: in plan P by one line, what it states and why it is none.
fn no_difference() -> Vec<Case> {
    let of = |old: &str, new: &str, place: usize, stated: &str, reason: &str| {
        (p_with(old, new), 64, place, format!("{stated}, is no difference: {reason}"))
    };
    let number = "not a number or a minus before a number (arithmetic is to be computed in the body)";
    let (bound, element) = (format!("its bound is `send`, {number}"), "9 4 0 1 6 0");
    vec![
        of(LAST, "9 5 3 0 1 1", 205, "atom 3, `&diff{send-recv}`", "it has no operator and no bound"),
        of(element, "9 4 0 1 6 1 1", 145, "atom 2, `&diff{recv-send: #1}<=40`", "its element has a condition"),
        of(element, "9 4 0 2 6 5 0", 145, "atom 2, `&diff{recv-send,40}<=40`", "its element has 2 terms, not one"),
        of(element, "9 4 0 1 5 0", 143, "atom 2, `&diff{40}<=40`", "its element is `40`, not of the form x - y"),
        of("9 1 2 2 <=", "9 1 2 2 >=", 143, "atom 2, `&diff{recv-send}>=40`", "its operator is `>=`, not `<=`"),
        of("9 1 0 4 diff", "9 1 0 3 sum", 142, "atom 2, `&sum{recv-send}<=40`", "its name is `sum`, not `diff`"),
        of(FIRST, "9 6 2 0 0 2 5", 143, "atom 2, `&diff{}<=40`", "it has 0 elements, not one"),
        of(FIRST, "9 6 2 0 1 0 2 3", 143, "atom 2, `&diff{recv-send}<=send`", &bound),
    ]
}

// All of them.
fn cases() -> Vec<Case> {
    [twice(), nowhere(), too_early(), second(), no_difference()].concat()
}

#[test]
fn a_number_and_a_place_are_told() {
    for (text, number, place, words) in cases() {
        let said = unsound(&Plan::new(text.as_bytes()), number, place);
        assert_eq!(said, Some(words), "{text}");
    }
}

#[test]
fn the_judge_gives_them() {
    for (text, number, place, words) in cases() {
        let report = on(&text, "1 2 3\n");
        assert_eq!(report.first, format!("refused {number} {place}"), "{text}");
        assert_eq!((report.number, report.place as usize), (number, place));
        assert_eq!(report.comment.last(), Some(&words), "{text}");
        assert_eq!(report.comment.len(), 3, "{}", comment(&report));
    }
}

#[test]
fn the_mark_is_at_the_field_or_the_line() {
    for (text, number, place, _) in cases() {
        let line = on(&text, "1 2 3\n").line.unwrap();
        let start = text[..place].rfind('\n').unwrap() + 1;
        assert_eq!((line.column, number == 62), (place - start + 1, place > start), "{text}");
    }
    let late = on(&p_with("9 4 0 1 6 0", "9 4 0 1 70 0"), "\n");
    assert!(comment(&late).starts_with("line 12: 9 4 0 1 70 0\n                 ^\nterm 70 is used here"));
    let again = on(&p_with("9 0 8 5", "9 0 5 40"), "\n");
    assert!(comment(&again).starts_with("line 14: 9 0 5 40\n         ^\nterm 5 is defined twice"));
}

#[test]
fn the_library_shows_them_from_their_place() {
    for (text, number, place, _) in cases() {
        let (bytes, end) = (text.as_bytes(), place + text[place..].find('\n').unwrap());
        assert_eq!(shown(bytes, b"\n", number, place as u32), place..end, "{text}");
        assert!(shown(bytes, b"\n", 6, place as u32).is_empty(), "{text}");
    }
}

#[test]
fn within_a_line_the_smallest_number_and_the_leftmost_field() {
    let first = |lines: &[&str]| on(&only(lines), "\n").first;
    assert_eq!(first(&["9 0 5 7", "9 2 5 1 1 8"]), "refused 61 18");
    assert_eq!(on(&p_with("9 2 7 1 2 3 4", "9 2 3 1 2 3 70"), "\n").first, "refused 61 179");
    assert_eq!(first(&["9 2 7 1 1 8"]), "refused 62 16");
    assert_eq!(first(&["9 1 0 4 diff", "9 6 100 0 2 7 8 2 5"]), "refused 62 35");
    let replaced = |new: &str| on(&p_with(LAST, new), "\n").first;
    assert_eq!(replaced("9 6 3 0 1 7 12 9"), "refused 62 215");
    assert_eq!(replaced("9 6 2 0 1 1 2 19"), "refused 62 219");
    assert_eq!(replaced("9 5 2 0 0"), "refused 63 205");
    assert_eq!(replaced("9 5 3 0 0\n9 0 5 40"), "refused 64 205");
}

#[test]
fn atoms_are_told_by_their_names() {
    let named = |old: &str, new: &str| {
        let text = p_with(old, new).replace("\n0\n", "\n4 4 late 1 3\n0\n");
        on(&text, "\n").comment.pop().unwrap()
    };
    assert_eq!(
        named(LAST, "9 6 3 0 1 1 2 19"),
        "term 19 is used here, as the bound of atom 3 (`late`), and no line defines it"
    );
    assert!(named(LAST, &format!("{LAST}\n{LAST}")).starts_with("atom 3 (`late`) has a second theory statement, "));
    assert!(named(LAST, "9 5 3 0 1 1").starts_with("atom 3 (`late`), `&diff{send-recv}`, is no difference: "));
}

#[test]
fn whatever_digit_of_plan_p_is_another() {
    let mut seen = [0; 4];
    let digits = P.bytes().enumerate().filter(|(_, b)| b.is_ascii_digit()).map(|(at, _)| at);
    for (at, digit) in digits.flat_map(|at| ('0'..='9').map(move |digit| (at, digit))) {
        let report = on(&format!("{}{digit}{}", &P[..at], &P[at + 1..]), "1 2 3\n");
        if let 61..=64 = report.number {
            seen[report.number as usize - 61] += 1;
            assert_eq!(report.comment.len(), 3, "{}", comment(&report));
        }
    }
    assert_eq!(seen, [69, 90, 2, 83]);
}

#[test]
fn nothing_is_said_of_what_the_judge_does_not_give() {
    let plan = Plan::new(P.as_bytes());
    for place in 0..=P.len() + 1 {
        for number in [0, 3, 6, 61, 62, 63, 64, 65] {
            assert_eq!(unsound(&plan, number, place), None, "{number} {place}");
        }
    }
}

#[test]
fn in_json_and_without_a_picture() {
    for (text, number, place, words) in cases() {
        let report = on(&text, "1 2 3\n");
        let object = json::object(&report);
        let start = format!("{{\"verdict\":\"refused\",\"number\":{number},\"place\":{place},\"line\":{{\"number\":");
        assert!(object.starts_with(&start) && object.ends_with(&format!(",\"{words}\"]}}")), "{object}");
        assert_eq!(svg::picture(&report), None);
    }
    let late = json::object(&on(&p_with("9 4 0 1 6 0", "9 4 0 1 70 0"), "\n"));
    assert!(late.contains("\"line\":{\"number\":12,\"text\":\"9 4 0 1 70 0\",\"column\":9}"), "{late}");
}
