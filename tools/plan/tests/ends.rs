//! Texts and candidates whose lines end in 13 10: the same commentary, and a word where two kinds are mixed.

mod common;
use common::{comment, on, only, other_desk, p_with, P};

use plan::ends::{lines, End};
use plan::json::object;
use plan::judge::shown;

const NET: &str = include_str!("data/net.aspif");

/// The first line of a text from the other desk.
const FIRST: &str = "asp 1 0 0\r\n";

// The verdict on a text, as a report's first line has it, and a part of the commentary.
fn told(text: &str, cand: &str, first: &str, part: &str) {
    let report = on(text, cand);
    assert_eq!(report.first, first, "{text:?}");
    assert!(comment(&report).contains(part), "{text:?}: {part}\n--\n{}", comment(&report));
}

// A text from the other desk gets the commentary of the text itself; its places are moved by the line ends before them.
fn alike(text: &str, cand: &str, first: &str) {
    let (here, mut there) = (on(text, cand), on(&other_desk(text), cand));
    assert_eq!(here.first, first, "{text}");
    assert!(!object(&there).contains("\\r"), "{}", object(&there));
    if matches!(here.number, 3..=5 | 61..=64 | 8) {
        there.place -= here.line.as_ref().map_or(0, |l| l.number as u32 - 1);
        there.first = format!("refused {} {}", there.number, there.place);
    }
    assert_eq!(there, here, "{text}");
}

#[test]
fn plan_p_is_accepted_with_either_candidate() {
    for cand in ["1 2 3\n", "1 2 3\r\n"] {
        alike(P, cand, "accepted 2 3");
        assert_eq!(on(P, cand), on(P, "1 2 3\n"));
    }
    alike(NET, "1 2 3 4 7 8\r\n", "accepted 3 6");
    alike("asp 1 0 0\n0\n", "\r\n", "accepted 0 0");
}

#[test]
fn each_refusal_has_its_commentary() {
    alike("asp 1 0 1\n0\n", "\n", "refused 3 8");
    alike(&only(&["1 0 0 0 1"]), "\n", "refused 3 19");
    alike(&only(&["9 0 1 x"]), "\n", "refused 3 16");
    alike("asp 1 0 0\n0\n0\n", "\n", "refused 3 12");
    alike(&only(&["2"]), "\n", "refused 4 10");
    alike(&only(&["1 0 1 5000"]), "\n", "refused 5 16");
    alike(&p_with("9 0 8 5", "9 0 5 40"), "\n", "refused 61 159");
    alike(&p_with("9 4 0 1 6 0", "9 4 0 1 70 0"), "\n", "refused 62 139");
    alike(&p_with("9 6 3 0 1 1 2 9", "9 6 2 0 1 1 2 9"), "\n", "refused 63 205");
    alike(&p_with("9 6 3 0 1 1 2 9", "9 5 3 0 1 1"), "\n", "refused 64 205");
    alike(P, "3 1\r\n", "refused 7 2");
    alike(NET, "1 2 8\n", "refused 8 24");
    alike(NET, "5 6 8\r\n", "refused 9 5");
    alike(&p_with("9 0 8 5", "9 0 8 45"), "1 2 3\r\n", "refused 10 2");
}

#[test]
fn a_broken_rule_is_shown_without_13() {
    let text = other_desk(P);
    told(&text, "1 3\r\n", "refused 8 24", "line 3: 1 0 1 2 0 1 1\n        ^\nthe rule: &diff{recv-send}<=40 :- #1.");
    assert_eq!(text[shown(text.as_bytes(), b"1 3\n", 8, 24)], *"1 0 1 2 0 1 1");
}

#[test]
fn a_line_end_of_the_other_kind_is_told() {
    let alone = "found a line end of byte 10 alone; the first line ends in bytes 13 10, and so must every line";
    told(
        &format!("{FIRST}0\n"),
        "\n",
        "refused 3 12",
        &format!("line 2: 0\n         ^\nexpected the line end; {alone}"),
    );
    let comment = "expected a comment without the byte 0, up to a line end";
    told(&format!("{FIRST}10 a\n0\r\n"), "\n", "refused 3 15", &format!("{comment}; {alone}"));
    let both = "found a line end of bytes 13 10; the first line ends in byte 10 alone, and so must every line";
    told("asp 1 0 0\n0\r\n", "\n", "refused 3 11", &format!("^\nexpected the line end; {both}"));
    told("asp 1 0 0\n9 1 0 2 ab\r\n0\n", "\n", "refused 3 20", both);
    told("asp 1 0 0\n9 1 0 3 ab\r\r\n0\n", "\n", "refused 3 21", both);
    told("asp 1 0 0\n1 0 1 5000\r\n", "\n", "refused 5 16", "`5000` is not an atom");
    told("asp 1 0 0\n2\r\n0\n", "\n", "refused 4 10", "a minimize statement");
}

// The verdict, and the last words of the commentary: what was expected, and a line end of some bytes, with no word of the
// first line.
fn told_alone(text: &str, cand: &str, first: &str, expected: &str, bytes: &str) {
    let report = on(text, cand);
    assert_eq!(report.first, first, "{text:?}");
    let last = format!("expected {expected}; found a line end of {bytes}");
    assert!(comment(&report).ends_with(&last), "{text:?}: {last}\n--\n{}", comment(&report));
}

#[test]
fn where_no_line_end_is_due_the_first_line_is_not_named() {
    let (alone, both) = ("byte 10 alone", "bytes 13 10");
    let text_ends = "nothing: the text ends with the line `0`";
    told_alone(&format!("{FIRST}0\r\n\n"), "\n", "refused 3 14", text_ends, alone);
    told_alone("asp 1 0 0\n0\n\r\n", "\n", "refused 3 12", text_ends, both);
    let one_line = "nothing: a candidate is one line";
    told_alone(P, "\r\n\n", "refused 7 2", one_line, alone);
    told_alone(P, "1\r\n\n", "refused 7 3", one_line, alone);
    told_alone(P, "1\n\r\n", "refused 7 2", one_line, both);
    let atom = "a space, and then an atom: a number from 1 to 4,096 (1 of 1)";
    told_alone(&format!("{FIRST}1 0 1\n0\r\n"), "\n", "refused 3 16", atom, alone);
    told_alone("asp 1 0 0\n1 0 1\r\n0\n", "\n", "refused 3 15", atom, both);
    let string = "a string of 4 bytes, without the bytes 0 and 10";
    told_alone(&format!("{FIRST}9 1 0 4 ab\n0\r\n"), "\n", "refused 3 21", string, alone);
    let comment = "a space, and then a comment";
    told_alone("asp 1 0 0\n10\r\n0\n", "\n", "refused 3 12", comment, both);
}

// Puts a line end of the other kind at a place; whether it is refused there, and if so whether the first line is named.
fn named(text: &str, place: usize) -> Option<bool> {
    let other = if End::of(text.as_bytes()) == End::Feed { "\r\n" } else { "\n" };
    let report = on(&[&text[..place], other, &text[place..]].concat(), "\n");
    let comment = comment(&report);
    let here = (report.number, report.place) == (3, place as u32) && comment.contains("found a line end of");
    here.then(|| comment.contains("and so must every line"))
}

// Whether a line end of the text's own kind, put at a place, is refused.
fn own_refused(text: &str, place: usize) -> bool {
    let own = End::of(text.as_bytes()).bytes();
    let report = on(&[&text[..place], std::str::from_utf8(own).unwrap(), &text[place..]].concat(), "\n");
    report.number == 3 && (place..place + own.len()).contains(&(report.place as usize))
}

#[test]
fn the_first_line_is_named_where_its_line_end_is_right() {
    let text = p_with("9 0 8 5", "9 0 8 5\n10 a comment\n4 2 a  1 1");
    let mut counts = [0; 2];
    for text in [other_desk(&text), text] {
        for place in text.find('\n').unwrap() + 1..=text.len() {
            let Some(named) = named(&text, place) else { continue };
            assert_eq!(named, !own_refused(&text, place), "{place} {:?}", &text[..place]);
            counts[usize::from(named)] += 1;
        }
    }
    assert!(counts.iter().all(|&n| n > 30), "{counts:?}");
}

#[test]
fn a_byte_13_alone_is_told() {
    let none = "without byte 10 behind it is no line end";
    told("asp 1 0 0\r", "\n", "refused 3 9", none);
    told("asp 1 0 0\r0\r", "\n", "refused 3 9", none);
    told(
        &format!("{FIRST}0\r"),
        "\n",
        "refused 3 11",
        &format!("found `0\u{fffd}`, with the byte 13 in it, which {none}"),
    );
    told(&format!("{FIRST}1 0 1\r 1 0 0\r\n0\r\n"), "\n", "refused 3 15", none);
    told(&format!("{FIRST}9 1 0 2 ab\rx\r\n0\r\n"), "\n", "refused 3 21", none);
    told(P, "1\r", "refused 7 0", none);
    told(P, "1\rx\n", "refused 7 0", none);
}

#[test]
fn strings_and_comments_have_13_like_any_byte() {
    for line in ["10 a\r\r\n", "10 a\rb\r\n", "10 \r\n", "9 1 0 3 ab\r\r\n", "4 2 a\r 0\r\n"] {
        told(&format!("{FIRST}{line}0\r\n"), "\n", "accepted 0 0", "no names");
    }
    for line in ["10 a\r\n", "9 1 0 3 ab\r\n"] {
        told(&format!("asp 1 0 0\n{line}0\n"), "\n", "accepted 0 0", "no names");
    }
    let taken = "found the byte 10 of a line end whose byte 13 the string has taken";
    told(&format!("{FIRST}9 1 0 3 ab\r\n0\r\n"), "\n", "refused 3 22", &format!("expected the line end; {taken}"));
    told(&format!("{FIRST}9 1 0 4 ab\r\n0\r\n"), "\n", "refused 3 22", "expected a string of 4 bytes");
    told(&format!("{FIRST}4 2 a\r\n0\r\n"), "\n", "refused 3 17", taken);
    told(
        &format!("{FIRST}10\r\n0\r\n"),
        "\n",
        "refused 3 13",
        "expected a space, and then a comment; found the line end",
    );
    told(&format!("{FIRST}10 a\r"), "\n", "refused 3 16", "up to a line end; found the end");
}

#[test]
fn a_candidate_has_its_own_kind() {
    told(P, "\r\n", "refused 8 36", "the rule: ");
    told(P, "1 \r\n", "refused 7 2", "a number from 2 to 4,096; found the line end");
    told(P, "1\r\n2\r\n", "refused 7 3", "line 2: 2\n        ^\nin the answer expected nothing");
}

#[test]
fn the_library_shows_the_part_that_the_line_shows() {
    let mixed = format!("{FIRST}9 0 1 x\n");
    for (text, cand) in [
        ("xx\r\r\n", "\n"),
        ("asp 1 0 1\r\n", "\n"),
        ("asp 1 0 0\n0\r\n", "\n"),
        ("asp 1 0 0\r\n9 1 0 3 ab\r\n", "\n"),
        (mixed.as_str(), "\n"),
        (P, "1 \r\n"),
        (P, "1\r"),
        (P, "x\r\n"),
        (P, "1 x\r\r\n"),
    ] {
        let report = on(text, cand);
        let line = report.line.clone().unwrap();
        let range = shown(text.as_bytes(), cand.as_bytes(), report.number, report.place);
        let bytes = if report.number == 7 { cand.as_bytes() } else { text.as_bytes() };
        assert_eq!(line.text.as_bytes()[line.column - 1..], bytes[range], "{text:?} {cand:?}");
    }
}

#[test]
fn lines_end_by_the_kind_of_the_first() {
    let of = |text: &str| -> Vec<String> {
        let lines = lines(text.as_bytes());
        assert!(lines.windows(2).all(|w| w[0].next == w[1].start), "{text:?}");
        lines.iter().map(|l| String::from(&text[l.start..l.end])).collect()
    };
    assert_eq!(of("a\r\n\r\nb\nc\r\r\nd\r"), ["a", "", "b", "c\r", "d\r"]);
    assert_eq!(of("a\nb\r\n\r\nc"), ["a", "b\r", "\r", "c"]);
    assert_eq!((of(""), of("\n"), of("\r\n"), of("\r")), (vec![], vec!["".into()], vec!["".into()], vec!["\r".into()]));
    assert_eq!(
        [End::of(b""), End::of(b"a\r"), End::of(b"\r\n"), End::of(b"a\n\r\n")].map(|e| e == End::Return),
        [false, false, true, false]
    );
}
