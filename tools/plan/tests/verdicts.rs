//! Each verdict with its commentary, on plan P and on texts of a few lines.

mod common;
use common::{comment, on, only, p_with, P};

use plan::judge::{judge, shown, time, Verdict};

const NET: &str = include_str!("data/net.aspif");

// The verdict, the place shown, and parts of the commentary.
fn told(text: &str, cand: &str, first: &str, parts: &[&str]) {
    let report = on(text, cand);
    assert_eq!(report.first, first, "{text}");
    for part in parts {
        assert!(comment(&report).contains(part), "{part}\n--\n{}", comment(&report));
    }
}

// What a single line at place 10 is told.
fn line(line: &str, first: &str, part: &str) {
    told(&only(&[line]), "\n", first, &[&format!("line 2: {line}\n"), part]);
}

#[test]
fn accepted_has_the_times_by_time() {
    let report = on(P, "1 2 3\n");
    assert_eq!((report.accepted, report.number, report.place), (true, 0, 44));
    let times: Vec<(u32, &str, u32)> = report.times.iter().map(|t| (t.term, t.name.as_str(), t.time)).collect();
    assert_eq!(times, [(3, "send", 0), (4, "recv", 5)]);
    assert_eq!(report.comment, ["      time  name", "         0  send", "         5  recv"]);
    assert_eq!(report.times[0].since_zero, None);
    let tight: Vec<(u32, &str, &str, i64, usize)> =
        report.tight.iter().map(|e| (e.atom, e.x.as_str(), e.y.as_str(), e.k, e.line)).collect();
    assert_eq!(tight, [(3, "send", "recv", -5, 18)]);
}

#[test]
fn accepted_beside_the_zero_name() {
    let report = on(NET, "1 2 3 4 7 8\n");
    assert_eq!(report.first, "accepted 3 6");
    let since: Vec<(&str, u32, Option<i64>)> =
        report.times.iter().map(|t| (t.name.as_str(), t.time, t.since_zero)).collect();
    assert_eq!(since, [("0", 0, Some(0)), ("recv(pmu2)", 0, Some(0)), ("send(pmu2)", 3, Some(3))]);
    assert_eq!(report.comment[3], "         3           3  send(pmu2)");
    let late = on(&p_with("9 1 4 4 recv", "9 0 4 0"), "1 2 3\n");
    assert_eq!(late.comment[1], "         0          -5  send");
}

#[test]
fn accepted_without_names() {
    told("asp 1 0 0\n0\n", "\n", "accepted 0 0", &["no names"]);
}

#[test]
fn atoms_of_the_answer_by_name() {
    let report = on(NET, "1 2 3 4 7 8\n");
    let atoms: Vec<(u32, &str)> = report.atoms.iter().map(|a| (a.atom, a.name.as_str())).collect();
    let diffs = [(7, "&diff{recv(pmu2)-send(pmu2)}<=40"), (8, "&diff{0-send(pmu2)}<=-3")];
    assert_eq!(atoms[..4], [(1, "one"), (2, "two"), (3, "#3"), (4, "net(a,b)")]);
    assert_eq!(atoms[4..], diffs);
}

#[test]
fn two_says_how_long_the_text_is() {
    let long = format!("asp 1 0 0\n10 {}\n0\n", "x".repeat(60_000));
    told(&long, "\n", "refused 2 60000", &[&format!("the text has {} bytes", long.len())]);
}

#[test]
fn three_says_what_was_expected() {
    line("1 0 1 1 0 1 -0", "refused 3 22", "^\nexpected a literal: an atom from 1 to 4,096, or a minus");
    line("1 0 1 -1 0 0", "refused 3 16", "expected an atom: a number from 1 to 4,096 (1 of 1); found `-1`");
    line("1 2 0 0 0", "refused 3 12", "the kind of a head");
    line("1 0 0 2 0", "refused 3 16", "the kind of a body");
    line("1 0 0 1 -1 0", "refused 3 18", "a lower bound");
    line("1 0 0 0 0 ", "refused 3 19", "expected the line end; found a space");
    line("1 0 0 0 1", "refused 3 19", "expected a space, and then a literal");
    told(&only(&["1\t0 0 0 0"]), "\n", "refused 3 10", &["expected a statement", "with the byte 9 in it"]);
    line("11", "refused 3 10", "its type is 0, 1, 4, 9 or 10");
    line("9 3 0", "refused 3 12", "a theory type");
    line("9 1 0 0", "refused 3 17", "a string of 0 bytes");
    line("9 1 0 2 a", "refused 3 19", "a string of 2 bytes, without the bytes 0 and 10; found the line end");
    line("9 1 0 1 ab", "refused 3 19", "the line end; found `b`");
    line("10", "refused 3 12", "a space, and then a comment");
    line("9 0 1 x", "refused 3 16", "an integer from -1,000,000");
    line("9 4 0 1 0 1 x", "refused 3 22", "a literal");
    line("9 6 1 0 0 0", "refused 3 21", "the bound, a term number");
    line("4 1 a x", "refused 3 16", "a count: 0 to 4,096, how many literals follow");
}

#[test]
fn three_at_the_ends_of_the_text() {
    told(
        "",
        "\n",
        "refused 3 0",
        &["line 1: \n        ^", "expected `a`: the first line is `asp 1 0 0`; found the end"],
    );
    told("asp 1 0 1\n0\n", "\n", "refused 3 8", &["        ^", "expected `0`", "found `1`"]);
    told("asp 1 0 0\t\n0\n", "\n", "refused 3 9", &["expected the line end", "found a tab"]);
    told("asp 1 0 0\n", "\n", "refused 3 10", &["line 2: ", "its last line `0`; found the end"]);
    told(
        "asp 1 0 0\n0\n0\n",
        "\n",
        "refused 3 12",
        &["line 3: 0", "expected nothing: the text ends with the line `0`"],
    );
    told("asp 1 0 0\n0", "\n", "refused 3 11", &["line 2: 0\n         ^", "expected the line end; found the end"]);
}

#[test]
fn four_says_what_the_construct_is_called() {
    line("2 0 0", "refused 4 10", "a minimize statement");
    line("3 0", "refused 4 10", "a projection (`#project`)");
    line("5 1 0", "refused 4 10", "an external");
    line("6 0", "refused 4 10", "an assumption");
    line("7 0 1 1 1 0", "refused 4 10", "a heuristic");
    line("8 0 1 0", "refused 4 10", "an edge");
    line("1 0 2 1 2 0 0", "refused 4 14", "a disjunction");
    line("9 5 0 0 0", "refused 4 14", "a theory directive");
    told(
        "asp 1 0 0 incremental\n0\n",
        "\n",
        "refused 4 9",
        &["line 1: asp 1 0 0 incremental", "a tag in the first line"],
    );
}

#[test]
fn five_says_the_bounds() {
    line("1 0 1 1 0 1 0", "refused 5 22", "`0` is not a literal: an atom from 1 to 4,096");
    line("1 0 1 0 0 0", "refused 5 16", "`0` is not an atom: a number from 1 to 4,096");
    line("1 1 4097 1 0 0", "refused 5 14", "`4097` is not a count: 0 to 4,096");
    line("1 0 0 1 1000000001 0", "refused 5 18", "a lower bound: 0 to 1,000,000,000");
    line("1 0 0 1 1 1 2 0", "refused 5 24", "`0` is not a weight: 1 to 100,000");
    line("9 0 0 1000001", "refused 5 16", "an integer from -1,000,000 to 1,000,000");
    line("9 2 0 -4 0", "refused 5 16", "-1 (tuple), -2 (set), -3 (list)");
    line("9 0 1024 1", "refused 5 14", "a term number: 0 to 1,023");
    line("9 4 1024 0 0", "refused 5 14", "an element number");
    line("9 1 0 5000 a", "refused 5 16", "the length of a string");
}

#[test]
fn seven_has_the_caret_in_the_candidate() {
    told(P, "", "refused 7 0", &["line 1: \n        ^", "expected an atom", "found the end"]);
    told(P, "1 2 3", "refused 7 5", &["line 1: 1 2 3\n             ^", "or the line end; found the end"]);
    told(P, "1 2 3\n\n", "refused 7 6", &["line 2: \n", "nothing: a candidate is one line"]);
    told(P, "3 1\n", "refused 7 2", &["line 1: 3 1\n          ^", "a number from 4 to 4,096; found `1`"]);
    told(P, "1 send\n", "refused 7 2", &["line 1: 1 send\n          ^", "`plan numbered PLAN`"]);
    assert!(!comment(&on(P, "3 1\n")).contains("plan numbered"));
}

#[test]
fn eight_has_the_rule_by_names() {
    told(
        NET,
        "1 2 8\n",
        "refused 8 24",
        &["the rule: #3 :- 2 <= #sum{1: one; 1: two}.", "its head `#3` is not in the answer", "add up to 2 of 2"],
    );
    told(
        NET,
        "1 2 3 8\n",
        "refused 8 46",
        &["the rule: net(a,b) :- #3, not cut1.", "its head `net(a,b)`", "#3 has no name; line 3: #3 :- 2 <= "],
    );
    told(NET, "1 5 6 8\n", "refused 8 91", &["the rule: :- one, cut1.", "it has no head"]);
    assert!(!comment(&on(NET, "1 5 6 8\n")).contains("has no name"));
}

#[test]
fn nine_has_the_literals_that_fail() {
    told(
        NET,
        "3 4 7 8\n",
        "refused 9 3",
        &["  line 3: #3 :- 2 <= #sum{1: one; 1: two}.", "its weights reach 0 of 2; fails: `one` (not in the answer)"],
    );
    told(
        NET,
        "4 7 8\n",
        "refused 9 4",
        &[
            "`net(a,b)` is in the answer, and none of its rules founds it:",
            "  line 4: net(a,b) :- #3, not cut1.\n    fails: `#3` (not in the answer)\n",
        ],
    );
    told(NET, "7 8\n", "refused 9 7", &["fails: `net(a,b)` (not in the answer)"]);
    told(NET, "1 2 3 4 7 8 99\n", "refused 9 99", &["`#99` is in the answer and stands nowhere in the text"]);
    told(&only(&["1 0 1 1 0 1 -1"]), "1\n", "refused 9 1", &["fails: `not #1` (that is in the answer)"]);
}

#[test]
fn nine_tells_a_loop_from_a_chain() {
    let looped = comment(&on(NET, "5 6 8\n"));
    assert!(looped.contains("`cut1` is supported only by itself: an unfounded loop"), "{looped}");
    assert!(looped.contains("line 5: cut1 :- #6.\n    holds, but rests on `#6`, unfounded too"), "{looped}");
    let chain = comment(&on(&only(&["1 0 1 1 0 1 2", "1 0 1 2 0 1 3"]), "1 2\n"));
    assert!(chain.contains("holds, but rests on `#2`") && !chain.contains("loop"), "{chain}");
    assert!(chain.contains("line 3: #2 :- #3.\n    fails: `#3` (not in the answer)"), "{chain}");
}

#[test]
fn ten_has_each_difference_and_what_put_it_there() {
    let q = p_with("9 0 8 5", "9 0 8 45");
    let report = on(&q, "1 2 3\n");
    assert_eq!((report.first.as_str(), report.sum, report.cycle.len()), ("refused 10 2", -5, 2));
    let edges: Vec<(u32, &str, &str, i64, usize)> =
        report.cycle.iter().map(|e| (e.atom, e.x.as_str(), e.y.as_str(), e.k, e.line)).collect();
    assert_eq!(edges, [(2, "recv", "send", 40, 13), (3, "send", "recv", -45, 18)]);
    let text = comment(&report);
    for part in [
        "  recv - send <= 40\n    line 13 states it",
        "line 3 puts it there: &diff{recv-send}<=40 :- #1.",
        "line 4 puts it there: &diff{send-recv}<=-45.",
        "40 + (-45) = -5\nrelaxing any one of them by 5 is enough for these",
        "#1 has no name; line 2: {#1}.",
    ] {
        assert!(text.contains(part), "{part}\n--\n{text}");
    }
}

#[test]
fn relaxing_one_by_the_shortfall_is_enough() {
    assert_eq!(on(&p_with("9 0 8 5", "9 0 8 45"), "1 2 3\n").sum, -5);
    assert!(on(&p_with("9 0 8 5", "9 0 8 45").replace("9 0 5 40", "9 0 5 45"), "1 2 3\n").accepted);
    assert!(!on(&p_with("9 0 8 5", "9 0 8 45").replace("9 0 5 40", "9 0 5 44"), "1 2 3\n").accepted);
}

#[test]
fn ten_says_what_is_external() {
    let text = p_with("9 0 8 5", "9 0 8 45").replace("1 0 1 2 0 1 1\n", "");
    told(&text, "2 3\n", "refused 10 2", &["no rule has it in its head: it is external"]);
}

#[test]
fn the_library_shows_the_part_that_the_line_shows() {
    for (text, cand) in
        [(only(&["1 0 1 1 0 1 -0"]), "\n"), (only(&["2 0 0"]), "\n"), (P.into(), "1 3\n"), (P.into(), "3 1\n")]
    {
        let report = on(&text, cand);
        let line = report.line.clone().unwrap();
        let range = shown(text.as_bytes(), cand.as_bytes(), report.number, report.place);
        let bytes = if report.number == 7 { cand.as_bytes() } else { text.as_bytes() };
        assert_eq!(line.text.as_bytes()[line.column - 1..], bytes[range], "{}", report.first);
    }
}

#[test]
fn columns_count_characters() {
    let column = |line: &str| on(&only(&[line]), "\n").line.map(|l| (l.number, l.column));
    assert_eq!(column("4 2 \u{e9} x"), Some((2, 7)));
    assert_eq!(column("4 1 \u{e9} 0"), Some((2, 5)));
    assert_eq!(column("4 3 \u{20ac}\u{20ac} 0"), Some((2, 6)));
}

#[test]
fn a_long_line_is_shown_beside_the_caret() {
    let line = format!("1 0 0 0 {}{}", 200, " 1".repeat(199));
    let report = on(&only(&[&line]), "\n");
    assert_eq!(report.line.map(|l| (l.text == line, l.column)), Some((true, line.len() + 1)));
    assert!(report.comment[0].starts_with("line 2: ..") && report.comment[0].len() < 160, "{}", report.comment[0]);
    assert_eq!(report.comment[1].len(), report.comment[0].len() + 1);
}

#[test]
fn a_time_is_read_by_the_library() {
    let Verdict::Accepted { table } = judge(P.as_bytes(), b"1 2 3\n") else { panic!() };
    assert_eq!((time(&table, 3), time(&table, 4), time(&table, 5)), (Some(0), Some(5), None));
}
