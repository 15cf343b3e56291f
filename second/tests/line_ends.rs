//! Line ends of either kind: the traps, what the generated cases have of them, and texts that differ in them alone.
mod common;
use common::*;
use second::judge::fields::LineEnd;
use second::testing::cases::{case, undamaged};
use second::testing::damaging::damage;
use second::testing::generating::{padded, Case};
use second::testing::line_ends::{returned, varied};
use second::testing::random::Random;
use second::testing::term_faults;
use second::{read_text, show, Refusal, Statement, Verdict};
use std::collections::BTreeMap;

// Asks of the second program what it says to the traps whose name begins so, and what it shows.
fn check(front: &str) {
    check_line_ends(front, |text, cand| verdict(text, cand), shown);
}

#[test]
fn first_lines() {
    check("ends-first");
}

#[test]
fn last_lines() {
    check("ends-last");
}

#[test]
fn fields() {
    check("ends-field");
}

#[test]
fn comments() {
    check("ends-comment");
}

#[test]
fn strings() {
    check("ends-string");
}

#[test]
fn candidates() {
    check("ends-cand");
}

#[test]
fn plan_p() {
    check("ends-P");
}

/// How often each thing was seen.
type Seen = BTreeMap<String, u32>;

// What was done to the line ends of some bytes.
fn change_word(made: &[u8], got: &[u8]) -> &'static str {
    match got {
        got if got == made => "10",
        got if got == returned(made) => "13 10",
        _ => "unlike",
    }
}

#[test]
fn a_third_has_13_10_and_a_tenth_is_unlike() {
    const CASES: u32 = 20_000;
    let (mut random, mut seen) = (Random::new(31), Seen::new());
    for _ in 0..CASES {
        let made = undamaged(&mut random);
        let (text, cand) = varied(&mut random, made.clone());
        let (of_text, of_cand) = (change_word(&made.0, &text), change_word(&made.1, &cand));
        for word in [format!("text {of_text}"), format!("cand {of_cand}"), format!("{of_text}, {of_cand}")] {
            *seen.entry(word).or_default() += 1;
        }
    }
    println!("{seen:?}");
    for (kind, part) in [("10", 3), ("13 10", 3), ("unlike", 10)] {
        assert!(part * seen[&format!("text {kind}")] >= CASES, "{seen:?}");
        assert!(part * seen[&format!("cand {kind}")] >= CASES, "{seen:?}");
    }
    assert!(["10, 13 10", "13 10, 10", "13 10, 13 10"].iter().all(|pair| 9 * seen[*pair] >= CASES), "{seen:?}");
}

// A word for the kind of some bytes.
fn kind_word(bytes: &[u8]) -> &'static str {
    match LineEnd::kind_of(bytes) {
        LineEnd::Feed => "10",
        LineEnd::Return => "13 10",
    }
}

// What is at a place where a text or a candidate is refused, if it has to do with a 13 or with the other line end.
fn fault_word(bytes: &[u8], place: u32) -> Option<&'static str> {
    let (before, rest) = bytes.split_at(place as usize);
    let field = rest.split(|b| *b == b' ' || *b == b'\n').next().unwrap_or(&[]);
    match (kind_word(bytes), field) {
        ("13 10", []) if rest.starts_with(b"\n") && before.ends_with(b"\r") => Some("a 10 behind the 13 of a string"),
        ("13 10", []) if rest.starts_with(b"\n") => Some("10 alone"),
        (_, []) if rest.is_empty() && before.ends_with(b"\r") => Some("the end behind a 13"),
        ("10", [b'\r']) if rest.starts_with(b"\r\n") => Some("13 10"),
        (_, [b'\r', ..]) if !rest.starts_with(b"\r\n") => Some("a 13"),
        (_, [.., b'\r']) if rest[field.len()..].starts_with(b" ") => Some("a field with a 13 before a space"),
        (_, [.., b'\r']) if rest.len() == field.len() => Some("a field with a 13 before the end"),
        (_, [.., b'\r', b'\r']) => Some("a field with a 13 before the line end"),
        (_, [front @ .., _]) if front.contains(&b'\r') => Some("a field with a 13 inside"),
        _ => None,
    }
}

// Where the bytes of a string or a comment have a 13.
fn byte_words(what: &str, bytes: &[u8]) -> Vec<String> {
    let inside = bytes.split_last().is_some_and(|(_, front)| front.contains(&b'\r'));
    let words = [inside.then_some("inside"), bytes.ends_with(b"\r").then_some("last")];
    words.into_iter().flatten().map(|word| format!("{what}, 13 {word}")).collect()
}

// What a statement has of bytes 13.
fn statement_words(statement: &Statement) -> Vec<String> {
    match statement {
        Statement::Comment { bytes } => byte_words("comment", bytes),
        Statement::Symbol { string, .. } => byte_words("string of a term", string),
        Statement::Output { string, .. } => byte_words("string of an output", string),
        _ => Vec::new(),
    }
}

// What a case has of line ends and bytes 13: its verdict by the kind of its text, where that is refused, what it reads.
fn case_words(text: &[u8], cand: &[u8]) -> Vec<String> {
    let (of_text, of_cand) = (kind_word(text), kind_word(cand));
    let mut words = match verdict(text, cand) {
        Verdict::Accepted(_) => vec![format!("{of_text}: accepted, {of_cand}")],
        Verdict::Refused(Refusal { number: 3, place }) => {
            vec![format!("{of_text}: 3, {}", fault_word(text, place).unwrap_or("another"))]
        }
        Verdict::Refused(Refusal { number: 7, place }) => {
            vec![format!("{of_cand}: 7, {}", fault_word(cand, place).unwrap_or("another"))]
        }
        Verdict::Refused(Refusal { number, .. }) => vec![format!("{of_text}: {number}")],
    };
    for line in read_text(text).unwrap_or_default() {
        words.extend(statement_words(&line.statement).iter().map(|word| format!("{of_text}: {word}")));
    }
    words
}

/// What the cases must have, in texts or candidates of each kind.
const OF_EACH: &[&str] = &[
    "accepted, 10", "accepted, 13 10", "4", "5", "61", "62", "63", "64", "8", "9", "10", "3, a 13",
    "3, a field with a 13 before a space", "3, a field with a 13 before the end", "3, a field with a 13 inside",
    "3, the end behind a 13", "7, a 13", "7, a field with a 13 before a space", "7, a field with a 13 inside",
    "comment, 13 inside", "comment, 13 last", "string of a term, 13 inside", "string of a term, 13 last",
    "string of an output, 13 inside", "string of an output, 13 last",
];

/// What they must have in those of one kind.
const OF_ONE: &[&str] = &[
    "10: 3, 13 10", "10: 7, 13 10", "10: 7, a field with a 13 before the end", "13 10: 3, 10 alone",
    "13 10: 3, a 10 behind the 13 of a string", "13 10: 3, a field with a 13 before the line end",
    "13 10: 7, 10 alone", "13 10: 7, a field with a 13 before the line end",
];

#[test]
fn the_cases_have_every_way() {
    let (mut random, mut seen) = (Random::new(32), Seen::new());
    for _ in 0..40_000 {
        let (text, cand) = case(&mut random);
        for word in case_words(&text, &cand) {
            *seen.entry(word).or_default() += 1;
        }
    }
    println!("{seen:?}");
    let mut wanted: Vec<String> = OF_ONE.iter().map(|word| word.to_string()).collect();
    wanted.extend(["10", "13 10"].iter().flat_map(|kind| OF_EACH.iter().map(move |word| format!("{kind}: {word}"))));
    wanted.retain(|word| seen.get(word).is_none_or(|n| *n < 10));
    assert!(wanted.is_empty(), "{wanted:?} {seen:?}");
}

// A refusal of a text and a candidate whose lines end in 10, as it is when those of one or of both end in 13 10.
fn moved_refusal(text: &[u8], cand: Option<&[u8]>, Refusal { number, place }: Refusal) -> Refusal {
    let place = match number {
        3..=5 | 8 | 61..=64 => moved(text, place),
        7 => cand.map_or(place, |cand| moved(cand, place)),
        _ => place,
    };
    Refusal { number, place }
}

// Whether a place of a text has a byte 10 that stands in a string: with another byte there, nothing is wrong up to it.
fn in_string(text: &[u8], place: u32) -> bool {
    let mut other = text.to_vec();
    match other.get_mut(place as usize) {
        Some(byte) if *byte == b'\n' => *byte = b'x',
        _ => return false,
    }
    read_text(&other).err().is_none_or(|refusal| refusal.place > place)
}

// Asks that a text and a candidate get the same answer when their lines end in 13 10; gives the verdict's number.
// A byte 10 in a string is refused at its own place, behind the 13, which the string takes.
fn check_returned(text: &[u8], cand: &[u8], and_cand: bool) -> u32 {
    let mut wanted = judged(text, cand);
    let mut number = 0;
    if let Verdict::Refused(refusal) = wanted.verdict {
        let mut there = moved_refusal(text, and_cand.then_some(cand), refusal);
        there.place += u32::from(refusal.number == 3 && in_string(text, refusal.place));
        wanted.verdict = Verdict::Refused(there);
        number = refusal.number;
    }
    let other = if and_cand { returned(cand) } else { cand.to_vec() };
    assert_eq!(judged(&returned(text), &other), wanted, "{} {}", text.escape_ascii(), cand.escape_ascii());
    number
}

#[test]
fn what_reads_says_the_same() {
    let (mut random, mut with_13) = (Random::new(33), 0);
    for _ in 0..10_000 {
        let (text, _) = undamaged(&mut random);
        let mut lines = read_text(&text).unwrap();
        for line in &mut lines {
            line.place = moved(&text, line.place);
            line.uses.iter_mut().for_each(|used| used.place = moved(&text, used.place));
        }
        assert_eq!(read_text(&returned(&text)), Ok(lines), "{}", text.escape_ascii());
        with_13 += u32::from(text.contains(&b'\r'));
    }
    assert!(with_13 > 2_000, "{with_13}");
}

#[test]
fn what_reads_is_answered_alike() {
    let (mut random, mut counts) = (Random::new(34), BTreeMap::<u32, u32>::new());
    for _ in 0..10_000 {
        let (text, cand) = undamaged(&mut random);
        let text = if random.once_in(3) { term_faults::put(&mut random, &text) } else { text };
        for and_cand in [false, true] {
            *counts.entry(check_returned(&text, &cand, and_cand)).or_default() += 1;
        }
    }
    println!("{counts:?}");
    assert!([0, 61, 62, 63, 64, 8, 9, 10].iter().all(|n| counts[n] > 100), "{counts:?}");
}

// A damaged case without a byte 13, its lines ended by byte 10.
fn damaged_without_13(random: &mut Random) -> Case {
    loop {
        let (mut text, mut cand) = undamaged(random);
        for _ in 0..1 + random.below(2) {
            let bytes = if random.once_in(3) { &mut cand } else { &mut text };
            damage(random, bytes);
        }
        if !text.contains(&b'\r') && !cand.contains(&b'\r') {
            return (text, cand);
        }
    }
}

#[test]
fn what_is_refused_without_13_is_refused_alike() {
    let (mut random, mut counts, mut strings) = (Random::new(35), BTreeMap::<u32, u32>::new(), 0);
    for _ in 0..20_000 {
        let (text, cand) = damaged_without_13(&mut random);
        let number = check_returned(&text, &cand, random.once_in(2));
        *counts.entry(number).or_default() += 1;
        strings += u32::from(read_text(&text).is_err_and(|r| r.number == 3 && in_string(&text, r.place)));
    }
    println!("{counts:?} {strings}");
    assert!([0, 3, 4, 5, 7, 8, 9, 10].iter().all(|n| counts[n] > 50) && strings > 50, "{counts:?} {strings}");
}

// A text that reads and has no byte 13.
fn without_13(random: &mut Random) -> Vec<u8> {
    loop {
        let (text, _) = undamaged(random);
        if !text.contains(&b'\r') {
            return text;
        }
    }
}

// The place of 3, if a text does not read; no other number is looked for.
fn third(text: &[u8]) -> Option<u32> {
    let refusal = read_text(text).err()?;
    assert_eq!(refusal.number, 3, "{}", text.escape_ascii());
    Some(refusal.place)
}

// Lines with an end for each; and where the first line end stands that is of another kind than the first, but behind a
// comment where lines end in 10: there the 13 belongs to the comment.
fn ended(lines: &[&[u8]], ends: &[LineEnd]) -> (Vec<u8>, Option<u32>) {
    let (mut text, mut other) = (Vec::new(), None);
    for (line, end) in lines.iter().zip(ends) {
        text.extend(*line);
        let in_comment = ends[0] == LineEnd::Feed && line.starts_with(b"10 ");
        if *end != ends[0] && !in_comment {
            other = other.or(Some(text.len() as u32));
        }
        text.extend(end.bytes());
    }
    (text, other)
}

// Line ends for so many lines: all alike but one, or each by chance.
fn any_ends(random: &mut Random, lines: usize) -> Vec<LineEnd> {
    let kinds = [LineEnd::Feed, LineEnd::Return];
    if random.once_in(3) {
        return (0..lines).map(|_| *random.one_of(&kinds)).collect();
    }
    let mut ends = vec![*random.one_of(&kinds); lines];
    ends[random.below(lines)] = *random.one_of(&kinds);
    ends
}

#[test]
fn the_first_line_end_of_the_other_kind_is_refused() {
    let (mut random, mut counts) = (Random::new(36), [0; 2]);
    for _ in 0..2_000 {
        let text = without_13(&mut random);
        let lines: Vec<&[u8]> = text[..text.len() - 1].split(|b| *b == b'\n').collect();
        for _ in 0..10 {
            let ends = any_ends(&mut random, lines.len());
            let (text, other) = ended(&lines, &ends);
            assert_eq!(third(&text), other, "{}", text.escape_ascii());
            counts[usize::from(other.is_some())] += 1;
        }
    }
    println!("{counts:?}");
    assert!(counts.iter().all(|n| *n > 3_000), "{counts:?}");
}

// What a 13 put at a place behind the first line does to a text that reads: the place of 3, or nothing where it is in a
// comment. Of a line that has a string, nothing is said.
fn lone_place(text: &[u8], place: usize) -> Option<Option<u32>> {
    let start = text[..place].iter().rposition(|b| *b == b'\n')? + 1;
    let line = &text[start..];
    let field = text[..place].iter().rposition(|b| *b == b' ' || *b == b'\n')? + 1;
    match line {
        [b'4', ..] | [b'9', b' ', b'1', ..] => None,
        [b'1', b'0', b' ', ..] if place >= start + 3 => Some(None),
        [] => Some(Some(place as u32)),
        _ if text[place..].starts_with(b"\n") && LineEnd::kind_of(text) == LineEnd::Feed => Some(Some(place as u32)),
        _ => Some(Some(field as u32)),
    }
}

#[test]
fn a_13_elsewhere_is_part_of_the_field() {
    let (mut random, mut counts) = (Random::new(37), [0; 2]);
    for i in 0..600 {
        let text = without_13(&mut random);
        let text = if i % 2 == 0 { text } else { returned(&text) };
        for place in 0..=text.len() {
            let Some(wanted) = lone_place(&text, place) else { continue };
            let changed = [&text[..place], b"\r", &text[place..]].concat();
            assert_eq!(third(&changed), wanted, "{place} {}", changed.escape_ascii());
            counts[usize::from(wanted.is_some())] += 1;
        }
    }
    println!("{counts:?}");
    assert!(counts.iter().all(|n| *n > 500), "{counts:?}");
}

// What is shown of some bytes from a place on, by the sentence: up to before the next byte 10, and without the 13 right
// before that if the first byte 10 has a 13 right before it.
fn slow_shown(bytes: &[u8], place: usize) -> &[u8] {
    let part = bytes.get(place..).unwrap_or(&[]);
    let Some(end) = part.iter().position(|b| *b == b'\n') else { return part };
    let first = bytes.iter().position(|b| *b == b'\n').unwrap_or(0);
    let returned = first > 0 && bytes[first - 1] == b'\r';
    match &part[..end] {
        [front @ .., b'\r'] if returned => front,
        whole => whole,
    }
}

// All bytes of a length over some.
fn all_bytes(length: u32, some: &[u8]) -> Vec<Vec<u8>> {
    let count = some.len();
    let one = |n: usize| (0..length).map(|i| some[n / count.pow(i) % count]).collect();
    (0..count.pow(length)).map(one).collect()
}

#[test]
fn showing_goes_by_the_first_10() {
    for bytes in (0..=7).flat_map(|length| all_bytes(length, b"a\r\n")) {
        for place in 0..=bytes.len() + 1 {
            let wanted = slow_shown(&bytes, place);
            assert_eq!(show(&bytes, b"b\n", 3, place as u32), wanted, "{place} {}", bytes.escape_ascii());
            assert_eq!(show(b"b\r\n", &bytes, 7, place as u32), wanted, "{place} {}", bytes.escape_ascii());
        }
    }
}

#[test]
fn showing_is_the_same_in_13_10() {
    let mut random = Random::new(38);
    for _ in 0..300 {
        let text = without_13(&mut random);
        for place in 0..=text.len() as u32 {
            let there = moved(&text, place);
            assert_eq!(show(&returned(&text), b"", 8, there), show(&text, b"", 8, place), "{}", text.escape_ascii());
        }
    }
}

#[test]
fn the_longest_texts() {
    let plan = returned(P.as_bytes());
    assert_eq!(verdict(padded(&plan, 60_000), "1 2 3\r\n"), Verdict::Accepted(44));
    assert_eq!(verdict(padded(&plan, 60_001), "1 2 3\r\n"), refused(2, 60_000));
    // The 13s count: a text of 60,000 bytes whose lines end in 10 is too long with 13 10.
    assert_eq!(verdict(returned(&padded(P.as_bytes(), 60_000)), "1 2 3\n"), refused(2, 60_000));
}
