//! What is wrong with the terms: 61 to 64 beside document 01's test for 6, and the damaged plans that have them.
mod common;
use common::*;
use second::judge::fields::LineEnd;
use second::testing::cases::{damaged, undamaged};
use second::testing::generating;
use second::testing::random::Random;
use second::{read_text, terms, Base, Difference, Line, Refusal, Statement, Used, Verdict};
use std::collections::BTreeMap;

// The statement that defines a term.
fn term_in(before: &[Line], t: u32) -> Option<&Statement> {
    let defines = |s: &Statement| matches!(s, Statement::Number { term, .. } | Statement::Symbol { term, .. } | Statement::Compound { term, .. } if *term == t);
    before.iter().map(|l| &l.statement).find(|s| defines(s))
}

// The statement that defines an element.
fn element_in(before: &[Line], e: u32) -> Option<&Statement> {
    before.iter().map(|l| &l.statement).find(|s| matches!(s, Statement::Element { element, .. } if *element == e))
}

// Whether a term or element number is defined twice.
fn twice(before: &[Line], statement: &Statement) -> bool {
    match statement {
        Statement::Number { term, .. } | Statement::Symbol { term, .. } | Statement::Compound { term, .. } => {
            term_in(before, *term).is_some()
        }
        Statement::Element { element, .. } => element_in(before, *element).is_some(),
        _ => false,
    }
}

// Whether a term or element is used that no earlier line defines.
fn unknown(before: &[Line], statement: &Statement) -> bool {
    let no_term = |t: &u32| term_in(before, *t).is_none();
    let no_element = |e: &u32| element_in(before, *e).is_none();
    match statement {
        Statement::Compound { base, arguments, .. } => {
            matches!(base, Base::Term(t) if no_term(t)) || arguments.iter().any(no_term)
        }
        Statement::Element { terms, .. } => terms.iter().any(no_term),
        Statement::Theory { name, elements, guard, .. } => {
            no_term(name) || elements.iter().any(no_element) || guard.is_some_and(|(g, u)| no_term(&g) || no_term(&u))
        }
        _ => false,
    }
}

// Whether an atom has a second theory atom statement.
fn second(before: &[Line], statement: &Statement) -> bool {
    let Statement::Theory { atom: a, .. } = statement else { return false };
    before.iter().any(|l| matches!(&l.statement, Statement::Theory { atom, .. } if atom == a))
}

// Whether a theory atom isn't a difference.
fn no_difference(before: &[Line], line: &Line) -> bool {
    matches!(line.statement, Statement::Theory { .. }) && slow_difference(before, line).is_none()
}

// The bytes of a string term.
fn string_in(before: &[Line], t: u32) -> Option<Vec<u8>> {
    match term_in(before, t)? {
        Statement::Symbol { string, .. } => Some(string.clone()),
        _ => None,
    }
}

// A compound as the bytes of its t and its arguments.
fn compound_in(before: &[Line], t: u32) -> Option<(Vec<u8>, Vec<u32>)> {
    match term_in(before, t)? {
        Statement::Compound { base: Base::Term(b), arguments, .. } => Some((string_in(before, *b)?, arguments.clone())),
        _ => None,
    }
}

// A number.
fn number_in(before: &[Line], t: u32) -> Option<i64> {
    match term_in(before, t)? {
        Statement::Number { value, .. } => Some(i64::from(*value)),
        _ => None,
    }
}

// The difference of a theory atom's line, if it is one.
fn slow_difference(before: &[Line], line: &Line) -> Option<Difference> {
    let Statement::Theory { atom, name, elements, guard } = &line.statement else { return None };
    let (g, u) = (*guard)?;
    let strings_right = string_in(before, *name)? == b"diff" && string_in(before, g)? == b"<=";
    let Statement::Element { terms, condition, .. } = element_in(before, *elements.first()?)? else { return None };
    let (sign, sides) = compound_in(before, *terms.first()?)?;
    let counts_right = elements.len() == 1 && terms.len() == 1 && condition.is_empty() && sides.len() == 2;
    let bound = number_in(before, u).or_else(|| match compound_in(before, u) {
        Some((s, a)) if s == b"-" && a.len() == 1 => number_in(before, a[0]).map(|v| -v),
        _ => None,
    })?;
    let right = strings_right && counts_right && sign == b"-";
    right.then(|| Difference { line: line.place, atom: *atom, x: sides[0], y: sides[1], bound })
}

// Document 01's test for 6 of one line.
fn six(before: &[Line], line: &Line) -> bool {
    let statement = &line.statement;
    twice(before, statement) || unknown(before, statement) || second(before, statement) || no_difference(before, line)
}

// The first line that the test for 6 finds.
fn first_six(lines: &[Line]) -> Option<usize> {
    (0..lines.len()).find(|i| six(&lines[..*i], &lines[*i]))
}

/// A field that uses something: its place, what it is, and its number.
type Field = (u32, &'static str, u32);

// The fields of a line with their places and numbers, from its bytes alone.
fn fields(text: &[u8], place: u32) -> Vec<(u32, i64)> {
    let (mut fields, mut place) = (Vec::new(), place);
    let line = text[place as usize..].split(|b| *b == b'\n').next().unwrap_or(&[]);
    let line = match LineEnd::kind_of(text) {
        LineEnd::Feed => line,
        LineEnd::Return => line.strip_suffix(b"\r").unwrap_or(line),
    };
    for field in line.split(|b| *b == b' ') {
        fields.push((place, String::from_utf8_lossy(field).parse().unwrap_or(0)));
        place += field.len() as u32 + 1;
    }
    fields
}

// The fields of a line that use something; a string has no field behind it that does.
fn uses(text: &[u8], line: &Line) -> Vec<Field> {
    let fields = fields(text, line.place);
    let n = |i: usize| fields[i].1 as usize;
    let all = |word: &'static str, from: usize, count: usize| -> Vec<Field> {
        let used = fields[from..from + count].iter().filter(|f| f.1 >= 0);
        used.map(|(place, number)| (*place, word, *number as u32)).collect()
    };
    match (fields[0].1, fields[1].1) {
        (9, 2) => [all("t", 3, 1), all("argument", 5, n(4))].concat(),
        (9, 4) => all("term of an element", 4, n(3)),
        (9, 5) => [all("p", 3, 1), all("element", 5, n(4))].concat(),
        (9, 6) => {
            let g = 5 + n(4);
            [all("p", 3, 1), all("element", 5, n(4)), all("g", g, 1), all("u", g + 1, 1)].concat()
        }
        _ => Vec::new(),
    }
}

// The leftmost field of a line that uses what no earlier line defines.
fn leftmost(text: &[u8], before: &[Line], line: &Line) -> Option<Field> {
    uses(text, line).into_iter().find(|(_, word, number)| match *word {
        "element" => element_in(before, *number).is_none(),
        _ => term_in(before, *number).is_none(),
    })
}

// The reasons that a line has, in the order of their numbers.
fn reasons(before: &[Line], line: &Line) -> Vec<u32> {
    let all = [
        (61, twice(before, &line.statement)),
        (62, unknown(before, &line.statement)),
        (63, second(before, &line.statement)),
        (64, no_difference(before, line)),
    ];
    all.iter().filter(|(_, has)| *has).map(|(number, _)| *number).collect()
}

// Asks that a line that the test for 6 finds is refused by its first reason, at the field or the line's first byte.
fn check_reason(text: &[u8], before: &[Line], line: &Line, got: Refusal) {
    let place = match got.number {
        62 => leftmost(text, before, line).map(|field| field.0),
        _ => Some(line.place),
    };
    assert_eq!(Some(got.place), place, "{got:?} {}", text.escape_ascii());
    assert_eq!(Some(&got.number), reasons(before, line).first(), "{got:?} {}", text.escape_ascii());
}

// The number of a verdict, 0 for accepted.
fn number_of(verdict: Verdict) -> u32 {
    if let Verdict::Refused(r) = verdict {
        r.number
    } else {
        0
    }
}

// A text of any kind with its candidate: damaged, or with loose theory lines.
fn any(random: &mut Random) -> generating::Case {
    if random.once_in(3) {
        return (generating::loose(random), b"\n".to_vec());
    }
    let made = undamaged(random);
    damaged(random, &made)
}

#[test]
fn uses_are_noted_with_their_places() {
    let (mut random, mut noted) = (Random::new(9), 0);
    for _ in 0..5_000 {
        let (text, _) = any(&mut random);
        for line in read_text(&text).unwrap_or_default() {
            let number = |used: Used| match used {
                Used::Term(term) => (false, term),
                Used::Element(element) => (true, element),
            };
            let got: Vec<(u32, (bool, u32))> = line.uses.iter().map(|u| (u.place, number(u.of))).collect();
            let wanted =
                uses(&text, &line).into_iter().map(|(place, word, number)| (place, (word == "element", number)));
            assert_eq!(got, wanted.collect::<Vec<_>>(), "{}", text.escape_ascii());
            noted += got.len();
        }
    }
    assert!(noted > 10_000);
}

#[test]
fn what_got_6_has_one_of_four() {
    let (mut random, mut counts) = (Random::new(8), [0; 2]);
    for _ in 0..40_000 {
        let (text, cand) = any(&mut random);
        let got = verdict(&text, &cand);
        let reasoned = matches!(number_of(got), 61..=64);
        let lines = read_text(&text).unwrap_or_default();
        let first = first_six(&lines);
        assert_eq!(reasoned, first.is_some(), "{got:?} {}", text.escape_ascii());
        match (first, got) {
            (Some(i), Verdict::Refused(refusal)) => check_reason(&text, &lines[..i], &lines[i], refusal),
            _ => assert_eq!(terms(&lines), Ok(slow_differences(&lines))),
        }
        counts[usize::from(reasoned)] += 1;
    }
    println!("{{six {counts:?}}}");
    assert!(counts.iter().all(|n| *n > 5_000), "{counts:?}");
}

// The differences of lines that the test for 6 does not find.
fn slow_differences(lines: &[Line]) -> Vec<Difference> {
    (0..lines.len()).filter_map(|i| slow_difference(&lines[..i], &lines[i])).collect()
}

// The damaged plans that are counted, from a fixed seed.
fn damaged_plans(count: u32, mut each: impl FnMut(&[u8], &[u8])) {
    let mut random = Random::new(21);
    for _ in 0..count {
        let made = undamaged(&mut random);
        let (text, cand) = damaged(&mut random, &made);
        each(&text, &cand);
    }
}

#[test]
fn a_tenth_of_the_damaged_plans_has_each() {
    const PLANS: u32 = 20_000;
    let mut counts: BTreeMap<u32, u32> = BTreeMap::new();
    damaged_plans(PLANS, |text, cand| *counts.entry(number_of(verdict(text, cand))).or_default() += 1);
    println!("{counts:?}");
    assert!([61, 62, 63, 64].iter().all(|n| 10 * counts[n] >= PLANS), "{counts:?}");
    assert!([0, 3, 4, 5, 7, 8, 9, 10].iter().all(|n| 1_000 * counts[n] >= PLANS), "{counts:?}");
}

// What a line is by its statement.
fn kind_word(statement: &Statement) -> &'static str {
    match statement {
        Statement::Number { .. } => "a number",
        Statement::Symbol { .. } => "a string",
        Statement::Compound { .. } => "a compound",
        Statement::Element { .. } => "an element",
        _ => "another line",
    }
}

// A word by how many there are: none, one, or more.
fn count_word<T>(list: &[T], words: [&'static str; 3]) -> &'static str {
    words[list.len().min(2)]
}

// What is wrong with the name, the operator and the bound of a theory atom; all are defined.
fn guard_words(before: &[Line], name: u32, (g, u): (u32, u32)) -> Vec<&'static str> {
    let string_word = |t: u32, right: &[u8], words: [&'static str; 2]| match string_in(before, t) {
        Some(s) => (s != right).then_some(words[0]),
        None => Some(words[1]),
    };
    let bound_word = match (term_in(before, u), compound_in(before, u)) {
        (Some(Statement::Number { .. }), _) => None,
        (Some(Statement::Symbol { .. }), _) => Some("the bound a string"),
        (_, Some((t, _))) if t != b"-" => Some("the bound a compound of another string"),
        (_, Some((_, arguments))) => match arguments.as_slice() {
            [argument] => number_in(before, *argument).is_none().then_some("the bound a minus sign on no number"),
            _ => Some("the bound a minus sign on none or two"),
        },
        _ => Some("the bound a compound of no string"),
    };
    let name = string_word(name, b"diff", ["another name", "the name no string"]);
    let operator = string_word(g, b"<=", ["another operator", "the operator no string"]);
    [name, operator, bound_word].into_iter().flatten().collect()
}

// What is wrong with the one element of a theory atom; it is defined.
fn element_words(before: &[Line], element: u32) -> Vec<&'static str> {
    let Some(Statement::Element { terms, condition, .. }) = element_in(before, element) else { return vec![] };
    let mut words = vec![count_word(terms, ["no term", "", "several terms"])];
    words.extend((!condition.is_empty()).then_some("a condition"));
    if let [term] = terms.as_slice() {
        words.push(match (term_in(before, *term), compound_in(before, *term)) {
            (_, Some((t, _))) if t != b"-" => "the term a compound of another string",
            (_, Some((_, sides))) if sides.len() != 2 => count_word(&sides, ["no side", "one side", "three sides"]),
            (_, Some(_)) => "",
            (Some(Statement::Compound { .. }), None) => "the term a compound of no string",
            _ => "the term no compound",
        });
    }
    words
}

// All that is wrong with a theory atom whose uses are defined.
fn difference_words(before: &[Line], statement: &Statement) -> Vec<&'static str> {
    let Statement::Theory { name, elements, guard, .. } = statement else { return vec![] };
    let Some(guard) = guard else { return vec!["type 5"] };
    let mut words = guard_words(before, *name, *guard);
    words.push(count_word(elements, ["no element", "", "several elements"]));
    if let [element] = elements.as_slice() {
        words.extend(element_words(before, *element));
    }
    words.retain(|word| !word.is_empty());
    words
}

// What a refused line is: its reasons, and what each says of it.
fn words(text: &[u8], before: &[Line], line: &Line) -> Vec<String> {
    let reasons = reasons(before, line);
    let many = matches!(&line.statement, Statement::Theory { elements, .. } if elements.len() > 9);
    let mut words = vec![format!("{reasons:?}")];
    match reasons[0] {
        61 => words.push(format!("61 {}", kind_word(&line.statement))),
        62 => {
            let word = leftmost(text, before, line).unwrap().1;
            words.push(format!("62 {word}{}", if many { " of many" } else { "" }));
        }
        64 => words.extend(difference_words(before, &line.statement).iter().map(|word| format!("64 {word}"))),
        _ => (),
    }
    words
}

/// What the damaged plans must have, each often enough: which reasons in one line, and what each reason says.
const WANTED: &[&str] = &[
    "[61]", "[61, 62]", "[62]", "[62, 64]", "[62, 63, 64]", "[63]", "[63, 64]", "[64]", "61 a number", "61 a string",
    "61 a compound", "61 an element", "62 t", "62 argument", "62 term of an element", "62 p", "62 element", "62 g",
    "62 u", "62 p of many", "62 element of many", "62 g of many", "62 u of many", "64 type 5", "64 another name",
    "64 the name no string", "64 another operator", "64 the operator no string", "64 no element",
    "64 several elements", "64 no term", "64 several terms", "64 a condition", "64 the term no compound",
    "64 the term a compound of no string", "64 the term a compound of another string", "64 one side", "64 three sides",
    "64 the bound a string", "64 the bound a compound of no string", "64 the bound a compound of another string",
    "64 the bound a minus sign on no number", "64 the bound a minus sign on none or two",
];

#[test]
fn the_damaged_plans_have_every_way() {
    let mut seen: BTreeMap<String, u32> = BTreeMap::new();
    damaged_plans(30_000, |text, _| {
        let lines = read_text(text).unwrap_or_default();
        let Some(i) = first_six(&lines) else { return };
        for word in words(text, &lines[..i], &lines[i]) {
            *seen.entry(word).or_default() += 1;
        }
    });
    println!("{seen:?}");
    let missing: Vec<&&str> = WANTED.iter().filter(|w| seen.get(**w).is_none_or(|n| *n < 20)).collect();
    assert!(missing.is_empty(), "{missing:?} {seen:?}");
}
