//! Cross-checks against slow definitions.
mod common;
use common::writing::written;
use common::*;
use second::judge::fields::LineEnd;
use second::testing::line_ends::returned;
use second::testing::random::Random;
use second::testing::{cases, generating};
use second::{
    check_cycle, describe, read_candidate, read_text, terms, time, Body, Difference, Line, Literal, Refusal, Statement,
    Verdict, Weighted,
};
use std::collections::BTreeMap;

// A set of the atoms 1 to 20 as bits.
type Bits = u32;

// The bit of an atom.
fn bit(atom: u32) -> Bits {
    1 << atom
}

// Whether a literal is true with the positive atoms from one set, the negated from another.
fn literal_true(literal: &Literal, positive: Bits, negated: Bits) -> bool {
    if literal.negated {
        negated & bit(literal.atom) == 0
    } else {
        positive & bit(literal.atom) != 0
    }
}

// Whether a body is true with the positive atoms from one set, the negated from another. With a model of the reduct and
// the set that it is by, this is the body in the reduct: no literal is left out and nothing is taken off a bound.
fn body_true(body: &Body, positive: Bits, negated: Bits) -> bool {
    match body {
        Body::Normal(literals) => literals.iter().all(|l| literal_true(l, positive, negated)),
        Body::Weights { bound, literals } => {
            let weight =
                |w: &Weighted| if literal_true(&w.literal, positive, negated) { i64::from(w.weight) } else { 0 };
            let missing = literals.iter().fold(i64::from(*bound), |missing, w| missing - weight(w));
            missing <= 0
        }
    }
}

// Whether a plain rule is satisfied by X.
fn satisfied(statement: &Statement, x: Bits) -> bool {
    match statement {
        Statement::Rule { choice: false, head, body } => {
            !body_true(body, x, x) || head.iter().any(|a| x & bit(*a) != 0)
        }
        _ => true,
    }
}

// Whether Y is a model of the reduct by X, externals as facts.
fn models_reduct(lines: &[Line], facts: Bits, y: Bits, x: Bits) -> bool {
    let rule = |s: &Statement| match s {
        Statement::Rule { choice: true, head, body } => {
            !body_true(body, y, x) || head.iter().all(|a| x & bit(*a) == 0 || y & bit(*a) != 0)
        }
        Statement::Rule { head, body, .. } => !body_true(body, y, x) || head.iter().any(|a| y & bit(*a) != 0),
        _ => true,
    };
    y & facts == facts && lines.iter().all(|l| rule(&l.statement))
}

// The externals of X.
fn facts(lines: &[Line], differences: &[Difference], x: Bits) -> Bits {
    let in_head =
        |a: u32| lines.iter().any(|l| matches!(&l.statement, Statement::Rule { head, .. } if head.contains(&a)));
    differences.iter().filter(|d| !in_head(d.atom)).map(|d| bit(d.atom)).fold(0, |a, b| a | b) & x
}

// All subsets of a set.
fn subsets(set: Bits) -> Vec<Bits> {
    let mut all = vec![set];
    let mut at = set;
    while at != 0 {
        at = (at - 1) & set;
        all.push(at);
    }
    all
}

// By enumeration: 8 with the place, 9 with the atom, or nothing.
fn slow_stability(lines: &[Line], differences: &[Difference], x: Bits) -> Option<(u32, u32)> {
    if let Some(l) = lines.iter().find(|l| !satisfied(&l.statement, x)) {
        return Some((8, l.place));
    }
    let facts = facts(lines, differences, x);
    let models: Vec<Bits> = subsets(x).into_iter().filter(|y| models_reduct(lines, facts, *y, x)).collect();
    assert!(models.contains(&x));
    let least = models.iter().fold(x, |a, b| a & b);
    let minimal = models.iter().all(|y| *y == x);
    assert_eq!(minimal, least == x);
    if minimal {
        None
    } else {
        Some((9, (x & !least).trailing_zeros()))
    }
}

// The least times by raising one name at a time, only where no negative cycle is.
fn slow_times(names: &[u32], force: &[Difference]) -> BTreeMap<u32, i64> {
    let mut times: BTreeMap<u32, i64> = names.iter().map(|n| (*n, 0)).collect();
    while let Some(f) = force.iter().rev().find(|f| times[&f.x] - times[&f.y] > f.bound) {
        let least = times[&f.x] - f.bound;
        times.insert(f.y, least);
    }
    times
}

// Checks one readable case against everything slow; gives the verdict's number, 0 for accepted.
fn check(text: &[u8], cand: &[u8]) -> u32 {
    let lines = read_text(text).unwrap();
    let differences = terms(&lines).unwrap();
    let atoms = read_candidate(cand).unwrap();
    let x: Bits = atoms.iter().map(|a| bit(*a)).sum();
    let got = judged(text, cand);
    if let Some((number, place)) = slow_stability(&lines, &differences, x) {
        assert_eq!(got.verdict, refused(number, place));
        return number;
    }
    let (names, force) = in_force(&differences, &atoms);
    if negative_cycle(&names, &force) {
        assert_eq!(got.verdict, refused(10, got.cycle.len() as u32));
        assert!(check_cycle(text, cand, &got.cycle), "{:?}", got.cycle);
        return 10;
    }
    check_table(&got, &names, &atoms, &slow_times(&names, &force));
    0
}

// Checks an accepted table byte by byte and read back.
fn check_table(got: &Judged, names: &[u32], atoms: &[u32], times: &BTreeMap<u32, i64>) {
    let mut words = vec![names.len() as u32, atoms.len() as u32, 16, 16 + 8 * names.len() as u32];
    words.extend(names.iter().flat_map(|n| [*n, times[n] as u32]));
    words.extend(atoms);
    let bytes: Vec<u8> = words.iter().flat_map(|w| w.to_le_bytes()).collect();
    assert_eq!(got.verdict, Verdict::Accepted(bytes.len() as u32));
    assert_eq!(got.room, bytes);
    for name in 0..1025 {
        let wanted = times.get(&name).map(|t| *t as u32).ok_or(Refusal { number: 21, place: name });
        assert_eq!(time(&got.room, name), wanted);
    }
}

// Whether all atoms of a candidate fit the bits.
fn small(cand: &[u8]) -> bool {
    read_candidate(cand).unwrap().iter().all(|a| *a < 20)
}

#[test]
fn sound_plans() {
    let mut random = Random::new(1);
    let mut counts: BTreeMap<u32, u32> = BTreeMap::new();
    for _ in 0..20_000 {
        let text = generating::plan(&mut random);
        let cand = generating::candidate(&mut random, &text);
        if small(&cand) {
            *counts.entry(check(&text, &cand)).or_default() += 1;
        }
    }
    println!("{counts:?}");
    for number in [0, 8, 9, 10] {
        assert!(counts[&number] > 500, "{counts:?}");
    }
}

#[test]
fn networks() {
    let mut random = Random::new(7);
    let mut longest = 0;
    let mut counts = [0; 2];
    for _ in 0..3_000 {
        let (text, cand) = generating::network(&mut random);
        let differences = terms(&read_text(&text).unwrap()).unwrap();
        let atoms = read_candidate(&cand).unwrap();
        let (names, force) = in_force(&differences, &atoms);
        let got = judged(&text, &cand);
        if negative_cycle(&names, &force) {
            assert_eq!(got.verdict, refused(10, got.cycle.len() as u32));
            assert!(check_cycle(&text, &cand, &got.cycle), "{:?}", got.cycle);
            check_wrong_lists(&text, &cand, &got.cycle);
            longest = longest.max(got.cycle.len());
            counts[0] += 1;
        } else {
            check_table(&got, &names, &atoms, &slow_times(&names, &force));
            counts[1] += 1;
        }
    }
    println!("{{networks {counts:?}, longest {longest}}}");
    assert!(longest > 5 && counts.iter().all(|n| *n > 500));
}

// Lists near a right one that are wrong.
fn check_wrong_lists(text: &[u8], cand: &[u8], list: &[u32]) {
    let n = list.len();
    for i in 1..n {
        let turned = [&list[i..], &list[..i]].concat();
        assert!(!check_cycle(text, cand, &turned));
        assert!(!check_cycle(text, cand, &list[..i]));
    }
    assert!(!check_cycle(text, cand, &[list, list].concat()));
    let atoms = read_candidate(cand).unwrap();
    let fewer: Vec<u32> = atoms.iter().filter(|a| **a != list[n - 1]).copied().collect();
    assert!(!check_cycle(text, &generating::candidate_of(&fewer), list));
}

#[test]
fn every_candidate_of_some_plans() {
    let mut random = Random::new(2);
    for _ in 0..300 {
        let text = generating::plan(&mut random);
        for set in 0..256u32 {
            let atoms: Vec<u32> = (1..=8).filter(|a| set & (1 << (a - 1)) != 0).collect();
            check(&text, &generating::candidate_of(&atoms));
        }
    }
}

#[test]
fn damaged_cases_end() {
    let mut random = Random::new(3);
    let mut counts: BTreeMap<u32, u32> = BTreeMap::new();
    for _ in 0..60_000 {
        let (text, cand) = cases::case(&mut random);
        let got = judged(&text, &cand);
        let number = match got.verdict {
            Verdict::Accepted(_) => 0,
            Verdict::Refused(r) => r.number,
        };
        *counts.entry(number).or_default() += 1;
        check_against_readers(&text, &cand, got.verdict);
        if matches!(number, 0 | 8 | 9 | 10) && small_plan(&text) && small(&cand) {
            check(&text, &cand);
        }
    }
    println!("{counts:?}");
    for number in [0, 3, 4, 5, 61, 62, 63, 64, 7, 8, 9, 10] {
        assert!(counts[&number] > 100, "{counts:?}");
    }
}

// Whether all atoms of a readable plan fit the bits.
fn small_plan(text: &[u8]) -> bool {
    let lines = read_text(text).unwrap();
    terms(&lines).unwrap().iter().all(|d| d.atom < 20)
        && lines.iter().all(|l| match &l.statement {
            Statement::Rule { head, body, .. } => {
                head.iter().all(|a| *a < 20) && literals_of(body).iter().all(|l| l.atom < 20)
            }
            _ => true,
        })
}

// The verdict against the separate readers' own refusals.
fn check_against_readers(text: &[u8], cand: &[u8], verdict: Verdict) {
    let first = read_text(text).and_then(|l| terms(&l)).err().or(read_candidate(cand).err());
    match first {
        Some(r) => assert_eq!(verdict, Verdict::Refused(r)),
        None => assert!(!matches!(verdict, Verdict::Refused(Refusal { number: 1..=7 | 61..=64, .. }))),
    }
    if let Some(Refusal { number: 3..=5, place }) = first {
        assert!(place as usize <= text.len());
        assert_eq!(describe(text), format!("refused {} {place}\n", first.unwrap().number));
    }
}

// Some lines, ended by byte 10, with the line ends of the bytes that they were read from.
fn ended_as(bytes: &[u8], lines: Vec<u8>) -> Vec<u8> {
    match LineEnd::kind_of(bytes) {
        LineEnd::Feed => lines,
        LineEnd::Return => returned(&lines),
    }
}

#[test]
fn reading_keeps_every_byte() {
    let mut random = Random::new(4);
    let mut read = [0; 2];
    for _ in 0..40_000 {
        let (text, cand) = cases::case(&mut random);
        if let Ok(lines) = read_text(&text) {
            let again: Vec<Vec<u8>> = lines.iter().map(|l| written(&l.statement)).collect();
            assert_eq!(ended_as(&text, generating::text_of(&again)), text);
            assert!(lines.iter().zip(&again).all(|(l, w)| text[l.place as usize..].starts_with(w)));
            read[usize::from(LineEnd::kind_of(&text) == LineEnd::Return)] += 1;
        }
        if let Ok(atoms) = read_candidate(&cand) {
            assert_eq!(ended_as(&cand, generating::candidate_of(&atoms)), cand);
        }
    }
    assert!(read.iter().all(|n| *n > 10_000), "{read:?}");
}

// A text cut at any byte is refused, and at the length if the cut part had no other fault.
#[test]
fn cut_texts() {
    let mut random = Random::new(5);
    for _ in 0..200 {
        let text = generating::plan(&mut random);
        for end in 10..text.len() {
            let got = read_text(&text[..end]).unwrap_err();
            let lone_minus = text[end - 1] == b'-' && got.place as usize == end - 1;
            assert!(
                got.number == 3 && (got.place as usize == end || lone_minus) || cut_selector(&text, end),
                "{got:?} {end}"
            );
        }
    }
}

// Whether the cut left a shorter field that is itself wrong (such as -10 cut to -1 is fine, 10 cut to 1 is a rule).
fn cut_selector(text: &[u8], end: usize) -> bool {
    text[end].is_ascii_digit() && text[end - 1].is_ascii_digit()
}

#[test]
fn long_chains() {
    for names in [2, 3, 100, 500] {
        let (text, cand) = generating::chain(names, -1_000_000, None);
        let got = judged(&text, &cand);
        assert_eq!(got.verdict, Verdict::Accepted((16 + 8 * names + 4 * (names - 1)) as u32));
        for i in 0..names as u32 {
            assert_eq!(time(&got.room, 4 + i), Ok(1_000_000 * i));
        }
        let right = 1_000_000 * (names as i64 - 1);
        if right <= 1_000_000 {
            let (text, cand) = generating::chain(names, -1_000_000, Some(right));
            assert!(matches!(judged(&text, &cand).verdict, Verdict::Accepted(_)));
        }
        let (text, cand) = generating::chain(names, -1, Some(names as i64 - 1));
        assert!(matches!(judged(&text, &cand).verdict, Verdict::Accepted(_)));
        let (text, cand) = generating::chain(names, -1, Some(names as i64 - 2));
        let got = judged(&text, &cand);
        assert_eq!(got.verdict, refused(10, names as u32));
        assert_eq!(got.cycle, (1..=names as u32).collect::<Vec<_>>());
        assert!(check_cycle(&text, &cand, &got.cycle));
    }
    let (text, cand) = generating::rule_chain(2500, true);
    assert_eq!(verdict(&text, &cand), Verdict::Accepted(16 + 4 * 2500));
    let (text, cand) = generating::rule_chain(2500, false);
    assert_eq!(verdict(&text, &cand), refused(9, 1));
}

// Demand 3: further differences as facts make nothing earlier and keep the other refusals.
#[test]
fn further_time_rules() {
    let mut random = Random::new(6);
    let mut kept = BTreeMap::new();
    for _ in 0..20_000 {
        let text = generating::plan(&mut random);
        let cand = generating::candidate(&mut random, &text);
        let Some((new_text, new_cand)) = extended(&mut random, &text, &cand) else { continue };
        let (old, new) = (judged(&text, &cand), judged(&new_text, &new_cand));
        let entry = compare(&old, &new, &text);
        check_unmoved(&old, &new, &new_text);
        *kept.entry(entry).or_insert(0) += 1;
    }
    println!("{kept:?}");
    assert!(kept.values().all(|n| *n > 50) && kept.len() == 5, "{kept:?}");
}

// A plan with one more difference atom, also a fact, over old or new names; lines in order, new ones last.
fn extended(random: &mut Random, text: &[u8], cand: &[u8]) -> Option<(Vec<u8>, Vec<u8>)> {
    let lines = read_text(text).unwrap();
    let atoms = read_candidate(cand).unwrap();
    let mut terms_used: Vec<u32> = Vec::new();
    let mut elements_used: Vec<u32> = Vec::new();
    for l in &lines {
        match &l.statement {
            Statement::Number { term, .. } | Statement::Symbol { term, .. } | Statement::Compound { term, .. } => {
                terms_used.push(*term)
            }
            Statement::Element { element, .. } => elements_used.push(*element),
            _ => (),
        }
    }
    let mut free = (0..1024u32).filter(|t| !terms_used.contains(t));
    let mut fresh = || free.next();
    let (diff, minus, at_most) = (fresh()?, fresh()?, fresh()?);
    let (bound, new_name, term) = (fresh()?, fresh()?, fresh()?);
    let (old_names, _) = in_force(&terms(&lines).unwrap(), &[]);
    let names = [old_names, vec![new_name]].concat();
    let (x, y) = (*random.one_of(&names), *random.one_of(&names));
    let element = (0..1024u32).find(|e| !elements_used.contains(e))?;
    let atom = 4000;
    if atoms.contains(&atom) {
        return None;
    }
    let k = random.from_to(-6, 6);
    let more = format!("9 1 {diff} 4 diff\n9 1 {minus} 1 -\n9 1 {at_most} 2 <=\n9 0 {bound} {k}\n9 1 {new_name} 3 new\n9 2 {term} {minus} 2 {x} {y}\n9 4 {element} 1 {term} 0\n9 6 {atom} {diff} 1 {element} {at_most} {bound}\n1 0 1 {atom} 0 0\n0\n");
    let new_text = [&text[..text.len() - 2], more.as_bytes()].concat();
    let mut new_atoms = atoms;
    new_atoms.push(atom);
    new_atoms.sort();
    Some((new_text, generating::candidate_of(&new_atoms)))
}

// Where the new rule speaks of old names only and the old times keep it, no time moves.
fn check_unmoved(old: &Judged, new: &Judged, new_text: &[u8]) {
    let all = terms(&read_text(new_text).unwrap()).unwrap();
    let (last, before) = all.split_last().unwrap();
    let at = |name: u32| time(&old.room, name).map(i64::from);
    let (Verdict::Accepted(_), Ok(x), Ok(y)) = (old.verdict, at(last.x), at(last.y)) else { return };
    if x - y <= last.bound {
        assert!(matches!(new.verdict, Verdict::Accepted(_)));
        let (names, _) = in_force(before, &[]);
        assert!(names.iter().all(|n| time(&old.room, *n) == time(&new.room, *n)));
    }
}

// Compares the old and the new judging; a word for what was seen.
fn compare(old: &Judged, new: &Judged, text: &[u8]) -> &'static str {
    match (old.verdict, new.verdict) {
        (Verdict::Accepted(_), Verdict::Accepted(_)) => {
            let (names, _) = in_force(&terms(&read_text(text).unwrap()).unwrap(), &[]);
            assert!(names.iter().all(|n| time(&old.room, *n).unwrap() <= time(&new.room, *n).unwrap()));
            "both"
        }
        (Verdict::Accepted(_), Verdict::Refused(r)) => {
            assert_eq!(r.number, 10);
            "new cycle"
        }
        (Verdict::Refused(Refusal { number: 10, .. }), Verdict::Refused(r)) => {
            assert_eq!(r.number, 10);
            "old cycle"
        }
        (Verdict::Refused(a), b) => {
            assert_eq!(Verdict::Refused(a), b);
            if a.number == 8 {
                "broken"
            } else {
                "unfounded"
            }
        }
    }
}
