//! Plans with further time rules, and what demand 3 says of them.
use super::{in_force, literals_of, negative_cycle, refused, Judged};
use second::judge::fields::LineEnd;
use second::judge::judging::read_plan;
use second::testing::generating;
use second::testing::random::Random;
use second::{check_cycle, read_candidate, Literal, Refusal, Statement, Verdict};
use std::collections::BTreeSet;

/// A plan with further time rules, and where its old lines stand now.
pub struct Extended {
    pub text: Vec<u8>,
    pub cand: Vec<u8>,
    /// The new atoms, each a fact with a difference.
    pub atoms: Vec<u32>,
    /// The old and the new place of each old line.
    pub places: Vec<(u32, u32)>,
}

/// The numbers of each kind that an old plan leaves free.
struct Free {
    terms: Vec<u32>,
    elements: Vec<u32>,
    atoms: Vec<u32>,
}

// The atoms of some literals.
fn atoms_of(literals: &[Literal]) -> Vec<u32> {
    literals.iter().map(|l| l.atom).collect()
}

// The terms, elements and atoms that a statement has anywhere.
fn numbers_of(statement: &Statement) -> [Vec<u32>; 3] {
    match statement {
        Statement::Rule { head, body, .. } => [vec![], vec![], [head.clone(), atoms_of(&literals_of(body))].concat()],
        Statement::Output { condition, .. } => [vec![], vec![], atoms_of(condition)],
        Statement::Number { term, .. } | Statement::Symbol { term, .. } => [vec![*term], vec![], vec![]],
        Statement::Compound { term, arguments, base } => {
            let of = if let second::Base::Term(t) = base { vec![*t] } else { vec![] };
            [[vec![*term], of, arguments.clone()].concat(), vec![], vec![]]
        }
        Statement::Element { element, terms, condition } => [terms.clone(), vec![*element], atoms_of(condition)],
        Statement::Theory { atom, name, elements, guard } => {
            let guard = guard.map_or(vec![], |(g, u)| vec![g, u]);
            [[vec![*name], guard].concat(), elements.clone(), vec![*atom]]
        }
        Statement::Comment { .. } => [vec![], vec![], vec![]],
    }
}

impl Free {
    // What the text and the candidate leave free, in random order.
    fn new(random: &mut Random, statements: &[&Statement], candidate: &[u32]) -> Free {
        let mut used: [BTreeSet<u32>; 3] = Default::default();
        for statement in statements {
            for (set, numbers) in used.iter_mut().zip(numbers_of(statement)) {
                set.extend(numbers);
            }
        }
        used[2].extend(candidate);
        let mut free = |most: u32, least: u32, set: &BTreeSet<u32>| {
            let mut all: Vec<u32> = (least..=most).filter(|n| !set.contains(n)).collect();
            random.shuffle(&mut all);
            all
        };
        Free { terms: free(1023, 0, &used[0]), elements: free(1023, 0, &used[1]), atoms: free(4096, 1, &used[2]) }
    }
}

// The lines of one further rule over some names, and its atom.
fn rule(random: &mut Random, free: &mut Free, names: &[u32]) -> Option<(Vec<String>, u32)> {
    let mut fresh = || free.terms.pop();
    let (diff, minus, at_most, name) = (fresh()?, fresh()?, fresh()?, fresh()?);
    let (number, bound, term) = (fresh()?, fresh()?, fresh()?);
    let (element, atom) = (free.elements.pop()?, free.atoms.pop()?);
    let mut all = names.to_vec();
    if names.is_empty() || random.once_in(4) {
        all.push(name);
    }
    let (x, y) = (*random.one_of(&all), *random.one_of(&all));
    let k = random.from_to(-6, 8);
    let mut lines = vec![format!("9 1 {diff} 4 diff"), format!("9 1 {minus} 1 -"), format!("9 1 {at_most} 2 <=")];
    lines.push(format!("9 1 {name} 3 new"));
    let by_minus = random.once_in(2);
    lines.push(format!("9 0 {number} {}", if by_minus { -k } else { k }));
    if by_minus {
        lines.push(format!("9 2 {bound} {minus} 1 {number}"));
    }
    lines.push(format!("9 2 {term} {minus} 2 {x} {y}"));
    lines.push(format!("9 4 {element} 1 {term} 0"));
    let at = random.below(lines.len() + 1);
    let guard = if by_minus { bound } else { number };
    lines.push(format!("9 6 {atom} {diff} 1 {element} {at_most} {guard}"));
    lines.insert(at, format!("1 0 1 {atom} 0 0"));
    Some((lines, atom))
}

/// A readable plan with one to three further rules, its old lines in order; none where the result is not readable.
// New lines stand after the old ones, or anywhere among them, and end as these.
pub fn extended(random: &mut Random, text: &[u8], cand: &[u8]) -> Option<Extended> {
    let plan = read_plan(text).ok()?;
    let atoms = read_candidate(cand).ok()?;
    let statements: Vec<&Statement> = plan.lines.iter().map(|l| &l.statement).collect();
    let mut free = Free::new(random, &statements, &atoms);
    let (names, _) = in_force(&plan.differences, &[]);
    let (mut new_lines, mut new_atoms) = (Vec::new(), Vec::new());
    for _ in 0..1 + random.below(3) {
        let (lines, atom) = rule(random, &mut free, &names)?;
        new_lines.extend(lines);
        new_atoms.push(atom);
    }
    let mixed = random.once_in(3);
    let end = LineEnd::kind_of(text).bytes();
    let mut old = text.split_inclusive(|b| *b == 10).collect::<Vec<_>>();
    let last = old.pop()?;
    let mut new = new_lines.iter();
    let (mut all, mut places, mut from) = (Vec::new(), Vec::new(), 0);
    for (i, line) in old.iter().enumerate() {
        while mixed && i > 0 && random.once_in(2) {
            let Some(line) = new.next() else { break };
            all.extend([line.as_bytes(), end].concat());
        }
        places.push((from, all.len() as u32));
        from += line.len() as u32;
        all.extend(*line);
    }
    new.for_each(|line| all.extend([line.as_bytes(), end].concat()));
    all.extend(last);
    let mut both = [atoms, new_atoms.clone()].concat();
    both.sort();
    read_plan(&all).ok()?;
    Some(Extended { text: all, cand: generating::candidate_of(&both), atoms: new_atoms, places })
}

/// Checks demand 3 of an old and a new judging; a word for each part that was seen.
pub fn check(
    old: &Judged,
    new: &Judged,
    text: &[u8],
    e: &Extended,
    time: fn(&[u8], u32) -> Result<u32, Refusal>,
) -> Vec<&'static str> {
    match old.verdict {
        Verdict::Accepted(_) => check_accepted(old, new, text, e, time),
        Verdict::Refused(Refusal { number: 8, place }) => {
            let moved = e.places.iter().find(|p| p.0 == place).unwrap().1;
            assert_eq!(new.verdict, refused(8, moved));
            vec!["broken"]
        }
        Verdict::Refused(Refusal { number: 9, place }) => {
            assert_eq!(new.verdict, refused(9, place));
            vec!["unfounded"]
        }
        Verdict::Refused(Refusal { number, .. }) => {
            assert_eq!(number, 10);
            check_cyclic(new, e);
            vec!["old cycle"]
        }
    }
}

// A negative cycle refuses the new plan.
fn check_cyclic(new: &Judged, e: &Extended) {
    assert_eq!(new.verdict, refused(10, new.cycle.len() as u32));
    assert!(check_cycle(&e.text, &e.cand, &new.cycle));
}

// The parts for an old plan that was accepted: exactly if times exist; none earlier; none moved.
fn check_accepted(
    old: &Judged,
    new: &Judged,
    text: &[u8],
    e: &Extended,
    time: fn(&[u8], u32) -> Result<u32, Refusal>,
) -> Vec<&'static str> {
    let (old_names, _) = in_force(&read_plan(text).unwrap().differences, &[]);
    let differences = read_plan(&e.text).unwrap().differences;
    let (names, force) = in_force(&differences, &read_candidate(&e.cand).unwrap());
    let further: Vec<_> = differences.iter().filter(|d| e.atoms.contains(&d.atom)).collect();
    let at = |name: u32| i64::from(time(&old.room, name).unwrap());
    let of_old = |name: &u32| old_names.contains(name);
    let kept = further.iter().all(|d| of_old(&d.x) && of_old(&d.y) && at(d.x) - at(d.y) <= d.bound);
    if negative_cycle(&names, &force) {
        assert!(!kept);
        check_cyclic(new, e);
        return vec!["new cycle"];
    }
    assert!(matches!(new.verdict, Verdict::Accepted(_)));
    assert!(old_names.iter().all(|n| time(&old.room, *n).unwrap() <= time(&new.room, *n).unwrap()));
    if !kept {
        return vec!["later"];
    }
    assert!(old_names.iter().all(|n| time(&old.room, *n) == time(&new.room, *n)));
    vec!["later", "still"]
}
