//! Random plans and candidates, all from a fixed seed.

use super::random::Random;
use crate::judge::fields::LineEnd;
use crate::judge::judging::{read_plan, settle, Outcome, Plan};
use crate::judge::meaning::Atoms;
use crate::judge::reading::{LARGEST_BOUND, LARGEST_WEIGHT};

/// A plan text and a candidate.
pub type Case = (Vec<u8>, Vec<u8>);

// A text from its lines: the first line, the lines, the `0` line.
pub fn text_of(lines: &[Vec<u8>]) -> Vec<u8> {
    let mut text = b"asp 1 0 0\n".to_vec();
    for line in lines {
        text.extend(line);
        text.push(10);
    }
    text.extend(b"0\n");
    text
}

// A candidate from its atoms.
pub fn candidate_of<'a>(atoms: impl IntoIterator<Item = &'a u32>) -> Vec<u8> {
    let words: Vec<String> = atoms.into_iter().map(u32::to_string).collect();
    (words.join(" ") + "\n").into_bytes()
}

// The candidate of the atoms from 1 to some.
pub fn all_atoms(atoms: usize) -> Vec<u8> {
    candidate_of(&(1..=atoms as u32).collect::<Vec<u32>>())
}

// A line of numbers.
pub fn line_of(numbers: &[i64]) -> Vec<u8> {
    let words: Vec<String> = numbers.iter().map(i64::to_string).collect();
    words.join(" ").into_bytes()
}

// A number that is small, or now and then far off but within a bound.
fn index(random: &mut Random, small: usize, most: usize) -> i64 {
    if random.once_in(60) {
        random.below(most + 1) as i64
    } else {
        random.below(small) as i64
    }
}

// Some literals over the first atoms.
fn literals(random: &mut Random, atoms: usize, most: usize) -> Vec<i64> {
    let n = random.below(most + 1);
    (0..n).map(|_| literal(random, atoms)).collect()
}

// One literal, negated once in three.
pub fn literal(random: &mut Random, atoms: usize) -> i64 {
    let atom = random.from_to(1, atoms as i64);
    if random.once_in(3) {
        -atom
    } else {
        atom
    }
}

// A count and the numbers.
pub fn counted(numbers: &[i64]) -> Vec<i64> {
    let mut all = vec![numbers.len() as i64];
    all.extend(numbers);
    all
}

/// A literal and its weight.
type Pair = (i64, i64);

// The fields of a normal body.
fn normal_body(literals: &[i64]) -> Vec<i64> {
    [vec![0], counted(literals)].concat()
}

// The fields of a weight body.
fn weight_body(bound: i64, pairs: &[Pair]) -> Vec<i64> {
    let front = vec![1, bound, pairs.len() as i64];
    front.into_iter().chain(pairs.iter().flat_map(|(l, w)| [*l, *w])).collect()
}

// The parts of a rule put together.
fn rule_line(choice: bool, head: &[i64], body: &[i64]) -> Vec<u8> {
    line_of(&[&[1, i64::from(choice)], counted(head).as_slice(), body].concat())
}

// A weight: one, two, the largest, or a small one.
fn weight(random: &mut Random) -> i64 {
    match random.below(8) {
        0..=2 => 1,
        3 => 2,
        4 => LARGEST_WEIGHT as i64,
        _ => random.from_to(1, 9),
    }
}

// The weights of some pairs together.
fn sum<'a>(pairs: impl IntoIterator<Item = &'a Pair>) -> i64 {
    pairs.into_iter().map(|p| p.1).sum()
}

// A bound for some pairs: none, one, all weights, one above these, the largest; some weights or one above these; or any
// up to all.
fn bound(random: &mut Random, pairs: &[Pair]) -> i64 {
    let all = sum(pairs);
    match random.below(14) {
        0 => 0,
        1 => 1,
        2 | 3 => all,
        4 => all + 1,
        5 => LARGEST_BOUND as i64,
        6..=11 => sum(pairs.iter().filter(|_| random.once_in(2))) + i64::from(random.once_in(3)),
        _ => random.from_to(0, all),
    }
}

// A random weight body: seldom without a literal, often with one of them twice.
fn weights(random: &mut Random, atoms: usize, most: usize) -> Vec<i64> {
    let mut all = literals(random, atoms, most);
    if !random.once_in(5) {
        all.push(literal(random, atoms));
    }
    if !all.is_empty() && random.once_in(4) {
        all.push(*random.one_of(&all));
    }
    let pairs: Vec<Pair> = all.into_iter().map(|l| (l, weight(random))).collect();
    weight_body(bound(random, &pairs), &pairs)
}

// A random body, in more than half of the cases with weights.
fn body(random: &mut Random, atoms: usize, most: usize) -> Vec<i64> {
    match random.below(9) {
        0..=3 => normal_body(&literals(random, atoms, most)),
        _ => weights(random, atoms, most),
    }
}

// A random rule: choice, plain, fact, or now and then a constraint.
fn rule(random: &mut Random, atoms: usize) -> Vec<u8> {
    let atom = |r: &mut Random| r.from_to(1, atoms as i64);
    match random.below(10) {
        0..=2 => {
            let n = random.below(4);
            let head: Vec<i64> = (0..n).map(|_| atom(random)).collect();
            rule_line(true, &head, &body(random, atoms, 2))
        }
        3 => rule_line(false, &[atom(random)], &normal_body(&[])),
        4 => rule_line(false, &[], &body(random, atoms, 3)),
        _ => rule_line(false, &[atom(random)], &body(random, atoms, 3)),
    }
}

// Some bytes a string or comment may hold; digits and spaces are frequent.
fn bytes(random: &mut Random, most: usize) -> Vec<u8> {
    let n = random.below(most + 1);
    let some = [b'a', b'-', b' ', b'0', b'1', b'(', b')', 13, 9, 200, 255, b'<', b'='];
    (0..n).map(|_| *random.one_of(&some)).collect()
}

// A line with a string in it: the fields before, the length, the string.
fn string_line(front: &[i64], string: &[u8]) -> Vec<u8> {
    let mut line = line_of(&[front, &[string.len() as i64]].concat());
    line.push(b' ');
    line.extend(string);
    line
}

// An output statement.
fn output(random: &mut Random, atoms: usize) -> Vec<u8> {
    let mut line = string_line(&[4], &bytes(random, 6));
    line.push(b' ');
    line.extend(line_of(&counted(&literals(random, atoms, 2))));
    line
}

// A comment statement.
fn comment(random: &mut Random) -> Vec<u8> {
    [b"10 ".to_vec(), bytes(random, 8)].concat()
}

/// Builds theory lines, each defining before it is used.
struct Theory<'a> {
    random: &'a mut Random,
    lines: Vec<Vec<u8>>,
    terms: Vec<i64>,
    elements: Vec<i64>,
}

impl Theory<'_> {
    // A term number not given out before.
    fn fresh_term(&mut self) -> i64 {
        self.terms.pop().unwrap_or(0)
    }

    // A string term.
    fn symbol(&mut self, string: &[u8]) -> i64 {
        let term = self.fresh_term();
        self.lines.push(string_line(&[9, 1, term], string));
        term
    }

    // A numeric term.
    fn number(&mut self, value: i64) -> i64 {
        let term = self.fresh_term();
        self.lines.push(line_of(&[9, 0, term, value]));
        term
    }

    // A compound term.
    fn compound(&mut self, t: i64, arguments: &[i64]) -> i64 {
        let term = self.fresh_term();
        self.lines.push(line_of(&[vec![9, 2, term, t], counted(arguments)].concat()));
        term
    }

    // An element with one term and no condition.
    fn element(&mut self, term: i64) -> i64 {
        let element = self.elements.pop().unwrap_or(0);
        self.lines.push(line_of(&[9, 4, element, 1, term, 0]));
        element
    }

    // A term that may be a name: a string, a number, or a compound.
    fn name(&mut self, symbol: i64) -> i64 {
        match self.random.below(5) {
            0 => self.number(0),
            1 => {
                let one = self.number(1);
                self.compound(symbol, &[one])
            }
            2 => self.compound(-1, &[symbol, symbol]),
            3 => {
                let string = bytes(self.random, 6);
                self.symbol(&string)
            }
            _ => self.symbol(b"n"),
        }
    }

    // A bound, written as a number or as a minus sign on one.
    fn bound(&mut self, minus: i64) -> i64 {
        let value = match self.random.below(20) {
            0 => *self.random.one_of(&[-1_000_000, 1_000_000, 0]),
            _ => self.random.from_to(-5, 7),
        };
        if self.random.once_in(3) {
            let inner = self.number(-value);
            self.compound(minus, &[inner])
        } else {
            self.number(value)
        }
    }
}

// Lines for some differences over the atoms given, with numbers in random order.
fn differences(random: &mut Random, atoms: &[i64]) -> Vec<Vec<u8>> {
    let spread = if random.once_in(4) { 1024 } else { 60 };
    let mut terms: Vec<i64> = (0..spread).collect();
    let mut elements: Vec<i64> = (0..spread).collect();
    random.shuffle(&mut terms);
    random.shuffle(&mut elements);
    difference_lines(random, terms, elements, atoms)
}

// Lines for some differences over the atoms given; the numbers of terms and elements are given out from the last.
pub fn difference_lines(random: &mut Random, terms: Vec<i64>, elements: Vec<i64>, atoms: &[i64]) -> Vec<Vec<u8>> {
    let mut theory = Theory { random, lines: Vec::new(), terms, elements };
    let diff = theory.symbol(b"diff");
    let minus = theory.symbol(b"-");
    let other_minus = theory.symbol(b"-");
    let at_most = theory.symbol(b"<=");
    let n = 1 + theory.random.below(4);
    let names: Vec<i64> = (0..n).map(|_| theory.name(diff)).collect();
    for atom in atoms {
        let x = *theory.random.one_of(&names);
        let y = *theory.random.one_of(&names);
        let sign = *theory.random.one_of(&[minus, other_minus]);
        let term = theory.compound(sign, &[x, y]);
        let element = theory.element(term);
        let bound = theory.bound(minus);
        theory.lines.push(line_of(&[9, 6, *atom, diff, 1, element, at_most, bound]));
    }
    theory.lines
}

// Two lists in one, each keeping its order.
pub fn merge<T>(random: &mut Random, a: Vec<T>, b: Vec<T>) -> Vec<T> {
    let (mut a, mut b) = (a.into_iter().peekable(), b.into_iter().peekable());
    let mut all = Vec::new();
    while a.peek().is_some() || b.peek().is_some() {
        let first = b.peek().is_none() || (a.peek().is_some() && random.once_in(2));
        all.extend(if first { a.next() } else { b.next() });
    }
    all
}

// A line that isn't of the theory.
fn other_line(random: &mut Random, atoms: usize) -> Vec<u8> {
    match random.below(8) {
        0 => output(random, atoms),
        1 => comment(random),
        _ => rule(random, atoms),
    }
}

// The atoms that get a difference.
fn difference_atoms(random: &mut Random, atoms: usize) -> Vec<i64> {
    let mut all: Vec<i64> = (1..=atoms as i64 + 2).collect();
    random.shuffle(&mut all);
    all.truncate(random.below(6));
    all
}

/// A random small plan; it is readable.
// Rules, outputs and comments among theory lines that define before they use.
pub fn plan(random: &mut Random) -> Vec<u8> {
    let atoms = 1 + random.below(7);
    let n = random.below(9);
    let others = (0..n).map(|_| other_line(random, atoms)).collect();
    let with_difference = difference_atoms(random, atoms);
    let theory =
        if with_difference.is_empty() && random.once_in(2) { vec![] } else { differences(random, &with_difference) };
    let mut lines = merge(random, others, theory);
    add_support(random, atoms, &mut lines);
    text_of(&lines)
}

// Often adds facts or a choice, so that more candidates are stable.
fn add_support(random: &mut Random, atoms: usize, lines: &mut Vec<Vec<u8>>) {
    if random.once_in(2) {
        let head: Vec<i64> = (1..=atoms as i64).filter(|_| !random.once_in(3)).collect();
        let at = random.below(lines.len() + 1);
        lines.insert(at, rule_line(true, &head, &normal_body(&[])));
    }
}

// A random set of the first atoms.
fn subset(random: &mut Random, atoms: usize) -> Atoms {
    (1..=atoms as u32).filter(|_| random.once_in(2)).collect()
}

// Looks among random sets for one whose outcome is wanted.
fn search(random: &mut Random, plan: &Plan, wanted: fn(&Outcome) -> bool) -> Option<Atoms> {
    let tries = 150;
    (0..tries).map(|_| subset(random, 9)).find(|x| settle(plan, x).as_ref().is_ok_and(wanted))
}

/// A random candidate for a plan: often stable, sometimes near one, sometimes any.
// Searches with the judge, then now and then perturbs what was found.
pub fn candidate(random: &mut Random, text: &[u8]) -> Vec<u8> {
    let Ok(plan) = read_plan(text) else {
        return candidate_of(&subset(random, 8));
    };
    let found = match random.below(4) {
        0 => None,
        1 => search(random, &plan, |o| matches!(o, Outcome::Cycle(_))),
        _ => search(random, &plan, |_| true),
    };
    let mut atoms = found.unwrap_or_else(|| subset(random, 8));
    if random.once_in(4) {
        perturb(random, &mut atoms);
    }
    candidate_of(&atoms)
}

// Puts one atom in or takes it out.
fn perturb(random: &mut Random, atoms: &mut Atoms) {
    let atom = 1 + index(random, 9, 4095) as u32;
    if !atoms.remove(&atom) {
        atoms.insert(atom);
    }
}

/// A random network: many names and differences, no rules, a candidate that takes most.
// All atoms are external; bounds are set so that cycles are neither rare nor certain.
pub fn network(random: &mut Random) -> Case {
    let names = 2 + random.below(25);
    let n = 1 + random.below(70);
    let low = random.from_to(-4, 0);
    let mut lines = strings();
    lines.extend((0..names).map(|i| line_of(&[9, 0, 3 + i as i64, i as i64])));
    let mut atoms: Vec<i64> = (1..=200).collect();
    random.shuffle(&mut atoms);
    atoms.truncate(n);
    for (i, atom) in atoms.iter().enumerate() {
        let (i, from) = (i as i64, 40 + 2 * i as i64);
        let (x, y) = (3 + random.below(names) as i64, 3 + random.below(names) as i64);
        lines.push(line_of(&[9, 2, from, 1, 2, x, y]));
        lines.push(line_of(&[9, 0, from + 1, random.from_to(low, 6)]));
        lines.push(line_of(&[9, 4, i, 1, from, 0]));
        lines.push(line_of(&[9, 6, *atom, 0, 1, i, 2, from + 1]));
    }
    let taken: Atoms = atoms.iter().filter(|_| !random.once_in(4)).map(|a| *a as u32).collect();
    (text_of(&lines), candidate_of(&taken))
}

/// What loose theory lines have defined so far, by kind.
#[derive(Default)]
struct Loose {
    lines: Vec<Vec<u8>>,
    defined: Vec<i64>,
    named: [Vec<i64>; 4],
    numbers: Vec<i64>,
    differences: Vec<i64>,
    minuses: Vec<i64>,
    elements: Vec<i64>,
    atoms: i64,
}

// One of the wanted, mostly; else one of the others, or any small number.
fn mostly(random: &mut Random, wanted: &[i64], others: &[i64]) -> i64 {
    match random.below(40) {
        0 => random.below(40) as i64,
        1 if !others.is_empty() => *random.one_of(others),
        _ if !wanted.is_empty() => *random.one_of(wanted),
        _ if !others.is_empty() => *random.one_of(others),
        _ => 0,
    }
}

impl Loose {
    // A new number, now and then one that may be taken.
    fn fresh(random: &mut Random, taken: usize) -> i64 {
        if random.once_in(150) {
            random.below(40) as i64
        } else {
            taken as i64
        }
    }

    // A string term, often one a difference needs.
    fn symbol(&mut self, random: &mut Random, kind: usize) {
        let term = Loose::fresh(random, self.defined.len());
        let others = [&b""[..], b"a", b"diff ", b"<", b"--", b"1", b"diff\r", b"-\r", b"<=\r", b"\r"];
        let string: &[u8] = [&b"diff"[..], b"-", b"<=", *random.one_of(&others)][kind];
        self.lines.push(string_line(&[9, 1, term], string));
        self.defined.push(term);
        self.named[kind].push(term);
    }

    // A numeric term.
    fn number(&mut self, random: &mut Random) {
        let term = Loose::fresh(random, self.defined.len());
        self.lines.push(line_of(&[9, 0, term, random.from_to(-4, 5)]));
        self.defined.push(term);
        self.numbers.push(term);
    }

    // A compound of two, a difference if its t is the right one.
    fn pair(&mut self, random: &mut Random) {
        let term = Loose::fresh(random, self.defined.len());
        let t = if random.once_in(30) { random.from_to(-3, -1) } else { mostly(random, &self.named[1], &self.defined) };
        let n = if random.once_in(30) { random.below(4) } else { 2 };
        let arguments: Vec<i64> = (0..n).map(|_| mostly(random, &self.defined, &[])).collect();
        self.lines.push(line_of(&[vec![9, 2, term, t], counted(&arguments)].concat()));
        self.defined.push(term);
        self.differences.push(term);
    }

    // A compound of one, mostly a minus sign on a number.
    fn minus(&mut self, random: &mut Random) {
        let term = Loose::fresh(random, self.defined.len());
        let t = mostly(random, &self.named[1], &self.defined);
        let argument = mostly(random, &self.numbers, &self.minuses);
        self.lines.push(line_of(&[9, 2, term, t, 1, argument]));
        self.defined.push(term);
        self.minuses.push(term);
    }

    // An element, mostly of one difference and without a condition.
    fn element(&mut self, random: &mut Random) {
        let element = Loose::fresh(random, self.elements.len());
        let n = if random.once_in(30) { random.below(3) } else { 1 };
        let terms: Vec<i64> = (0..n).map(|_| mostly(random, &self.differences, &self.defined)).collect();
        let condition = if random.once_in(30) { literals(random, 6, 2) } else { vec![] };
        self.lines.push(line_of(&[vec![9, 4, element], counted(&terms), counted(&condition)].concat()));
        self.elements.push(element);
    }

    // A theory atom, mostly a difference.
    fn atom(&mut self, random: &mut Random) {
        self.atoms += 1;
        let atom = if random.once_in(30) { 1 + random.below(6) as i64 } else { self.atoms };
        let name = mostly(random, &self.named[0], &self.defined);
        let n = if random.once_in(30) { random.below(3) } else { 1 };
        let elements: Vec<i64> = (0..n).map(|_| mostly(random, &self.elements, &[])).collect();
        let guarded = !random.once_in(40);
        let bounds = if random.once_in(2) { &self.numbers } else { &self.minuses };
        let mut line = [vec![9, if guarded { 6 } else { 5 }, atom, name], counted(&elements)].concat();
        if guarded {
            line.extend([mostly(random, &self.named[2], &self.defined), mostly(random, bounds, &self.defined)]);
        }
        self.lines.push(line_of(&line));
    }

    // One line more, of any kind.
    fn more(&mut self, random: &mut Random) {
        match random.below(12) {
            0 => {
                let kind = random.below(4);
                self.symbol(random, kind)
            }
            1 | 2 => self.number(random),
            3 | 4 => self.pair(random),
            5 => self.minus(random),
            6 | 7 => self.element(random),
            8 => self.lines.push(rule(random, 6)),
            _ => self.atom(random),
        }
    }
}

/// A text whose theory lines are mostly, but not always, sound.
// The needed strings, a difference, an element and a minus first, then lines of any kind.
pub fn loose(random: &mut Random) -> Vec<u8> {
    let mut theory = Loose::default();
    (0..4).for_each(|kind| theory.symbol(random, kind));
    theory.number(random);
    theory.pair(random);
    theory.minus(random);
    theory.element(random);
    let n = random.below(14);
    (0..n).for_each(|_| theory.more(random));
    text_of(&theory.lines)
}

// Lines for the three strings every difference needs: terms 0, 1 and 2.
fn strings() -> Vec<Vec<u8>> {
    [(0, &b"diff"[..]), (1, b"-"), (2, b"<=")].iter().map(|(t, s)| string_line(&[9, 1, *t], s)).collect()
}

/// A chain of differences over many names, in an order that needs many rounds; closed if asked.
// Names are numeric terms 4..; atom i says name i - name i+1 <= bound.
pub fn chain(names: usize, bound: i64, close: Option<i64>) -> Case {
    let mut lines = strings();
    lines.push(line_of(&[9, 0, 3, bound]));
    lines.extend((0..names).map(|i| line_of(&[9, 0, 4 + i as i64, 0])));
    let first = 4 + names as i64;
    let steps = (0..names.saturating_sub(1)).map(|i| (i, i + 1));
    let all: Vec<(usize, usize)> = steps.chain(close.map(|_| (names - 1, 0))).collect();
    if let Some(last) = close {
        lines.push(line_of(&[9, 0, 1023, last]));
    }
    for (i, (x, y)) in all.iter().enumerate().rev() {
        let (i, x, y) = (i as i64, *x as i64, *y as i64);
        let bound = if close.is_some() && i as usize + 1 == all.len() { 1023 } else { 3 };
        lines.push(line_of(&[9, 2, first + i, 1, 2, 4 + x, 4 + y]));
        lines.push(line_of(&[9, 4, i, 1, first + i, 0]));
        lines.push(line_of(&[9, 6, i + 1, 0, 1, i, 2, bound]));
    }
    (text_of(&lines), all_atoms(all.len()))
}

/// Differences that all say the same of two names: each has but one line of its own.
pub fn same_differences(atoms: usize) -> Case {
    let mut lines = strings();
    lines.extend([&[9, 0, 3, -1][..], &[9, 0, 4, 0], &[9, 2, 5, 1, 2, 3, 4], &[9, 4, 0, 1, 5, 0]].map(line_of));
    lines.extend((1..=atoms as i64).map(|atom| line_of(&[9, 6, atom, 0, 1, 0, 2, 3])));
    (text_of(&lines), all_atoms(atoms))
}

/// Choices of nothing: no rule has a shorter line.
pub fn shortest_rules(rules: usize) -> Case {
    (text_of(&vec![rule_line(true, &[], &normal_body(&[])); rules]), all_atoms(0))
}

/// A chain of rules in the order that founds one atom a round.
// Atom i from atom i-1, the last rule first; atom 1 a fact or from the last atom.
pub fn rule_chain(atoms: usize, founded: bool) -> Case {
    let mut lines: Vec<Vec<u8>> =
        (2..=atoms as i64).rev().map(|i| rule_line(false, &[i], &normal_body(&[i - 1]))).collect();
    let last = [atoms as i64];
    lines.push(rule_line(false, &[1], &normal_body(if founded { &[] } else { &last })));
    (text_of(&lines), all_atoms(atoms))
}

/// A chain of weight rules in an order that is founded in so many rounds.
// Each atom from two of the three before it, the first three facts or from the last; stretches of lines, the last first.
pub fn weight_chain(atoms: usize, rounds: usize, founded: bool) -> Case {
    let n = atoms as i64;
    let before = |i: i64| -> Vec<Pair> { (1..=3).map(|back| ((i - 1 - back).rem_euclid(n) + 1, 1)).collect() };
    let line = |i: i64| match i {
        1..=3 if founded => rule_line(false, &[i], &weight_body(0, &[])),
        _ => rule_line(false, &[i], &weight_body(2, &before(i))),
    };
    let lines: Vec<Vec<u8>> = (1..=n).map(line).collect();
    let stretches: Vec<&[Vec<u8>]> = lines.chunks(atoms.div_ceil(rounds)).rev().collect();
    (text_of(&stretches.concat()), all_atoms(atoms))
}

/// A choice over the atoms from 1 to some, and all of them.
pub fn choice(atoms: usize) -> Case {
    let head: Vec<i64> = (1..=atoms as i64).collect();
    (text_of(&[rule_line(true, &head, &normal_body(&[]))]), all_atoms(atoms))
}

/// A readable text of exactly `length` bytes: a shorter one, with a comment before its `0` line.
pub fn padded(text: &[u8], length: usize) -> Vec<u8> {
    let end = LineEnd::kind_of(text).bytes();
    let (before, last) = text.split_at(text.len() - b"0".len() - end.len());
    let comment = vec![b'c'; length - text.len() - b"10 ".len() - end.len()];
    [before, b"10 ", &comment, end, last].concat()
}

/// The largest case of some kind that a text of exactly `length` bytes holds.
pub fn longest(length: usize, kind: impl Fn(usize) -> Case) -> Case {
    let sizes: Vec<usize> = (4..=4_096).collect();
    let fit = sizes.partition_point(|n| kind(*n).0.len() + 4 <= length);
    let (text, cand) = kind(sizes[fit.saturating_sub(1)]);
    (padded(&text, length), cand)
}

/// A readable text of exactly `length` bytes: one comment.
// The first line, the comment and the `0` line have 16 bytes without the comment's own.
pub fn long_text(length: usize) -> Vec<u8> {
    let comment = [b"10 ".to_vec(), vec![b'c'; length.saturating_sub(16)]].concat();
    text_of(&[comment])
}
