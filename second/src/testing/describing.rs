//! A printing of what reading gives, to compare two implementations.

use crate::judge::candidate::read_candidate;
use crate::judge::judging::check_length;
use crate::judge::reading::{read_text, Base, Body, Line, Literal, Statement, Weighted};
use crate::judge::refusal::Refusal;

// One printed line of numbers.
fn numbers_line(numbers: &[u64]) -> String {
    let words: Vec<String> = numbers.iter().map(u64::to_string).collect();
    words.join(" ") + "\n"
}

// The printing of a refusal.
fn refused(refused: Refusal) -> String {
    format!("refused {} {}\n", refused.number, refused.place)
}

/// What reading a text gives.
// Refusals 2 to 5, or the count and one line a statement.
pub fn describe(text: &[u8]) -> String {
    match check_length(text).and_then(|_| read_text(text)) {
        Err(r) => refused(r),
        Ok(lines) => {
            let head = format!("read {}\n", lines.len());
            lines.iter().fold(head, |out, line| out + &numbers_line(&line_numbers(line)))
        }
    }
}

/// What reading a candidate gives.
// Refusal 7, or the count and the atoms.
pub fn describe_candidate(cand: &[u8]) -> String {
    match read_candidate(cand) {
        Err(r) => refused(r),
        Ok(atoms) => format!("candidate {}", numbers_line(&counted(&atoms))),
    }
}

// A count, then the numbers.
fn counted(numbers: &[u32]) -> Vec<u64> {
    let count = numbers.len() as u64;
    std::iter::once(count).chain(numbers.iter().map(|n| u64::from(*n))).collect()
}

// A count, then the bytes.
fn counted_bytes(bytes: &[u8]) -> Vec<u64> {
    counted(&bytes.iter().map(|b| u32::from(*b)).collect::<Vec<_>>())
}

// A literal: twice the atom, one more if negated.
fn literal_code(literal: &Literal) -> u32 {
    2 * literal.atom + u32::from(literal.negated)
}

// A literal with its weight, in one number.
fn weighted_code(weighted: &Weighted) -> u32 {
    16_384 * weighted.weight + literal_code(&weighted.literal)
}

// A count, then the literals.
fn counted_literals(literals: &[Literal]) -> Vec<u64> {
    counted(&literals.iter().map(literal_code).collect::<Vec<_>>())
}

// A body's kind and bound, 0 and 0 for a normal one; then a count and the literals.
fn body_numbers(body: &Body) -> Vec<u64> {
    match body {
        Body::Normal(literals) => [vec![0, 0], counted_literals(literals)].concat(),
        Body::Weights { bound, literals } => {
            let codes: Vec<u32> = literals.iter().map(weighted_code).collect();
            [vec![1, u64::from(*bound)], counted(&codes)].concat()
        }
    }
}

// An integer: twice its size, one more below zero.
fn signed(value: i64) -> u64 {
    2 * value.unsigned_abs() + u64::from(value < 0)
}

// A compound's t as an integer.
fn base_number(base: &Base) -> i64 {
    match base {
        Base::Tuple => -1,
        Base::Set => -2,
        Base::List => -3,
        Base::Term(t) => i64::from(*t),
    }
}

// The numbers printed for a line.
fn line_numbers(line: &Line) -> Vec<u64> {
    let (kind, rest) = statement_numbers(&line.statement);
    let mut numbers = vec![kind, u64::from(line.place)];
    rest.into_iter().for_each(|part| numbers.extend(part));
    numbers
}

// The kind printed for a statement, and the numbers after the place.
fn statement_numbers(statement: &Statement) -> (u64, Vec<Vec<u64>>) {
    match statement {
        Statement::Rule { choice, head, body } => {
            (1, vec![vec![u64::from(*choice)], counted(head), body_numbers(body)])
        }
        Statement::Output { string, condition } => (4, vec![counted_bytes(string), counted_literals(condition)]),
        Statement::Number { term, value } => (90, vec![vec![u64::from(*term), signed(i64::from(*value))]]),
        Statement::Symbol { term, string } => (91, vec![vec![u64::from(*term)], counted_bytes(string)]),
        Statement::Compound { term, base, arguments } => {
            (92, vec![vec![u64::from(*term), signed(base_number(base))], counted(arguments)])
        }
        Statement::Element { element, terms, condition } => {
            (94, vec![vec![u64::from(*element)], counted(terms), counted_literals(condition)])
        }
        Statement::Theory { atom, name, elements, guard } => theory_numbers(*atom, *name, elements, *guard),
        Statement::Comment { bytes } => (10, vec![counted_bytes(bytes)]),
    }
}

// The kind and numbers of a theory atom.
fn theory_numbers(atom: u32, name: u32, elements: &[u32], guard: Option<(u32, u32)>) -> (u64, Vec<Vec<u64>>) {
    let front = vec![u64::from(atom), u64::from(name)];
    match guard {
        None => (95, vec![front, counted(elements)]),
        Some((g, u)) => (96, vec![front, counted(elements), vec![u64::from(g), u64::from(u)]]),
    }
}
