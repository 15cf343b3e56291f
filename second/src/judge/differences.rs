//! Terms, elements and difference atoms: refusals 61 to 64.

use super::reading::{Base, Line, Statement, Use, Used};
use super::refusal::Refusal;
use std::collections::{BTreeMap, BTreeSet};

pub const TWICE: u32 = 61;
pub const UNKNOWN: u32 = 62;
pub const SECOND: u32 = 63;
pub const NO_DIFFERENCE: u32 = 64;

/// A difference atom: x - y <= bound, with the place of its line.
#[derive(Clone, Copy, Debug, PartialEq, Eq)]
pub struct Difference {
    pub line: u32,
    pub atom: u32,
    pub x: u32,
    pub y: u32,
    pub bound: i64,
}

// What the lines so far have defined; each entry is the defining statement.
#[derive(Default)]
struct Defined<'a> {
    terms: BTreeMap<u32, &'a Statement>,
    elements: BTreeMap<u32, &'a Statement>,
    atoms: BTreeSet<u32>,
}

/// The differences of a read text in its order, or the refusal of the first line that has one of 61 to 64.
// Takes the lines in order, each against what the earlier ones defined.
pub fn terms(lines: &[Line]) -> Result<Vec<Difference>, Refusal> {
    let mut defined = Defined::default();
    let mut differences = Vec::new();
    for line in lines {
        differences.extend(defined.take(line)?);
    }
    Ok(differences)
}

impl<'a> Defined<'a> {
    // Takes one line: the first of 61 to 64 that it has, else the difference it may be.
    fn take(&mut self, line: &'a Line) -> Result<Option<Difference>, Refusal> {
        let at_line = |number| Refusal { number, place: line.place };
        if self.twice(&line.statement) {
            return Err(at_line(TWICE));
        }
        if let Some(unknown) = line.uses.iter().find(|u| !self.knows(u)) {
            return Err(Refusal { number: UNKNOWN, place: unknown.place });
        }
        if self.second(&line.statement) {
            return Err(at_line(SECOND));
        }
        self.enter(&line.statement);
        match line.statement {
            Statement::Theory { .. } => self.difference(line).ok_or(at_line(NO_DIFFERENCE)).map(Some),
            _ => Ok(None),
        }
    }

    // Whether a statement defines a term or element that is defined already.
    fn twice(&self, statement: &Statement) -> bool {
        match statement {
            Statement::Number { term, .. } | Statement::Symbol { term, .. } | Statement::Compound { term, .. } => {
                self.terms.contains_key(term)
            }
            Statement::Element { element, .. } => self.elements.contains_key(element),
            _ => false,
        }
    }

    // Whether what is used is defined.
    fn knows(&self, used: &Use) -> bool {
        match used.of {
            Used::Term(term) => self.terms.contains_key(&term),
            Used::Element(element) => self.elements.contains_key(&element),
        }
    }

    // Whether a statement is one more for an atom that has one.
    fn second(&self, statement: &Statement) -> bool {
        matches!(statement, Statement::Theory { atom, .. } if self.atoms.contains(atom))
    }

    // Enters what a statement defines.
    fn enter(&mut self, statement: &'a Statement) {
        match statement {
            Statement::Number { term, .. } | Statement::Symbol { term, .. } | Statement::Compound { term, .. } => {
                self.terms.insert(*term, statement);
            }
            Statement::Element { element, .. } => {
                self.elements.insert(*element, statement);
            }
            Statement::Theory { atom, .. } => {
                self.atoms.insert(*atom);
            }
            _ => (),
        }
    }

    // The difference a theory atom's line says, if it is one.
    fn difference(&self, line: &Line) -> Option<Difference> {
        let Statement::Theory { atom, name, elements, guard: Some((operator, bound)) } = &line.statement else {
            return None;
        };
        if !self.is_string(*name, b"diff") || !self.is_string(*operator, b"<=") {
            return None;
        }
        let (x, y) = self.sides(elements)?;
        let bound = self.bound(*bound)?;
        Some(Difference { line: line.place, atom: *atom, x, y, bound })
    }

    // x and y, from the one element with its one term and no condition.
    fn sides(&self, elements: &[u32]) -> Option<(u32, u32)> {
        let [element] = elements else { return None };
        let Statement::Element { terms, condition, .. } = self.elements.get(element)? else {
            return None;
        };
        let ([term], []) = (terms.as_slice(), condition.as_slice()) else {
            return None;
        };
        let [x, y] = self.minus(*term)? else { return None };
        Some((*x, *y))
    }

    // The bound: a number, or a minus sign on a number.
    fn bound(&self, term: u32) -> Option<i64> {
        if let Some(value) = self.number(term) {
            return Some(value);
        }
        let [argument] = self.minus(term)? else { return None };
        Some(-self.number(*argument)?)
    }

    // The value of a numeric term.
    fn number(&self, term: u32) -> Option<i64> {
        match self.terms.get(&term)? {
            Statement::Number { value, .. } => Some(i64::from(*value)),
            _ => None,
        }
    }

    // The arguments of a compound whose t is the string `-`.
    fn minus(&self, term: u32) -> Option<&[u32]> {
        match self.terms.get(&term)? {
            Statement::Compound { base: Base::Term(t), arguments, .. } if self.is_string(*t, b"-") => Some(arguments),
            _ => None,
        }
    }

    // Whether a term is the string with these bytes.
    fn is_string(&self, term: u32, bytes: &[u8]) -> bool {
        match self.terms.get(&term) {
            Some(Statement::Symbol { string, .. }) => string == bytes,
            _ => false,
        }
    }
}
