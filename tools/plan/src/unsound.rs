//! What is wrong with a line's terms or theory atoms, for commentary on 61 to 64. The judge says which of them it is and
//! where; found again here is what stands there.

use crate::text::{Plan, Statement};
use std::cmp::Ordering;
use std::fmt;

/// The fields of a line in which uses begin, counted from 0: t or p, an element's terms, arguments or elements.
const HEAD: usize = 3;
const TERMS: usize = 4;
const LIST: usize = 5;

/// What is wrong at a place that one of 61 to 64 has.
pub fn unsound(plan: &Plan, number: u32, at: usize) -> Option<String> {
    let line = plan.line_of(at);
    match number {
        61 => twice(plan, line),
        62 => undefined(plan, line, at),
        63 => second(plan, line),
        64 => no_difference(plan, line),
        _ => None,
    }
}

// A number of one of the two countings that lines define.
#[derive(Clone, Copy)]
enum Number {
    Term(u32),
    Element(u32),
}

impl fmt::Display for Number {
    fn fmt(&self, f: &mut fmt::Formatter) -> fmt::Result {
        match self {
            Number::Term(term) => write!(f, "term {term}"),
            Number::Element(element) => write!(f, "element {element}"),
        }
    }
}

impl Number {
    // The line that defines it first, and what it is there.
    fn defined(self, plan: &Plan) -> Option<(usize, String)> {
        match self {
            Number::Term(term) => plan.terms.get(&term).map(|&line| (line, plan.term(term))),
            Number::Element(element) => {
                plan.elements.get(&element).map(|&line| (line, format!("{{{}}}", plan.element(element))))
            }
        }
    }
}

// A use of a number: its field in the line, and what it is used as.
struct Use {
    field: usize,
    number: Number,
    role: String,
}

// The line that has the number of this line already.
fn twice(plan: &Plan, line: usize) -> Option<String> {
    let number = match plan.statement(line) {
        Statement::Number { term, .. } | Statement::Word { term, .. } | Statement::Compound { term, .. } => {
            Number::Term(*term)
        }
        Statement::Element { element, .. } => Number::Element(*element),
        _ => return None,
    };
    let (first, name) = number.defined(plan).filter(|(first, _)| *first < line)?;
    Some(format!("{number} is defined twice: line {} has it already, as `{name}`", first + 1))
}

// The number that stands at a place, what it is used as, and where it is defined too late, if it is.
fn undefined(plan: &Plan, line: usize, at: usize) -> Option<String> {
    let before = plan.bytes.get(plan.lines.get(line)?.span.start..at)?;
    let field = before.iter().filter(|&&b| b == b' ').count();
    let Use { number, role, .. } = uses(plan, plan.statement(line)).into_iter().find(|u| u.field == field)?;
    let used = format!("{number} is used here, as {role}");
    let Some((first, name)) = number.defined(plan) else {
        return Some(format!("{used}, and no line defines it"));
    };
    match first.cmp(&line) {
        Ordering::Less => None,
        Ordering::Equal => Some(format!("{used}, in the line that defines it")),
        Ordering::Greater => Some(format!("{used}, before its definition: line {} has it, as `{name}`", first + 1)),
    }
}

// The uses of a statement, from the left.
fn uses(plan: &Plan, statement: &Statement) -> Vec<Use> {
    match statement {
        Statement::Compound { term, functor, arguments } => {
            let function: Vec<u32> = u32::try_from(*functor).into_iter().collect();
            let mut uses = row(HEAD, Number::Term, &function, &format!("the function of term {term}"));
            uses.extend(row(LIST, Number::Term, arguments, &format!("an argument of term {term}")));
            uses
        }
        Statement::Element { element, terms, .. } => {
            row(TERMS, Number::Term, terms, &format!("a term of element {element}"))
        }
        Statement::Theory { atom, name, elements, guard } => {
            let of = |role: &str| format!("{role} of {}", named(plan, *atom));
            let behind = LIST + elements.len();
            let mut uses = row(HEAD, Number::Term, &[*name], &of("the name"));
            uses.extend(row(LIST, Number::Element, elements, &of("an element")));
            if let Some((operator, bound)) = guard {
                uses.extend(row(behind, Number::Term, &[*operator], &of("the operator")));
                uses.extend(row(behind + 1, Number::Term, &[*bound], &of("the bound")));
            }
            uses
        }
        _ => Vec::new(),
    }
}

// Uses in one field after the other, from a first one on.
fn row(first: usize, counting: fn(u32) -> Number, numbers: &[u32], role: &str) -> Vec<Use> {
    let fields = numbers.iter().zip(first..);
    fields.map(|(&number, field)| Use { field, number: counting(number), role: String::from(role) }).collect()
}

// An atom by its number, and by its name where an output gives it one.
fn named(plan: &Plan, atom: u32) -> String {
    match plan.outputs.contains_key(&atom) {
        true => format!("atom {atom} (`{}`)", plan.atom(atom)),
        false => format!("atom {atom}"),
    }
}

// The two theory statements of an atom.
fn second(plan: &Plan, line: usize) -> Option<String> {
    let Statement::Theory { atom, .. } = plan.statement(line) else {
        return None;
    };
    let first = *plan.theory.get(atom).filter(|&&first| first < line)?;
    let (named, stated, before) = (named(plan, *atom), plan.theory_atom(line), plan.theory_atom(first));
    Some(format!("{named} has a second theory statement, `{stated}`: line {} states `{before}`", first + 1))
}

// Why a theory statement is no difference.
fn no_difference(plan: &Plan, line: usize) -> Option<String> {
    let Statement::Theory { atom, .. } = plan.statement(line) else {
        return None;
    };
    let reason = plan.difference_at(line).err()?;
    Some(format!("{}, `{}`, is no difference: {reason}", named(plan, *atom), plan.theory_atom(line)))
}
