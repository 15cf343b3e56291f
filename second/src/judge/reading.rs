//! The reading of a plan text: refusals 3, 4 and 5.

use super::fields::{Fields, Finding, LineEnd, SPACE};
use super::refusal::{refusal, Refusal};

pub const GRAMMAR: u32 = 3;
pub const NOT_CARRIED: u32 = 4;
pub const BEYOND: u32 = 5;

pub const TEXT_BYTES: usize = 60_000;
pub const LARGEST_ATOM: u32 = 4_096;
pub const LARGEST_INDEX: u32 = 1_023;
pub const LARGEST_COUNT: u64 = 4_096;
pub const LARGEST_NUMBER: i64 = 1_000_000;
pub const LARGEST_BOUND: u64 = 1_000_000_000;
pub const LARGEST_WEIGHT: u64 = 100_000;

const FIRST_LINE: &[u8; 9] = b"asp 1 0 0";

/// A literal: an atom, or its default negation.
#[derive(Clone, Copy, Debug, PartialEq, Eq)]
pub struct Literal {
    pub atom: u32,
    pub negated: bool,
}

/// A literal of a weight body, with its weight.
#[derive(Clone, Copy, Debug, PartialEq, Eq)]
pub struct Weighted {
    pub literal: Literal,
    pub weight: u32,
}

/// A rule's body: literals; or a lower bound, and literals with weights.
#[derive(Clone, Debug, PartialEq, Eq)]
pub enum Body {
    Normal(Vec<Literal>),
    Weights { bound: u32, literals: Vec<Weighted> },
}

/// What a compound is built with.
#[derive(Clone, Copy, Debug, PartialEq, Eq)]
pub enum Base {
    Tuple,
    Set,
    List,
    Term(u32),
}

/// One statement of the text.
#[derive(Clone, Debug, PartialEq, Eq)]
pub enum Statement {
    Rule { choice: bool, head: Vec<u32>, body: Body },
    Output { string: Vec<u8>, condition: Vec<Literal> },
    Number { term: u32, value: i32 },
    Symbol { term: u32, string: Vec<u8> },
    Compound { term: u32, base: Base, arguments: Vec<u32> },
    Element { element: u32, terms: Vec<u32>, condition: Vec<Literal> },
    Theory { atom: u32, name: u32, elements: Vec<u32>, guard: Option<(u32, u32)> },
    Comment { bytes: Vec<u8> },
}

/// What a field that uses something names: a term or an element.
#[derive(Clone, Copy, Debug, PartialEq, Eq)]
pub enum Used {
    Term(u32),
    Element(u32),
}

/// A use, with the place of its field.
#[derive(Clone, Copy, Debug, PartialEq, Eq)]
pub struct Use {
    pub place: u32,
    pub of: Used,
}

/// A statement with the place of its line's first byte, and its uses from left to right.
#[derive(Clone, Debug, PartialEq, Eq)]
pub struct Line {
    pub place: u32,
    pub statement: Statement,
    pub uses: Vec<Use>,
}

// Right inside the range, else the number given.
fn within<N: PartialOrd>(value: N, least: N, most: N, number: u32) -> Finding {
    if least <= value && value <= most {
        Finding::Right
    } else {
        Finding::Wrong(number)
    }
}

/// Reads a whole text; its length is judged elsewhere (refusal 2).
// Reads the first line, the statements, the `0` line, all ended as the first one, and asks that nothing follow.
pub fn read_text(text: &[u8]) -> Result<Vec<Line>, Refusal> {
    let mut fields = Fields::new(text, 0, GRAMMAR);
    let end = first_line(&mut fields)?;
    let mut lines = Vec::new();
    while let Some(line) = line(&mut fields, end)? {
        lines.push(line);
    }
    if !fields.ended() {
        return Err(fields.fault_here());
    }
    Ok(lines)
}

// Compares the first nine bytes one by one, then says which line end stands after them.
fn first_line(fields: &mut Fields) -> Result<LineEnd, Refusal> {
    for wanted in FIRST_LINE {
        fields.exactly(*wanted)?;
    }
    if fields.byte() == Some(SPACE) {
        return Err(refusal(NOT_CARRIED, fields.at()));
    }
    fields.line_end()
}

// Reads one line, which must end as the first one; none for the line `0`.
fn line(fields: &mut Fields, end: LineEnd) -> Result<Option<Line>, Refusal> {
    let place = fields.at() as u32;
    let mut uses = Vec::new();
    let statement = match fields.natural(statement_type)? {
        0 => None,
        1 => Some(rule(fields)?),
        4 => Some(output(fields)?),
        9 => Some(theory(fields, &mut uses)?),
        _ => Some(comment(fields, end)?),
    };
    fields.line_end_of(end)?;
    Ok(statement.map(|statement| Line { place, statement, uses }))
}

// Statement types: carried, not carried, or unknown.
fn statement_type(value: u64) -> Finding {
    match value {
        0 | 1 | 4 | 9 | 10 => Finding::Right,
        2 | 3 | 5..=8 => Finding::Wrong(NOT_CARRIED),
        _ => Finding::Wrong(GRAMMAR),
    }
}

// Theory types: 3 is not among them.
fn theory_type(value: u64) -> Finding {
    match value {
        0..=2 | 4..=6 => Finding::Right,
        _ => Finding::Wrong(GRAMMAR),
    }
}

// Head kinds: 0 plain, 1 choice; body kinds: 0 normal, 1 weights.
fn two_kinds(value: u64) -> Finding {
    within(value, 0, 1, GRAMMAR)
}

// The lower bound of a weight body.
fn body_bound(value: u64) -> Finding {
    within(value, 0, LARGEST_BOUND, BEYOND)
}

// A literal's weight.
fn weight_value(value: u64) -> Finding {
    within(value, 1, LARGEST_WEIGHT, BEYOND)
}

// Counts and string lengths.
fn count(value: u64) -> Finding {
    within(value, 0, LARGEST_COUNT, BEYOND)
}

// The count of a plain head: at most one atom is carried.
fn plain_count(value: u64) -> Finding {
    within(value, 0, 1, NOT_CARRIED)
}

// An atom of a head.
fn head_atom(value: u64) -> Finding {
    within(value, 1, u64::from(LARGEST_ATOM), BEYOND)
}

// The atom of a theory atom: 0 would be a directive.
fn theory_atom(value: u64) -> Finding {
    match value {
        0 => Finding::Wrong(NOT_CARRIED),
        _ => head_atom(value),
    }
}

// A term or element number.
fn index(value: u64) -> Finding {
    within(value, 0, u64::from(LARGEST_INDEX), BEYOND)
}

// A literal: not 0, and an atom on either side.
fn literal_value(value: i64) -> Finding {
    within(value.abs(), 1, i64::from(LARGEST_ATOM), BEYOND)
}

// The value of a numeric term.
fn number_value(value: i64) -> Finding {
    within(value, -LARGEST_NUMBER, LARGEST_NUMBER, BEYOND)
}

// The value of t in a compound.
fn base_value(value: i64) -> Finding {
    within(value, -3, i64::from(LARGEST_INDEX), BEYOND)
}

// A space, then a natural.
fn next_natural(fields: &mut Fields, find: fn(u64) -> Finding) -> Result<u64, Refusal> {
    fields.space()?;
    fields.natural(find)
}

// A space, then a natural that fits 32 bits by its range.
fn next_small(fields: &mut Fields, find: fn(u64) -> Finding) -> Result<u32, Refusal> {
    Ok(next_natural(fields, find)? as u32)
}

// A space, then an integer.
fn next_integer(fields: &mut Fields, find: fn(i64) -> Finding) -> Result<i64, Refusal> {
    fields.space()?;
    fields.integer(find)
}

// A space, then a literal.
fn literal(fields: &mut Fields) -> Result<Literal, Refusal> {
    let value = next_integer(fields, literal_value)?;
    Ok(Literal { atom: value.unsigned_abs() as u32, negated: value < 0 })
}

// A space, a count, and that many literals.
fn literals(fields: &mut Fields) -> Result<Vec<Literal>, Refusal> {
    let n = next_natural(fields, count)?;
    (0..n).map(|_| literal(fields)).collect()
}

// A space, a literal, a space, and its weight.
fn weighted(fields: &mut Fields) -> Result<Weighted, Refusal> {
    let literal = literal(fields)?;
    let weight = next_small(fields, weight_value)?;
    Ok(Weighted { literal, weight })
}

// A space, a count, and that many literals with their weights.
fn weighted_literals(fields: &mut Fields) -> Result<Vec<Weighted>, Refusal> {
    let n = next_natural(fields, count)?;
    (0..n).map(|_| weighted(fields)).collect()
}

// A space, then the number of a term or an element that is used; notes the use.
fn used(fields: &mut Fields, uses: &mut Vec<Use>, of: fn(u32) -> Used) -> Result<u32, Refusal> {
    fields.space()?;
    let place = fields.at() as u32;
    let number = fields.natural(index)? as u32;
    uses.push(Use { place, of: of(number) });
    Ok(number)
}

// A space, a count, and that many numbers of terms or elements that are used; notes the uses.
fn all_used(fields: &mut Fields, uses: &mut Vec<Use>, of: fn(u32) -> Used) -> Result<Vec<u32>, Refusal> {
    let n = next_natural(fields, count)?;
    (0..n).map(|_| used(fields, uses, of)).collect()
}

// A space, a length, a space, and that many string bytes.
fn string(fields: &mut Fields) -> Result<Vec<u8>, Refusal> {
    let n = next_natural(fields, count)?;
    fields.space()?;
    fields.string(n)
}

// A rule after its type: head, then body.
fn rule(fields: &mut Fields) -> Result<Statement, Refusal> {
    let choice = next_natural(fields, two_kinds)? == 1;
    let n = next_natural(fields, if choice { count } else { plain_count })?;
    let head = (0..n).map(|_| next_small(fields, head_atom)).collect::<Result<_, _>>()?;
    let body = body(fields)?;
    Ok(Statement::Rule { choice, head, body })
}

// A body: its kind, then literals, or a bound and literals with weights.
fn body(fields: &mut Fields) -> Result<Body, Refusal> {
    if next_natural(fields, two_kinds)? == 0 {
        return Ok(Body::Normal(literals(fields)?));
    }
    let bound = next_small(fields, body_bound)?;
    Ok(Body::Weights { bound, literals: weighted_literals(fields)? })
}

// An output statement after its type.
fn output(fields: &mut Fields) -> Result<Statement, Refusal> {
    let string = string(fields)?;
    let condition = literals(fields)?;
    Ok(Statement::Output { string, condition })
}

// A theory statement after its type; notes its uses.
fn theory(fields: &mut Fields, uses: &mut Vec<Use>) -> Result<Statement, Refusal> {
    match next_natural(fields, theory_type)? {
        0 => number(fields),
        1 => symbol(fields),
        2 => compound(fields, uses),
        4 => element(fields, uses),
        kind => atom(fields, uses, kind == 6),
    }
}

// A numeric term.
fn number(fields: &mut Fields) -> Result<Statement, Refusal> {
    let term = next_small(fields, index)?;
    let value = next_integer(fields, number_value)? as i32;
    Ok(Statement::Number { term, value })
}

// A string term.
fn symbol(fields: &mut Fields) -> Result<Statement, Refusal> {
    let term = next_small(fields, index)?;
    let string = string(fields)?;
    Ok(Statement::Symbol { term, string })
}

// A compound term.
fn compound(fields: &mut Fields, uses: &mut Vec<Use>) -> Result<Statement, Refusal> {
    let term = next_small(fields, index)?;
    let base = base(fields, uses)?;
    let arguments = all_used(fields, uses, Used::Term)?;
    Ok(Statement::Compound { term, base, arguments })
}

// What stands as t in a compound; notes the use of a term.
fn base(fields: &mut Fields, uses: &mut Vec<Use>) -> Result<Base, Refusal> {
    fields.space()?;
    let place = fields.at() as u32;
    let base = match fields.integer(base_value)? {
        -1 => Base::Tuple,
        -2 => Base::Set,
        -3 => Base::List,
        t => Base::Term(t as u32),
    };
    if let Base::Term(t) = base {
        uses.push(Use { place, of: Used::Term(t) });
    }
    Ok(base)
}

// An element with its terms and condition.
fn element(fields: &mut Fields, uses: &mut Vec<Use>) -> Result<Statement, Refusal> {
    let element = next_small(fields, index)?;
    let terms = all_used(fields, uses, Used::Term)?;
    let condition = literals(fields)?;
    Ok(Statement::Element { element, terms, condition })
}

// A theory atom, with operator and bound if it is guarded.
fn atom(fields: &mut Fields, uses: &mut Vec<Use>, guarded: bool) -> Result<Statement, Refusal> {
    let atom = next_small(fields, theory_atom)?;
    let name = used(fields, uses, Used::Term)?;
    let elements = all_used(fields, uses, Used::Element)?;
    let guard = if guarded { Some(guard(fields, uses)?) } else { None };
    Ok(Statement::Theory { atom, name, elements, guard })
}

// The operator term and the bound term.
fn guard(fields: &mut Fields, uses: &mut Vec<Use>) -> Result<(u32, u32), Refusal> {
    let operator = used(fields, uses, Used::Term)?;
    let bound = used(fields, uses, Used::Term)?;
    Ok((operator, bound))
}

// A comment after its type: a space, then anything up to the line end.
fn comment(fields: &mut Fields, end: LineEnd) -> Result<Statement, Refusal> {
    fields.space()?;
    Ok(Statement::Comment { bytes: fields.rest_of_line(end)? })
}
