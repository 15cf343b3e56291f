//! What a plan text says, read leniently for commentary: a line that is not understood is kept as `Other`.

use crate::ends::{lines, End, Span};
use std::collections::{BTreeMap, BTreeSet};

/// A line: where it stands, and what it says.
#[derive(Clone, Debug, PartialEq, Eq)]
pub struct Line {
    pub span: Span,
    pub statement: Statement,
}

/// A statement of a plan text.
#[derive(Clone, Debug, PartialEq, Eq)]
pub enum Statement {
    Rule(Rule),
    Output { name: Vec<u8>, literals: Vec<i64> },
    Number { term: u32, value: i64 },
    Word { term: u32, bytes: Vec<u8> },
    Compound { term: u32, functor: i64, arguments: Vec<u32> },
    Element { element: u32, terms: Vec<u32>, condition: Vec<i64> },
    Theory { atom: u32, name: u32, elements: Vec<u32>, guard: Option<(u32, u32)> },
    Comment,
    End,
    Other,
}

/// A rule. A normal body is kept as a weight body: each literal weighs 1 and the bound is their count.
#[derive(Clone, Debug, PartialEq, Eq)]
pub struct Rule {
    pub choice: bool,
    pub heads: Vec<u32>,
    pub weighted: bool,
    pub bound: i64,
    pub body: Vec<(i64, i64)>,
}

/// A difference x - y <= k, with the index of the line that states it.
#[derive(Clone, Copy, Debug, PartialEq, Eq)]
pub struct Difference {
    pub x: u32,
    pub y: u32,
    pub k: i64,
    pub line: usize,
}

/// A plan text: its bytes, its lines, and where each thing is defined first (indexes into `lines`).
#[derive(Clone, Debug, Default)]
pub struct Plan {
    pub bytes: Vec<u8>,
    pub lines: Vec<Line>,
    pub terms: BTreeMap<u32, usize>,
    pub elements: BTreeMap<u32, usize>,
    pub theory: BTreeMap<u32, usize>,
    pub outputs: BTreeMap<u32, usize>,
    pub heads: BTreeMap<u32, Vec<usize>>,
}

impl Plan {
    /// Reads a plan text; every text gives a plan.
    pub fn new(bytes: &[u8]) -> Plan {
        let mut plan = Plan { bytes: bytes.to_vec(), ..Plan::default() };
        let own = End::of(bytes).bytes();
        plan.lines = lines(bytes).into_iter().map(|span| Line { span, statement: said(bytes, span, own) }).collect();
        plan.index();
        plan
    }

    // Notes where each thing is defined first.
    fn index(&mut self) {
        for (i, line) in self.lines.iter().enumerate() {
            match &line.statement {
                Statement::Number { term, .. } | Statement::Word { term, .. } | Statement::Compound { term, .. } => {
                    self.terms.entry(*term).or_insert(i);
                }
                Statement::Element { element, .. } => {
                    self.elements.entry(*element).or_insert(i);
                }
                Statement::Theory { atom, .. } => {
                    self.theory.entry(*atom).or_insert(i);
                }
                Statement::Output { literals, .. } => {
                    if let [atom @ 1..=i64::MAX] = literals[..] {
                        self.outputs.entry(atom as u32).or_insert(i);
                    }
                }
                Statement::Rule(rule) => {
                    for head in rule.heads.iter().collect::<BTreeSet<_>>() {
                        self.heads.entry(*head).or_default().push(i);
                    }
                }
                _ => {}
            }
        }
    }

    /// The line in which a place stands, its line end included; the count of lines where there is none.
    pub fn line_of(&self, place: usize) -> usize {
        self.lines.iter().position(|l| l.span.reaches(place)).unwrap_or(self.lines.len())
    }

    /// The bytes of a line, without its line end.
    pub fn line_bytes(&self, line: usize) -> &[u8] {
        self.lines.get(line).map_or(&[], |l| &self.bytes[l.span.start..l.span.end])
    }

    /// The statement of a line.
    pub fn statement(&self, line: usize) -> &Statement {
        self.lines.get(line).map_or(&Statement::Other, |l| &l.statement)
    }

    /// The rule of a line, where it has one.
    pub fn rule_at(&self, line: usize) -> Option<&Rule> {
        match self.statement(line) {
            Statement::Rule(rule) => Some(rule),
            _ => None,
        }
    }

    /// The rules with their lines.
    pub fn rules(&self) -> impl Iterator<Item = (usize, &Rule)> {
        (0..self.lines.len()).filter_map(|i| Some((i, self.rule_at(i)?)))
    }

    /// The lines of the rules that have an atom in the head.
    pub fn rules_of(&self, atom: u32) -> &[usize] {
        self.heads.get(&atom).map_or(&[], Vec::as_slice)
    }

    /// The statement that defines a term.
    pub fn term_statement(&self, term: u32) -> Option<&Statement> {
        self.terms.get(&term).map(|&i| self.statement(i))
    }

    /// The number that a numeric term is.
    pub fn number(&self, term: u32) -> Option<i64> {
        match self.term_statement(term)? {
            Statement::Number { value, .. } => Some(*value),
            _ => None,
        }
    }

    /// The bytes that a string term is.
    pub fn word(&self, term: u32) -> Option<&[u8]> {
        match self.term_statement(term)? {
            Statement::Word { bytes, .. } => Some(bytes),
            _ => None,
        }
    }

    /// The functor's string and the arguments of a compound term whose functor is a term number.
    pub fn compound(&self, term: u32) -> Option<(&[u8], &[u32])> {
        match self.term_statement(term)? {
            Statement::Compound { functor, arguments, .. } => {
                Some((self.word(u32::try_from(*functor).ok()?)?, arguments))
            }
            _ => None,
        }
    }

    /// The arguments of a compound term, of whatever kind.
    pub fn arguments(&self, term: u32) -> &[u32] {
        match self.term_statement(term) {
            Some(Statement::Compound { arguments, .. }) => arguments,
            _ => &[],
        }
    }

    /// The difference that an atom states.
    pub fn difference(&self, atom: u32) -> Option<Difference> {
        let line = *self.theory.get(&atom)?;
        self.difference_at(line).ok()
    }

    /// The difference that a line states, or why it states none.
    pub fn difference_at(&self, line: usize) -> Result<Difference, String> {
        let Statement::Theory { name, elements, guard, .. } = self.statement(line) else {
            return Err(String::from("the line states no theory atom"));
        };
        if self.word(*name) != Some(b"diff") {
            return Err(format!("its name is `{}`, not `diff`", self.term(*name)));
        }
        let (x, y) = self.sides(elements)?;
        let Some((operator, bound)) = guard else {
            return Err(String::from("it has no operator and no bound"));
        };
        if self.word(*operator) != Some(b"<=") {
            return Err(format!("its operator is `{}`, not `<=`", self.term(*operator)));
        }
        let k = self.bound(*bound).ok_or_else(|| {
            format!(
                "its bound is `{}`, not a number or a minus before a number (arithmetic is to be computed in the body)",
                self.term(*bound)
            )
        })?;
        Ok(Difference { x, y, k, line })
    }

    // The two sides of the one element, or why there are none.
    fn sides(&self, elements: &[u32]) -> Result<(u32, u32), String> {
        let [element] = elements else {
            return Err(format!("it has {} elements, not one", elements.len()));
        };
        let Some(Statement::Element { terms, condition, .. }) = self.elements.get(element).map(|&i| self.statement(i))
        else {
            return Err(format!("its element {element} is not defined"));
        };
        let [term] = terms[..] else {
            return Err(format!("its element has {} terms, not one", terms.len()));
        };
        if !condition.is_empty() {
            return Err(String::from("its element has a condition"));
        }
        match self.compound(term) {
            Some((b"-", &[x, y])) => Ok((x, y)),
            _ => Err(format!("its element is `{}`, not of the form x - y", self.term(term))),
        }
    }

    // The number that a bound says.
    fn bound(&self, term: u32) -> Option<i64> {
        match self.compound(term) {
            Some((b"-", &[inner])) => self.number(inner).map(|k| -k),
            _ => self.number(term),
        }
    }

    /// The differences that the text states, by atom.
    pub fn differences(&self) -> Vec<(u32, Difference)> {
        self.theory.iter().filter_map(|(&atom, &line)| Some((atom, self.difference_at(line).ok()?))).collect()
    }

    /// The names: the terms that stand as x or y in some difference.
    pub fn names(&self) -> BTreeSet<u32> {
        self.differences().iter().flat_map(|(_, d)| [d.x, d.y]).collect()
    }

    /// The atoms that stand in the text.
    pub fn atoms(&self) -> BTreeSet<u32> {
        let mut atoms = BTreeSet::new();
        let of = |literals: &[i64]| literals.iter().map(|l| l.unsigned_abs() as u32).collect::<Vec<u32>>();
        for line in &self.lines {
            match &line.statement {
                Statement::Rule(rule) => {
                    atoms.extend(&rule.heads);
                    atoms.extend(rule.body.iter().map(|(l, _)| l.unsigned_abs() as u32));
                }
                Statement::Output { literals, .. } => atoms.extend(of(literals)),
                Statement::Element { condition, .. } => atoms.extend(of(condition)),
                Statement::Theory { atom, .. } => atoms.extend([*atom]),
                _ => {}
            }
        }
        atoms.remove(&0);
        atoms
    }
}

// Reads the fields of one line.
struct Fields<'a> {
    line: &'a [u8],
    at: usize,
}

impl<'a> Fields<'a> {
    // The next field, to before the next space or the line end.
    fn field(&mut self) -> Option<&'a [u8]> {
        let rest = self.line.get(self.at..)?;
        let length = rest.iter().position(|&b| b == b' ').unwrap_or(rest.len());
        self.at += length + 1;
        Some(&rest[..length])
    }

    // A natural number without leading zeros, of 31 bits at most.
    fn natural(&mut self) -> Option<u32> {
        natural(self.field()?)
    }

    // An integer of the same kind.
    fn integer(&mut self) -> Option<i64> {
        let field = self.field()?;
        match field.strip_prefix(b"-") {
            None => natural(field).map(i64::from),
            Some(digits) => natural(digits).filter(|&n| n > 0).map(|n| -i64::from(n)),
        }
    }

    // A length and as many bytes.
    fn string(&mut self) -> Option<Vec<u8>> {
        let length = self.natural()? as usize;
        let bytes = self.line.get(self.at..self.at.checked_add(length)?)?.to_vec();
        self.at += length;
        if !matches!(self.line.get(self.at), None | Some(b' ')) {
            return None;
        }
        self.at += 1;
        Some(bytes)
    }

    // A count and as many naturals.
    fn naturals(&mut self) -> Option<Vec<u32>> {
        let count = self.natural()?;
        (0..count).map(|_| self.natural()).collect()
    }

    // A count and as many literals.
    fn literals(&mut self) -> Option<Vec<i64>> {
        let count = self.natural()?;
        (0..count).map(|_| self.integer()).collect()
    }

    // A rule behind its type.
    fn rule(&mut self) -> Option<Rule> {
        let choice = self.selector()?;
        let heads = self.naturals()?;
        let weighted = self.selector()?;
        if !weighted {
            let body: Vec<(i64, i64)> = self.literals()?.into_iter().map(|l| (l, 1)).collect();
            return Some(Rule { choice, heads, weighted, bound: body.len() as i64, body });
        }
        let bound = i64::from(self.natural()?);
        let count = self.natural()?;
        let body = (0..count).map(|_| Some((self.integer()?, i64::from(self.natural()?)))).collect::<Option<_>>()?;
        Some(Rule { choice, heads, weighted, bound, body })
    }

    // A selector 0 or 1.
    fn selector(&mut self) -> Option<bool> {
        match self.natural()? {
            0 => Some(false),
            1 => Some(true),
            _ => None,
        }
    }

    // A theory statement behind its type.
    fn theory(&mut self) -> Option<Statement> {
        let kind = self.natural()?;
        let number = self.natural()?;
        Some(match kind {
            0 => Statement::Number { term: number, value: self.integer()? },
            1 => Statement::Word { term: number, bytes: self.string()? },
            2 => Statement::Compound { term: number, functor: self.integer()?, arguments: self.naturals()? },
            4 => Statement::Element { element: number, terms: self.naturals()?, condition: self.literals()? },
            5 => Statement::Theory { atom: number, name: self.natural()?, elements: self.naturals()?, guard: None },
            6 => Statement::Theory {
                atom: number,
                name: self.natural()?,
                elements: self.naturals()?,
                guard: Some((self.natural()?, self.natural()?)),
            },
            _ => return None,
        })
    }

    // A whole statement.
    fn statement(&mut self) -> Option<Statement> {
        Some(match self.natural()? {
            0 => Statement::End,
            1 => Statement::Rule(self.rule()?),
            4 => Statement::Output { name: self.string()?, literals: self.literals()? },
            9 => self.theory()?,
            10 => {
                self.at = self.line.len() + 1;
                Statement::Comment
            }
            _ => return None,
        })
    }
}

// The natural number of a field: digits without leading zeros, of 31 bits at most.
fn natural(field: &[u8]) -> Option<u32> {
    let plain = !field.is_empty() && field.iter().all(u8::is_ascii_digit) && (field[0] != b'0' || field.len() == 1);
    let number: u32 = std::str::from_utf8(field).ok().filter(|_| plain)?.parse().ok()?;
    (number <= i32::MAX as u32).then_some(number)
}

// The statement of a line of a text; `Other` where its line end is not the text's own.
fn said(bytes: &[u8], span: Span, own: &[u8]) -> Statement {
    match &bytes[span.end..span.next] {
        end if end.is_empty() || end == own => statement(&bytes[span.start..span.end]),
        _ => Statement::Other,
    }
}

// The statement of a line; `Other` unless the whole line is one.
fn statement(line: &[u8]) -> Statement {
    let mut fields = Fields { line, at: 0 };
    match fields.statement() {
        Some(statement) if fields.at == line.len() + 1 => statement,
        _ => Statement::Other,
    }
}
