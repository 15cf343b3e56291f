//! What the grammar wants at a place of the text, of which it was told that something is wrong there.

use crate::ends;
use crate::text::{Plan, Statement};

const FIRST: &[u8] = b"asp 1 0 0";

const ATOM: &str = "an atom: a number from 1 to 4,096";
const LITERAL: &str = "a literal: an atom from 1 to 4,096, or a minus and an atom";
const TERM: &str = "a term number: 0 to 1,023";
const ELEMENT: &str = "an element number: 0 to 1,023";
const COUNT: &str = "a count: 0 to 4,096";
const LENGTH: &str = "the length of a string: 0 to 4,096";

/// What was expected at a place.
pub struct Expected {
    /// It in words.
    pub words: String,
    /// Whether a line end is right there: as what is expected, or as the end of a comment.
    pub line_end: bool,
}

impl Expected {
    // Something that is no line end.
    fn within(words: impl Into<String>) -> Expected {
        Expected { words: words.into(), line_end: false }
    }

    // The line end, or what goes on up to it.
    fn to_line_end(words: impl Into<String>) -> Expected {
        Expected { words: words.into(), line_end: true }
    }
}

/// What was expected at a place of the text.
pub fn expected(plan: &Plan, place: usize) -> Expected {
    let index = plan.line_of(place);
    if index == 0 {
        return first(place);
    }
    if plan.lines[..index.min(plan.lines.len())].iter().any(|l| l.statement == Statement::End) {
        return Expected::within("nothing: the text ends with the line `0`");
    }
    let Some(line) = plan.lines.get(index) else {
        return Expected::within("a statement: the text ends before its last line `0`");
    };
    let start = line.span.start;
    let mut walk = Walk { bytes: &plan.bytes[start..], at: 0, place: place - start };
    walk.statement().err().unwrap_or_else(|| Expected::within("a statement"))
}

/// What a construct that is not carried is called in an encoding.
pub fn construct(plan: &Plan, place: usize) -> String {
    let index = plan.line_of(place);
    let start = plan.lines.get(index).map_or(0, |l| l.span.start);
    let kind = ends::field(&plan.bytes[start..]);
    let name = match (index, place == start, kind) {
        (0, _, _) => "a tag in the first line, as `incremental` for a text of several steps",
        (_, true, b"2") => "a minimize statement (`#minimize`, `#maximize` or a weak constraint `:~`)",
        (_, true, b"3") => "a projection (`#project`)",
        (_, true, b"5") => "an external (`#external`)",
        (_, true, b"6") => "an assumption",
        (_, true, b"7") => "a heuristic (`#heuristic`)",
        (_, true, b"8") => "an edge (`#edge`)",
        (_, false, b"1") => "a disjunction: a head with more than one atom (`a; b :- ..`)",
        (_, false, b"9") => "a theory directive (theory atom 0)",
        _ => "something that is not carried",
    };
    String::from(name)
}

/// What was expected at a place of the candidate.
pub fn expected_atom(cand: &[u8], place: usize) -> Expected {
    let line_end = cand.iter().position(|&b| b == b'\n');
    if line_end.is_some_and(|end| place > end) {
        return Expected::within("nothing: a candidate is one line");
    }
    let before = cand.get(..place).unwrap_or(cand);
    let starts = before.last().is_none_or(|&b| b == b' ');
    let last = before.split(|&b| b == b' ').rfind(|f| !f.is_empty());
    match (starts, last) {
        (false, _) => Expected::to_line_end("a space and a further atom, or the line end"),
        (true, None) => Expected::to_line_end(format!("{ATOM}; or the line end alone")),
        (true, Some(last)) => {
            Expected::within(format!("an atom above the one before it: a number from {} to 4,096", successor(last)))
        }
    }
}

// The number after a field's.
fn successor(field: &[u8]) -> u64 {
    std::str::from_utf8(field).ok().and_then(|f| f.parse::<u64>().ok()).unwrap_or(0).saturating_add(1)
}

// What the first line wants.
fn first(place: usize) -> Expected {
    match FIRST.get(place) {
        Some(&byte) => Expected::within(format!("`{}`: the first line is `asp 1 0 0`", char::from(byte))),
        None => Expected::to_line_end("the line end: the first line is `asp 1 0 0`"),
    }
}

// Walks along a line, from its first byte on; what was expected at the place is the error it ends with.
struct Walk<'a> {
    bytes: &'a [u8],
    at: usize,
    place: usize,
}

type Step<T> = Result<T, Expected>;

impl Walk<'_> {
    // A field, and its number where it is one.
    fn field(&mut self, what: &str) -> Step<i64> {
        if self.at >= self.place {
            return Err(Expected::within(what));
        }
        let field = ends::field(&self.bytes[self.at.min(self.bytes.len())..]);
        self.at += field.len();
        Ok(std::str::from_utf8(field).ok().and_then(|f| f.parse().ok()).unwrap_or(0))
    }

    // The space behind a field that others follow.
    fn space(&mut self, next: &str) -> Step<()> {
        if self.at >= self.place {
            return Err(Expected::within(format!("a space, and then {next}")));
        }
        self.at += 1;
        Ok(())
    }

    // A space and a field.
    fn next(&mut self, what: &str) -> Step<i64> {
        self.space(what)?;
        self.field(what)
    }

    // As many fields as a count says.
    fn many(&mut self, count: i64, what: &str) -> Step<()> {
        for i in 0..count {
            self.next(&format!("{what} ({} of {count})", i + 1))?;
        }
        Ok(())
    }

    // A count and as many fields.
    fn counted(&mut self, of: &str, what: &str) -> Step<()> {
        let count = self.next(&format!("{COUNT}, how many {of} follow"))?;
        self.many(count, what)
    }

    // A length and as many bytes.
    fn string(&mut self) -> Step<()> {
        let length = self.next(LENGTH)?;
        self.space(&format!("a string of {length} bytes"))?;
        let end = self.at.saturating_add(usize::try_from(length).unwrap_or(0));
        if self.place < end {
            return Err(Expected::within(format!("a string of {length} bytes, without the bytes 0 and 10")));
        }
        self.at = end;
        Ok(())
    }

    // The line end.
    fn end(&self) -> Step<()> {
        Err(Expected::to_line_end("the line end"))
    }

    // A whole statement.
    fn statement(&mut self) -> Step<()> {
        match self.field("a statement: its type is 0, 1, 4, 9 or 10")? {
            1 => self.rule(),
            4 => {
                self.string()?;
                self.counted("literals", LITERAL)
            }
            9 => self.theory(),
            10 => self.comment(),
            _ => Ok(()),
        }?;
        self.end()
    }

    // A comment behind its type.
    fn comment(&mut self) -> Step<()> {
        self.space("a comment")?;
        Err(Expected::to_line_end("a comment without the byte 0, up to a line end"))
    }

    // A rule behind its type.
    fn rule(&mut self) -> Step<()> {
        let choice = self.next("the kind of a head: 0 plain, 1 choice")? == 1;
        if choice {
            self.counted("atoms of the head", ATOM)?;
        } else {
            let count = self.next("the count of atoms in a plain head: 0 or 1")?;
            self.many(count, ATOM)?;
        }
        if self.next("the kind of a body: 0 normal, 1 with weights")? != 1 {
            return self.counted("literals", LITERAL);
        }
        self.next("a lower bound: 0 to 1,000,000,000")?;
        let count = self.next(&format!("{COUNT}, how many literals with weights follow"))?;
        for _ in 0..count {
            self.next(LITERAL)?;
            self.next("a weight: 1 to 100,000")?;
        }
        Ok(())
    }

    // A theory statement behind its type.
    fn theory(&mut self) -> Step<()> {
        let kind = self.next("a theory type: 0, 1, 2, 4, 5 or 6")?;
        match kind {
            4 => {
                self.next(ELEMENT)?;
                self.counted("terms", TERM)?;
                return self.counted("literals", LITERAL);
            }
            5 | 6 => return self.theory_atom(kind == 6),
            _ => self.next(TERM)?,
        };
        match kind {
            0 => self.next("an integer from -1,000,000 to 1,000,000").map(|_| ()),
            1 => self.string(),
            _ => {
                self.next("what the compound is of: a term number, or -1 (tuple), -2 (set), -3 (list)")?;
                self.counted("arguments", TERM)
            }
        }
    }

    // A theory atom behind its theory type.
    fn theory_atom(&mut self, guarded: bool) -> Step<()> {
        self.next(ATOM)?;
        self.next("the name of the theory atom, a term number: 0 to 1,023")?;
        self.counted("elements", ELEMENT)?;
        if guarded {
            self.next("the operator, a term number: 0 to 1,023")?;
            self.next("the bound, a term number: 0 to 1,023")?;
        }
        Ok(())
    }
}
