//! The names of terms, atoms and rules, as an encoding has them. A name is never longer than some hundred characters,
//! and a term is followed down to a depth only: one that is cut off has `..` in it, and its number behind it.

use crate::text::{Difference, Plan, Rule, Statement};

/// How deep a term is followed, and how long a name may become.
const DEPTH: usize = 40;
const LENGTH: usize = 300;

/// How tightly an operator binds: what stands alone, a minus before a term, `**`, `* / \`, `+ -`, any other.
const ALONE: u32 = 5;
const POWER: u32 = 4;
const UNARY: u32 = 3;
const TIMES: u32 = 2;
const PLUS: u32 = 1;
const OTHER: u32 = 0;

/// Text of bytes: what is not UTF-8 and what does not print is replaced, a character for each.
pub fn plain(bytes: &[u8]) -> String {
    String::from_utf8_lossy(bytes).chars().map(|c| if c.is_control() { '\u{fffd}' } else { c }).collect()
}

// A name that is being written: its text, and whether something was left out.
struct Writer<'a> {
    plan: &'a Plan,
    /// A term that is written as a variable, and the variable.
    instead: Option<(u32, &'a str)>,
    cut: bool,
    length: usize,
}

impl Plan {
    /// A term by name.
    pub fn term(&self, term: u32) -> String {
        self.term_with(term, None)
    }

    /// A term by name, with a variable in the place of one of its terms.
    pub fn term_with(&self, term: u32, instead: Option<(u32, &str)>) -> String {
        let mut writer = Writer { plan: self, instead, cut: false, length: 0 };
        let (name, _) = writer.term(term, 0);
        numbered(name, writer.cut, "term", term)
    }

    /// An atom by name: that of its output statement, or the difference that it states, or its number.
    pub fn atom(&self, atom: u32) -> String {
        if let Some(Statement::Output { name, .. }) = self.outputs.get(&atom).map(|&i| self.statement(i)) {
            let cut = name.len() > LENGTH;
            let text = plain(&name[..name.len().min(LENGTH)]);
            return numbered(if cut { text + ".." } else { text }, cut, "atom", atom);
        }
        match self.difference(atom) {
            Some(d) => format!("&diff{{{}}}<={}", self.sides_text(&d, "-"), d.k),
            None => format!("#{atom}"),
        }
    }

    /// Whether an atom has a name or states a difference.
    pub fn has_name(&self, atom: u32) -> bool {
        self.outputs.contains_key(&atom) || self.difference(atom).is_some()
    }

    /// A difference by names: `x - y <= k`.
    pub fn inequality(&self, d: &Difference) -> String {
        format!("{} <= {}", self.sides_text(d, " - "), d.k)
    }

    // The two sides of a difference; one with an operator of its own in brackets.
    fn sides_text(&self, d: &Difference, minus: &str) -> String {
        let side = |t: u32| {
            let infix = self.compound(t).is_some_and(|(f, a)| operator(f) && a.len() < 3);
            operand(self.term(t), !infix && self.number(t).is_none_or(|n| n >= 0))
        };
        side(d.x) + minus + &side(d.y)
    }

    /// A theory statement by names: `&diff{x-y}<=k`, whatever it states.
    pub fn theory_atom(&self, line: usize) -> String {
        let Statement::Theory { name, elements, guard, .. } = self.statement(line) else {
            return plain(self.line_bytes(line));
        };
        let mut text = format!("&{}{{", self.term(*name));
        for (i, element) in elements.iter().take(DEPTH).enumerate() {
            text += if i > 0 { "; " } else { "" };
            text += &self.element(*element);
        }
        text += if elements.len() > DEPTH { "; ..}" } else { "}" };
        match guard {
            Some((operator, bound)) => format!("{text}{}{}", self.term(*operator), self.term(*bound)),
            None => text,
        }
    }

    /// An element by names: its terms, and behind a colon its condition.
    pub fn element(&self, element: u32) -> String {
        let Some(Statement::Element { terms, condition, .. }) = self.elements.get(&element).map(|&i| self.statement(i))
        else {
            return format!("?{element}");
        };
        let terms = cut_list(terms.iter().map(|t| self.term(*t)), ",");
        if condition.is_empty() {
            return terms;
        }
        terms + ": " + &cut_list(condition.iter().map(|l| self.literal(*l)), ", ")
    }

    /// A literal by name.
    pub fn literal(&self, literal: i64) -> String {
        let name = self.atom(literal.unsigned_abs() as u32);
        if literal < 0 {
            format!("not {name}")
        } else {
            name
        }
    }

    /// The rule of a line by names; a line that has none as it stands.
    pub fn rule(&self, line: usize) -> String {
        let Some(rule) = self.rule_at(line) else {
            return plain(self.line_bytes(line));
        };
        let heads = rule.heads.iter().map(|a| self.atom(*a)).collect::<Vec<_>>().join("; ");
        let head = if rule.choice { format!("{{{heads}}}") } else { heads };
        let body = self.body(rule);
        match (head.is_empty(), body.is_empty()) {
            (true, _) => format!(":- {body}."),
            (false, true) => format!("{head}."),
            (false, false) => format!("{head} :- {body}."),
        }
    }

    // A body by names.
    fn body(&self, rule: &Rule) -> String {
        if !rule.weighted {
            return rule.body.iter().map(|(l, _)| self.literal(*l)).collect::<Vec<_>>().join(", ");
        }
        let pairs = rule.body.iter().map(|(l, w)| format!("{w}: {}", self.literal(*l))).collect::<Vec<_>>();
        format!("{} <= #sum{{{}}}", rule.bound, pairs.join("; "))
    }
}

impl Writer<'_> {
    // A term and how tightly it binds; nothing more once the name is long or the term deep.
    fn term(&mut self, term: u32, depth: usize) -> (String, u32) {
        if depth > DEPTH || self.length > LENGTH {
            self.cut = true;
            return (String::from(".."), ALONE);
        }
        let (text, level) = match (self.instead, self.plan.term_statement(term)) {
            (Some((other, variable)), _) if other == term => (String::from(variable), ALONE),
            (_, Some(Statement::Number { value, .. })) => (value.to_string(), if *value < 0 { UNARY } else { ALONE }),
            (_, Some(Statement::Word { bytes, .. })) => (self.word(bytes), ALONE),
            (_, Some(Statement::Compound { functor, arguments, .. })) => {
                return self.compound(*functor, arguments, depth);
            }
            _ => (format!("?{term}"), ALONE),
        };
        self.length += text.chars().count();
        (text, level)
    }

    // A string: quoted where it is no identifier, no operator and not quoted itself.
    fn word(&mut self, bytes: &[u8]) -> String {
        let cut = bytes.len() > LENGTH;
        self.cut |= cut;
        let text = plain(&bytes[..bytes.len().min(LENGTH)]) + if cut { ".." } else { "" };
        if identifier(bytes) || operator(bytes) || quoted(bytes) {
            return text;
        }
        format!("\"{}\"", text.replace('\\', "\\\\").replace('"', "\\\""))
    }

    // A compound: a tuple, a set, a list, an operator between or before its arguments, or a function.
    fn compound(&mut self, functor: i64, arguments: &[u32], depth: usize) -> (String, u32) {
        let Ok(functor) = u32::try_from(functor) else {
            return (self.bracketed(functor, arguments, depth), ALONE);
        };
        let sign = self.plan.word(functor).filter(|f| operator(f)).map(plain);
        match (sign, arguments) {
            (Some(sign), &[x, y]) => self.infix(&sign, x, y, depth),
            (Some(sign), &[x]) => {
                self.length += sign.len();
                let (text, level) = self.term(x, depth + 1);
                (sign + &operand(text, level > UNARY), UNARY)
            }
            _ => {
                let name = self.term(functor, depth + 1).0;
                (format!("{name}({})", self.list(arguments, depth)), ALONE)
            }
        }
    }

    // An operator between its two arguments.
    fn infix(&mut self, sign: &str, x: u32, y: u32, depth: usize) -> (String, u32) {
        self.length += sign.len();
        let level = binding(sign);
        let (left, left_level) = self.term(x, depth + 1);
        let (right, right_level) = self.term(y, depth + 1);
        let tight = left_level > level || (left_level == level && level != OTHER && level != POWER);
        (operand(left, tight) + sign + &operand(right.clone(), right_level > level && !signed(&right)), level)
    }

    // A tuple, a set or a list.
    fn bracketed(&mut self, kind: i64, arguments: &[u32], depth: usize) -> String {
        let list = self.list(arguments, depth);
        match kind {
            -1 if arguments.len() == 1 => format!("({list},)"),
            -1 => format!("({list})"),
            -2 => format!("{{{list}}}"),
            -3 => format!("[{list}]"),
            _ => format!("?({list})"),
        }
    }

    // Arguments with commas between; those behind a name that is long already are left out.
    fn list(&mut self, arguments: &[u32], depth: usize) -> String {
        let mut text = String::new();
        for (i, argument) in arguments.iter().enumerate() {
            text += if i > 0 { "," } else { "" };
            self.length += 1;
            text += &self.term(*argument, depth + 1).0;
            if self.length > LENGTH && i + 1 < arguments.len() {
                self.cut = true;
                return text + ",..";
            }
        }
        text
    }
}

// A name with its number behind it where something was left out.
fn numbered(name: String, cut: bool, kind: &str, number: u32) -> String {
    if cut {
        format!("{name} ({kind} {number})")
    } else {
        name
    }
}

// Texts with a separator between, no more than some.
fn cut_list(texts: impl Iterator<Item = String>, separator: &str) -> String {
    let mut texts: Vec<String> = texts.take(DEPTH + 1).collect();
    if texts.len() > DEPTH {
        texts[DEPTH] = String::from("..");
    }
    texts.join(separator)
}

// A text as an operand: in brackets unless it binds tightly enough.
fn operand(text: String, tight: bool) -> String {
    if tight {
        text
    } else {
        format!("({text})")
    }
}

// Whether a text begins with a sign of an operator.
fn signed(text: &str) -> bool {
    text.as_bytes().first().is_some_and(|b| SIGNS.contains(b))
}

// The signs that operators are made of.
const SIGNS: &[u8] = b"/!<=>+-*\\?&@|:;~^.";

/// Whether a string is an operator: made of its signs.
pub fn operator(bytes: &[u8]) -> bool {
    !bytes.is_empty() && bytes.iter().all(|b| SIGNS.contains(b))
}

// Whether a string is an identifier of an encoding.
fn identifier(bytes: &[u8]) -> bool {
    let first = bytes.iter().find(|&&b| b != b'_' && b != b'\'');
    first.is_some_and(u8::is_ascii_lowercase)
        && bytes.iter().all(|b| b.is_ascii_alphanumeric() || *b == b'_' || *b == b'\'')
}

// Whether a string has its quotes itself: a quote at both ends, and none between that is not escaped.
fn quoted(bytes: &[u8]) -> bool {
    let [b'"', inner @ .., b'"'] = bytes else {
        return false;
    };
    let mut escaped = false;
    for b in inner {
        if *b == b'"' && !escaped {
            return false;
        }
        escaped = *b == b'\\' && !escaped;
    }
    !escaped
}

// How tightly an operator binds.
fn binding(sign: &str) -> u32 {
    match sign {
        "**" => POWER,
        "*" | "/" | "\\" => TIMES,
        "+" | "-" => PLUS,
        _ => OTHER,
    }
}
