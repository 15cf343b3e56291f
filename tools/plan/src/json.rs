//! A report as one JSON object on one line.

use crate::report::{Atom, Edge, LineAt, Report, Time};

/// The object of a report.
pub fn object(report: &Report) -> String {
    let verdict = if report.accepted { "accepted" } else { "refused" };
    members(&[
        ("verdict", string(verdict)),
        ("number", report.number.to_string()),
        ("place", report.place.to_string()),
        ("line", report.line.as_ref().map_or_else(null, line)),
        ("times", array(&report.times, time)),
        ("atoms", array(&report.atoms, atom)),
        ("cycle", array(&report.cycle, edge)),
        ("sum", report.sum.to_string()),
        ("warnings", array(&report.warnings, |words| string(words))),
        ("comment", array(&report.comment, |words| string(words))),
    ])
}

// A place in a line.
fn line(line: &LineAt) -> String {
    let number = line.number.to_string();
    members(&[("number", number), ("text", string(&line.text)), ("column", line.column.to_string())])
}

// A name with its time.
fn time(time: &Time) -> String {
    members(&[
        ("name", string(&time.name)),
        ("term", time.term.to_string()),
        ("time", time.time.to_string()),
        ("since_zero", time.since_zero.map_or_else(null, |since| since.to_string())),
    ])
}

// An atom with its name.
fn atom(atom: &Atom) -> String {
    members(&[("atom", atom.atom.to_string()), ("name", string(&atom.name))])
}

// A difference.
fn edge(edge: &Edge) -> String {
    members(&[
        ("atom", edge.atom.to_string()),
        ("name", string(&edge.name)),
        ("x", string(&edge.x)),
        ("y", string(&edge.y)),
        ("k", edge.k.to_string()),
        ("line", edge.line.to_string()),
    ])
}

// What stands for nothing.
fn null() -> String {
    "null".to_string()
}

// An object of these members, in this order.
fn members(members: &[(&str, String)]) -> String {
    let written: Vec<String> = members.iter().map(|(key, value)| format!("{}:{value}", string(key))).collect();
    format!("{{{}}}", written.join(","))
}

// An array of things, each written by `write`.
fn array<T>(things: &[T], write: impl Fn(&T) -> String) -> String {
    let written: Vec<String> = things.iter().map(write).collect();
    format!("[{}]", written.join(","))
}

// A string in quotes, with what JSON does not allow inside them escaped.
fn string(words: &str) -> String {
    let mut written = String::with_capacity(words.len() + 2);
    written.push('"');
    for c in words.chars() {
        match c {
            '"' => written.push_str("\\\""),
            '\\' => written.push_str("\\\\"),
            '\n' => written.push_str("\\n"),
            '\r' => written.push_str("\\r"),
            '\t' => written.push_str("\\t"),
            '\0'..='\u{1f}' => written.push_str(&format!("\\u{:04x}", u32::from(c))),
            _ => written.push(c),
        }
    }
    written.push('"');
    written
}
