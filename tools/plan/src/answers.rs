//! The answers that a file holds: it is a candidate, or a solver's whole output.

/// What a solver's output says at its end.
#[derive(Clone, Copy, Debug, PartialEq, Eq)]
pub enum Status {
    Satisfiable,
    Optimum,
    Unsatisfiable,
    Unknown,
    /// The output has no status line.
    Missing,
}

/// The candidates of a file.
#[derive(Clone, Debug, PartialEq, Eq)]
pub enum Answers {
    Candidate(Vec<u8>),
    Solver { answers: Vec<Vec<u8>>, status: Status },
}

/// How the lines begin that a solver writes before its answers.
const OPENINGS: [&[u8]; 4] = [b"clasp version", b"clingo version", b"clingo-dl version", b"Solving..."];

/// Reads a file's bytes; every file is the one or the other.
pub fn read(bytes: &[u8]) -> Answers {
    let lines: Vec<&[u8]> = bytes.split_inclusive(|&b| b == b'\n').collect();
    let opened = lines.iter().any(|l| OPENINGS.iter().any(|o| l.starts_with(o)));
    let answered = lines.iter().any(|l| announces(l));
    let status = lines.iter().rev().find_map(|l| status(l));
    if !opened && !answered && status.is_none() {
        return Answers::Candidate(bytes.to_vec());
    }
    let answers = if answered || opened { announced(&lines) } else { bare(&lines) };
    Answers::Solver { answers, status: status.unwrap_or(Status::Missing) }
}

// Whether a line says that the next one is an answer.
fn announces(line: &[u8]) -> bool {
    line.starts_with(b"Answer:")
}

// The status that a line says.
fn status(line: &[u8]) -> Option<Status> {
    match line.trim_ascii() {
        b"SATISFIABLE" => Some(Status::Satisfiable),
        b"OPTIMUM FOUND" => Some(Status::Optimum),
        b"UNSATISFIABLE" => Some(Status::Unsatisfiable),
        b"UNKNOWN" => Some(Status::Unknown),
        _ => None,
    }
}

// The lines behind those that announce an answer.
fn announced(lines: &[&[u8]]) -> Vec<Vec<u8>> {
    lines.windows(2).filter(|pair| announces(pair[0])).map(|pair| candidate(pair[1])).collect()
}

// The lines before the status line, where a solver was told to print nothing else: numbers alone, or nothing.
fn bare(lines: &[&[u8]]) -> Vec<Vec<u8>> {
    let satisfied = |l: &[u8]| matches!(status(l), Some(Status::Satisfiable | Status::Optimum));
    let Some(end) = lines.iter().position(|l| satisfied(l)) else {
        return Vec::new();
    };
    let numbers = |l: &[u8]| tokens(l).all(|t| number(t).is_some());
    lines[..end].iter().filter(|l| numbers(l)).map(|l| candidate(l)).collect()
}

// The words of a line.
fn tokens(line: &[u8]) -> impl Iterator<Item = &[u8]> {
    line.split(u8::is_ascii_whitespace).filter(|t| !t.is_empty())
}

// The number that a word is.
fn number(token: &[u8]) -> Option<u64> {
    let text = std::str::from_utf8(token).ok()?;
    let number: u64 = text.parse().ok()?;
    (number.to_string() == text).then_some(number)
}

// A solver's answer as a candidate: its numbers ascending, behind them the words that are none, and the line end if the
// line has one. The times that clingo-dl prints (`dl(x,5)`) are left out.
fn candidate(line: &[u8]) -> Vec<u8> {
    let mut numbers: Vec<u64> = tokens(line).filter_map(number).collect();
    numbers.sort_unstable();
    let mut words: Vec<Vec<u8>> = numbers.iter().map(|n| n.to_string().into_bytes()).collect();
    words.extend(tokens(line).filter(|t| number(t).is_none() && !t.starts_with(b"dl(")).map(<[u8]>::to_vec));
    let mut bytes = words.join(&b' ');
    if line.ends_with(b"\n") {
        bytes.push(b'\n');
    }
    bytes
}
