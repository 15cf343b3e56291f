//! The program: `plan numbered` and `plan check`. What it writes is composed whole and written once.

use plan::answers::{read, Answers, Status};
use plan::explain::report;
use plan::judge::{judge, Verdict};
use plan::numbered::numbered;
use plan::report::Report;
use plan::text::Plan;
use plan::warnings::warnings;
use plan::{json, svg};
use std::ffi::{OsStr, OsString};
use std::io::{ErrorKind, Read, Write};

const USAGE: &str =
    "usage: plan numbered PLAN | plan check PLAN ANSWERS [--json] [--svg FILE] | plan --help | --version";

const HELP: &str = "\
Judges the answers of a solver against a plan text, and says the verdict in the words of the encoding.

  plan numbered PLAN
      writes the text with its output statements replaced by one for each atom, named by its number,
      for a solver that is to print candidates in numbers
  plan check PLAN ANSWERS [--json] [--svg FILE]
      judges each answer: the first line is the judge's verdict, below it stands what it means
      ANSWERS is a candidate or a solver's whole output
      --json      one JSON object for each answer, a line each
      --svg FILE  writes a picture of the first answer that has one: the timetable, or the negative cycle

PLAN is ground aspif, as `gringo` writes it; - is the standard input, for PLAN or for ANSWERS.
Example: gringo net.lp >net.aspif; plan numbered net.aspif | clasp | plan check net.aspif -

Exit: 0 all answers accepted, 1 some refused, 2 wrong usage or a file that can't be read or written,
3 no answer in a solver's output.
";

/// The most bytes of a file that are read.
const FILE_BYTES: u64 = 1 << 26;

const ACCEPTED: u8 = 0;
const REFUSED: u8 = 1;
const WRONG: u8 = 2;
const NO_ANSWER: u8 = 3;

/// What is to be written, and the exit status.
struct Outcome {
    out: Vec<u8>,
    err: String,
    status: u8,
}

/// What `plan check` was asked.
#[derive(Default)]
struct Asked<'a> {
    files: Vec<&'a OsStr>,
    json: bool,
    svg: Option<&'a OsStr>,
}

// An outcome with a word on standard error.
fn stop(status: u8, word: &str) -> Outcome {
    Outcome { out: Vec::new(), err: format!("plan: {word}\n"), status }
}

// The bytes of a file, or of standard input for `-`.
fn bytes_of(path: &OsStr) -> Result<Vec<u8>, Outcome> {
    let mut bytes = Vec::new();
    let result = if path == "-" {
        std::io::stdin().lock().take(FILE_BYTES + 1).read_to_end(&mut bytes)
    } else {
        std::fs::File::open(path).and_then(|f| f.take(FILE_BYTES + 1).read_to_end(&mut bytes))
    };
    match result {
        Ok(_) if bytes.len() as u64 <= FILE_BYTES => Ok(bytes),
        Ok(_) => Err(stop(WRONG, &format!("{} has more than {FILE_BYTES} bytes", path.display()))),
        Err(error) => Err(stop(WRONG, &format!("can't read {}: {error}", path.display()))),
    }
}

// What is asked of `plan check`; none where it is no right question.
fn asked(arguments: &[OsString]) -> Option<Asked<'_>> {
    let mut asked = Asked::default();
    let mut rest = arguments.iter();
    while let Some(argument) = rest.next() {
        match argument.to_str() {
            Some("--json") => asked.json = true,
            Some("--svg") => asked.svg = Some(rest.next()?),
            Some(option) if option.starts_with("--") => return None,
            _ => asked.files.push(argument),
        }
    }
    let both = asked.files.iter().filter(|f| **f == "-").count() > 1;
    (asked.files.len() == 2 && !both).then_some(asked)
}

// The warnings of a plan, a line each.
fn warned(plan: &Plan) -> String {
    warnings(plan).iter().map(|w| format!("plan: warning: {w}\n")).collect()
}

// The outcome of `plan numbered`.
fn number(path: &OsStr) -> Result<Outcome, Outcome> {
    let plan = Plan::new(&bytes_of(path)?);
    let mut err = String::new();
    if let Verdict::Refused { number: number @ (1..=5 | 61..=64), place, .. } = judge(&plan.bytes, b"\n") {
        err += &format!("plan: the judge refuses this text, whatever the answer: refused {number} {place}\n");
    }
    Ok(Outcome { out: numbered(&plan), err, status: ACCEPTED })
}

// The outcome of `plan check`.
fn check(asked: &Asked) -> Result<Outcome, Outcome> {
    let plan = Plan::new(&bytes_of(asked.files[0])?);
    let mut err = warned(&plan);
    let (candidates, status) = match read(&bytes_of(asked.files[1])?) {
        Answers::Candidate(candidate) => (vec![candidate], Status::Satisfiable),
        Answers::Solver { answers, status } => (answers, status),
    };
    if candidates.is_empty() {
        return Err(Outcome { out: Vec::new(), err: format!("{err}plan: {}\n", no_answer(status)), status: NO_ANSWER });
    }
    if status == Status::Missing {
        err += "plan: the solver's output has no status line: it may be cut off\n";
    }
    let reports: Vec<Report> = candidates.iter().map(|c| report(&plan, c)).collect();
    let texts: Vec<String> =
        reports.iter().map(|r| if asked.json { json::object(r) + "\n" } else { text(r) }).collect();
    let out = texts.join(if asked.json { "" } else { "\n" }).into_bytes();
    let mut status = if reports.iter().all(|r| r.accepted) { ACCEPTED } else { REFUSED };
    if let Some(word) = asked.svg.and_then(|path| draw(&reports, path, &mut status)) {
        err += &word;
    }
    Ok(Outcome { out, err, status })
}

// A report as text: the first line, then the commentary.
fn text(report: &Report) -> String {
    let lines = std::iter::once(&report.first).chain(&report.comment);
    lines.map(|line| format!("{line}\n")).collect()
}

// Writes the picture of the first report that has one; a word where there is none or it can't be written.
fn draw(reports: &[Report], path: &OsStr, status: &mut u8) -> Option<String> {
    let Some(picture) = reports.iter().find_map(svg::picture) else {
        return Some(String::from("plan: no picture: no answer is accepted or refused by 10\n"));
    };
    let error = std::fs::write(path, picture).err()?;
    *status = WRONG;
    Some(format!("plan: can't write {}: {error}\n", path.display()))
}

// Why a solver's output has no answer, in words.
fn no_answer(status: Status) -> &'static str {
    match status {
        Status::Unsatisfiable => "no answer: the solver says UNSATISFIABLE, no set of atoms keeps the rules",
        Status::Unknown => "no answer: the solver says UNKNOWN, it stopped before it found one",
        Status::Satisfiable | Status::Optimum => "no answer: the solver says there is one, and its output has none",
        Status::Missing => "no answer: the solver's output has neither an answer nor a status line",
    }
}

// The outcome for a list of arguments.
fn outcome(arguments: &[OsString]) -> Outcome {
    let words: Vec<Option<&str>> = arguments.iter().map(|a| a.to_str()).collect();
    let said = |text: &str| Outcome { out: text.as_bytes().to_vec(), err: String::new(), status: ACCEPTED };
    let result = match words[..] {
        _ if words.contains(&Some("--help")) => Ok(said(&format!("{USAGE}\n\n{HELP}"))),
        [Some("--version")] => Ok(said(concat!("plan ", env!("CARGO_PKG_VERSION"), "\n"))),
        [Some("numbered"), path] if !path.is_some_and(|p| p.starts_with("--")) => number(&arguments[1]),
        [Some("check"), ..] => match asked(&arguments[1..]) {
            Some(asked) => check(&asked),
            None => Err(Outcome { out: Vec::new(), err: format!("{USAGE}\n"), status: WRONG }),
        },
        _ => Err(Outcome { out: Vec::new(), err: format!("{USAGE}\n"), status: WRONG }),
    };
    result.unwrap_or_else(|outcome| outcome)
}

// Writes the outcome. A closed pipe is no error.
fn main() -> std::process::ExitCode {
    let arguments: Vec<OsString> = std::env::args_os().skip(1).collect();
    let mut outcome = outcome(&arguments);
    let _ = std::io::stderr().write_all(outcome.err.as_bytes());
    let mut out = std::io::stdout().lock();
    if let Err(error) = out.write_all(&outcome.out).and_then(|()| out.flush()) {
        if error.kind() != ErrorKind::BrokenPipe {
            let _ = std::io::stderr().write_all(format!("plan: can't write: {error}\n").as_bytes());
            outcome.status = WRONG;
        }
    }
    std::process::ExitCode::from(outcome.status)
}
