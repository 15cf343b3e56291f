//! The report on one answer: the library's verdict, and below it what the verdict means in the words of the encoding.

use crate::expect::{construct, expected, expected_atom, Expected};
use crate::judge::{contents, judge, time, Verdict};
use crate::places::{caret, found, line_at};
use crate::report::{Atom, Edge, Report, Time};
use crate::support::{body_holds, reached, Set};
use crate::text::{Difference, Plan, Rule};
use crate::unfounded::unfounded;
use crate::unsound::unsound;
use crate::warnings::warnings;
use std::collections::{BTreeSet, VecDeque};

/// The most bytes of a text that the judge reads.
const TEXT_BYTES: usize = 60_000;

/// How many atoms without a name are explained below a verdict.
const DEFINED: usize = 20;

/// The report on a candidate against a plan.
pub fn report(plan: &Plan, cand: &[u8]) -> Report {
    let set = atoms_of(cand);
    let mut report = match judge(&plan.bytes, cand) {
        Verdict::Accepted { table } => accepted(plan, &table),
        Verdict::Refused { number, place, cycle } => refused(plan, cand, &set, (number, place, &cycle)),
    };
    report.atoms = set.iter().map(|&atom| Atom { atom, name: plan.atom(atom) }).collect();
    report.warnings = warnings(plan);
    report
}

// The atoms that a candidate names, read leniently.
fn atoms_of(cand: &[u8]) -> Set {
    let fields = cand.split(u8::is_ascii_whitespace);
    fields.filter_map(|f| std::str::from_utf8(f).ok()?.parse::<u32>().ok()).filter(|&a| a > 0).collect()
}

// The report on an acceptance.
fn accepted(plan: &Plan, table: &[u8]) -> Report {
    let (names, atoms) = contents(table);
    let times = times(plan, table, &names);
    let in_force = atoms.iter().filter_map(|&a| Some((a, plan.difference(a)?)));
    let at = |term: u32| time(table, term).map(i64::from);
    let tight = |d: &Difference| at(d.x).zip(at(d.y)).is_some_and(|(x, y)| x - y == d.k);
    Report {
        accepted: true,
        place: table.len() as u32,
        first: format!("accepted {} {}", names.len(), atoms.len()),
        tight: in_force.filter(|(_, d)| tight(d)).map(|(a, d)| edge(plan, a, &d)).collect(),
        comment: timetable(&times),
        times,
        ..Report::default()
    }
}

// The names with their times, by time and then by name.
fn times(plan: &Plan, table: &[u8], names: &[u32]) -> Vec<Time> {
    let zero = names.iter().find(|&&t| plan.number(t) == Some(0)).and_then(|&t| time(table, t));
    let of = |&term: &u32| {
        let time = time(table, term).unwrap_or(0);
        Time { term, name: plan.term(term), time, since_zero: zero.map(|z| i64::from(time) - i64::from(z)) }
    };
    let mut times: Vec<Time> = names.iter().map(of).collect();
    times.sort_by(|a, b| (a.time, &a.name, a.term).cmp(&(b.time, &b.name, b.term)));
    times
}

// The timetable as lines.
fn timetable(times: &[Time]) -> Vec<String> {
    let Some(first) = times.first() else {
        return vec![String::from("no names: the text states no difference")];
    };
    let zero = first.since_zero.is_some();
    let row = |time: &str, since: &str, name: &str| match zero {
        true => format!("{time:>10}  {since:>10}  {name}"),
        false => format!("{time:>10}  {name}"),
    };
    let mut lines = vec![row("time", "less 0's", "name")];
    for t in times {
        lines.push(row(&t.time.to_string(), &t.since_zero.unwrap_or(0).to_string(), &t.name));
    }
    lines
}

// A difference with its names.
fn edge(plan: &Plan, atom: u32, d: &Difference) -> Edge {
    Edge { atom, name: plan.atom(atom), x: plan.term(d.x), y: plan.term(d.y), k: d.k, line: d.line + 1 }
}

// The report on a refusal: its number, place and list.
fn refused(plan: &Plan, cand: &[u8], set: &Set, (number, place, cycle): (u32, u32, &[u32])) -> Report {
    let at = place as usize;
    let line = match number {
        3..=5 | 61..=64 | 8 => Some(line_at(&plan.bytes, at)),
        7 => Some(line_at(cand, at)),
        _ => None,
    };
    let first = format!("refused {number} {place}");
    let mut report = Report { number, place, first, line, ..Report::default() };
    report.comment.extend(report.line.iter().flat_map(caret));
    if number == 10 {
        report.cycle = cycle.iter().filter_map(|&a| Some(edge(plan, a, &plan.difference(a)?))).collect();
        report.sum = report.cycle.iter().map(|e| e.k).sum();
    }
    let lines = match number {
        2 => vec![format!("the text has {} bytes; the judge reads at most {TEXT_BYTES}", plan.bytes.len())],
        3 => vec![instead(&plan.bytes, at, &expected(plan, at))],
        4 => vec![format!("not carried: {}", construct(plan, at))],
        5 => vec![beyond(&plan.bytes, at, &expected(plan, at))],
        61..=64 => unsound(plan, number, at).into_iter().collect(),
        7 => malformed(cand, at),
        8 => broken(plan, set, at),
        9 => unfounded(plan, set, place),
        10 => negative(plan, set, &report.cycle, report.sum),
        _ => Vec::new(),
    };
    report.comment.extend(lines);
    report
}

// What was expected, and what was found instead of it.
fn instead(bytes: &[u8], at: usize, expected: &Expected) -> String {
    format!("expected {}; found {}", expected.words, found(bytes, at, expected))
}

// What is beyond its bounds, and what they are.
fn beyond(bytes: &[u8], at: usize, expected: &Expected) -> String {
    format!("beyond its bounds: {} is not {}", found(bytes, at, expected), expected.words)
}

// What is wrong in a candidate.
fn malformed(cand: &[u8], at: usize) -> Vec<String> {
    let mut lines = vec![format!("in the answer {}", instead(cand, at, &expected_atom(cand, at)))];
    if cand.get(at).is_some_and(|b| !b.is_ascii_digit() && !b.is_ascii_whitespace() && *b != b'-') {
        lines.push(String::from(
            "an answer is the numbers of its atoms: let the solver read what `plan numbered PLAN` writes",
        ));
    }
    lines
}

// The rule that is broken, and how.
fn broken(plan: &Plan, set: &Set, at: usize) -> Vec<String> {
    let index = plan.line_of(at);
    let Some(rule) = plan.rule_at(index) else {
        return Vec::new();
    };
    let missing: Vec<String> = rule.heads.iter().filter(|a| !set.contains(a)).map(|a| plan.atom(*a)).collect();
    let mut lines = vec![format!("the rule: {}", plan.rule(index))];
    lines.push(match missing.first() {
        Some(head) => format!("its body holds, and its head `{head}` is not in the answer"),
        None => String::from("its body holds, and it has no head: an answer must not make its body true"),
    });
    if rule.weighted {
        lines.push(format!("the weights of its true literals add up to {} of {}", reached(set, rule), rule.bound));
    }
    lines.extend(definitions(plan, &atoms_in(rule)));
    lines
}

// The atoms of a rule.
fn atoms_in(rule: &Rule) -> Vec<u32> {
    rule.heads.iter().copied().chain(body_atoms(rule)).collect()
}

// The atoms of a rule's body.
fn body_atoms(rule: &Rule) -> impl Iterator<Item = u32> + '_ {
    rule.body.iter().map(|(l, _)| l.unsigned_abs() as u32)
}

/// What defines the atoms among these that have no name, and those without a name in their bodies.
pub fn definitions(plan: &Plan, atoms: &[u32]) -> Vec<String> {
    let (mut seen, mut open, mut lines) = (BTreeSet::new(), VecDeque::from(atoms.to_vec()), Vec::new());
    while let Some(atom) = open.pop_front() {
        if plan.has_name(atom) || !seen.insert(atom) {
            continue;
        }
        if lines.len() >= DEFINED {
            lines.push(String::from("and further atoms without a name"));
            break;
        }
        let rules = plan.rules_of(atom);
        if rules.is_empty() {
            lines.push(format!("#{atom} has no name, and no rule has it in its head"));
        }
        for &index in rules.iter().take(DEFINED) {
            lines.push(format!("#{atom} has no name; line {}: {}", index + 1, plan.rule(index)));
            open.extend(plan.rule_at(index).iter().flat_map(|r| body_atoms(r)));
        }
    }
    lines
}

// The differences of a negative cycle, and what put each there.
fn negative(plan: &Plan, set: &Set, cycle: &[Edge], sum: i64) -> Vec<String> {
    let mut lines = vec![String::from("these differences can't all hold:")];
    for edge in cycle {
        lines.push(format!("  {}", plan.difference(edge.atom).map_or(String::new(), |d| plan.inequality(&d))));
        lines.push(format!("    line {} states it, as `{}`", edge.line, edge.name));
        let rules = plan.rules_of(edge.atom);
        if rules.is_empty() {
            lines.push(String::from("    no rule has it in its head: it is external, and the answer has it"));
        }
        for &index in rules.iter().filter(|&&i| plan.rule_at(i).is_some_and(|r| body_holds(set, r))) {
            lines.push(format!("    line {} puts it there: {}", index + 1, plan.rule(index)));
        }
    }
    let bounds = cycle.iter().map(|e| if e.k < 0 { format!("({})", e.k) } else { e.k.to_string() });
    lines.push(format!("the bounds add up to {} = {sum}", bounds.collect::<Vec<_>>().join(" + ")));
    lines.push(format!("relaxing any one of them by {} is enough for these", -sum));
    let rules = cycle.iter().flat_map(|e| plan.rules_of(e.atom)).filter_map(|&i| plan.rule_at(i));
    lines.extend(definitions(plan, &rules.filter(|r| body_holds(set, r)).flat_map(atoms_in).collect::<Vec<_>>()));
    lines
}
