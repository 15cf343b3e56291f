//! The verdict, the showing of a fault, and the judging of a cycle list.

use super::candidate::read_candidate;
use super::differences::{terms, Difference, NO_DIFFERENCE, SECOND, TWICE, UNKNOWN};
use super::fields::LineEnd;
use super::meaning::{first_broken, smallest_unfounded, Atoms};
use super::reading::{read_text, Line, TEXT_BYTES};
use super::refusal::{refusal, Refusal, Verdict};
use super::times::{schedule, Schedule};
use super::timetable;
use std::collections::BTreeMap;

pub const ROOM_BYTES: usize = 24_592;
pub const CYCLE_PLACES: usize = 1_024;

/// A plan text that none of 2 to 5 and 61 to 64 refuses.
#[derive(Clone, Debug)]
pub struct Plan {
    pub lines: Vec<Line>,
    pub differences: Vec<Difference>,
}

/// How a stable candidate ends: the name records, or a cycle.
#[derive(Clone, Debug, PartialEq, Eq)]
pub enum Outcome {
    Table(Vec<(u32, u32)>),
    Cycle(Vec<u32>),
}

// Refusal 1: the timetable room is looked at first.
fn check_rooms(room: usize, cycle: usize) -> Result<(), Refusal> {
    if room < ROOM_BYTES {
        return Err(refusal(1, ROOM_BYTES));
    }
    if cycle < CYCLE_PLACES {
        return Err(refusal(1, CYCLE_PLACES));
    }
    Ok(())
}

// Refusal 2.
pub fn check_length(text: &[u8]) -> Result<(), Refusal> {
    if text.len() > TEXT_BYTES {
        return Err(refusal(2, TEXT_BYTES));
    }
    Ok(())
}

// Refusals 2 to 5 and 61 to 64.
pub fn read_plan(text: &[u8]) -> Result<Plan, Refusal> {
    check_length(text)?;
    let lines = read_text(text)?;
    let differences = terms(&lines)?;
    Ok(Plan { lines, differences })
}

// Refusals 8, 9 and 11; what else a candidate comes to.
pub fn settle(plan: &Plan, x: &Atoms) -> Result<Outcome, Refusal> {
    if let Some(place) = first_broken(&plan.lines, x) {
        return Err(Refusal { number: 8, place });
    }
    if let Some(place) = smallest_unfounded(&plan.lines, &plan.differences, x) {
        return Err(Refusal { number: 9, place });
    }
    match schedule(&plan.differences, x) {
        Schedule::Cycle(atoms) => Ok(Outcome::Cycle(atoms)),
        Schedule::Times(times) => Ok(Outcome::Table(records(&times)?)),
    }
}

// The name records; refusal 11 for a time that doesn't fit.
fn records(times: &BTreeMap<u32, i64>) -> Result<Vec<(u32, u32)>, Refusal> {
    let fits = |(term, time): (&u32, &i64)| match *time {
        t if t <= i64::from(i32::MAX) => Ok((*term, t as u32)),
        _ => Err(Refusal { number: 11, place: *term }),
    };
    times.iter().map(fits).collect()
}

// All refusals but 10; else the outcome and the candidate's atoms.
fn weigh(text: &[u8], cand: &[u8], room: usize, cycle: usize) -> Result<(Outcome, Vec<u32>), Refusal> {
    check_rooms(room, cycle)?;
    let plan = read_plan(text)?;
    let atoms = read_candidate(cand)?;
    let outcome = settle(&plan, &atoms.iter().copied().collect())?;
    Ok((outcome, atoms))
}

/// The verdict on a text and a candidate, with both rooms.
// Weighs everything before a byte of either room is written.
pub fn judge(text: &[u8], cand: &[u8], room: &mut [u8], cycle: &mut [u32]) -> Verdict {
    match weigh(text, cand, room.len(), cycle.len()) {
        Err(refused) => Verdict::Refused(refused),
        Ok((Outcome::Cycle(list), _)) => {
            cycle[..list.len()].copy_from_slice(&list);
            Verdict::Refused(refusal(10, list.len()))
        }
        Ok((Outcome::Table(records), atoms)) => Verdict::Accepted(timetable::write(room, &records, &atoms) as u32),
    }
}

/// The faulty line from the place on; nothing is copied.
// Chooses text or candidate by the number.
pub fn show<'a>(text: &'a [u8], cand: &'a [u8], number: u32, place: u32) -> &'a [u8] {
    match number {
        3 | 4 | 5 | 8 | TWICE | UNKNOWN | SECOND | NO_DIFFERENCE => line_from(text, place as usize),
        7 => line_from(cand, place as usize),
        _ => &[],
    }
}

// The part from a place to before the next line end, or to the end; where the first byte 10 has a 13 before it, a 13 right
// before a byte 10 is no part.
fn line_from(bytes: &[u8], place: usize) -> &[u8] {
    let part = bytes.get(place..).unwrap_or(&[]);
    let kind = LineEnd::kind_of(bytes);
    let end = (0..part.len()).find(|i| kind.stops(&part[*i..])).unwrap_or(part.len());
    &part[..end]
}

/// Whether a list is a right answer for refusal 10.
// Reads everything anew and asks each condition of the list.
pub fn check_cycle(text: &[u8], cand: &[u8], list: &[u32]) -> bool {
    let (Ok(plan), Ok(atoms)) = (read_plan(text), read_candidate(cand)) else {
        return false;
    };
    let in_force = |a: &u32| plan.differences.iter().find(|d| d.atom == *a && atoms.contains(a));
    let Some(steps) = list.iter().map(in_force).collect::<Option<Vec<&Difference>>>() else {
        return false;
    };
    is_cycle(&steps) && list.iter().min() == list.first()
}

// Whether differences close, with all names different and a sum below zero.
fn is_cycle(steps: &[&Difference]) -> bool {
    let n = steps.len();
    let closes = (0..n).all(|i| steps[i].y == steps[(i + 1) % n].x);
    let different = (0..n).all(|i| (0..i).all(|j| steps[i].x != steps[j].x));
    let sum: i64 = steps.iter().map(|d| d.bound).sum();
    n > 0 && closes && different && sum < 0
}

/// What the program prints for a text and a candidate.
// Judges in rooms of the least size and reads the result back.
pub fn report(text: &[u8], cand: &[u8]) -> String {
    let mut room = vec![0u8; ROOM_BYTES];
    let mut cycle = vec![0u32; CYCLE_PLACES];
    match judge(text, cand, &mut room, &mut cycle) {
        Verdict::Accepted(length) => accepted(&room[..length as usize]),
        Verdict::Refused(refused) => refused_lines(refused, &cycle),
    }
}

// The printing of an acceptance, from the timetable's bytes.
fn accepted(table: &[u8]) -> String {
    let Some((records, atoms)) = timetable::read(table) else {
        return String::from("refused 20 0\n");
    };
    let mut out = format!("accepted {} {}\n", records.len(), atoms.len());
    for (term, time) in records {
        out.push_str(&format!("{term} {time}\n"));
    }
    out
}

// The printing of a refusal, with the list after 10.
fn refused_lines(refused: Refusal, cycle: &[u32]) -> String {
    let mut out = format!("refused {} {}\n", refused.number, refused.place);
    if refused.number == 10 {
        let list: Vec<String> = cycle[..refused.place as usize].iter().map(u32::to_string).collect();
        out.push_str(&list.join(" "));
        out.push('\n');
    }
    out
}
