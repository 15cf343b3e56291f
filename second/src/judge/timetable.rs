//! The timetable's bytes: writing them, and refusals 20 and 21.

use super::reading::{LARGEST_ATOM, LARGEST_INDEX};
use super::refusal::Refusal;

pub const HEADER: u64 = 16;
pub const NAME_RECORD: u64 = 8;
pub const ATOM_RECORD: u64 = 4;
pub const LARGEST_TIME: u32 = 1_023_000_000;

// The length of a timetable.
pub fn length(names: usize, atoms: usize) -> usize {
    16 + 8 * names + 4 * atoms
}

// Writes one field at a position.
fn put(room: &mut [u8], at: usize, value: u32) {
    room[at..at + 4].copy_from_slice(&value.to_le_bytes());
}

// Writes a whole timetable at the start of the room; gives its length.
pub fn write(room: &mut [u8], records: &[(u32, u32)], atoms: &[u32]) -> usize {
    let atoms_at = 16 + 8 * records.len();
    put(room, 0, records.len() as u32);
    put(room, 4, atoms.len() as u32);
    put(room, 8, 16);
    put(room, 12, atoms_at as u32);
    for (i, (term, time)) in records.iter().enumerate() {
        put(room, 16 + 8 * i, *term);
        put(room, 20 + 8 * i, *time);
    }
    for (i, atom) in atoms.iter().enumerate() {
        put(room, atoms_at + 4 * i, *atom);
    }
    length(records.len(), atoms.len())
}

// All 32-bit fields of a slice; none if it isn't made of whole fields.
fn words(table: &[u8]) -> Option<Vec<u32>> {
    if !table.len().is_multiple_of(4) {
        return None;
    }
    let word = |c: &[u8]| u32::from_le_bytes([c[0], c[1], c[2], c[3]]);
    Some(table.chunks(4).map(word).collect())
}

// Whether numbers rise strictly.
fn ascending(numbers: &[u32]) -> bool {
    numbers.windows(2).all(|w| w[0] < w[1])
}

/// A timetable read back: name records and atoms.
pub type Table = (Vec<(u32, u32)>, Vec<u32>);

// A timetable read back; none if the slice isn't one.
pub fn read(table: &[u8]) -> Option<Table> {
    let words = words(table)?;
    let [n, m, names_at, atoms_at] = *words.get(..4)? else { return None };
    let (n, m) = (u64::from(n), u64::from(m));
    let atoms_from = HEADER + NAME_RECORD * n;
    let right = u64::from(names_at) == HEADER
        && u64::from(atoms_at) == atoms_from
        && table.len() as u64 == atoms_from + ATOM_RECORD * m;
    if !right {
        return None;
    }
    let (records, atoms) = words[4..].split_at(2 * n as usize);
    let records: Vec<(u32, u32)> = records.chunks(2).map(|r| (r[0], r[1])).collect();
    if records_right(&records) && atoms_right(atoms) {
        Some((records, atoms.to_vec()))
    } else {
        None
    }
}

// Whether name records are ascending and within bounds.
fn records_right(records: &[(u32, u32)]) -> bool {
    let terms: Vec<u32> = records.iter().map(|r| r.0).collect();
    ascending(&terms) && records.iter().all(|r| r.0 <= LARGEST_INDEX && r.1 <= LARGEST_TIME)
}

// Whether atoms are ascending and within bounds.
fn atoms_right(atoms: &[u32]) -> bool {
    ascending(atoms) && atoms.iter().all(|a| (1..=LARGEST_ATOM).contains(a))
}

/// The time of a term in a timetable: 20 if it is none, 21 if the term isn't in it.
// Reads the whole table, then looks for the term.
pub fn time(table: &[u8], term: u32) -> Result<u32, Refusal> {
    let (records, _) = read(table).ok_or(Refusal { number: 20, place: 0 })?;
    let found = records.iter().find(|r| r.0 == term);
    found.map(|r| r.1).ok_or(Refusal { number: 21, place: term })
}
