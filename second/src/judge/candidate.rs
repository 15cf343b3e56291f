//! The reading of a candidate: refusal 7.

use super::fields::{Fields, Finding};
use super::reading::LARGEST_ATOM;
use super::refusal::Refusal;

pub const MALFORMED: u32 = 7;

/// Reads a candidate into its atoms, strictly ascending.
// Reads the atoms and the line end, which may be of either kind, and asks that nothing follow.
pub fn read_candidate(cand: &[u8]) -> Result<Vec<u32>, Refusal> {
    let mut fields = Fields::new(cand, 0, MALFORMED);
    let atoms = atoms(&mut fields)?;
    fields.line_end()?;
    if !fields.ended() {
        return Err(fields.fault_here());
    }
    Ok(atoms)
}

// The atoms before the line end.
fn atoms(fields: &mut Fields) -> Result<Vec<u32>, Refusal> {
    let mut atoms = Vec::new();
    if fields.next_line_end().is_some() {
        return Ok(atoms);
    }
    atoms.push(atom_above(fields, 0)?);
    while !fields.ended() && fields.next_line_end().is_none() {
        fields.space()?;
        let last = atoms[atoms.len() - 1];
        atoms.push(atom_above(fields, last)?);
    }
    Ok(atoms)
}

// One atom, above the one before it and within bounds.
fn atom_above(fields: &mut Fields, before: u32) -> Result<u32, Refusal> {
    let least = u64::from(before) + 1;
    let most = u64::from(LARGEST_ATOM);
    let find = |v| match v {
        v if least <= v && v <= most => Finding::Right,
        _ => Finding::Wrong(MALFORMED),
    };
    Ok(fields.natural(find)? as u32)
}
