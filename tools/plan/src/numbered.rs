//! The text for a solver that is to print numbers: each atom has an output statement that names it by its number.

use crate::ends::End;
use crate::text::{Plan, Statement};

/// The greatest atom, and the longest string, that the judge reads.
const MOST: u32 = 4_096;

/// The text with its output statements replaced. One that the judge would refuse is kept, so that the text is judged
/// alike; a text without a line `0` is given as it is.
pub fn numbered(plan: &Plan) -> Vec<u8> {
    let Some(end) = plan.lines.iter().skip(1).position(|l| l.statement == Statement::End).map(|i| i + 1) else {
        return plan.bytes.clone();
    };
    let mut text = Vec::new();
    for (i, line) in plan.lines.iter().enumerate() {
        if i == end {
            outputs(plan, &mut text);
        }
        if i == 0 || i > end || !replaced(&line.statement) {
            text.extend_from_slice(&plan.bytes[line.span.start..line.span.next]);
        }
    }
    text
}

// Whether a statement is an output that the judge would read.
fn replaced(statement: &Statement) -> bool {
    let Statement::Output { name, literals } = statement else {
        return false;
    };
    let small = |l: &i64| (1..=u64::from(MOST)).contains(&l.unsigned_abs());
    name.len() <= MOST as usize && literals.len() <= MOST as usize && !name.contains(&0) && literals.iter().all(small)
}

// An output statement for each atom that stands in the text, with the text's own line end.
fn outputs(plan: &Plan, text: &mut Vec<u8>) {
    let end = End::of(&plan.bytes);
    for atom in plan.atoms() {
        let name = atom.to_string();
        text.extend_from_slice(format!("4 {} {name} 1 {atom}", name.len()).as_bytes());
        text.extend_from_slice(end.bytes());
    }
}
