//! What holds and what founds it, for commentary: bodies under a set of atoms, and the founded atoms.

use crate::text::{Plan, Rule};
use std::collections::BTreeSet;

/// A set of atoms.
pub type Set = BTreeSet<u32>;

/// Whether a literal is true in a set.
pub fn holds(set: &Set, literal: i64) -> bool {
    set.contains(&(literal.unsigned_abs() as u32)) == (literal > 0)
}

/// What the weights of a body's true literals add up to.
pub fn reached(set: &Set, rule: &Rule) -> i64 {
    rule.body.iter().filter(|(l, _)| holds(set, *l)).map(|(_, w)| *w).sum()
}

/// Whether a rule's body is true in a set.
pub fn body_holds(set: &Set, rule: &Rule) -> bool {
    reached(set, rule) >= rule.bound
}

/// The founded atoms: the least model of the text's reduct by a set.
pub fn founded(plan: &Plan, set: &Set) -> Set {
    let external = |a: &u32| plan.rules_of(*a).is_empty() && plan.difference(*a).is_some();
    let mut model: Set = set.iter().copied().filter(external).collect();
    loop {
        let before = model.len();
        for (_, rule) in plan.rules() {
            if reached_reduct(set, &model, rule) >= rule.bound {
                model.extend(rule.heads.iter().filter(|a| !rule.choice || set.contains(a)));
            }
        }
        if model.len() == before {
            return model;
        }
    }
}

// What a body reaches when its positive literals are looked up in the model and its negated ones in the set.
fn reached_reduct(set: &Set, model: &Set, rule: &Rule) -> i64 {
    let counts = |l: i64| if l > 0 { holds(model, l) } else { holds(set, l) };
    rule.body.iter().filter(|(l, _)| counts(*l)).map(|(_, w)| *w).sum()
}
