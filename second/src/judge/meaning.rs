//! Stable models: refusals 8 and 9.

use super::differences::Difference;
use super::reading::{Body, Line, Literal, Statement, Weighted};
use std::collections::BTreeSet;

/// A set of atoms.
pub type Atoms = BTreeSet<u32>;

// Whether a literal is true in X.
fn holds(literal: &Literal, x: &Atoms) -> bool {
    x.contains(&literal.atom) != literal.negated
}

// The weights of some literals together.
fn sum<'a>(literals: impl Iterator<Item = &'a Weighted>) -> u64 {
    literals.map(|w| u64::from(w.weight)).sum()
}

// Whether a body is true in X: all its literals, or literals whose weights reach the bound.
fn body_holds(body: &Body, x: &Atoms) -> bool {
    match body {
        Body::Normal(literals) => literals.iter().all(|l| holds(l, x)),
        Body::Weights { bound, literals } => sum(literals.iter().filter(|w| holds(&w.literal, x))) >= u64::from(*bound),
    }
}

// Whether a statement is a broken rule.
fn is_broken(statement: &Statement, x: &Atoms) -> bool {
    match statement {
        Statement::Rule { choice: false, head, body } => body_holds(body, x) && !head.iter().any(|a| x.contains(a)),
        _ => false,
    }
}

// The place of the first broken rule.
pub fn first_broken(lines: &[Line], x: &Atoms) -> Option<u32> {
    lines.iter().find(|l| is_broken(&l.statement, x)).map(|l| l.place)
}

// A normal body in the reduct: none if a negated atom is in X, else its positive literals.
fn reduced_normal(literals: &[Literal], x: &Atoms) -> Option<Body> {
    if literals.iter().any(|l| l.negated && x.contains(&l.atom)) {
        return None;
    }
    Some(Body::Normal(literals.iter().filter(|l| !l.negated).copied().collect()))
}

// A weight body in the reduct: the weights of negated atoms outside X are taken off the bound, the positive literals stay.
fn reduced_weights(bound: u32, literals: &[Weighted], x: &Atoms) -> Body {
    let outside = literals.iter().filter(|w| w.literal.negated && !x.contains(&w.literal.atom));
    let left = u64::from(bound).saturating_sub(sum(outside)) as u32;
    Body::Weights { bound: left, literals: literals.iter().filter(|w| !w.literal.negated).copied().collect() }
}

/// The rules of the reduct that one statement gives: one for each head, over one positive body.
struct Positive {
    heads: Vec<u32>,
    body: Body,
}

// The rules of the reduct that one statement gives, if any.
fn reduced(statement: &Statement, x: &Atoms) -> Option<Positive> {
    let Statement::Rule { choice, head, body } = statement else {
        return None;
    };
    let body = match body {
        Body::Normal(literals) => reduced_normal(literals, x)?,
        Body::Weights { bound, literals } => reduced_weights(*bound, literals, x),
    };
    let heads = head.iter().filter(|a| !*choice || x.contains(a)).copied().collect();
    Some(Positive { heads, body })
}

// The atoms that stand in some head.
fn heads(lines: &[Line]) -> Atoms {
    let mut atoms = Atoms::new();
    for line in lines {
        if let Statement::Rule { head, .. } = &line.statement {
            atoms.extend(head);
        }
    }
    atoms
}

// The external atoms: difference atoms that stand in no head.
pub fn externals(lines: &[Line], differences: &[Difference]) -> Atoms {
    let heads = heads(lines);
    differences.iter().map(|d| d.atom).filter(|a| !heads.contains(a)).collect()
}

// The least model of positive rules over some facts.
fn least_model(rules: &[Positive], facts: Atoms) -> Atoms {
    let mut model = facts;
    loop {
        let before = model.len();
        for rule in rules {
            if body_holds(&rule.body, &model) {
                model.extend(&rule.heads);
            }
        }
        if model.len() == before {
            return model;
        }
    }
}

// The smallest atom of X outside the least model of the reduct.
pub fn smallest_unfounded(lines: &[Line], differences: &[Difference], x: &Atoms) -> Option<u32> {
    let rules: Vec<Positive> = lines.iter().filter_map(|l| reduced(&l.statement, x)).collect();
    let facts = externals(lines, differences).intersection(x).copied().collect();
    let model = least_model(&rules, facts);
    x.difference(&model).next().copied()
}
