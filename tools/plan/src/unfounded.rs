//! Why nothing founds an atom, for commentary on 9.

use crate::explain::definitions;
use crate::support::{body_holds, founded, holds, reached, Set};
use crate::text::{Plan, Rule};

/// How many atoms are explained, one because of the other.
const EXPLAINED: usize = 10;

/// Why an atom of the answer is unfounded, and for each of its rules what fails.
pub fn unfounded(plan: &Plan, set: &Set, atom: u32) -> Vec<String> {
    let model = founded(plan, set);
    let (mut open, mut next, mut lines) = (vec![atom], 0, Vec::new());
    while let Some(&atom) = open.get(next).filter(|_| next < EXPLAINED) {
        next += 1;
        lines.push(headline(plan, atom, next == 1));
        for &index in plan.rules_of(atom) {
            let Some(rule) = plan.rule_at(index) else { continue };
            lines.push(format!("  line {}: {}", index + 1, plan.rule(index)));
            lines.push(format!("    {}", reason(plan, set, &model, rule)));
            for a in resting(set, &model, rule) {
                if !open.contains(&a) {
                    open.push(a);
                }
            }
        }
    }
    if rests_on_itself(plan, set, &model, atom) {
        lines.push(format!("`{}` is supported only by itself: an unfounded loop", plan.atom(atom)));
    }
    lines.extend(definitions(plan, &shown(plan, &open)));
    lines
}

// What is said of an unfounded atom before its rules.
fn headline(plan: &Plan, atom: u32, first: bool) -> String {
    let name = plan.atom(atom);
    let rules = plan.rules_of(atom).len();
    match (first, rules) {
        (true, 0) if !plan.atoms().contains(&atom) => {
            format!("`{name}` is in the answer and stands nowhere in the text")
        }
        (true, 0) => format!("`{name}` is in the answer, and no rule has it in its head"),
        (true, _) => format!("`{name}` is in the answer, and none of its rules founds it:"),
        (false, 0) => format!("`{name}`: no rule has it in its head"),
        (false, _) => format!("`{name}`, on which it rests:"),
    }
}

// Why a rule does not found its head.
fn reason(plan: &Plan, set: &Set, model: &Set, rule: &Rule) -> String {
    if body_holds(set, rule) {
        let resting = resting(set, model, rule).into_iter().map(|a| format!("`{}`", plan.atom(a)));
        return format!("holds, but rests on {}, unfounded too", resting.collect::<Vec<_>>().join(", "));
    }
    let failing = rule.body.iter().map(|(l, _)| *l).filter(|l| !holds(set, *l)).map(|l| failure(plan, l));
    let failing = failing.collect::<Vec<_>>().join(", ");
    if rule.weighted {
        return format!("its weights reach {} of {}; fails: {failing}", reached(set, rule), rule.bound);
    }
    format!("fails: {failing}")
}

// A literal that is not true, and why.
fn failure(plan: &Plan, literal: i64) -> String {
    let why = if literal > 0 { "not in the answer" } else { "that is in the answer" };
    format!("`{}` ({why})", plan.literal(literal))
}

// The unfounded atoms on which a body rests that is true.
fn resting(set: &Set, model: &Set, rule: &Rule) -> Vec<u32> {
    if !body_holds(set, rule) {
        return Vec::new();
    }
    let positive = rule.body.iter().filter(|(l, _)| *l > 0).map(|(l, _)| *l as u32);
    positive.filter(|a| set.contains(a) && !model.contains(a)).collect()
}

// Whether an atom is reached from itself through the unfounded atoms on which its rules rest.
fn rests_on_itself(plan: &Plan, set: &Set, model: &Set, atom: u32) -> bool {
    let (mut seen, mut open) = (Set::new(), vec![atom]);
    while let Some(next) = open.pop() {
        let rules = plan.rules_of(next).iter().filter_map(|&i| plan.rule_at(i));
        for a in rules.flat_map(|r| resting(set, model, r)) {
            if seen.insert(a) {
                open.push(a);
            }
        }
    }
    seen.contains(&atom)
}

// The atoms of the rules that were shown, those explained left out.
fn shown(plan: &Plan, explained: &[u32]) -> Vec<u32> {
    let rules = explained.iter().flat_map(|&a| plan.rules_of(a)).filter_map(|&i| plan.rule_at(i));
    let atoms = rules.flat_map(|r| r.body.iter().map(|(l, _)| l.unsigned_abs() as u32));
    atoms.filter(|a| !explained.contains(a)).collect()
}
