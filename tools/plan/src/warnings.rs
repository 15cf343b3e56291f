//! Names that are probably a slip: with arithmetic in them that gringo left unevaluated, or numbers other than 0.

use crate::text::Plan;
use std::collections::{BTreeMap, BTreeSet};

/// How deep arithmetic is followed.
const DEPTH: usize = 100;

/// What a term is worth that is arithmetic on numbers; nothing inside where it has no value.
type Worth = Option<Option<i64>>;

/// The warnings for a plan's names, by term number.
pub fn warnings(plan: &Plan) -> Vec<String> {
    let mut known = BTreeMap::new();
    let names = plan.names();
    let by_name: BTreeSet<String> = names.iter().map(|t| plan.term(*t)).collect();
    names.iter().filter_map(|&name| warning(plan, &by_name, &mut known, name)).collect()
}

// The warning for one name.
fn warning(plan: &Plan, names: &BTreeSet<String>, known: &mut BTreeMap<u32, Worth>, name: u32) -> Option<String> {
    let written = plan.term(name);
    if let Some(number) = plan.number(name) {
        let advice = "is a number and stands as a name: it has a time of its own, and is not that number of time units";
        return (number != 0).then(|| format!("`{written}` {advice}. {}", in_bound()));
    }
    let inner = unevaluated(plan, known, name)?;
    let left = plan.term(inner);
    if inner == name {
        let advice = "is arithmetic that gringo left unevaluated: it is a name with a time of its own, not a number";
        return Some(format!("`{written}` {advice}. {}", in_bound()));
    }
    let meant = worth(plan, known, inner, 0).flatten().map(|n| plan.term_with(name, Some((inner, &n.to_string()))));
    let not = meant.as_ref().map_or(String::new(), |m| format!(", not `{m}`"));
    let both = match meant {
        Some(meant) if names.contains(&meant) => format!(", and `{meant}` is a name too, with a time of its own"),
        _ => String::new(),
    };
    let rewrite = plan.term_with(name, Some((inner, "T")));
    Some(format!(
        "`{written}` has `{left}` in it, which gringo left unevaluated: it is a name of its own{not}{both}. \
         Compute it in the body: `{rewrite}` in the atom, and `T = {left}` (as the encoding has it) in the body"
    ))
}

// How to say a number of time units.
fn in_bound() -> &'static str {
    "A number belongs in the bound: `&diff{x-0}<=k`"
}

// The first term inside a term that is arithmetic on numbers.
fn unevaluated(plan: &Plan, known: &mut BTreeMap<u32, Worth>, name: u32) -> Option<u32> {
    let (mut seen, mut open) = (BTreeSet::new(), vec![name]);
    while let Some(term) = open.pop() {
        if !seen.insert(term) || plan.number(term).is_some() {
            continue;
        }
        if worth(plan, known, term, 0).is_some() {
            return Some(term);
        }
        open.extend(plan.arguments(term).iter().rev());
    }
    None
}

// What a term is worth that is a number, or an operator applied to such terms.
fn worth(plan: &Plan, known: &mut BTreeMap<u32, Worth>, term: u32, depth: usize) -> Worth {
    if let Some(worth) = known.get(&term) {
        return *worth;
    }
    known.insert(term, None);
    let worth = match (plan.number(term), plan.compound(term)) {
        (Some(number), _) => Some(Some(number)),
        (_, Some((sign, arguments))) if depth < DEPTH && arithmetic(sign, arguments.len()) => {
            let worths: Option<Vec<Option<i64>>> =
                arguments.iter().map(|a| worth(plan, known, *a, depth + 1)).collect();
            worths.map(|w| w.into_iter().collect::<Option<Vec<i64>>>().and_then(|w| value(sign, &w)))
        }
        _ => None,
    };
    known.insert(term, worth);
    worth
}

// Whether a string is an arithmetic operator for as many arguments.
fn arithmetic(sign: &[u8], count: usize) -> bool {
    match sign {
        b"-" | b"+" => count == 1 || count == 2,
        b"*" | b"/" | b"\\" | b"**" => count == 2,
        _ => false,
    }
}

// The value of an operator on numbers; none where it has none.
fn value(sign: &[u8], numbers: &[i64]) -> Option<i64> {
    match (sign, numbers) {
        (b"-", [x]) => x.checked_neg(),
        (b"+", [x]) => Some(*x),
        (b"+", [x, y]) => x.checked_add(*y),
        (b"-", [x, y]) => x.checked_sub(*y),
        (b"*", [x, y]) => x.checked_mul(*y),
        (b"/", [x, y]) => x.checked_div(*y),
        (b"\\", [x, y]) => x.checked_rem(*y),
        (b"**", [x, y]) => x.checked_pow(u32::try_from(*y).ok()?),
        _ => None,
    }
}
