//! A readable line has one spelling: written again from what was read, it is the same.
use second::{Base, Body, Literal, Statement};

// A line's front and its numbers.
fn words(front: &str, parts: &[Vec<i64>]) -> Vec<u8> {
    let all: Vec<String> = parts.concat().iter().map(i64::to_string).collect();
    [vec![front.to_string()], all].concat().join(" ").into_bytes()
}

// A number.
fn one(n: u32) -> Vec<i64> {
    vec![i64::from(n)]
}

// A count and the numbers.
fn counted(numbers: &[u32]) -> Vec<i64> {
    [vec![numbers.len() as i64], numbers.iter().map(|a| i64::from(*a)).collect()].concat()
}

// A literal as an integer.
fn signed(literal: &Literal) -> i64 {
    if literal.negated {
        -i64::from(literal.atom)
    } else {
        i64::from(literal.atom)
    }
}

// A count and the literals.
fn literals(list: &[Literal]) -> Vec<i64> {
    [vec![list.len() as i64], list.iter().map(signed).collect()].concat()
}

// A body with its kind.
fn body_numbers(body: &Body) -> Vec<i64> {
    match body {
        Body::Normal(list) => [vec![0], literals(list)].concat(),
        Body::Weights { bound, literals } => {
            let front = vec![1, i64::from(*bound), literals.len() as i64];
            front.into_iter().chain(literals.iter().flat_map(|w| [signed(&w.literal), i64::from(w.weight)])).collect()
        }
    }
}

/// The line of a statement, without its end.
pub fn written(statement: &Statement) -> Vec<u8> {
    match statement {
        Statement::Rule { choice, head, body } => {
            words("1", &[one(u32::from(*choice)), counted(head), body_numbers(body)])
        }
        Statement::Output { string, condition } => {
            [words("4", &[vec![string.len() as i64]]), b" ".to_vec(), string.clone(), words("", &[literals(condition)])]
                .concat()
        }
        Statement::Number { term, value } => words("9 0", &[one(*term), vec![i64::from(*value)]]),
        Statement::Symbol { term, string } => {
            [words("9 1", &[one(*term), vec![string.len() as i64]]), b" ".to_vec(), string.clone()].concat()
        }
        Statement::Compound { term, base, arguments } => {
            let t = match base {
                Base::Tuple => -1,
                Base::Set => -2,
                Base::List => -3,
                Base::Term(t) => i64::from(*t),
            };
            words("9 2", &[one(*term), vec![t], counted(arguments)])
        }
        Statement::Element { element, terms, condition } => {
            words("9 4", &[one(*element), counted(terms), literals(condition)])
        }
        Statement::Theory { atom, name, elements, guard } => match guard {
            None => words("9 5", &[one(*atom), one(*name), counted(elements)]),
            Some((g, u)) => words("9 6", &[one(*atom), one(*name), counted(elements), one(*g), one(*u)]),
        },
        Statement::Comment { bytes } => [b"10 ".to_vec(), bytes.clone()].concat(),
    }
}
