//! The program: judges two files, or prints what reading one gives.

use second::testing::random::Random;
use second::testing::{cases, container, plans, vectors};
use std::io::Write;

// The bytes of a file; none if it can't be opened.
fn bytes_of(path: &str) -> Vec<u8> {
    std::fs::read(path).unwrap_or_default()
}

// The answer to a list of arguments.
fn answer(arguments: &[&str]) -> String {
    match arguments {
        ["--read", file] => second::describe(&bytes_of(file)),
        ["--candidate", file] => second::describe_candidate(&bytes_of(file)),
        ["--check", plan, cand, list @ ..] => check(plan, cand, list),
        ["--generate", dir, seed, count] => generate(dir, seed, count),
        ["--vectors", dir] => write_vectors(dir),
        ["--run-vectors", dir] => run_vectors(dir),
        ["--plans", dir] => write_plans(dir),
        ["--run-plans", dir] => run_plans(dir),
        [plan, cand] => second::report(&bytes_of(plan), &bytes_of(cand)),
        [] => second::report(&bytes_of("plan.aspif"), &bytes_of("plan.cand")),
        _ => String::from("usage: second [PLAN CAND | --read FILE | --candidate FILE | --check PLAN CAND ATOM.. | --generate DIR SEED COUNT | --vectors DIR | --run-vectors DIR | --plans DIR | --run-plans DIR]\n"),
    }
}

// Whether a list is a right answer for 10.
fn check(plan: &str, cand: &str, list: &[&str]) -> String {
    let list: Option<Vec<u32>> = list.iter().map(|a| a.parse().ok()).collect();
    let right = list.is_some_and(|l| second::check_cycle(&bytes_of(plan), &bytes_of(cand), &l));
    String::from(if right { "right\n" } else { "wrong\n" })
}

// Writes random cases into a directory.
fn generate(dir: &str, seed: &str, count: &str) -> String {
    let (Ok(seed), Ok(count)) = (seed.parse::<u64>(), count.parse::<usize>()) else {
        return String::from("seed and count are numbers\n");
    };
    let mut random = Random::new(seed);
    for i in 0..count {
        let (text, cand) = cases::case(&mut random);
        let wrote = std::fs::write(format!("{dir}/{i:06}.aspif"), text)
            .and_then(|_| std::fs::write(format!("{dir}/{i:06}.cand"), cand));
        if wrote.is_err() {
            return String::from("can't write there\n");
        }
    }
    format!("wrote {count}\n")
}

// Writes the reader's vectors into a directory.
fn write_vectors(dir: &str) -> String {
    let (texts, candidates) = (vectors::texts(), vectors::candidates());
    let wrote = std::fs::write(format!("{dir}/texts"), container::write(&texts))
        .and_then(|_| std::fs::write(format!("{dir}/candidates"), container::write(&candidates)));
    match wrote {
        Ok(()) => format!("wrote {} {}\n", texts.len(), candidates.len()),
        Err(_) => String::from("can't write there\n"),
    }
}

// Writes the judge's vectors into a directory.
fn write_plans(dir: &str) -> String {
    let pairs = plans::pairs();
    match std::fs::write(format!("{dir}/plans"), container::write(&plans::cases(&pairs))) {
        Ok(()) => format!("wrote {}\n", pairs.len()),
        Err(_) => String::from("can't write there\n"),
    }
}

// The cases of a container in a directory.
fn cases_of(dir: &str, name: &str) -> Vec<container::Case> {
    container::read(&bytes_of(&format!("{dir}/{name}")))
}

// What reading gives for the vectors of a directory.
fn run_vectors(dir: &str) -> String {
    vectors::run(&cases_of(dir, "texts"), &cases_of(dir, "candidates"))
}

// What judging gives for the vectors of a directory, and for two long texts.
fn run_plans(dir: &str) -> String {
    plans::run(&plans::paired(&cases_of(dir, "plans")))
}

// Prints the answer.
fn main() {
    let arguments: Vec<String> = std::env::args().skip(1).collect();
    let arguments: Vec<&str> = arguments.iter().map(String::as_str).collect();
    let _ = std::io::stdout().write_all(answer(&arguments).as_bytes());
}
