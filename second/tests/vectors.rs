//! The reader's vectors and their container; the vectors that are stored.
use second::testing::container::{read, write, Case};
use second::testing::plans;
use second::testing::vectors::{candidates, run, texts};
use std::collections::HashSet;
use std::slice::from_ref;

#[test]
fn containers_round_trip() {
    for cases in [texts(), candidates(), Vec::new()] {
        let container = write(&cases);
        assert_eq!(read(&container), cases);
        assert!(container.len() < 131_072);
    }
}

#[test]
fn containers_cut_short() {
    let case = |name: &str, bytes: &[u8]| Case { name: name.to_string(), bytes: bytes.to_vec() };
    let cases = [case("a", b"x\ny"), case("", b""), case("b", b"\n")];
    let container = write(&cases);
    for end in 0..container.len() {
        let got = read(&container[..end]);
        assert_eq!(got, cases[..got.len()]);
        assert!(got.len() < 3);
    }
    assert_eq!(read(b"a 1x\nb\n"), []);
    assert_eq!(read(b"a 01\nb\n"), []);
    assert_eq!(read(b"a\nb\n"), []);
    assert_eq!(read(b"a 60001\n"), []);
}

#[test]
fn names_are_names() {
    for cases in [texts(), candidates()] {
        let names: HashSet<&str> = cases.iter().map(|c| c.name.as_str()).collect();
        assert_eq!(names.len(), cases.len());
        assert!(names.iter().all(|n| n.bytes().all(|b| (33..127).contains(&b))));
    }
}

#[test]
fn runs_both() {
    let out = run(&texts(), &candidates());
    assert!(out
        .starts_with("listing-49\nread 6\n1 10 1 1 1 0 0 0\n1 22 0 1 2 0 0 1 2\n1 36 0 1 3 0 0 1 3\n4 51 1 97 1 2\n"));
    assert!(out.contains("\nlisting-49-weights\nread 6\n1 10 1 1 1 0 0 0\n1 22 0 1 2 1 1 1 16386\n"));
    assert!(out.contains("\nP-0\nrefused 3 0\n"));
    assert!(out.contains("\ncand:\nrefused 7 0\n"));
    for number in ["3", "4", "5", "7"] {
        assert!(out.contains(&format!("\nrefused {number} ")));
    }
}

/// A case's name, and the bytes that are stored for it.
type Part = (String, Vec<u8>);

// Asks that a file of the crates holds exactly some bytes; a difference names the file and its first case that differs.
fn stored(file: &str, made: Vec<u8>, parts: Vec<Part>) {
    let path = format!("{}/../crates/{file}", env!("CARGO_MANIFEST_DIR"));
    let bytes = std::fs::read(&path).unwrap_or_else(|e| panic!("{path}: {e}"));
    if bytes == made {
        return;
    }
    let mut rest = bytes.as_slice();
    let differs = |(_, part): &Part| rest.strip_prefix(part.as_slice()).map(|after| rest = after).is_none();
    let first = parts.into_iter().find(differs);
    panic!(
        "{file} differs first at {}",
        first.map_or(String::from("what stands behind the last case"), |(name, _)| name)
    );
}

// Each case as it is stored in a container.
fn contained(cases: &[Case]) -> Vec<Part> {
    cases.iter().map(|c| (c.name.clone(), write(from_ref(c)))).collect()
}

#[test]
fn the_readers_files_are_as_stored() {
    let (texts, candidates) = (texts(), candidates());
    stored("read_vectors/data/texts", write(&texts), contained(&texts));
    stored("read_vectors/data/candidates", write(&candidates), contained(&candidates));
    let mut printed: Vec<Part> = texts.iter().map(|c| (c.name.clone(), run(from_ref(c), &[]).into())).collect();
    printed.extend(candidates.iter().map(|c| (c.name.clone(), run(&[], from_ref(c)).into())));
    stored("read_vectors/stdout", run(&texts, &candidates).into(), printed);
}

#[test]
fn the_judges_files_are_as_stored() {
    let pairs = plans::pairs();
    let cases = plans::cases(&pairs);
    stored("vectors/data/plans", write(&cases), contained(&cases));
    let long = plans::long();
    let printed = pairs.iter().chain(&long).map(|p| (p.name.clone(), plans::judged(p).into())).collect();
    stored("vectors/stdout", plans::run(&pairs).into(), printed);
}
