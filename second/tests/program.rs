//! The program as it is run.
mod common;
use common::*;
use std::path::PathBuf;
use std::process::Command;

// What the program prints for some arguments.
fn run(arguments: &[&str]) -> String {
    let out = Command::new(env!("CARGO_BIN_EXE_second")).args(arguments).output().unwrap();
    String::from_utf8(out.stdout).unwrap()
}

// A file with some bytes, named for its test.
fn file(name: &str, bytes: &[u8]) -> String {
    let path = PathBuf::from(env!("CARGO_TARGET_TMPDIR")).join(name);
    std::fs::write(&path, bytes).unwrap();
    path.to_str().unwrap().to_string()
}

#[test]
fn judges_files() {
    let (p, q) = (file("p.aspif", P.as_bytes()), file("q.aspif", q().as_bytes()));
    let all = file("all.cand", b"1 2 3\n");
    assert_eq!(run(&[&p, &all]), "accepted 2 3\n3 0\n4 5\n");
    assert_eq!(run(&[&q, &all]), "refused 10 2\n2 3\n");
    assert_eq!(run(&["--check", &q, &all, "2", "3"]), "right\n");
    assert_eq!(run(&["--check", &q, &all, "3", "2"]), "wrong\n");
    assert_eq!(run(&[&p, "/no/such/file"]), "refused 7 0\n");
    assert_eq!(run(&["/no/such/file", &all]), "refused 3 0\n");
    assert_eq!(run(&["/no/such/file", "/no/such/file"]), "refused 3 0\n");
    let long = file("long.aspif", &second::testing::generating::long_text(60_001));
    assert_eq!(run(&[&long, &all]), "refused 2 60000\n");
}

#[test]
fn describes_files() {
    let p = file("p2.aspif", P.as_bytes());
    assert!(run(&["--read", &p])
        .starts_with("read 17\n1 10 1 1 1 0 0 0\n1 22 0 1 2 0 0 1 2\n1 36 0 1 3 0 0 0\n91 48 0 4 100 105 102 102\n"));
    assert_eq!(run(&["--read", "/no/such/file"]), "refused 3 0\n");
    assert_eq!(run(&["--candidate", "/no/such/file"]), "refused 7 0\n");
    assert_eq!(run(&["--candidate", &file("c.cand", b"3 4\n")]), "candidate 2 3 4\n");
}
