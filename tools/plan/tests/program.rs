//! The program run: exit statuses, what stands on which output, closed pipes.

mod common;
use common::{comment, on, other_desk, P};
use plan::{json, svg};
use std::io::Write;
use std::path::PathBuf;
use std::process::{Command, Output, Stdio};

const NET: &str = include_str!("data/net.aspif");

// A folder of its own for a test, empty.
fn folder(test: &str) -> PathBuf {
    let folder = std::env::temp_dir().join(format!("plan-{test}-{}", std::process::id()));
    let _ = std::fs::remove_dir_all(&folder);
    std::fs::create_dir_all(&folder).unwrap();
    std::fs::write(folder.join("p.aspif"), P).unwrap();
    std::fs::write(folder.join("net.aspif"), NET).unwrap();
    std::fs::write(folder.join("p.cand"), "1 2 3\n").unwrap();
    folder
}

// Runs the program in a folder with some standard input.
fn run(folder: &PathBuf, arguments: &[&str], input: &str) -> Output {
    let mut child = Command::new(env!("CARGO_BIN_EXE_plan"))
        .args(arguments)
        .current_dir(folder)
        .stdin(Stdio::piped())
        .stdout(Stdio::piped())
        .stderr(Stdio::piped())
        .spawn()
        .unwrap();
    let _ = child.stdin.take().unwrap().write_all(input.as_bytes());
    child.wait_with_output().unwrap()
}

// The exit status, standard output and standard error.
fn said(output: &Output) -> (i32, String, String) {
    let text = |bytes: &[u8]| String::from_utf8_lossy(bytes).into_owned();
    (output.status.code().unwrap(), text(&output.stdout), text(&output.stderr))
}

#[test]
fn check_of_a_candidate() {
    let folder = folder("candidate");
    let accepted = said(&run(&folder, &["check", "p.aspif", "p.cand"], ""));
    let text = format!("accepted 2 3\n{}\n", comment(&on(P, "1 2 3\n")));
    assert_eq!(accepted, (0, text.clone(), String::new()));
    assert_eq!(said(&run(&folder, &["check", "p.aspif", "-"], "1 2 3\n")).1, text);
    let refused = said(&run(&folder, &["check", "p.aspif", "-"], "1 3\n"));
    assert_eq!((refused.0, refused.1.lines().next()), (1, Some("refused 8 22")));
    let _ = std::fs::remove_dir_all(folder);
}

#[test]
fn check_of_an_output() {
    let folder = folder("output");
    let output = "clasp version 3.3.5\nSolving...\nAnswer: 1\n3 2 1\nAnswer: 2\n3\nAnswer: 3\n1 3\nSATISFIABLE\n";
    let (status, out, err) = said(&run(&folder, &["check", "p.aspif", "-"], output));
    let texts = ["1 2 3\n", "3\n", "1 3\n"].map(|c| on(P, c)).map(|r| format!("{}\n{}\n", r.first, comment(&r)));
    assert_eq!((status, out, err.as_str()), (1, texts.join("\n"), ""));
    let (status, out, _) = said(&run(&folder, &["check", "--json", "p.aspif", "-"], output));
    let objects = ["1 2 3\n", "3\n", "1 3\n"].map(|c| json::object(&on(P, c)) + "\n");
    assert_eq!((status, out), (1, objects.concat()));
    let _ = std::fs::remove_dir_all(folder);
}

#[test]
fn files_of_the_other_desk_print_the_same() {
    let folder = folder("desk");
    std::fs::write(folder.join("p.other"), other_desk(P)).unwrap();
    let output = "clasp version 3.3.5\nAnswer: 1\n3 2 1\nAnswer: 2\n1 3\nSATISFIABLE\n";
    for answers in ["1 2 3\n", output] {
        let same = said(&run(&folder, &["check", "p.aspif", "-"], answers));
        let (status, out, err) = said(&run(&folder, &["check", "p.other", "-"], &other_desk(answers)));
        assert_eq!((status, out.replace("refused 8 24", "refused 8 22"), err), same);
    }
    let (_, numbered, _) = said(&run(&folder, &["numbered", "p.aspif"], ""));
    assert_eq!(said(&run(&folder, &["numbered", "p.other"], "")).1, other_desk(&numbered));
    let _ = std::fs::remove_dir_all(folder);
}

#[test]
fn no_answer_is_three() {
    let folder = folder("none");
    for (text, word) in [
        ("clasp version 3\nUNSATISFIABLE\n", "UNSATISFIABLE"),
        ("clasp version 3\nUNKNOWN\n", "UNKNOWN"),
        ("clasp version 3\nSolving...\n", "neither"),
        ("clasp version 3\nSATISFIABLE\n", "its output has none"),
    ] {
        let (status, out, err) = said(&run(&folder, &["check", "p.aspif", "-"], text));
        assert_eq!((status, out.as_str()), (3, ""), "{text}");
        assert!(err.contains("no answer") && err.contains(word), "{err}");
    }
    let empty = said(&run(&folder, &["check", "p.aspif", "-"], "Answer: 1\n\nSATISFIABLE\n"));
    assert_eq!((empty.0, empty.1.lines().next()), (1, Some("refused 8 36")));
    let cut = said(&run(&folder, &["check", "p.aspif", "-"], "Answer: 1\n1 2 3\n"));
    assert!(cut.0 == 0 && cut.2.contains("may be cut off"), "{cut:?}");
    let _ = std::fs::remove_dir_all(folder);
}

#[test]
fn wrong_usage_and_files_are_two() {
    let folder = folder("usage");
    for arguments in [
        &[] as &[&str],
        &["check"],
        &["check", "p.aspif"],
        &["check", "p.aspif", "p.cand", "p.cand"],
        &["check", "p.aspif", "p.cand", "--svg"],
        &["check", "p.aspif", "p.cand", "--other"],
        &["check", "-", "-"],
        &["numbered"],
        &["numbered", "--other"],
        &["other"],
    ] {
        let (status, out, err) = said(&run(&folder, arguments, ""));
        assert_eq!((status, out.as_str(), &err[..12]), (2, "", "usage: plan "), "{arguments:?}");
    }
    for arguments in [
        &["check", "none", "p.cand"] as &[&str],
        &["check", "p.aspif", "none"],
        &["numbered", "none"],
        &["numbered", "."],
    ] {
        let (status, out, err) = said(&run(&folder, arguments, ""));
        assert!(status == 2 && out.is_empty() && err.starts_with("plan: can't read "), "{arguments:?} {err}");
    }
    let _ = std::fs::remove_dir_all(folder);
}

#[test]
fn help_and_version() {
    let folder = folder("help");
    for arguments in [&["--help"] as &[&str], &["check", "--help"]] {
        let (status, out, err) = said(&run(&folder, arguments, ""));
        assert!(status == 0 && out.starts_with("usage: plan numbered PLAN") && err.is_empty());
        assert!(out.contains("Exit: 0 all answers accepted"));
    }
    assert_eq!(said(&run(&folder, &["--version"], "")).1, "plan 0.1.0\n");
    let _ = std::fs::remove_dir_all(folder);
}

#[test]
fn numbered_to_standard_output() {
    let folder = folder("numbered");
    let (status, out, err) = said(&run(&folder, &["numbered", "p.aspif"], ""));
    assert_eq!((status, err.as_str()), (0, ""));
    assert_eq!(out, P.replace("\n0\n", "\n4 1 1 1 1\n4 1 2 1 2\n4 1 3 1 3\n0\n"));
    let (status, out, err) = said(&run(&folder, &["numbered", "-"], "asp 1 0 0\n2 0 0\n0\n"));
    assert_eq!((status, out.as_str()), (0, "asp 1 0 0\n2 0 0\n0\n"));
    assert!(err.contains("refused 4 10"), "{err}");
    let (status, out, err) = said(&run(&folder, &["numbered", "-"], "asp 1 0 0\n9 2 7 1 0\n0\n"));
    assert_eq!((status, out.as_str()), (0, "asp 1 0 0\n9 2 7 1 0\n0\n"));
    assert!(err.contains("refused 62 16"), "{err}");
    let _ = std::fs::remove_dir_all(folder);
}

#[test]
fn the_picture_is_that_of_the_first_answer_that_has_one() {
    let folder = folder("picture");
    let output = "Answer: 1\n1 3\nAnswer: 2\n1 2 3\nSATISFIABLE\n";
    let (status, _, err) = said(&run(&folder, &["check", "p.aspif", "-", "--svg", "a.svg"], output));
    let picture = svg::picture(&on(P, "1 2 3\n"));
    assert_eq!((status, std::fs::read_to_string(folder.join("a.svg")).ok()), (1, picture.clone()));
    assert_eq!(err.contains("no picture"), picture.is_none());
    let (status, _, err) = said(&run(&folder, &["check", "p.aspif", "-", "--svg", "b.svg"], "1 3\n"));
    assert!(status == 1 && err.contains("no picture") && !folder.join("b.svg").exists(), "{err}");
    let _ = std::fs::remove_dir_all(folder);
}

#[test]
fn warnings_stand_on_standard_error() {
    let folder = folder("warnings");
    std::fs::write(folder.join("w.aspif"), P.replace("9 1 3 4 send", "9 0 3 7")).unwrap();
    let (status, out, err) = said(&run(&folder, &["check", "w.aspif", "p.cand"], ""));
    assert_eq!((status, out.contains("warning")), (0, false));
    assert!(err.starts_with("plan: warning: `7` is a number") && err.lines().count() == 1, "{err}");
    let _ = std::fs::remove_dir_all(folder);
}

#[test]
fn a_closed_pipe_is_no_error() {
    let folder = folder("pipe");
    let long = format!("asp 1 0 0\n10 {}\n0\n", "x".repeat(1_000_000));
    std::fs::write(folder.join("long.aspif"), &long).unwrap();
    for (arguments, status) in [(["numbered", "long.aspif", ""], 0), (["check", "p.aspif", "-"], 1)] {
        let arguments: Vec<&str> = arguments.into_iter().filter(|a| !a.is_empty()).collect();
        let mut child = Command::new(env!("CARGO_BIN_EXE_plan"))
            .args(&arguments)
            .current_dir(&folder)
            .stdin(Stdio::piped())
            .stdout(Stdio::piped())
            .stderr(Stdio::piped())
            .spawn()
            .unwrap();
        drop(child.stdout.take());
        let _ = child.stdin.take().unwrap().write_all(b"1 3\n");
        let output = child.wait_with_output().unwrap();
        assert_eq!(output.status.code(), Some(status), "{arguments:?}");
        assert!(!String::from_utf8_lossy(&output.stderr).contains("can't write"));
    }
    let _ = std::fs::remove_dir_all(folder);
}
