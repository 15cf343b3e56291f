//! What a file of answers holds: candidates, a solver's output whole and damaged, status lines.

use plan::answers::{read, Answers, Status};

// The answers and the status of a solver's output.
fn solver(text: &str) -> (Vec<String>, Status) {
    match read(text.as_bytes()) {
        Answers::Solver { answers, status } => {
            (answers.iter().map(|a| String::from_utf8_lossy(a).into_owned()).collect(), status)
        }
        Answers::Candidate(_) => panic!("taken as a candidate: {text}"),
    }
}

const HEAD: &str = "clasp version 3.3.5\nReading from stdin\nSolving...\n";

#[test]
fn a_candidate_is_taken_as_it_is() {
    for bytes in ["", "\n", "\r\n", "1 2 3\n", "1 2 3\r\n", "1 2\r", "3 1", "a b\n", "\u{0}", "Answers: 1\n"] {
        assert_eq!(read(bytes.as_bytes()), Answers::Candidate(bytes.as_bytes().to_vec()));
    }
}

#[test]
fn every_answer_of_an_output() {
    let text = format!("{HEAD}Answer: 1\n3 1 20\nAnswer: 2 (Time: 0.001s)\n\nSATISFIABLE\n\nModels : 2\n");
    let (answers, status) = solver(&text);
    assert_eq!((answers, status), (vec![String::from("1 3 20\n"), String::from("\n")], Status::Satisfiable));
}

#[test]
fn an_output_of_the_other_desk_is_read_alike() {
    for text in [
        format!("{HEAD}Answer: 1\n3 1 20\nAnswer: 2\n\nSATISFIABLE\n\nModels : 2\n"),
        String::from("Answer: 1\n2 1 dl(x,5) send(a)\nOPTIMUM FOUND\n"),
        String::from("2 1\n\nSATISFIABLE\n"),
        format!("{HEAD}UNKNOWN\n"),
    ] {
        assert_eq!(solver(&text.replace('\n', "\r\n")), solver(&text));
    }
}

#[test]
fn the_status_tells_no_answer() {
    assert_eq!(solver(&format!("{HEAD}UNSATISFIABLE\n\nModels : 0\n")), (vec![], Status::Unsatisfiable));
    assert_eq!(solver(&format!("{HEAD}UNKNOWN\n")), (vec![], Status::Unknown));
    assert_eq!(solver(HEAD), (vec![], Status::Missing));
    assert_eq!(solver("UNSATISFIABLE\n"), (vec![], Status::Unsatisfiable));
}

#[test]
fn an_output_that_is_cut_off() {
    assert_eq!(solver(&format!("{HEAD}Answer: 1")), (vec![], Status::Missing));
    assert_eq!(solver(&format!("{HEAD}Answer: 1\n")), (vec![], Status::Missing));
    assert_eq!(solver(&format!("{HEAD}Answer: 1\n1 2")), (vec![String::from("1 2")], Status::Missing));
}

#[test]
fn what_is_no_number_is_kept_behind() {
    let (answers, _) = solver("Answer: 1\nsend(a) 3 007 1 dl(x,5) -2\nSATISFIABLE\n");
    assert_eq!(answers, ["1 3 send(a) 007 -2\n"]);
    assert_eq!(solver("Answer: 1\n2 2 1\nSATISFIABLE\n").0, ["1 2 2\n"]);
}

#[test]
fn answers_alone_before_the_status() {
    assert_eq!(solver("2 1\n\nSATISFIABLE\n"), (vec![String::from("1 2\n"), String::from("\n")], Status::Satisfiable));
}
