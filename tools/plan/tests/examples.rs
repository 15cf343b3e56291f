//! The encodings of examples/, as gringo grounded them and clasp answered: verdicts, names, warnings, pictures.

mod common;
use common::{comment, on, other_desk};

use plan::answers::{read, Answers};
use plan::report::Report;
use plan::svg::picture;
use std::path::Path;

// A file of examples/ or docs/.
fn file(name: &str) -> String {
    let path = Path::new(env!("CARGO_MANIFEST_DIR")).join("../..").join(name);
    std::fs::read_to_string(&path).unwrap_or_else(|e| panic!("{}: {e}", path.display()))
}

// What is said of an example's own candidate.
fn own(name: &str) -> Report {
    on(&file(&format!("examples/{name}.aspif")), &file(&format!("examples/{name}.cand")))
}

// What is said of each answer that clasp gave, with the text and the answers from one desk or the other.
fn all_from(name: &str, desk: fn(&str) -> String) -> Vec<Report> {
    let text = desk(&file(&format!("examples/{name}.aspif")));
    let Answers::Solver { answers, .. } = read(desk(&file(&format!("examples/{name}.answers"))).as_bytes()) else {
        panic!("{name}: no solver's output");
    };
    answers.iter().map(|a| on(&text, std::str::from_utf8(a).unwrap())).collect()
}

// The same, with the files as they are.
fn all(name: &str) -> Vec<Report> {
    all_from(name, str::to_string)
}

// The first line of each.
fn firsts(name: &str) -> Vec<String> {
    all(name).into_iter().map(|r| r.first).collect()
}

#[test]
fn the_network_is_timed_in_its_own_words() {
    let report = own("phasor/network");
    assert_eq!(report.first, "accepted 14 59");
    let time = |name: &str| report.times.iter().find(|t| t.name == name).map(|t| (t.time, t.since_zero));
    assert_eq!(time("recv(pmu1)"), Some((35, Some(35))));
    assert_eq!(time("open(control)"), Some((40, Some(40))));
    assert!(report.atoms.iter().any(|a| a.name == "reports(pmu3,east)"), "{:?}", report.atoms.len());
    assert!(report.warnings.is_empty(), "{:?}", report.warnings);
    let of = |n: &str| firsts("phasor/network").iter().filter(|f| *f == n).count();
    assert_eq!((of("accepted 14 59"), of("refused 10 4")), (3, 3));
}

#[test]
fn one_rule_too_many_is_a_ring() {
    let report = own("phasor/network_too_many");
    assert_eq!((report.first.as_str(), report.sum, report.cycle.len()), ("refused 10 5", -10, 5));
    assert!(comment(&report).contains("relaxing any one of them by 10 is enough for these"));
    assert!(comment(&report).contains("line 40 puts it there: &diff{send(pmu3)-send(pmu4)}<=-30 :- reports(pmu4,east)"));
    assert!(firsts("phasor/network_too_many").iter().all(|f| f == "refused 10 5"));
}

#[test]
fn cardinality_rules_are_accepted() {
    let found = firsts("phasor/cardinality");
    assert_eq!(found.len(), 15);
    assert!(found.iter().all(|f| f.starts_with("accepted 11 ")), "{found:?}");
}

#[test]
fn what_gringo_left_unevaluated_is_warned_of() {
    let report = own("phasor/unevaluated");
    assert_eq!(report.first, "accepted 6 6");
    assert_eq!(report.warnings.len(), 2, "{:?}", report.warnings);
    assert!(report.warnings.iter().any(|w| w.contains("`close(2-1)`") && w.contains("`close(1)`")));
    assert!(report.warnings.iter().any(|w| w.contains("`3` is a number")));
}

// A row of the published times: the order of the tasks, the times of (a,1) to (c,2) less that of 0.
fn published() -> Vec<Vec<i64>> {
    let rows = file("examples/flowshop/expected");
    let numbers = |l: &str| l.split_whitespace().skip(3).take(6).map(|n| n.parse().unwrap()).collect();
    rows.lines().filter(|l| !l.starts_with('#') && !l.is_empty()).map(numbers).collect()
}

#[test]
fn the_flow_shop_has_its_published_times() {
    let names = ["(a,1)", "(a,2)", "(b,1)", "(b,2)", "(c,1)", "(c,2)"];
    let times = |r: &Report| -> Vec<i64> {
        let of = |n: &&str| r.times.iter().find(|t| t.name == **n).and_then(|t| t.since_zero).unwrap();
        names.iter().map(of).collect()
    };
    let mut found: Vec<Vec<i64>> = all("flowshop/flowshop").iter().map(times).collect();
    let mut wanted = published();
    found.sort();
    wanted.sort();
    assert_eq!((wanted.len(), found), (6, wanted));
}

#[test]
fn from_the_other_desk_the_same_is_said() {
    for name in ["network", "network_too_many", "cardinality", "unevaluated"].map(|n| format!("phasor/{n}")) {
        assert_eq!(all_from(&name, other_desk), all(&name), "{name}");
    }
    assert_eq!(all_from("flowshop/flowshop", other_desk), all("flowshop/flowshop"));
}

#[test]
fn the_pictures_of_the_docs_are_what_is_drawn() {
    assert!(picture(&own("phasor/network")).as_deref() == Some(&file("docs/network.svg")));
    assert!(picture(&own("phasor/network_too_many")).as_deref() == Some(&file("docs/cycle.svg")));
}
