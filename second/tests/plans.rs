//! The judge's vectors.
use second::testing::container::{read, write};
use second::testing::plans::{cases, every, long, paired, pairs, run, Pair, GROUNDED};
use second::{judge, read_candidate, read_text, report, terms, Difference, Refusal, Verdict};
use std::collections::HashSet;

#[test]
fn containers_round_trip() {
    let pairs = pairs();
    assert_eq!(paired(&read(&write(&cases(&pairs)))), pairs);
    assert!(write(&cases(&pairs)).len() < 262_144);
}

#[test]
fn names_are_names() {
    let (pairs, long) = (pairs(), long());
    let names: HashSet<&str> = pairs.iter().chain(&long).map(|p| p.name.as_str()).collect();
    assert_eq!(names.len(), pairs.len() + long.len());
    assert!(names.iter().all(|n| n.bytes().all(|b| (33..127).contains(&b))));
}

#[test]
fn runs_all() {
    let out = run(&pairs());
    assert!(out.starts_with("P-0\nrefused 8 36\nshown 11 49 32 48 32 49 32 51 32 48 32 48\n"));
    for number in [2, 3, 4, 5, 61, 62, 63, 64, 7, 8, 9, 10] {
        assert!(out.contains(&format!("\nrefused {number} ")));
    }
    assert!(out.contains("\nP-7\naccepted 2 3\n3 0\n4 5\ntable 44 2 0 0 0 3 0 0 0 16 0 0 0 32 0 0 0 3 0 0 0 0 0 0 0 4 0 0 0 5 0 0 0 1 0 0 0 2 0 0 0 3 0 0 0\ntimes 21/0 21/1 21/2 0 5 21/5 "));
    assert!(!out.contains("\nrefused 6 "));
    assert!(out.contains("\nQ-7\nrefused 10 2\n2 3\nshown 0\n"));
    assert!(out.contains("\nterms-argument\nrefused 62 30\nshown 2 56 56\n"));
    assert!(out.ends_with("\nlong-60001\nrefused 2 60000\nshown 0\n"));
}

// The pair with a name.
fn named(name: &str) -> Pair {
    pairs().into_iter().find(|p| p.name == name).unwrap()
}

#[test]
fn changes_change() {
    let plan = named("P-7").text;
    let same: Vec<String> =
        pairs().into_iter().skip(8).filter(|p| p.text == plan && p.cand == b"1 2 3\n").map(|p| p.name).collect();
    // The last line has no next: it is moved behind nothing.
    assert_eq!(same, ["behind-18"]);
}

#[test]
fn flow_shop_is_as_published() {
    // dl((a,1)), dl((a,2)), dl((b,1)), .. of the six answers in section 7.1 of source document 002.
    let published = [
        [1, 7, 0, 1, 4, 11],
        [6, 16, 5, 10, 0, 5],
        [0, 3, 8, 13, 3, 8],
        [6, 12, 0, 1, 1, 7],
        [0, 3, 3, 7, 4, 13],
        [5, 10, 8, 14, 0, 5],
    ];
    for (i, times) in published.into_iter().enumerate() {
        let lines: String = (4..).zip(times).map(|(term, time)| format!("{term} {time}\n")).collect();
        for (name, atoms) in [("flow-shop", 15), ("flow-shop-whole", 36)] {
            let Pair { text, cand, .. } = named(&format!("{name}-{i}"));
            assert_eq!(report(&text, &cand), format!("accepted 7 {atoms}\n3 0\n{lines}"));
        }
    }
}

#[test]
fn grounded_has_the_answers_of_clasp() {
    for grounded in GROUNDED {
        for pair in every("sets", grounded.text, grounded.atoms) {
            let accepted = report(&pair.text, &pair.cand).starts_with("accepted");
            let answer = grounded.answers.iter().any(|a| a.as_bytes() == pair.cand);
            assert_eq!(accepted, answer, "{} {}", grounded.encoding, pair.cand.escape_ascii());
        }
    }
}

// The negative cycles that begin with a difference and go on from where a path ends: each as its atoms.
fn cycles(force: &[Difference], path: &mut Vec<Difference>) -> Vec<Vec<u32>> {
    let (first, last) = (path[0], path[path.len() - 1]);
    if last.y == first.x {
        let below = path.iter().map(|d| d.bound).sum::<i64>() < 0;
        return if below { vec![path.iter().map(|d| d.atom).collect()] } else { Vec::new() };
    }
    let mut found = Vec::new();
    for d in force {
        if d.x == last.y && d.atom > first.atom && path.iter().all(|p| p.x != d.x) {
            path.push(*d);
            found.extend(cycles(force, path));
            path.pop();
        }
    }
    found
}

#[test]
fn cycles_are_the_only_ones() {
    let mut seen = 0;
    for pair in pairs() {
        let (mut room, mut cycle) = (vec![0; 24_592], vec![0; 1_024]);
        let Verdict::Refused(Refusal { number: 10, place }) = judge(&pair.text, &pair.cand, &mut room, &mut cycle)
        else {
            continue;
        };
        let x = read_candidate(&pair.cand).unwrap();
        let force: Vec<Difference> =
            terms(&read_text(&pair.text).unwrap()).unwrap().into_iter().filter(|d| x.contains(&d.atom)).collect();
        let all: Vec<Vec<u32>> = force.iter().flat_map(|d| cycles(&force, &mut vec![*d])).collect();
        assert_eq!(all, [cycle[..place as usize].to_vec()], "{}", pair.name);
        seen += 1;
    }
    assert!(seen >= 9);
}
