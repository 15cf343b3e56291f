//! The proved judge against the second program, on the same inputs: the verdict, both rooms whole, the showing, the
//! times. Only with PLAN_JUDGE_LIB (see build.rs). PLAN_JUDGE_SEED chooses other inputs, PLAN_JUDGE_TIMES more of them.
#![cfg(plan_judge)]
mod common;
use common::ends::Ends;
use common::{
    check_crowded, check_heaviest, check_line_ends, check_terms, check_traps, further, judged_by, q, refused, wrap, P,
};
use second::judge::judging::{CYCLE_PLACES, ROOM_BYTES};
use second::judge::timetable;
use second::testing::damaging::damage;
use second::testing::generating::{all_atoms, choice, padded};
use second::testing::line_ends::{returned, some_returned, varied};
use second::testing::random::Random;
use second::testing::{cases, generating, proved};
use second::{check_cycle, Refusal, Verdict};
use std::collections::BTreeMap;

// A number from the environment.
fn asked(name: &str, other: u64) -> u64 {
    std::env::var(name).ok().and_then(|s| s.parse().ok()).unwrap_or(other)
}

// A generator for one of the tests; the seed asked for changes them all.
fn random(test: u64) -> Random {
    Random::new(1000 * asked("PLAN_JUDGE_SEED", 1) + test)
}

// How many inputs a test takes.
fn times(n: u64) -> u64 {
    n * asked("PLAN_JUDGE_TIMES", 1)
}

/// What a test has fed: how often each verdict came, by its number (0 for accepted), and the line ends.
#[derive(Debug, Default)]
struct Counts {
    verdicts: BTreeMap<u32, u64>,
    texts: Ends,
    cands: Ends,
}

impl Counts {
    // Counts an input and its verdict.
    fn add(&mut self, text: &[u8], cand: &[u8], verdict: Verdict) {
        let number = if let Verdict::Refused(r) = verdict { r.number } else { 0 };
        *self.verdicts.entry(number).or_default() += 1;
        self.texts.add(text);
        self.cands.add(cand);
    }

    // How many inputs there were.
    fn inputs(&self) -> u64 {
        self.verdicts.values().sum()
    }

    // Asks for enough of some numbers.
    fn ask(&self, wanted: &[u32], least: u64) {
        assert!(wanted.iter().all(|n| self.verdicts.get(n).is_some_and(|c| *c >= least)), "{self:?}");
    }

    // Prints the counts of a test, and asks for enough of some numbers and of each kind of line ends.
    fn settle(&self, test: &str, wanted: &[u32], least: u64) {
        println!("{test}: {} inputs, {self:?}", self.inputs());
        self.ask(wanted, least);
        for ends in [self.texts, self.cands] {
            ends.ask_returned();
            ends.ask_unlike();
        }
    }
}

// An input as it can be pasted.
fn pasted(text: &[u8], cand: &[u8]) -> String {
    format!("text b\"{}\"\ncandidate b\"{}\"", text.escape_ascii(), cand.escape_ascii())
}

/// The rooms of both programs, marked alike before each judging.
struct Both {
    marked: (Vec<u8>, Vec<u32>),
    proved: (Vec<u8>, Vec<u32>),
    second: (Vec<u8>, Vec<u32>),
}

impl Both {
    // Rooms of some sizes, with marks that depend on a number.
    fn new(room: usize, cycle: usize, salt: u32) -> Both {
        let marked: Vec<u8> = (0..room).map(|i| (i % 251) as u8 ^ salt as u8).collect();
        let places: Vec<u32> = (0..cycle as u32).map(|i| i ^ 0xDEAD_0000 ^ salt).collect();
        let marked = (marked, places);
        Both { proved: marked.clone(), second: marked.clone(), marked }
    }

    // Rooms larger than needed.
    fn wide(salt: u32) -> Both {
        Both::new(ROOM_BYTES + 40, CYCLE_PLACES + 7, salt)
    }

    // Compares everything the two programs do with an input; the verdict is the proved judge's.
    fn compare(&mut self, text: &[u8], cand: &[u8]) -> Verdict {
        for rooms in [&mut self.proved, &mut self.second] {
            rooms.0.copy_from_slice(&self.marked.0);
            rooms.1.copy_from_slice(&self.marked.1);
        }
        let got = proved::judge(text, cand, &mut self.proved.0, &mut self.proved.1);
        self.compare_frames(text, cand, got);
        let wanted = second::judge(text, cand, &mut self.second.0, &mut self.second.1);
        match (got, wanted) {
            (Verdict::Refused(Refusal { number: 10, place }), Verdict::Refused(Refusal { number: 10, .. })) => {
                self.compare_cycle(text, cand, place as usize)
            }
            _ => {
                assert_eq!(got, wanted, "{}", pasted(text, cand));
                assert!(self.proved == self.second, "rooms\n{}", pasted(text, cand));
            }
        }
        match got {
            Verdict::Accepted(n) => {
                compare_times(&self.proved.0[..n as usize], &[0, 1, 2, 1022, 1023, 1024, u32::MAX]);
            }
            Verdict::Refused(r) => compare_showing(text, cand, r.number, r.place),
        }
        got
    }

    // The large frame gives the same verdict and the same rooms.
    fn compare_frames(&self, text: &[u8], cand: &[u8], got: Verdict) {
        let mut rooms = self.marked.clone();
        assert_eq!(proved::judge_long(text, cand, &mut rooms.0, &mut rooms.1), got, "{}", pasted(text, cand));
        assert!(rooms == self.proved, "rooms of the large frame\n{}", pasted(text, cand));
    }

    // The list is a right one, and nothing else has changed.
    fn compare_cycle(&self, text: &[u8], cand: &[u8], n: usize) {
        let (room, cycle) = &self.proved;
        assert!(check_cycle(text, cand, &cycle[..n]), "{:?}\n{}", &cycle[..n], pasted(text, cand));
        assert!(cycle[n..] == self.marked.1[n..] && *room == self.marked.0, "rooms\n{}", pasted(text, cand));
        assert!(*room == self.second.0, "the second program's room\n{}", pasted(text, cand));
    }

    // Compares, counts, and looks at some other showings too.
    fn count(&mut self, random: &mut Random, counts: &mut Counts, text: &[u8], cand: &[u8]) {
        let verdict = self.compare(text, cand);
        counts.add(text, cand, verdict);
        let place = random.below(text.len().max(cand.len()) + 3) as u32;
        compare_showing(text, cand, *random.one_of(&SHOWN), place);
    }
}

/// Numbers that a showing is asked for: those of refusals, and some that no refusal has.
const SHOWN: [u32; 24] =
    [0, 1, 2, 3, 4, 5, 6, 7, 8, 9, 10, 11, 12, 20, 21, 22, 60, 61, 62, 63, 64, 65, 256 + 61, u32::MAX];

// Compares the showing for a number and a place.
fn compare_showing(text: &[u8], cand: &[u8], number: u32, place: u32) {
    let part = second::show(text, cand, number, place);
    let wanted = if part.is_empty() { (0, 0) } else { (place, part.len() as u32) };
    assert_eq!(proved::shown(text, cand, number, place), wanted, "{number} {place}\n{}", pasted(text, cand));
}

// Compares the times of the listed names and of some numbers; gives how many were found.
fn compare_times(table: &[u8], others: &[u32]) -> usize {
    let listed = timetable::read(table).map_or(vec![], |t| t.0.iter().map(|r| r.0).collect());
    let compared = |term: &u32| {
        let got = proved::time(table, *term);
        assert_eq!(got, second::time(table, *term), "{term} {table:?}");
        got.is_ok()
    };
    listed.iter().chain(others).filter(|t| compared(t)).count()
}

// Compares one input in wide rooms.
fn compare(text: impl AsRef<[u8]>, cand: impl AsRef<[u8]>) -> Verdict {
    Both::wide(0x5A).compare(text.as_ref(), cand.as_ref())
}

// The proved judge's list for an input that is refused by 10.
fn cycle_of(text: &str, cand: &str) -> Vec<u32> {
    judged_by(proved::judge, text.as_bytes(), cand.as_bytes()).cycle
}

// The proved judge's times of send and recv.
fn send_recv(text: &str, cand: &str, length: u32) -> (u32, u32) {
    assert_eq!(compare(text, cand), Verdict::Accepted(length));
    let room = judged_by(proved::judge, text.as_bytes(), cand.as_bytes()).room;
    (proved::time(&room, 3).unwrap(), proved::time(&room, 4).unwrap())
}

#[test]
fn plan_p_and_its_neighbours() {
    assert_eq!(send_recv(P, "1 2 3\n", 44), (0, 5));
    assert_eq!(send_recv(P, "3\n", 36), (0, 5));
    assert_eq!(compare(P, "1 3\n"), refused(8, 22));
    assert_eq!(compare(P, "\n"), refused(8, 36));
    assert_eq!(compare(P, "2 3\n"), refused(9, 2));
    assert_eq!(compare(q(), "1 2 3\n"), refused(10, 2));
    assert_eq!(cycle_of(&q(), "1 2 3\n"), [2, 3]);
    assert_eq!(send_recv(&q(), "3\n", 36), (0, 45));
    assert_eq!(send_recv(&P.replace("9 0 5 40\n", "9 0 5 5\n"), "1 2 3\n", 44), (0, 5));
    assert_eq!(send_recv(&P.replace("1 0 1 2 0 1 1\n", ""), "2 3\n", 40), (0, 5));
    let room = judged_by(proved::judge, P.as_bytes(), b"1 2 3\n").room;
    let words = [2u32, 3, 16, 32, 3, 0, 4, 5, 1, 2, 3];
    assert_eq!(room, words.iter().flat_map(|w| w.to_le_bytes()).collect::<Vec<u8>>());
    assert_eq!(proved::shown(P.as_bytes(), b"1 3\n", 8, 22), (22, 13));
}

#[test]
fn other_examples() {
    let text = wrap("1 0 1 1 0 1 2\n1 0 1 2 0 1 1\n");
    assert_eq!(compare(&text, "1 2\n"), refused(9, 1));
    let text = wrap("1 0 1 1 0 1 -1\n");
    assert_eq!(compare(&text, "\n"), refused(8, 10));
    assert_eq!(compare(&text, "1\n"), refused(9, 1));
    let text =
        wrap("9 1 0 4 diff\n9 1 1 1 -\n9 1 2 2 <=\n9 0 3 0\n9 2 4 1 2 3 3\n9 4 0 1 4 0\n9 0 5 -1\n9 6 7 0 1 0 2 5\n");
    assert_eq!(compare(&text, "7\n"), refused(10, 1));
    assert_eq!(cycle_of(&text, "7\n"), [7]);
    assert_eq!(compare("", "\n"), refused(3, 0));
    assert_eq!(compare("", ""), refused(3, 0));
    assert_eq!(compare(wrap(""), "\n"), Verdict::Accepted(16));
    assert_eq!(compare(wrap("1 0 0 0 0\n"), ""), refused(7, 0));
    let first = wrap("1 1 1 1 0 0\n1 0 1 2 0 1 1\n1 0 1 3 0 1 -1\n4 1 a 1 1\n4 1 b 1 2\n4 1 c 1 3\n");
    assert_eq!(compare(&first, "1 2\n"), Verdict::Accepted(24));
    assert_eq!(compare(&first, "3\n"), Verdict::Accepted(20));
    assert_eq!(compare(&first, "1 2 3\n"), refused(9, 3));
    let facts: String = (1..=6).map(|a| format!("1 0 1 {a} 0 0\n")).collect();
    let tasks = wrap(&(facts + "4 7 task(1) 0\n4 7 task(2) 0\n4 15 duration(1,200) 0\n4 15 duration(2,400) 0\n9 0 1 200\n9 0 3 400\n9 0 6 1\n9 0 11 2\n9 1 0 4 diff\n9 1 2 2 <=\n9 1 4 1 -\n9 1 5 3 end\n9 1 8 5 start\n9 2 7 5 1 6\n9 2 9 8 1 6\n9 2 10 4 2 7 9\n9 2 12 5 1 11\n9 2 13 8 1 11\n9 2 14 4 2 12 13\n9 4 0 1 10 0\n9 4 1 1 14 0\n9 6 5 0 1 0 2 1\n9 6 6 0 1 1 2 3\n"));
    assert_eq!(compare(&tasks, "1 2 3 4 5 6\n"), Verdict::Accepted(16 + 8 * 4 + 4 * 6));
}

#[test]
fn weights() {
    check_traps(|text, cand| compare(text, cand));
    check_heaviest(|text, cand| compare(text, cand));
}

// The part of a text or a candidate that the proved judge shows.
fn shown(text: &[u8], cand: &[u8], Refusal { number, place }: Refusal) -> Vec<u8> {
    let (from, length) = proved::shown(text, cand, number, place);
    let bytes = if number == 7 { cand } else { text };
    bytes[from as usize..][..length as usize].to_vec()
}

#[test]
fn terms() {
    check_terms(|text, cand| compare(text, cand), shown);
    check_crowded(|text, cand| compare(text, cand));
    for place in 0..=P.len() as u32 {
        assert_eq!(proved::shown(P.as_bytes(), b"1 2 3\n", 6, place), (0, 0));
    }
}

#[test]
fn line_ends() {
    check_line_ends("ends", |text, cand| compare(text, cand), shown);
    let text = returned(P.as_bytes());
    for place in 0..=text.len() as u32 {
        compare_showing(&text, b"1 2 3\r\n", 3, place);
        compare_showing(P.as_bytes(), &text, 7, place);
    }
}

#[test]
fn every_cut_of_plan_p() {
    let mut both = Both::wide(3);
    let weights = P.replace("1 0 1 2 0 1 1\n", "1 0 1 2 1 7 3 1 3 3 4 -2 1\n");
    let plans = [P.to_string(), q(), weights].map(String::into_bytes);
    for text in plans.iter().cloned().chain(plans.iter().map(|text| returned(text))) {
        for end in 0..text.len() {
            both.compare(&text[..end], b"1 2 3\n");
            for byte in [0, 9, 10, 13, 32, b'-', b'0', b'1', b'9', 255] {
                let mut changed = text.clone();
                changed[end] = byte;
                both.compare(&changed, b"1 2 3\r\n");
            }
        }
    }
}

#[test]
fn rooms_too_short() {
    let long = generating::long_text(60_001);
    for (room, cycle, wanted) in [
        (ROOM_BYTES - 1, CYCLE_PLACES, Some((1, 24_592))),
        (ROOM_BYTES - 1, CYCLE_PLACES - 1, Some((1, 24_592))),
        (ROOM_BYTES, CYCLE_PLACES - 1, Some((1, 1_024))),
        (ROOM_BYTES + 9, 0, Some((1, 1_024))),
        (0, 0, Some((1, 24_592))),
        (0, CYCLE_PLACES + 5, Some((1, 24_592))),
        (44, 2, Some((1, 24_592))),
        (ROOM_BYTES, CYCLE_PLACES, None),
    ] {
        for text in [P.as_bytes(), q().as_bytes(), b"", &long] {
            for cand in [&b"1 2 3\n"[..], b"", b"2 3\n"] {
                let got = Both::new(room, cycle, 17).compare(text, cand);
                assert!(wanted.is_none_or(|(n, p)| got == refused(n, p)));
            }
        }
    }
}

#[test]
fn long_texts() {
    let mut both = Both::wide(5);
    for length in [59_999, 60_000, 60_001, 60_002, 65_536, 200_000] {
        let text = padded(P.as_bytes(), length);
        assert_eq!(text.len(), length);
        let wanted = if length <= 60_000 { Verdict::Accepted(44) } else { refused(2, 60_000) };
        assert_eq!(both.compare(&text, b"1 2 3\n"), wanted);
        for byte in [0, 10, 13, 32, b'1', 255] {
            both.compare(&vec![byte; length], b"1 2 3\n");
            both.compare(&[b"asp 1 0 0\n".to_vec(), vec![byte; length - 10]].concat(), b"\n");
            both.compare(&[b"asp 1 0 0\r\n10 ".to_vec(), vec![byte; length - 14]].concat(), b"\n");
        }
        assert_eq!(both.compare(&padded(&returned(P.as_bytes()), length), b"1 2 3\r\n"), wanted);
        let digits = [b"asp 1 0 0\n1 0 1 ".to_vec(), vec![b'1'; length - 16]].concat();
        both.compare(&digits, b"\n");
        both.compare(P.as_bytes(), &vec![b'1'; length]);
        both.compare(P.as_bytes(), &[b"1 2 3\n".to_vec(), vec![b'1'; length]].concat());
        both.compare(P.as_bytes(), &"1 ".repeat(length / 2).into_bytes());
    }
    let mut random = random(1);
    for _ in 0..times(60) {
        let chain = some_returned(&mut random, generating::rule_chain(2500, true).0);
        let mut text = padded(&chain, 59_990 + random.below(20));
        damage(&mut random, &mut text);
        both.compare(&text, b"\n");
    }
}

#[test]
fn the_shortest_lines() {
    let mut both = Both::wide(6);
    for line in ["1 1 0 0 0\n", "1 1 0 1 0 0\n", "10 \n", "4 0  0\n"] {
        for length in (1_980..2_020).chain(59_980..=60_000) {
            let text = wrap(&line.repeat((length - 12) / line.len()));
            assert_eq!(both.compare(text.as_bytes(), b"\n"), Verdict::Accepted(16));
            let text = wrap(&line.repeat((length - 14) / (line.len() + 1)));
            assert_eq!(both.compare(&returned(text.as_bytes()), b"\r\n"), Verdict::Accepted(16));
        }
    }
}

// As many names as a plan can have, every term but the last: 512 differences, each with the bound -1,000,000.
fn most_names() -> String {
    let mut lines = String::from("9 1 0 4 diff\n9 1 1 1 -\n9 1 2 2 <=\n9 0 3 -1000000\n");
    lines.extend((4..512).map(|t| format!("9 0 {t} 0\n")));
    for i in 0..512 {
        let (term, y) = (512 + i, 511 + i);
        lines += &format!("9 2 {term} 1 2 {i} {y}\n9 4 {i} 1 {term} 0\n9 6 {} 0 1 {i} 2 3\n", i + 1);
    }
    lines
}

#[test]
fn the_largest_candidates_and_tables() {
    let mut both = Both::wide(7);
    let (text, all) = choice(4096);
    assert_eq!(both.compare(&text, &all), Verdict::Accepted(16 + 4 * 4096));
    assert_eq!(both.compare(&text, &all_atoms(4095)), Verdict::Accepted(16 + 4 * 4095));
    assert_eq!(both.compare(&text, &all_atoms(4097)), refused(7, all.len() as u32));
    assert_eq!(both.compare(&choice(4095).0, &all), refused(9, 4096));
    let text = [&text[..text.len() - 2], most_names().as_bytes(), b"0\n"].concat();
    assert!(text.len() <= 60_000, "{}", text.len());
    assert_eq!(both.compare(&text, &all), Verdict::Accepted(16 + 8 * 1023 + 4 * 4096));
    let mut exact = Both::new(ROOM_BYTES, CYCLE_PLACES, 8);
    assert_eq!(exact.compare(&text, &all), Verdict::Accepted(16 + 8 * 1023 + 4 * 4096));
}

#[test]
fn long_chains() {
    let mut both = Both::wide(9);
    for names in [2, 3, 4, 10, 100, 300, 508] {
        for (bound, close) in [
            (-1_000_000, None),
            (-1, Some(names as i64 - 1)),
            (-1, Some(names as i64 - 2)),
            (0, Some(-1)),
            (1, Some(0)),
            (-7, Some(-1)),
        ] {
            let (text, cand) = generating::chain(names, bound, close);
            both.compare(&text, &cand);
        }
    }
    for (atoms, founded) in [(2, true), (2, false), (2500, true), (2500, false), (2600, true), (2600, false)] {
        let (text, cand) = generating::rule_chain(atoms, founded);
        both.compare(&text, &cand);
        both.compare(&text, &all_atoms(atoms - 1));
        both.compare(&text, &all_atoms(atoms + 1));
    }
    for (atoms, rounds) in [(4, 4), (30, 1), (30, 7), (1400, 1), (1400, 40), (1400, 1400)] {
        let (text, cand) = generating::weight_chain(atoms, rounds, true);
        assert_eq!(both.compare(&text, &cand), Verdict::Accepted(16 + 4 * atoms as u32));
        both.compare(&text, &all_atoms(atoms - 1));
        let (text, cand) = generating::weight_chain(atoms, rounds, false);
        assert_eq!(both.compare(&text, &cand), refused(9, 1));
    }
}

#[test]
fn generated() {
    let (mut random, mut both, mut counts) = (random(2), Both::wide(11), Counts::default());
    for _ in 0..times(90_000) {
        let (text, cand) = cases::case(&mut random);
        both.count(&mut random, &mut counts, &text, &cand);
    }
    counts.settle("generated", &[0, 3, 4, 5, 61, 62, 63, 64, 7, 8, 9, 10], 100);
}

#[test]
fn damaged() {
    let (mut random, mut both, mut counts) = (random(3), Both::wide(13), Counts::default());
    for _ in 0..times(3_000) {
        let made = cases::undamaged(&mut random);
        for _ in 0..20 {
            let (text, cand) = cases::damaged(&mut random, &made);
            both.count(&mut random, &mut counts, &text, &cand);
        }
    }
    counts.settle("damaged", &[0, 3, 4, 5, 7, 8, 9, 10], 20);
    counts.ask(&[61, 62, 63, 64], counts.inputs() / 10);
}

// Fields of any kind in lines of any length, often with the header and the `0` line.
fn any_text(random: &mut Random) -> Vec<u8> {
    let words = [
        "0", "1", "2", "3", "4", "5", "6", "9", "10", "-1", "-2", "-3", "-4", "12", "1023", "1024", "4096", "4097",
        "100001", "1000000001", "a", "", "00", "diff", "-", "<=",
    ];
    let mut text = if random.once_in(20) { vec![] } else { b"asp 1 0 0\n".to_vec() };
    for _ in 0..random.below(5) {
        let first = ["1 0", "1 1", "1 0 1 1 1", "4 1 a", "9 0", "9 1", "9 2", "9 4", "9 5", "9 6", "10 x"];
        text.extend(random.one_of(&first).as_bytes());
        for _ in 0..random.below(8) {
            text.push(if random.once_in(200) { random.below(256) as u8 } else { b' ' });
            let small = random.below(3).to_string();
            let word = if random.once_in(3) { *random.one_of(&words) } else { &small };
            text.extend(word.as_bytes());
        }
        text.push(if random.once_in(200) { random.below(256) as u8 } else { 10 });
    }
    if !random.once_in(20) {
        text.extend(b"0\n");
    }
    text
}

// Bytes of any kind, many of them digits, spaces, 10 and 13.
fn any_bytes(random: &mut Random, most: usize) -> Vec<u8> {
    let n = random.below(most + 1);
    let byte = |r: &mut Random| match r.below(4) {
        0 => r.below(256) as u8,
        _ => *r.one_of(b"0123456789 \n\r-"),
    };
    (0..n).map(|_| byte(random)).collect()
}

#[test]
fn any_texts() {
    let (mut random, mut both, mut counts) = (random(4), Both::wide(15), Counts::default());
    for i in 0..times(60_000) {
        let text = match i % 4 {
            0 => any_bytes(&mut random, 60),
            1 => [b"asp 1 0 0\n".to_vec(), any_bytes(&mut random, 40)].concat(),
            _ => any_text(&mut random),
        };
        let cand = match i % 6 {
            0 => any_bytes(&mut random, 12),
            3 => [any_bytes(&mut random, 12), b"\n".to_vec()].concat(),
            _ => b"1 2\n".to_vec(),
        };
        let (text, cand) = varied(&mut random, (text, cand));
        both.count(&mut random, &mut counts, &text, &cand);
    }
    counts.settle("any texts", &[3, 4, 5, 62, 7], 40);
}

#[test]
fn networks() {
    let (mut random, mut both, mut counts) = (random(5), Both::wide(19), Counts::default());
    for _ in 0..times(12_000) {
        let made = generating::network(&mut random);
        let (text, cand) = varied(&mut random, made);
        both.count(&mut random, &mut counts, &text, &cand);
    }
    counts.settle("networks", &[0, 10], 1_000);
}

#[test]
fn loose_theories() {
    let (mut random, mut both, mut counts) = (random(6), Both::wide(21), Counts::default());
    for _ in 0..times(30_000) {
        let text = generating::loose(&mut random);
        let cand = generating::candidate(&mut random, &text);
        let (text, cand) = varied(&mut random, (text, cand));
        both.count(&mut random, &mut counts, &text, &cand);
    }
    counts.settle("loose theories", &[0, 61, 62, 63, 64, 8], 100);
}

#[test]
fn rooms_of_random_sizes() {
    let (mut random, mut counts) = (random(7), Counts::default());
    for _ in 0..times(2_000) {
        let (text, cand) = cases::case(&mut random);
        let room = ROOM_BYTES - 3 + random.below(8);
        let cycle = CYCLE_PLACES - 3 + random.below(8);
        let mut both = Both::new(room, cycle, random.below(256) as u32);
        both.count(&mut random, &mut counts, &text, &cand);
    }
    counts.settle("rooms of random sizes", &[0, 1, 3, 8], 20);
}

// Ascending numbers up to a largest.
fn ascending(random: &mut Random, least: u32, most: u32, n: usize) -> Vec<u32> {
    let mut all: Vec<u32> = (0..n).map(|_| random.from_to(i64::from(least), i64::from(most)) as u32).collect();
    all.sort();
    all.dedup();
    all
}

// A timetable.
fn table(random: &mut Random) -> Vec<u8> {
    let n = random.below(7);
    let times = [0, 1, 255, 256, 65_536, 1_022_999_999, 1_023_000_000];
    let names = ascending(random, 0, 1023, n);
    let records: Vec<(u32, u32)> = names.iter().map(|t| (*t, *random.one_of(&times))).collect();
    let m = random.below(7);
    let atoms = ascending(random, 1, 4096, m);
    let mut bytes = vec![0; timetable::length(records.len(), atoms.len())];
    timetable::write(&mut bytes, &records, &atoms);
    bytes
}

// Damages a slice that may be a timetable.
fn damage_table(random: &mut Random, bytes: &mut Vec<u8>) {
    let edges = [
        0, 1, 2, 3, 15, 16, 17, 24, 32, 1023, 1024, 4096, 4097, 1_023_000_000, 1_023_000_001, 0x2000_0000, 0x4000_0000,
        0x8000_0000, 0xFFFF_FFFF,
    ];
    match random.below(5) {
        0 => bytes.truncate(random.below(bytes.len() + 1)),
        1 => bytes.extend(vec![0; 1 + random.below(9)]),
        2 if !bytes.is_empty() => {
            let at = random.below(bytes.len());
            bytes[at] = random.below(256) as u8;
        }
        _ if bytes.len() >= 4 => {
            let at = 4 * random.below(bytes.len() / 4);
            let old = u32::from_le_bytes([bytes[at], bytes[at + 1], bytes[at + 2], bytes[at + 3]]);
            let near = [old.wrapping_sub(1), old.wrapping_add(1), old.wrapping_add(2)];
            let new = if random.once_in(2) { *random.one_of(&near) } else { *random.one_of(&edges) };
            bytes[at..at + 4].copy_from_slice(&new.to_le_bytes());
        }
        _ => bytes.push(0),
    }
}

#[test]
fn timetables() {
    let mut random = random(8);
    let (mut tables, mut found) = ([0, 0], 0);
    for _ in 0..times(200_000) {
        let mut bytes = table(&mut random);
        for _ in 0..random.below(4) {
            damage_table(&mut random, &mut bytes);
        }
        tables[usize::from(timetable::read(&bytes).is_some())] += 1;
        let others = [random.below(1030) as u32, random.bits() as u32, 1023, u32::MAX];
        found += compare_times(&bytes, &others);
    }
    println!("timetables: {tables:?} (no table, a table), {found} times found");
    assert!(tables.iter().all(|n| *n > 20_000) && found > 20_000);
}

#[test]
fn further_time_rules() {
    let (mut random, mut texts, mut cands) = (random(9), Ends::default(), Ends::default());
    let mut seen: BTreeMap<&str, u32> = BTreeMap::new();
    for _ in 0..times(30_000) {
        let made = generating::plan(&mut random);
        let cand = generating::candidate(&mut random, &made);
        let (text, cand) = (some_returned(&mut random, made), some_returned(&mut random, cand));
        let Some(mut e) = further::extended(&mut random, &text, &cand) else { continue };
        e.cand = some_returned(&mut random, e.cand);
        [&text, &e.text].iter().for_each(|bytes| texts.add(bytes));
        [&cand, &e.cand].iter().for_each(|bytes| cands.add(bytes));
        let old = judged_by(proved::judge, &text, &cand);
        let new = judged_by(proved::judge, &e.text, &e.cand);
        for part in further::check(&old, &new, &text, &e, proved::time) {
            *seen.entry(part).or_default() += 1;
        }
    }
    println!("further time rules: {seen:?}, {texts:?}, {cands:?}");
    [texts, cands].iter().for_each(Ends::ask_returned);
    assert!(seen.len() == 6 && seen.values().all(|n| *n > 100), "{seen:?}");
}
