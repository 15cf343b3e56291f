#![allow(dead_code)]
pub mod ends;
pub mod further;
pub mod writing;
use second::judge::fields::LineEnd;
use second::judge::judging::{CYCLE_PLACES, ROOM_BYTES};
use second::testing::line_end_traps::{self, Answered};
use second::testing::line_ends::returned;
use second::testing::plans::{unsound, Unsound};
use second::{Body, Difference, Literal, Refusal, Verdict};

pub const P: &str = "asp 1 0 0
1 1 1 1 0 0
1 0 1 2 0 1 1
1 0 1 3 0 0
9 1 0 4 diff
9 1 1 1 -
9 1 2 2 <=
9 1 3 4 send
9 1 4 4 recv
9 0 5 40
9 2 6 1 2 4 3
9 4 0 1 6 0
9 6 2 0 1 0 2 5
9 0 8 5
9 2 9 1 1 8
9 2 7 1 2 3 4
9 4 1 1 7 0
9 6 3 0 1 1 2 9
0
";

// Plan Q: P with 45 for term 8.
pub fn q() -> String {
    P.replace("9 0 8 5\n", "9 0 8 45\n")
}

// A refused verdict.
pub fn refused(number: u32, place: u32) -> Verdict {
    Verdict::Refused(Refusal { number, place })
}

// Everything a judging leaves behind.
#[derive(Debug, PartialEq, Eq)]
pub struct Judged {
    pub verdict: Verdict,
    pub room: Vec<u8>,
    pub cycle: Vec<u32>,
}

/// A program that judges.
pub type Judge = fn(&[u8], &[u8], &mut [u8], &mut [u32]) -> Verdict;

// Judges by the second program.
pub fn judged(text: &[u8], cand: &[u8]) -> Judged {
    judged_by(second::judge, text, cand)
}

// Judges in marked rooms and checks what may never change.
pub fn judged_by(judge: Judge, text: &[u8], cand: &[u8]) -> Judged {
    let mut room: Vec<u8> = (0..ROOM_BYTES + 40).map(|i| (i % 251) as u8 ^ 0x5A).collect();
    let mut cycle: Vec<u32> = (0..CYCLE_PLACES as u32 + 7).map(|i| i ^ 0xDEAD_0000).collect();
    let (room_before, cycle_before) = (room.clone(), cycle.clone());
    let verdict = judge(text, cand, &mut room, &mut cycle);
    let (from_room, from_cycle) = match verdict {
        Verdict::Accepted(n) => (n as usize, 0),
        Verdict::Refused(Refusal { number: 10, place }) => (0, place as usize),
        Verdict::Refused(_) => (0, 0),
    };
    assert_eq!(room[from_room..], room_before[from_room..]);
    assert_eq!(cycle[from_cycle..], cycle_before[from_cycle..]);
    room.truncate(from_room);
    cycle.truncate(from_cycle);
    Judged { verdict, room, cycle }
}

// What the second program shows for a refusal.
pub fn shown(text: &[u8], cand: &[u8], Refusal { number, place }: Refusal) -> Vec<u8> {
    second::show(text, cand, number, place).to_vec()
}

// The verdict alone.
pub fn verdict(text: impl AsRef<[u8]>, cand: impl AsRef<[u8]>) -> Verdict {
    judged(text.as_ref(), cand.as_ref()).verdict
}

// The header and `0` line around some lines.
pub fn wrap(lines: &str) -> String {
    format!("asp 1 0 0\n{lines}0\n")
}

/// Lines with weights, a candidate without its line end, and the refusal.
type Trap = (&'static str, &'static str, Option<(u32, u32)>);

/// What may go wrong with weights.
const TRAPS: &[Trap] = &[
    // At least two of five links.
    ("1 1 5 1 2 3 4 5 0 0\n1 0 1 6 1 2 5 1 1 2 1 3 1 4 1 5 1\n", "1 2 6", None),
    ("1 1 5 1 2 3 4 5 0 0\n1 0 1 6 1 2 5 1 1 2 1 3 1 4 1 5 1\n", "1 2", Some((8, 30))),
    ("1 1 5 1 2 3 4 5 0 0\n1 0 1 6 1 2 5 1 1 2 1 3 1 4 1 5 1\n", "1 6", Some((9, 6))),
    // A literal twice.
    ("1 1 1 1 0 0\n1 0 1 2 1 2 2 1 1 1 1\n", "1 2", None),
    ("1 1 1 1 0 0\n1 0 1 2 1 2 2 1 1 1 1\n", "1", Some((8, 22))),
    // Weights taken off the bound: all of it, all but one, more than it.
    ("1 0 1 1 1 5 2 1 5 -2 5\n", "1", None),
    ("1 0 1 1 1 6 2 1 5 -2 5\n", "1", Some((9, 1))),
    ("1 0 1 1 1 5 2 1 1 -2 9\n", "1", None),
    // The bound 0, and a loop.
    ("1 0 1 1 1 0 0\n", "1", None),
    ("1 0 1 1 1 0 0\n", "", Some((8, 10))),
    ("1 0 0 1 0 0\n", "", Some((8, 10))),
    ("1 0 1 1 1 1 2 2 1 3 1\n1 0 1 2 0 1 1\n", "1 2", Some((9, 1))),
    // Bounds, weights, and what else is wrong in the text.
    ("1 0 1 1 1 1000000001 0\n", "", Some((5, 20))),
    ("1 0 1 1 1 99999999999999999999 0\n", "", Some((5, 20))),
    ("1 0 1 1 1 -1 0\n", "", Some((3, 20))),
    ("1 0 1 1 1 1 1 2 0\n", "", Some((5, 26))),
    ("1 0 1 1 1 1 1 2 100001\n", "", Some((5, 26))),
    ("1 0 1 1 1 1 1 2 -1\n", "", Some((3, 26))),
    ("1 0 1 1 1 1 1 2\n", "", Some((3, 25))),
    ("1 0 1 1 1 1 1 0 0\n", "", Some((5, 24))),
    ("1 0 1 1 1 1 4097\n", "", Some((5, 22))),
    ("1 0 1 1 2 0\n", "", Some((3, 18))),
    ("1 0 1 1 1\n", "", Some((3, 19))),
];

// Asks of a program that judges what it says to each trap.
pub fn check_traps(judge: impl Fn(&str, &str) -> Verdict) {
    for (lines, cand, wanted) in TRAPS {
        let refused = match judge(&wrap(lines), &format!("{cand}\n")) {
            Verdict::Accepted(_) => None,
            Verdict::Refused(r) => Some((r.number, r.place)),
        };
        assert_eq!(refused, *wanted, "{lines}{cand}");
    }
}

// Where a place of some bytes whose lines end in 10 stands when they end in 13 10.
pub fn moved(bytes: &[u8], place: u32) -> u32 {
    place + bytes[..place as usize].iter().filter(|b| **b == b'\n').count() as u32
}

/// The first line, without its end.
const FIRST_LINE: &[u8] = b"asp 1 0 0";

// A text with so many bytes more: a comment behind the first line, ended as that.
fn lengthened(text: &[u8], more: usize) -> Vec<u8> {
    if more == 0 {
        return text.to_vec();
    }
    let end = LineEnd::kind_of(text).bytes();
    let (first, rest) = text.split_at(FIRST_LINE.len() + end.len());
    let comment = vec![b'c'; more - b"10 ".len() - end.len()];
    [first, b"10 ", &comment, end, rest].concat()
}

// The lengths that a text is tried with: its own, and if its first line is right those around the bounds of a frame.
fn lengths(text: &[u8]) -> Vec<usize> {
    let whole = text.strip_prefix(FIRST_LINE).is_some_and(|rest| LineEnd::in_front(rest).is_some());
    let others: &[usize] = if whole { &[2_000, 2_001, 60_000] } else { &[] };
    [&[text.len()], others].concat()
}

// What a text is answered at each length it is tried with: a place in the text is moved by the bytes put before it.
fn at_each_length(Answered { name, text, cand, refusal, shown }: &Answered) -> Vec<Answered> {
    let at_length = |length: usize| {
        let more = length - text.len();
        let shifted = |Refusal { number, place }| {
            let in_text = !matches!(number, 7 | 9 | 10);
            Refusal { number, place: if in_text { place + more as u32 } else { place } }
        };
        Answered { name, text: lengthened(text, more), cand: cand.clone(), refusal: refusal.map(shifted), shown }
    };
    lengths(text).into_iter().map(at_length).collect()
}

// Asks of a program whether it answers so and shows so.
fn check_answer(
    judge: &impl Fn(&[u8], &[u8]) -> Verdict,
    show: &impl Fn(&[u8], &[u8], Refusal) -> Vec<u8>,
    Answered { name, text, cand, refusal, shown }: &Answered,
) {
    let (got, length) = (judge(text, cand), text.len());
    let Some(wanted) = *refusal else {
        return assert!(matches!(got, Verdict::Accepted(_)), "{name} {length} {got:?}");
    };
    assert_eq!(got, Verdict::Refused(wanted), "{name} {length}");
    assert_eq!(show(text, cand, wanted), shown.as_bytes(), "{name} {length}");
}

// Asks of a program what it says to each trap of line ends whose name begins so, also lengthened, and what it shows.
pub fn check_line_ends(
    front: &str,
    judge: impl Fn(&[u8], &[u8]) -> Verdict,
    show: impl Fn(&[u8], &[u8], Refusal) -> Vec<u8>,
) {
    let all = line_end_traps::texts().into_iter().chain(line_end_traps::candidates());
    let traps: Vec<Answered> = all.filter(|trap| trap.name.starts_with(front)).collect();
    assert!(!traps.is_empty(), "{front}");
    traps.iter().flat_map(at_each_length).for_each(|trap| check_answer(&judge, &show, &trap));
}

// What an unsound text is answered, with both line ends and at each length.
fn unsound_answers(Unsound { name, text, refusal: Refusal { number, place }, shown }: Unsound) -> Vec<Answered> {
    let answered = |text: Vec<u8>, place| {
        let refusal = Some(Refusal { number, place });
        at_each_length(&Answered { name, text, cand: b"\n".to_vec(), refusal, shown })
    };
    let text = text.into_bytes();
    [answered(returned(&text), moved(&text, place)), answered(text, place)].into_iter().flatten().collect()
}

// Asks of a program what it says to each unsound text and what it shows; for 6, at the same place, it shows nothing.
pub fn check_terms(judge: impl Fn(&[u8], &[u8]) -> Verdict, show: impl Fn(&[u8], &[u8], Refusal) -> Vec<u8>) {
    for answered in unsound().into_iter().flat_map(unsound_answers) {
        check_answer(&judge, &show, &answered);
        let Answered { name, text, cand, refusal, .. } = answered;
        let six = Refusal { number: 6, ..refusal.unwrap() };
        assert_eq!(show(&text, &cand, six), b"", "{name} {}", text.len());
    }
}

// Asks of a program where it finds what is undefined in a theory atom with as many elements as a count allows.
pub fn check_crowded(judge: impl Fn(&str, &str) -> Verdict) {
    let front = "9 1 0 4 diff\n9 1 2 2 <=\n9 0 3 7\n9 4 0 0 0\n";
    let line = 10 + front.len() as u32;
    let many = " 0".repeat(4_094);
    for (rest, number, place) in [
        (format!("9{many} 9 9 9"), 62, 13),
        (format!("0{many} 9 9 9"), 62, 15 + 8_188),
        (format!("0{many} 0 9 9"), 62, 17 + 8_188),
        (format!("0{many} 0 2 9"), 62, 19 + 8_188),
        (format!("0{many} 0 2 3"), 64, 0),
    ] {
        assert_eq!(judge(&wrap(&format!("{front}9 6 1 0 4096 {rest}\n")), "\n"), refused(number, line + place));
    }
}

/// Bounds, and whether the heaviest body reaches them; the largest bound is reached by none.
const HEAVIEST: [(u32, bool); 6] =
    [(0, true), (1, true), (409_599_999, true), (409_600_000, true), (409_600_001, false), (1_000_000_000, false)];

// Asks of a program that judges what it says to the heaviest body.
pub fn check_heaviest(judge: impl Fn(&str, &str) -> Verdict) {
    for (bound, reached) in HEAVIEST {
        let text = heaviest(bound);
        let unlike =
            if reached { [Verdict::Accepted(24), refused(8, 22)] } else { [refused(9, 1), Verdict::Accepted(20)] };
        assert_eq!(["1 2\n", "2\n"].map(|cand| judge(&text, cand)), unlike, "{bound}");
        assert_eq!(judge(&text, "\n"), if bound == 0 { refused(8, 22) } else { Verdict::Accepted(16) }, "{bound}");
    }
}

// Atom 2 by choice, and atom 1 by the heaviest body: atom 2 as often as a count allows, each with the largest weight.
fn heaviest(bound: u32) -> String {
    wrap(&format!("1 1 1 2 0 0\n1 0 1 1 1 {bound} 4096{}\n", " 2 100000".repeat(4096)))
}

// The literals of a body.
pub fn literals_of(body: &Body) -> Vec<Literal> {
    match body {
        Body::Normal(literals) => literals.clone(),
        Body::Weights { literals, .. } => literals.iter().map(|w| w.literal).collect(),
    }
}

// The names and the differences in force.
pub fn in_force(differences: &[Difference], atoms: &[u32]) -> (Vec<u32>, Vec<Difference>) {
    let mut names: Vec<u32> = differences.iter().flat_map(|d| [d.x, d.y]).collect();
    names.sort();
    names.dedup();
    (names, differences.iter().filter(|d| atoms.contains(&d.atom)).copied().collect())
}

// Floyd-Warshall: whether a cycle with a sum below zero exists.
pub fn negative_cycle(names: &[u32], force: &[Difference]) -> bool {
    const FAR: i64 = i64::MAX / 4;
    let n = names.len();
    let at = |t: u32| names.iter().position(|n| *n == t).unwrap();
    let mut d = vec![vec![FAR; n]; n];
    for f in force {
        let (x, y) = (at(f.x), at(f.y));
        d[x][y] = d[x][y].min(f.bound);
    }
    for k in 0..n {
        for i in 0..n {
            for j in 0..n {
                if d[i][k] < FAR && d[k][j] < FAR {
                    d[i][j] = d[i][j].min(d[i][k] + d[k][j]);
                }
            }
        }
    }
    (0..n).any(|i| d[i][i] < 0)
}
