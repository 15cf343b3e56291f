//! Reports to try the writers with: plan P's, and random ones with awkward names.
#![allow(dead_code)]
use plan::report::{Atom, Edge, LineAt, Report, Time};

/// A small generator of numbers with a fixed seed (splitmix64).
pub struct Random(pub u64);

impl Random {
    // The next 64 bits.
    pub fn bits(&mut self) -> u64 {
        self.0 = self.0.wrapping_add(0x9E37_79B9_7F4A_7C15);
        let z = (self.0 ^ (self.0 >> 30)).wrapping_mul(0xBF58_476D_1CE4_E5B9);
        let z = (z ^ (z >> 27)).wrapping_mul(0x94D0_49BB_1331_11EB);
        z ^ (z >> 31)
    }

    // A number below `n`, which is not 0.
    pub fn below(&mut self, n: u64) -> u64 {
        self.bits() % n
    }

    // A few things, each made by `make`.
    fn some<T>(&mut self, make: fn(&mut Random) -> T) -> Vec<T> {
        (0..self.below(5)).map(|_| make(self)).collect()
    }
}

/// Pieces of names that a writer may trip over.
pub const AWKWARD: [&str; 22] = [
    "", "a", "recv(pmu2)", "\"", "\\", "\\\"", "\\u0041", "\0", "\u{1}", "\u{8}", "\t", "\n", "\r", "\u{1f}", "\u{7f}",
    "é", "\u{2028}\u{2029}", "\u{fffd}\u{ffff}", "😀", "</text>", "&amp;<&>'", "]]>",
];

// A name of a few pieces.
pub fn name(random: &mut Random) -> String {
    (0..random.below(4)).map(|_| AWKWARD[random.below(AWKWARD.len() as u64) as usize]).collect()
}

// A number of any size, the least and the greatest among them.
fn any(random: &mut Random) -> i64 {
    match random.below(8) {
        0 => i64::MIN,
        1 => i64::MAX,
        2 => 0,
        3 => random.bits() as i64,
        _ => random.below(200) as i64 - 100,
    }
}

// A name with a time.
fn time(random: &mut Random) -> Time {
    let since_zero = if random.below(2) == 0 { None } else { Some(any(random)) };
    Time { term: random.bits() as u32, name: name(random), time: any(random) as u32, since_zero }
}

// A difference.
fn edge(random: &mut Random) -> Edge {
    let (x, y, k) = (name(random), name(random), any(random));
    Edge { atom: random.bits() as u32, name: name(random), x, y, k, line: random.below(9) as usize }
}

// An atom.
fn atom(random: &mut Random) -> Atom {
    Atom { atom: random.bits() as u32, name: name(random) }
}

// A place in a line.
fn line(random: &mut Random) -> LineAt {
    LineAt { number: random.bits() as usize >> 1, text: name(random), column: random.below(9) as usize }
}

/// A report of anything.
pub fn report(random: &mut Random) -> Report {
    let accepted = random.below(2) == 0;
    Report {
        accepted,
        number: if accepted { 0 } else { 8 + random.below(3) as u32 },
        place: random.bits() as u32,
        first: name(random),
        line: random.some(line).pop(),
        times: random.some(time),
        tight: random.some(edge),
        atoms: random.some(atom),
        cycle: random.some(edge),
        sum: any(random),
        warnings: random.some(name),
        comment: random.some(name),
    }
}

/// A name at a time.
pub fn at(name: &str, time: u32) -> Time {
    Time { term: 1, name: name.to_string(), time, since_zero: None }
}

/// The difference x - y <= k.
pub fn difference(x: &str, y: &str, k: i64) -> Edge {
    Edge { atom: 3, name: "#3".to_string(), x: x.to_string(), y: y.to_string(), k, line: 18 }
}

/// Plan P, accepted: send at 0, recv at 5.
pub fn plan_p() -> Report {
    Report {
        accepted: true,
        place: 44,
        first: "accepted 2 3".to_string(),
        times: vec![Time { term: 3, ..at("send", 0) }, Time { term: 4, ..at("recv", 5) }],
        tight: vec![difference("send", "recv", -5)],
        atoms: (1..4).map(|atom| Atom { atom, name: format!("#{atom}") }).collect(),
        ..Report::default()
    }
}
