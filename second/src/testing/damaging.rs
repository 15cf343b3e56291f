//! Damage to the bytes of a text or a candidate.

use super::random::Random;
use crate::judge::fields::{FEED, RETURN, SPACE};

// Numbers at the edges of some bound, as they may be written.
fn edge_number(random: &mut Random) -> Vec<u8> {
    let edges = [
        "0", "1", "2", "3", "4", "5", "6", "7", "8", "9", "10", "11", "1023", "1024", "4095", "4096", "4097",
        "1000000", "1000001", "-1000000", "-1000001", "60000", "100000", "100001", "1000000000", "1000000001",
        "4294967295", "4294967296", "4294967297", "18446744073709551616", "18446744073709551617", "-4294967297", "-1",
        "-2", "-3", "-4", "-4096", "-4097", "-0", "00", "01", "-", "-01", "007", "+1", "--1", "1-", "",
    ];
    match random.below(20) {
        0 => vec![b'9'; 1000],
        1 => [vec![b'1'], vec![b'0'; 999]].concat(),
        2 => [vec![b'-'], vec![b'3'; 1000]].concat(),
        _ => random.one_of(&edges).as_bytes().to_vec(),
    }
}

// The ranges of the fields in some bytes.
fn fields(bytes: &[u8]) -> Vec<(usize, usize)> {
    let mut all = Vec::new();
    let mut first = 0;
    for (i, b) in bytes.iter().enumerate() {
        if *b == SPACE || *b == FEED {
            let returned = *b == FEED && bytes[first..i].ends_with(&[RETURN]);
            all.push((first, if returned { i - 1 } else { i }));
            first = i + 1;
        }
    }
    if first < bytes.len() {
        all.push((first, bytes.len()));
    }
    all
}

// Puts an edge number in the place of some field.
fn damage_number(random: &mut Random, bytes: &mut Vec<u8>) {
    let all = fields(bytes);
    if all.is_empty() {
        return;
    }
    let (first, end) = *random.one_of(&all);
    bytes.splice(first..end, edge_number(random));
}

// Swaps two fields, often of one neighbourhood.
fn damage_swap(random: &mut Random, bytes: &mut Vec<u8>) {
    let all = fields(bytes);
    if all.len() < 2 {
        return;
    }
    let i = random.below(all.len() - 1);
    let j = if random.once_in(2) { i + 1 } else { i + 1 + random.below(all.len() - i - 1) };
    let (a, b) = (all[i], all[j]);
    let (left, right) = (bytes[a.0..a.1].to_vec(), bytes[b.0..b.1].to_vec());
    bytes.splice(b.0..b.1, left);
    bytes.splice(a.0..a.1, right);
}

// Drops, doubles or exchanges whole lines.
fn damage_lines(random: &mut Random, bytes: &mut Vec<u8>) {
    let mut lines: Vec<Vec<u8>> = bytes.split_inclusive(|b| *b == FEED).map(|l| l.to_vec()).collect();
    if lines.is_empty() {
        return;
    }
    let i = random.below(lines.len());
    let j = random.below(lines.len());
    match random.below(3) {
        0 => drop(lines.remove(i)),
        1 => lines.insert(j, lines[i].clone()),
        _ => lines.swap(i, j),
    }
    *bytes = lines.concat();
}

// The positions of some byte.
fn positions(bytes: &[u8], byte: u8) -> Vec<usize> {
    bytes.iter().enumerate().filter(|(_, b)| **b == byte).map(|(i, _)| i).collect()
}

// Doubles or removes one of the separators given.
fn damage_separator(random: &mut Random, bytes: &mut Vec<u8>, byte: u8, double: bool) {
    let all = positions(bytes, byte);
    if all.is_empty() {
        return;
    }
    let at = *random.one_of(&all);
    if double {
        bytes.insert(at, byte);
    } else {
        bytes.remove(at);
    }
}

// A byte that is unusual somewhere.
fn odd_byte(random: &mut Random) -> u8 {
    match random.below(4) {
        0 => random.below(256) as u8,
        _ => *random.one_of(&[0, 9, 10, 13, 32, 128, 255, b'-', b'0', b'1', b'9']),
    }
}

// Changes, adds, drops, doubles or cuts bytes at a random position.
fn damage_byte(random: &mut Random, bytes: &mut Vec<u8>) {
    let at = random.below(bytes.len() + 1);
    let inside = at < bytes.len();
    match random.below(6) {
        0 if inside => bytes[at] ^= 1 << random.below(8),
        1 if inside => drop(bytes.remove(at)),
        2 if inside => bytes.insert(at, bytes[at]),
        3 if inside => bytes[at] = odd_byte(random),
        4 => bytes.truncate(at),
        _ => bytes.insert(at, odd_byte(random)),
    }
}

/// Damages some bytes once.
// One kind of damage out of all.
pub fn damage(random: &mut Random, bytes: &mut Vec<u8>) {
    match random.below(10) {
        0..=2 => damage_number(random, bytes),
        3 => damage_swap(random, bytes),
        4 => damage_lines(random, bytes),
        5 => damage_separator(random, bytes, SPACE, true),
        6 => damage_separator(random, bytes, SPACE, false),
        7 => {
            let double = random.once_in(2);
            damage_separator(random, bytes, FEED, double)
        }
        _ => damage_byte(random, bytes),
    }
}
