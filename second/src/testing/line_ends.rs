//! Line ends of either kind, and bytes 13 where they are no part of one.

use super::generating::Case;
use super::random::Random;
use crate::judge::fields::{LineEnd, FEED, RETURN, SPACE};

/// Some bytes with every byte 10 as 13 10.
pub fn returned(bytes: &[u8]) -> Vec<u8> {
    bytes.iter().flat_map(|b| if *b == FEED { vec![RETURN, FEED] } else { vec![*b] }).collect()
}

// The places behind some byte.
fn behind(bytes: &[u8], byte: u8) -> Vec<usize> {
    (1..=bytes.len()).filter(|at| bytes[at - 1] == byte).collect()
}

// One of some places, if there is one.
fn any_of(random: &mut Random, places: &[usize]) -> Option<usize> {
    (!places.is_empty()).then(|| *random.one_of(places))
}

// Ends one line, often one of the first two or the last, in the other way; behind a single line puts such a line end.
fn end_otherwise(random: &mut Random, bytes: &mut Vec<u8>) {
    let ends = behind(bytes, FEED);
    if ends.len() == 1 {
        let other = if LineEnd::kind_of(bytes) == LineEnd::Feed { LineEnd::Return } else { LineEnd::Feed };
        return bytes.extend(other.bytes());
    }
    let some = match random.below(4) {
        0 => &ends[..ends.len().min(2)],
        1 => &ends[ends.len().saturating_sub(1)..],
        _ => &ends,
    };
    let Some(at) = any_of(random, some) else { return };
    if bytes[..at].ends_with(&[RETURN, FEED]) {
        bytes.remove(at - 2);
    } else {
        bytes.insert(at - 1, RETURN);
    }
}

// The places within comments: behind the space, to before the line end.
fn in_comments(bytes: &[u8]) -> Vec<usize> {
    let (mut places, mut from) = (Vec::new(), 0);
    for line in bytes.split_inclusive(|b| *b == FEED) {
        if line.starts_with(b"10 ") {
            places.extend(from + 3..from + line.len());
        }
        from += line.len();
    }
    places
}

// Puts a 13: before or behind a space or for it, at a line's start or its end, in a comment, at the end, or anywhere;
// anywhere too if there is no such place. Now and then nothing is left behind it.
fn put_return(random: &mut Random, bytes: &mut Vec<u8>) {
    let places = match random.below(9) {
        0 => behind(bytes, SPACE).iter().map(|at| at - 1).collect(),
        1 => behind(bytes, SPACE),
        2 => behind(bytes, FEED),
        3 => behind(bytes, FEED).iter().map(|at| at - 1).collect(),
        4 | 5 => in_comments(bytes),
        6 => vec![bytes.len()],
        _ => Vec::new(),
    };
    let anywhere = random.below(bytes.len() + 1);
    let at = any_of(random, &places).unwrap_or(anywhere);
    if bytes.get(at) == Some(&SPACE) && random.once_in(2) {
        bytes[at] = RETURN;
    } else {
        bytes.insert(at, RETURN);
    }
    if random.once_in(4) {
        bytes.truncate(at + 1);
    }
}

// Ends one line in 13 alone, or all the bytes there.
fn end_in_return(random: &mut Random, bytes: &mut Vec<u8>) {
    let Some(at) = any_of(random, &behind(bytes, FEED)) else { return };
    let from = if bytes[..at].ends_with(&[RETURN, FEED]) { at - 2 } else { at - 1 };
    let to = *random.one_of(&[at, bytes.len()]);
    bytes.splice(from..to, [RETURN]);
}

// Has lines end not all alike, or puts a 13 that is no part of a line end.
fn unlike(random: &mut Random, bytes: &mut Vec<u8>) {
    if random.once_in(2) {
        *bytes = returned(bytes);
    }
    match random.below(5) {
        0 | 1 => end_otherwise(random, bytes),
        2 | 3 => put_return(random, bytes),
        _ => end_in_return(random, bytes),
    }
}

// Changes the line ends of some bytes, which are all byte 10: three in eight times all are 13 10, once they are unlike.
fn vary(random: &mut Random, bytes: &mut Vec<u8>) {
    match random.below(8) {
        0..=2 => *bytes = returned(bytes),
        3 => unlike(random, bytes),
        _ => (),
    }
}

/// Some bytes, whose lines end in 10, as they are, or three in eight times with 13 10.
pub fn some_returned(random: &mut Random, bytes: Vec<u8>) -> Vec<u8> {
    if random.below(8) < 3 {
        returned(&bytes)
    } else {
        bytes
    }
}

/// A case, whose lines end in 10, with line ends of any kind; the text's and the candidate's are chosen apart.
pub fn varied(random: &mut Random, (mut text, mut cand): Case) -> Case {
    vary(random, &mut text);
    vary(random, &mut cand);
    (text, cand)
}
