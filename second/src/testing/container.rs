//! A container of named cases: for each a line `NAME LENGTH`, then so many bytes, then byte 10.

use crate::judge::fields::{natural_of, FEED, SPACE};
use crate::judge::reading::TEXT_BYTES;

/// Some bytes with a name that has no space and no line end.
#[derive(Clone, Debug, PartialEq, Eq)]
pub struct Case {
    pub name: String,
    pub bytes: Vec<u8>,
}

/// A container of some cases.
pub fn write(cases: &[Case]) -> Vec<u8> {
    let mut out = Vec::new();
    for case in cases {
        out.extend(format!("{} {}\n", case.name, case.bytes.len()).as_bytes());
        out.extend(&case.bytes);
        out.push(FEED);
    }
    out
}

/// The cases of a container, up to the first that is not whole.
pub fn read(container: &[u8]) -> Vec<Case> {
    let mut cases = Vec::new();
    let mut rest = container;
    while let Some((case, after)) = first(rest) {
        cases.push(case);
        rest = after;
    }
    cases
}

// The first case of some bytes, and the bytes after it.
fn first(bytes: &[u8]) -> Option<(Case, &[u8])> {
    let line = bytes.iter().position(|b| *b == FEED)?;
    let space = bytes[..line].iter().position(|b| *b == SPACE)?;
    let length = natural_of(&bytes[space + 1..line])? as usize;
    let rest = &bytes[line + 1..];
    if length > TEXT_BYTES || rest.get(length) != Some(&FEED) {
        return None;
    }
    let name = String::from_utf8(bytes[..space].to_vec()).ok()?;
    Some((Case { name, bytes: rest[..length].to_vec() }, &rest[length + 1..]))
}
