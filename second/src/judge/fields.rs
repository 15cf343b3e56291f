//! Fields and separators, read from left to right.

use super::refusal::{refusal, Refusal};

pub const SPACE: u8 = 32;
pub const FEED: u8 = 10;
pub const RETURN: u8 = 13;

/// How a line ends: by byte 10 alone, or by the bytes 13 10.
#[derive(Clone, Copy, Debug, PartialEq, Eq)]
pub enum LineEnd {
    Feed,
    Return,
}

impl LineEnd {
    // The bytes of a line end.
    pub fn bytes(self) -> &'static [u8] {
        match self {
            LineEnd::Feed => &[FEED],
            LineEnd::Return => &[RETURN, FEED],
        }
    }

    // The line end that some bytes begin with: 13 without a 10 after it is none.
    pub fn in_front(bytes: &[u8]) -> Option<LineEnd> {
        [LineEnd::Feed, LineEnd::Return].into_iter().find(|end| bytes.starts_with(end.bytes()))
    }

    // The kind of some bytes: that of their first byte 10.
    pub fn kind_of(bytes: &[u8]) -> LineEnd {
        match bytes.iter().position(|b| *b == FEED) {
            Some(at) if bytes[..at].ends_with(&[RETURN]) => LineEnd::Return,
            _ => LineEnd::Feed,
        }
    }

    // Whether what a line says stops before some bytes, where lines end so: byte 10 stops it wherever it stands, 13 only
    // as a part of this line end.
    pub fn stops(self, bytes: &[u8]) -> bool {
        bytes.first() == Some(&FEED) || bytes.starts_with(self.bytes())
    }
}

/// What a field's value is found to be, once its form is right.
#[derive(Clone, Copy, Debug, PartialEq, Eq)]
pub enum Finding {
    Right,
    Wrong(u32),
}

/// A position in some bytes; faults of form and separator have one number.
#[derive(Clone, Debug)]
pub struct Fields<'a> {
    bytes: &'a [u8],
    at: usize,
    fault: u32,
}

impl<'a> Fields<'a> {
    // Starts at the position given; `fault` is the number for wrong forms and separators.
    pub fn new(bytes: &'a [u8], at: usize, fault: u32) -> Fields<'a> {
        Fields { bytes, at, fault }
    }

    // The position of the next byte.
    pub fn at(&self) -> usize {
        self.at
    }

    // The next byte, if there is one.
    pub fn byte(&self) -> Option<u8> {
        self.bytes.get(self.at).copied()
    }

    // Whether nothing is left.
    pub fn ended(&self) -> bool {
        self.at >= self.bytes.len()
    }

    // The bytes that are left.
    fn left(&self) -> &'a [u8] {
        &self.bytes[self.at..]
    }

    // The line end that comes next, if there is one.
    pub fn next_line_end(&self) -> Option<LineEnd> {
        LineEnd::in_front(self.left())
    }

    // The refusal for a fault at the next byte, or at the length if none is left.
    pub fn fault_here(&self) -> Refusal {
        refusal(self.fault, self.at)
    }

    // Takes a field: the bytes up to the next space, line end of either kind or end.
    fn field(&mut self) -> (usize, &'a [u8]) {
        let first = self.at;
        while !self.ended() && self.byte() != Some(SPACE) && self.next_line_end().is_none() {
            self.at += 1;
        }
        (first, &self.bytes[first..self.at])
    }

    // Takes a natural: form first, then what `find` says of its value.
    pub fn natural(&mut self, find: impl Fn(u64) -> Finding) -> Result<u64, Refusal> {
        let (first, field) = self.field();
        let value = natural_of(field).ok_or(refusal(self.fault, first))?;
        match find(value) {
            Finding::Right => Ok(value),
            Finding::Wrong(number) => Err(refusal(number, first)),
        }
    }

    // Takes an integer: form first, then what `find` says of its value.
    pub fn integer(&mut self, find: impl Fn(i64) -> Finding) -> Result<i64, Refusal> {
        let (first, field) = self.field();
        let value = integer_of(field).ok_or(refusal(self.fault, first))?;
        match find(value) {
            Finding::Right => Ok(value),
            Finding::Wrong(number) => Err(refusal(number, first)),
        }
    }

    // Takes one byte that must be the one given.
    pub fn exactly(&mut self, byte: u8) -> Result<(), Refusal> {
        if self.byte() != Some(byte) {
            return Err(self.fault_here());
        }
        self.at += 1;
        Ok(())
    }

    // Takes the one space between two fields.
    pub fn space(&mut self) -> Result<(), Refusal> {
        self.exactly(SPACE)
    }

    // Takes a line end of either kind, and says which it was.
    pub fn line_end(&mut self) -> Result<LineEnd, Refusal> {
        let end = self.next_line_end().ok_or(self.fault_here())?;
        self.line_end_of(end)?;
        Ok(end)
    }

    // Takes a line end of the kind given; one of the other kind is a fault at its first byte.
    pub fn line_end_of(&mut self, end: LineEnd) -> Result<(), Refusal> {
        if self.next_line_end() != Some(end) {
            return Err(self.fault_here());
        }
        self.at += end.bytes().len();
        Ok(())
    }

    // Takes one byte of a string: neither 0 nor 10.
    fn string_byte(&mut self) -> Result<u8, Refusal> {
        match self.byte() {
            Some(b) if b != 0 && b != FEED => {
                self.at += 1;
                Ok(b)
            }
            _ => Err(self.fault_here()),
        }
    }

    // Takes a string of exactly `length` bytes.
    pub fn string(&mut self, length: u64) -> Result<Vec<u8>, Refusal> {
        (0..length).map(|_| self.string_byte()).collect()
    }

    // Takes the bytes before the line end, none of them 0; the line end stays. A 13 before it belongs to these bytes
    // where lines end in 10 alone.
    pub fn rest_of_line(&mut self, end: LineEnd) -> Result<Vec<u8>, Refusal> {
        let mut bytes = Vec::new();
        while !end.stops(self.left()) {
            bytes.push(self.string_byte()?);
        }
        Ok(bytes)
    }
}

// The value of a natural, held at the largest u64; none if the form is wrong.
pub fn natural_of(field: &[u8]) -> Option<u64> {
    if field.is_empty() || !field.iter().all(u8::is_ascii_digit) {
        return None;
    }
    if field[0] == b'0' && field.len() > 1 {
        return None;
    }
    let digit = |b: &u8| u64::from(*b - b'0');
    Some(field.iter().fold(0u64, |v, b| v.saturating_mul(10).saturating_add(digit(b))))
}

// The value of an integer, held within i64; none if the form is wrong.
pub fn integer_of(field: &[u8]) -> Option<i64> {
    let (minus, digits) = match field.split_first() {
        Some((b'-', rest)) => (true, rest),
        _ => (false, field),
    };
    let value = natural_of(digits)?.min(i64::MAX as u64) as i64;
    match (minus, value) {
        (true, 0) => None,
        (true, v) => Some(-v),
        (false, v) => Some(v),
    }
}

#[cfg(test)]
mod tests {
    use super::*;

    // Forms of naturals, and values held at the largest.
    #[test]
    fn naturals() {
        assert_eq!(natural_of(b"0"), Some(0));
        assert_eq!(natural_of(b"10"), Some(10));
        assert_eq!(natural_of(b"18446744073709551615"), Some(u64::MAX));
        assert_eq!(natural_of(b"18446744073709551616"), Some(u64::MAX));
        assert_eq!(natural_of(&[b'1'; 5000]), Some(u64::MAX));
        for wrong in [&b""[..], b"00", b"01", b"-1", b"+1", b"1a", b"a", b"-", b"1 ", b"\t1", b"1\r"] {
            assert_eq!(natural_of(wrong), None);
        }
    }

    // Forms of integers, and values held within bounds.
    #[test]
    fn integers() {
        assert_eq!(integer_of(b"0"), Some(0));
        assert_eq!(integer_of(b"-1"), Some(-1));
        assert_eq!(integer_of(b"-10"), Some(-10));
        assert_eq!(integer_of(&[b'9'; 1000]), Some(i64::MAX));
        assert_eq!(integer_of(&[&b"-"[..], &[b'9'; 1000]].concat()), Some(-i64::MAX));
        for wrong in [&b""[..], b"-", b"-0", b"-01", b"--1", b"01", b"1-", b"- 1"] {
            assert_eq!(integer_of(wrong), None);
        }
    }
}
