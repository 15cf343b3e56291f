//! Line ends: byte 10 alone, or 13 10; and what they end, lines and fields.

/// A kind of line end.
#[derive(Clone, Copy, Debug, PartialEq, Eq)]
pub enum End {
    /// Byte 10 alone.
    Feed,
    /// Bytes 13 10.
    Return,
}

impl End {
    /// The kind of a text or a candidate: that of its first byte 10.
    pub fn of(bytes: &[u8]) -> End {
        match bytes.iter().position(|&b| b == b'\n') {
            Some(at) if bytes[..at].ends_with(b"\r") => End::Return,
            _ => End::Feed,
        }
    }

    /// The line end with which some bytes begin, where they begin with one.
    pub fn begins(bytes: &[u8]) -> Option<End> {
        [End::Feed, End::Return].into_iter().find(|end| bytes.starts_with(end.bytes()))
    }

    /// Its bytes.
    pub fn bytes(self) -> &'static [u8] {
        match self {
            End::Feed => b"\n",
            End::Return => b"\r\n",
        }
    }

    /// Its bytes in words.
    pub fn words(self) -> &'static str {
        match self {
            End::Feed => "byte 10 alone",
            End::Return => "bytes 13 10",
        }
    }
}

/// A line: the bytes from `start` to before `end`, and its line end, from there to before `next`.
#[derive(Clone, Copy, Debug, PartialEq, Eq)]
pub struct Span {
    pub start: usize,
    pub end: usize,
    pub next: usize,
}

impl Span {
    /// Whether a place that no line before has stands in this one, its line end included.
    pub fn reaches(&self, place: usize) -> bool {
        place < self.next || place == self.end
    }
}

/// The lines of a text or a candidate. Of one whose kind is 10 alone a byte 13 before it is part of the line; of one whose
/// kind is 13 10 a byte 10 alone ends a line too.
pub fn lines(bytes: &[u8]) -> Vec<Span> {
    let own = End::of(bytes).bytes();
    let (mut lines, mut start) = (Vec::new(), 0);
    for part in bytes.split_inclusive(|&b| b == b'\n') {
        let line = part.strip_suffix(own).or(part.strip_suffix(b"\n")).unwrap_or(part);
        let next = start + part.len();
        lines.push(Span { start, end: start + line.len(), next });
        start = next;
    }
    lines
}

/// The field with which some bytes begin: to before a space, a line end of either kind, or their end.
pub fn field(bytes: &[u8]) -> &[u8] {
    let ended = |&at: &usize| bytes[at] == b' ' || End::begins(&bytes[at..]).is_some();
    &bytes[..(0..bytes.len()).find(ended).unwrap_or(bytes.len())]
}
