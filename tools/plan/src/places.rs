//! A place as a line, a column and a caret.

use crate::ends::{self, lines, End, Span};
use crate::expect::Expected;
use crate::names::plain;
use crate::report::LineAt;

/// How many characters of a long line are shown before and behind the caret.
const BESIDE: usize = 60;

/// The line and the column of a place in some bytes.
pub fn line_at(bytes: &[u8], place: usize) -> LineAt {
    let place = place.min(bytes.len());
    let lines = lines(bytes);
    let index = lines.iter().position(|l| l.reaches(place)).unwrap_or(lines.len());
    let behind = Span { start: bytes.len(), end: bytes.len(), next: bytes.len() };
    let Span { start, end, .. } = *lines.get(index).unwrap_or(&behind);
    let line = &bytes[start..end];
    LineAt { number: index + 1, text: String::from_utf8_lossy(line).into_owned(), column: column(line, place - start) }
}

// The column of a byte of a line or of its line end, from 1: characters count once, and so does what is not UTF-8.
fn column(line: &[u8], at: usize) -> usize {
    if at >= line.len() {
        return String::from_utf8_lossy(line).chars().count() + 1;
    }
    let (mut start, mut count) = (0, 0);
    for chunk in line.utf8_chunks() {
        let lengths = chunk.valid().chars().map(char::len_utf8);
        let invalid = Some(chunk.invalid().len()).filter(|&n| n > 0);
        for length in lengths.chain(invalid) {
            if start > at {
                return count;
            }
            start += length;
            count += 1;
        }
    }
    if start > at {
        count
    } else {
        count + 1
    }
}

/// The line with its number, and below it the caret; of a long line the part beside the caret.
pub fn caret(line: &LineAt) -> [String; 2] {
    let text: Vec<char> = plain(line.text.as_bytes()).chars().collect();
    let at = line.column.saturating_sub(1);
    let from = at.saturating_sub(BESIDE);
    let to = text.len().min(at + BESIDE);
    let before = if from > 0 { ".." } else { "" };
    let behind = if to < text.len() { ".." } else { "" };
    let label = format!("line {}: {before}", line.number);
    let indent = " ".repeat(label.chars().count() + at - from);
    let part: String = text[from.min(to)..to].iter().collect();
    [format!("{label}{part}{behind}"), format!("{indent}^")]
}

/// What stands at a place, in words.
pub fn found(bytes: &[u8], place: usize, expected: &Expected) -> String {
    let Some(&byte) = bytes.get(place) else {
        return String::from("the end");
    };
    if let Some(end) = End::begins(&bytes[place..]) {
        return line_end(bytes, place, end, expected);
    }
    match byte {
        b' ' => String::from("a space"),
        b'\t' => String::from("a tab"),
        b'\r' => String::from("a carriage return (byte 13), which without byte 10 behind it is no line end"),
        0 => String::from("the byte 0"),
        _ => field(&bytes[place..]),
    }
}

// The line end at a place, and where it is of the other kind, which that is: if a line end is right there, also which the
// first line has.
fn line_end(bytes: &[u8], place: usize, end: End, expected: &Expected) -> String {
    let first = End::of(bytes);
    match end {
        _ if end == first => String::from("the line end"),
        End::Feed if bytes[..place].ends_with(b"\r") => {
            String::from("the byte 10 of a line end whose byte 13 the string has taken")
        }
        _ if expected.line_end => {
            format!("a line end of {}; the first line ends in {}, and so must every line", end.words(), first.words())
        }
        _ => format!("a line end of {}", end.words()),
    }
}

// The field at the beginning of some bytes, and what in it does not print.
fn field(bytes: &[u8]) -> String {
    let field = ends::field(bytes);
    let shown = if field.len() > BESIDE { plain(&field[..BESIDE]) + ".." } else { plain(field) };
    match field.iter().find(|b| b.is_ascii_control()) {
        Some(b'\r') => format!("`{shown}`, with the byte 13 in it, which without byte 10 behind it is no line end"),
        Some(byte) => format!("`{shown}`, with the byte {byte} in it"),
        None => format!("`{shown}`"),
    }
}
