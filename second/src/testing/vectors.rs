//! The reader's test vectors, from document 01, "Reading the text" and "The candidate", document 02 and the decided points.

use super::container::Case;
use super::line_end_traps;
use super::line_ends::returned;
use crate::judge::fields::{FEED, RETURN};
use crate::{describe, describe_candidate};

const HEADER: &[u8] = b"asp 1 0 0\n";

/// Plan P of document 01.
pub const PLAN: &str = "asp 1 0 0\n1 1 1 1 0 0\n1 0 1 2 0 1 1\n1 0 1 3 0 0\n9 1 0 4 diff\n9 1 1 1 -\n9 1 2 2 <=\n9 1 3 4 send\n9 1 4 4 recv\n9 0 5 40\n9 2 6 1 2 4 3\n9 4 0 1 6 0\n9 6 2 0 1 0 2 5\n9 0 8 5\n9 2 9 1 1 8\n9 2 7 1 2 3 4\n9 4 1 1 7 0\n9 6 3 0 1 1 2 9\n0\n";

/// Listing 49 of source document 002; source document 001 prints the same text.
pub const LISTING_49: &str =
    "asp 1 0 0\n1 1 1 1 0 0\n1 0 1 2 0 1 1\n1 0 1 3 0 1 -1\n4 1 a 1 1\n4 1 b 1 2\n4 1 c 1 3\n0\n";

/// Listing 50 of source document 002.
pub const LISTING_50: &str = "asp 1 0 0\n1 0 1 1 0 0\n1 0 1 2 0 0\n1 0 1 3 0 0\n1 0 1 4 0 0\n1 0 1 5 0 0\n1 0 1 6 0 0\n4 7 task(1) 0\n4 7 task(2) 0\n4 15 duration(1,200) 0\n4 15 duration(2,400) 0\n9 0 1 200\n9 0 3 400\n9 0 6 1\n9 0 11 2\n9 1 0 4 diff\n9 1 2 2 <=\n9 1 4 1 -\n9 1 5 3 end\n9 1 8 5 start\n9 2 7 5 1 6\n9 2 9 8 1 6\n9 2 10 4 2 7 9\n9 2 12 5 1 11\n9 2 13 8 1 11\n9 2 14 4 2 12 13\n9 4 0 1 10 0\n9 4 1 1 14 0\n9 6 5 0 1 0 2 1\n9 6 6 0 1 1 2 3\n0\n";

// What a field can be, for the values that are tried in its place.
#[derive(Clone, Copy)]
enum Field {
    Type,
    Theory,
    Head,
    Plain,
    Body,
    Bound,
    Weight,
    Count,
    Atom,
    Named,
    Index,
    Literal,
    Number,
    Base,
    Bytes,
}

use Field::*;

// A right line of each kind, with what each of its fields is.
const LINES: &[(&str, &[Field])] = &[
    ("1 0 1 5 0 1 7", &[Type, Head, Plain, Atom, Body, Count, Literal]),
    ("1 1 2 5 6 0 2 7 -8", &[Type, Head, Count, Atom, Atom, Body, Count, Literal, Literal]),
    ("1 0 1 5 1 3 2 7 2 -8 1", &[Type, Head, Plain, Atom, Body, Bound, Count, Literal, Weight, Literal, Weight]),
    ("4 2 ab 1 -3", &[Type, Count, Bytes, Count, Literal]),
    ("9 0 12 -34", &[Type, Theory, Index, Number]),
    ("9 1 12 2 ab", &[Type, Theory, Index, Count, Bytes]),
    ("9 2 12 3 2 4 5", &[Type, Theory, Index, Base, Count, Index, Index]),
    ("9 4 1 1 4 1 -7", &[Type, Theory, Index, Count, Index, Count, Literal]),
    ("9 5 12 3 1 4", &[Type, Theory, Named, Index, Count, Index]),
    ("9 6 12 3 1 4 6 7", &[Type, Theory, Named, Index, Count, Index, Index, Index]),
];

// Values tried in the place of a field: forms first, then what is carried, then bounds from inside and outside.
fn tried(field: Field) -> &'static [&'static str] {
    match field {
        Type => &["", "01", "-1", "2", "8", "11"],
        Theory => &["", "00", "-0", "3", "7"],
        Head => &["", "00", "-1", "2"],
        Plain => &["", "01", "-1", "0", "2", "5000"],
        Body => &["", "00", "-1", "0", "1", "2", "4294967297"],
        Bound => &["", "03", "-1", "-0", "0", "1", "1000000000", "1000000001", "18446744073709551617"],
        Weight => &["", "02", "-1", "-0", "0", "1", "100000", "100001", "18446744073709551617"],
        Count => &["", "01", "-1", "0", "4096", "4097"],
        Atom => &["", "05", "-5", "0", "1", "4096", "4097"],
        Named => &["", "01", "-1", "0", "1", "4096", "4097"],
        Index => &["", "00", "-1", "0", "1023", "1024"],
        Literal => &["", "-0", "-", "07", "0", "4096", "-4096", "4097", "-4097"],
        Number => &["", "-0", "-", "--1", "0", "1000000", "-1000000", "1000001", "-1000001"],
        Base => &["", "-0", "00", "-1", "-2", "-3", "-4", "0", "1023", "1024"],
        Bytes => &["", "a", "abc", "a b"],
    }
}

// Single lines, each in a text of its own.
const SINGLE: &[&[&[u8]]] = &[
    // Types, and what stands behind one that is not carried.
    &[
        b"", b" ", b"2", b"3", b"5", b"6", b"7", b"8", b"2 0 1 1 1", b"3 1 1", b"5 1 0", b"6 1 1", b"7 0 1 1 1 0",
        b"8 0 1 0", b"2x 0", b"5\t", b"11", b"12 x", b"99999999999", b"x", b"+1 0 0 0 0", b"1", b"4", b"9", b"9 x",
        b"9 8", b"9 99999999999",
    ],
    // Heads and bodies.
    &[
        b"1 0 0 0 0", b"1 1 0 0 0", b"1 0 2 1 2 0 0", b"1 0 4097 1 0 0", b"1 1 3 1 1 2 0 3 -1 1 1", b"1 1 1 0 0 0",
        b"1 0 0 1 2 1 1 1", b"1 0 0 1", b"1 0 0 1x 1", b"1 0 0 0 1", b"1 0 0 0 2 3", b"1 0 0 0 0 5", b"1 0 1 0 0",
    ],
    // Weight bodies: the bound.
    &[
        b"1 0 1 1 1", b"1 0 1 1 1 ", b"1 0 1 1 1 0", b"1 0 1 1 1 0 0", b"1 0 0 1 0 0", b"1 0 0 1 1 0", b"1 1 0 1 0 0",
        b"1 0 1 1 1 1000000000 0", b"1 0 1 1 1 1000000001 0", b"1 0 1 1 1 1000000001", b"1 0 1 1 1 1000000001x 0",
        b"1 0 1 1 1 99999999999999999999 0", b"1 0 1 1 1 4294967296 0", b"1 0 1 1 1 -1 0", b"1 0 1 1 1 -1000000001 0",
        b"1 0 1 1 1 x 0", b"1 0 1 1 1  0", b"1 0 1 1 2 0", b"1 0 1 1 2 1 1 2 1", b"1 0 1 1 3 0 0", b"1 0 2 1 2 1 0 0",
    ],
    // Weight bodies: the count, which counts pairs; fields that are missing and fields too many.
    &[
        b"1 0 1 1 1 1", b"1 0 1 1 1 1 4097", b"1 0 1 1 1 1 4096 2", b"1 0 1 1 1 1 -1", b"1 0 1 1 1 1 1",
        b"1 0 1 1 1 1 1 2", b"1 0 1 1 1 1 2 2 1", b"1 0 1 1 1 1 2 2 1 3", b"1 0 1 1 1 1 2 2 3", b"1 0 1 1 1 1 1 2 1 3",
        b"1 0 1 1 1 1 1 2 1 3 1", b"1 0 1 1 1 0 0 1", b"1 0 1 1 1 1 1 2 1 ",
    ],
    // Weight bodies: literals and weights.
    &[
        b"1 0 1 1 1 1 1 0 0", b"1 0 1 1 1 1 1 0 1", b"1 0 1 1 1 1 1 4097 0", b"1 0 1 1 1 1 1 2 0",
        b"1 0 1 1 1 1 1 2 100000", b"1 0 1 1 1 1 1 2 100001", b"1 0 1 1 1 1 1 2 1000000",
        b"1 0 1 1 1 1 1 2 4294967297", b"1 0 1 1 1 1 1 2 -1", b"1 0 1 1 1 1 1 2 -100001", b"1 0 1 1 1 1 1 2 x",
        b"1 0 1 1 1 1 1 2 1x", b"1 0 1 1 1 1 1 2  1", b"1 0 1 1 1 1 1 2\t1", b"1 0 1 1 1 1 1 2 1\r",
        b"1 0 1 1 1 2 2 1 1 1 1", b"1 0 1 1 1 2 3 2 1 -2 1 2 3", b"1 1 1 5 1 9 1 -7 9",
        b"1 1 2 4096 4096 1 1000000000 2 4096 100000 -4096 100000",
    ],
    // Separators: doubled, at the ends, a tab, 13, a byte 0.
    &[
        b"1  0 0 0 0", b"1 0 0 0  0", b" 1 0 0 0 0", b"1 0 0 0 0 ", b"1 0 0 0 1 1 ", b"1 0 0 0 0\t", b"1\t0 0 0 0",
        b"1 0 0 0 0\r", b"1 0 0 0 1 \t1", b"1 0 0 0 0\0", b"1 0 0 0 1 1\x80", b"9 0 1 2\xff", b"9 0 1\r2",
    ],
    // Strings.
    &[
        b"9 1 0 0 ", b"9 1 0 0", b"9 1 0 0  ", b"9 1 0 1  ", b"9 1 0 3 a b", b"9 1 0 4 \t\r\x80\xff", b"9 1 0 3 a\0b",
        b"9 1 0 3 \0\0\0", b"9 1 0 3 a\nb", b"9 1 0 1 \n", b"9 1 0 3 ab", b"9 1 0 3 abc\t", b"9 1 0 3 abc\0",
        b"9 1 0 4096 ab", b"9 1 0 4097 ab", b"4 0  0", b"4 0 0", b"4 0   0", b"4 1   0", b"4 1 ab 0", b"4 1 a",
        b"4 1 a ", b"4 4 a 0", b"4 2 \x80\xff 0", b"4 2 a\0 0", b"4 3 a\nb 0", b"4 3 1 0 0", b"4 4096 a 0",
        b"4 4097 a 0", b"4 1 a\t0", b"4 1 a\n0",
    ],
    // Comments.
    &[
        b"10", b"10 ", b"10  ", b"10 ab", b"10  a 0 -", b"10\tx", b"10 a\t\r\x80\xff", b"10 a\0", b"10 \0", b"10x",
        b"010 a", b"100 a", b"10 10", b"10 \n10 b",
    ],
    // Signs and leading zeros.
    &[
        b"9 0 0 +1", b"9 0 0 -01", b"9 0 0 1-", b"9 0 0 -a", b"9 0 0 0x", b"9 0 0 1.0", b"9 0 0 1 1", b"9 2 0 -5 0",
        b"9 2 0 -1000000 0", b"9 2 0 x 0", b"9 2 0 -1 0", b"9 4 0 0 0", b"9 5 1 0 0", b"9 6 1 0 0 0 0", b"9 5 1 0 0 0",
        b"9 6 1 0 0 0", b"9 6 1 0 0 0 0 0", b"9 6 0", b"9 5 -0 0 0",
    ],
    // Numbers that no small register holds.
    &[
        b"1 0 1 4294967297 0 0", b"1 0 0 0 1 -4294967297", b"1 0 4294967297 0 0", b"9 0 4294967296 0",
        b"9 0 0 18446744073709551617", b"9 0 0 -18446744073709551617", b"9 1 0 18446744073709551616 ",
        b"18446744073709551626 x", b"9 2 0 4294967296 0",
    ],
];

// What stands behind the first line.
const BEHIND: &[&[&[u8]]] = &[
    // The line `0`, and bytes after it; no such line.
    &[
        b"", b"0", b"0\n", b"0 ", b"0 \n", b"0\r\n", b"0\t\n", b"0\n ", b"0\n\n", b"0\n0\n", b"0\n10 x\n0\n", b"0\n\0",
        b"0x\n", b"00\n", b"-0\n", b"\n", b"\n0\n", b" 0\n", b"1 0 0 0 0\n", b"1 0 0 0 0\n\n0\n", b"asp 1 0 0\n0\n",
        b"10 a\n10 b\n0\n",
    ],
    // A field at the end of the text: its form, then what is carried and its range, then the early end.
    &[
        b"2", b"1", b"11", b"01", b"1 ", b"1 0 2", b"1 0 1", b"1 0 1 1 0 1 -", b"1 0 1 1 0 1 1", b"1 0 1 1 0 1 0",
        b"1 0 1 1 0 1 4097", b"9 5 0", b"9 3", b"1 0 0 1", b"1 0 0 2", b"1 0 0 1 1", b"1 0 0 1 1000000001",
        b"1 0 0 1 -", b"1 0 0 1 1 1", b"1 0 0 1 1 1 2", b"1 0 0 1 1 1 2 0", b"1 0 0 1 1 1 2 1", b"1 1 4096 1",
        b"1 1 4097 1", b"9 0 0 -0",
    ],
    // Strings and comments at the end of the text.
    &[
        b"9 1 0 3 ab", b"9 1 0 3 abc", b"9 1 0 9 a\0b", b"9 1 0 9 a\nb", b"9 1 0 9 ", b"9 1 0 9", b"9 1 0 0 ",
        b"9 1 0 0", b"9 1 0 4097", b"10", b"10 ", b"10 abc", b"10 a\0c", b"4 1 a 0",
    ],
];

// Whole texts with a fault in the first line or none.
const WHOLE: &[&[u8]] = &[
    b"0\n", b"1 0 0 0 0\n0\n", b"\n", b" asp 1 0 0\n0\n", b"asp 1 0 0 incremental\n0\n", b"asp 1 0 0 ",
    b"asp 1 0 0 \n0\n", b"asp 1 0 00\n0\n", b"asp 1 0 0\r\n0\n", b"asp 1 0 0\t\n0\n", b"asp 1 0 0\0\n0\n",
    b"asp 1 0 1\n0\n", b"asp 2 0 0\n0\n", b"asp  1 0 0\n0\n", b"ASP 1 0 0\n0\n", b"\xef\xbb\xbfasp 1 0 0\n0\n",
];

// Candidates.
const CANDIDATES: &[&[&[u8]]] = &[
    // Right ones.
    &[
        b"\n", b"1\n", b"2\n", b"3\n", b"1 2 3\n", b"1 3\n", b"2 3\n", b"9 10\n", b"99 100 4095 4096\n", b"4096\n",
        b"1 4096\n", b"7 8 9 10 11 12 13 14 15 16 17 18 19 20\n", b"1\r\n", b"1 2 3\r\n",
    ],
    // Nothing, and no line end.
    &[b"", b"1", b"1 2", b"1 ", b" ", b"4096", b"4097", b"1 1", b"1 4097", b"-"],
    // Something after the line end.
    &[b"\n\n", b"\n1\n", b"\n ", b"\n\0", b"1\n\n", b"1\n ", b"1\n2\n", b"1 2\n3"],
    // Spaces.
    &[b" \n", b" 1\n", b"1 \n", b"1  2\n", b"1 2 \n", b"1 2  \n"],
    // Forms.
    &[
        b"01\n", b"00\n", b"-1\n", b"+1\n", b"x\n", b"1x\n", b"1 2x\n", b"1 02\n", b"1 -2\n", b"1\t2\n", b"1,2\n",
        b"1\r\t\n", b"1 \r\n", b"1 2\0\n", b"\0\n", b"1\x80\n", b"1 \xff\n", b"asp 1 0 0\n",
    ],
    // Order and range.
    &[
        b"0\n", b"0 1\n", b"4097\n", b"1 4097\n", b"4096 4097\n", b"2 1\n", b"2 2\n", b"1 2 2\n", b"1 2 3 2 x",
        b"3 4 4097 -", b"1 0\n", b"4294967297\n", b"1 18446744073709551618\n", b"10 9\n",
    ],
];

// A name for some bytes: `_` for a space, `%` and two digits for a byte that can't stand in a name.
fn shown(bytes: &[u8]) -> String {
    let one = |b: &u8| match b {
        b' ' => String::from("_"),
        b'%' | b'_' | 0..=31 | 127..=255 => format!("%{b:02x}"),
        _ => String::from(char::from(*b)),
    };
    bytes.iter().map(one).collect()
}

// A case with a name that is given.
fn named(name: impl Into<String>, bytes: impl AsRef<[u8]>) -> Case {
    Case { name: name.into(), bytes: bytes.as_ref().to_vec() }
}

// A case with one line between the first line and the line `0`; its name begins with a colon.
fn single(line: &[u8]) -> Case {
    named(format!(":{}", shown(line)), [HEADER, line, b"\n0\n"].concat())
}

// The same with lines that end in 13 10.
fn single_returned(line: &[u8]) -> Case {
    named(format!("13-10:{}", shown(line)), [&returned(HEADER), line, b"\r\n0\r\n"].concat())
}

// Lines that end in 13 10: each right one, and all single ones that have a string, a comment or a 13.
fn returned_lines() -> Vec<Case> {
    let any_bytes = |line: &&&[u8]| [&b"10"[..], b"9 1", b"4"].iter().any(|front| line.starts_with(front));
    let mut lines: Vec<&[u8]> = LINES.iter().map(|(line, _)| line.as_bytes()).collect();
    lines.extend(SINGLE.concat().iter().filter(|line| any_bytes(line) || line.contains(&RETURN)));
    lines.into_iter().map(single_returned).collect()
}

// A line with one field changed to each value that is tried there.
fn changed(line: &str, fields: &[Field], place: usize) -> Vec<Case> {
    let parts: Vec<&str> = line.split(' ').collect();
    let change = |value: &&str| [&parts[..place], &[value], &parts[place + 1..]].concat().join(" ");
    tried(fields[place]).iter().map(|v| single(change(v).as_bytes())).collect()
}

// A line that ends after each of its fields, the last too, and one with a space behind it.
fn ended(line: &str) -> Vec<Case> {
    let ends = line.match_indices(' ').map(|(i, _)| &line[..i]);
    let longer = format!("{line} ");
    ends.chain([line, &longer]).map(|l| single(l.as_bytes())).collect()
}

// All that is tried with each right line.
fn systematic() -> Vec<Case> {
    let each = |(line, fields): &(&str, &[Field])| {
        let places = (0..fields.len()).flat_map(|i| changed(line, fields, i));
        ended(line).into_iter().chain(places).collect::<Vec<_>>()
    };
    LINES.iter().flat_map(each).collect()
}

// Numbers of a thousand digits, as a type, an atom, a literal, a bound, a weight and a numeric term.
fn long_numbers() -> Vec<Case> {
    let long = format!("7{}", "0".repeat(999));
    let text = |line: String| [HEADER, line.as_bytes(), b"\n0\n"].concat();
    vec![
        named("long-type", text(format!("{long} x"))),
        named("long-atom", text(format!("1 0 1 {long} 0 0"))),
        named("long-literal", text(format!("1 0 0 0 1 -{long}"))),
        named("long-bound", text(format!("1 0 0 1 {long} 0"))),
        named("long-weight", text(format!("1 0 0 1 1 1 2 {long}"))),
        named("long-zeros", text(format!("9 0 0 {}", "0".repeat(1000)))),
    ]
}

// The first line with each of its bytes wrong.
fn first_lines() -> Vec<Case> {
    let wrong = |i: usize| {
        let mut bytes = [HEADER, b"0\n"].concat();
        bytes[i] = b'x';
        named(format!("first-{i}"), bytes)
    };
    (0..10).map(wrong).collect()
}

// Plan P, and what is left of it at each byte.
fn plans() -> Vec<Case> {
    let cut = |n: usize| named(format!("P-{n}"), &PLAN.as_bytes()[..n]);
    (0..=PLAN.len()).map(cut).collect()
}

// Plan P with lines that end in 13 10, and what is left of it before, within and behind each line end.
fn returned_plans() -> Vec<Case> {
    let plan = returned(PLAN.as_bytes());
    let ends = (0..plan.len()).filter(|at| plan[*at] == FEED).flat_map(|at| at - 1..=at + 1);
    ends.map(|n| named(format!("P-13-10-{n}"), &plan[..n])).collect()
}

// The published texts, and one with each statement that is not carried.
fn published() -> Vec<Case> {
    vec![
        named("listing-49", LISTING_49),
        named("listing-50", LISTING_50),
        named("slides-theory", LISTING_50.replace("9 1 8 5 start", "9 1 8 3 beg")),
        named("listing-49-minimize", LISTING_49.replace("4 1 a", "2 0 1 1 1\n4 1 a")),
        named("listing-49-weights", LISTING_49.replace("1 0 1 2 0 1 1", "1 0 1 2 1 1 1 1 1")),
        named("listing-49-disjunction", LISTING_49.replace("1 0 1 2 0 1 1", "1 0 2 2 3 0 1 1")),
    ]
}

// The cases without those whose name came before.
fn once(cases: Vec<Case>) -> Vec<Case> {
    let mut seen = std::collections::HashSet::new();
    cases.into_iter().filter(|c| seen.insert(c.name.clone())).collect()
}

/// The texts.
pub fn texts() -> Vec<Case> {
    let whole = |b: &&[u8]| named(format!("text:{}", shown(b)), b);
    let behind = |b: &&[u8]| named(format!("behind:{}", shown(b)), [HEADER, b].concat());
    let mut cases = published();
    cases.extend(first_lines());
    cases.extend(WHOLE.iter().map(whole));
    cases.extend(BEHIND.concat().iter().map(behind));
    cases.extend(systematic());
    cases.extend(SINGLE.concat().iter().map(|l| single(l)));
    cases.extend(long_numbers());
    cases.extend(plans());
    cases.extend(returned_lines());
    cases.extend(returned_plans());
    cases.extend(line_end_traps::texts().into_iter().map(|trap| named(trap.name, trap.text)));
    once(cases)
}

/// The candidates.
pub fn candidates() -> Vec<Case> {
    let short = |b: &&[u8]| named(format!("cand:{}", shown(b)), b);
    let long = format!("7{}\n", "0".repeat(999));
    let many: Vec<String> = (1..=4096).step_by(3).map(|a: u32| a.to_string()).collect();
    let mut cases: Vec<Case> = CANDIDATES.concat().iter().map(short).collect();
    cases.push(named("cand-long", long));
    cases.push(named("cand-many", many.join(" ") + "\n"));
    cases.push(named("cand-many-13-10", many.join(" ") + "\r\n"));
    cases.extend(line_end_traps::candidates().into_iter().map(|trap| named(trap.name, trap.cand)));
    once(cases)
}

/// What reading gives for each case of two containers.
pub fn run(texts: &[Case], candidates: &[Case]) -> String {
    let texts = texts.iter().map(|c| format!("{}\n{}", c.name, describe(&c.bytes)));
    let candidates = candidates.iter().map(|c| format!("{}\n{}", c.name, describe_candidate(&c.bytes)));
    texts.chain(candidates).collect()
}
