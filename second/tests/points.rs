//! The decided points: reading, weights, terms, candidate, meaning.
mod common;
use common::*;
use second::{read_candidate, read_text, report, terms, Verdict};

// The refusal of a whole text.
fn text(bytes: impl AsRef<[u8]>) -> Option<(u32, u32)> {
    read_text(bytes.as_ref()).err().map(|r| (r.number, r.place))
}

// The refusal of lines after the header, its place counted from there.
fn lines(bytes: impl AsRef<[u8]>) -> Option<(u32, u32)> {
    let whole = [b"asp 1 0 0\n", bytes.as_ref()].concat();
    text(whole).map(|(n, p)| (n, p - 10))
}

// The refusal of one line that is ended, with the `0` line after it.
fn line(bytes: impl AsRef<[u8]>) -> Option<(u32, u32)> {
    lines([bytes.as_ref(), b"\n0\n"].concat())
}

// The refusal of a candidate's place.
fn cand(bytes: impl AsRef<[u8]>) -> Option<(u32, u32)> {
    read_candidate(bytes.as_ref()).err().map(|r| (r.number, r.place))
}

// The refusal of readable lines by 61 to 64, its place counted from after the header.
fn unsound(statements: &str) -> Option<(u32, u32)> {
    let read = read_text(wrap(statements).as_bytes()).unwrap();
    terms(&read).err().map(|r| (r.number, r.place - 10))
}

#[test]
fn naturals_with_a_minus() {
    assert_eq!(line("1 0 -1 0 0"), Some((3, 4)));
    assert_eq!(line("1 0 1 -1 0 0"), Some((3, 6)));
    assert_eq!(line("1 1 1 -5000 0 0"), Some((3, 6)));
    assert_eq!(line("1 0 0 0 -1"), Some((3, 8)));
    assert_eq!(line("4 -1 a 0"), Some((3, 2)));
    assert_eq!(line("4 1 a -1"), Some((3, 6)));
    assert_eq!(line("9 0 -1 5"), Some((3, 4)));
    assert_eq!(line("9 1 -1 1 a"), Some((3, 4)));
    assert_eq!(line("9 1 1 -1 a"), Some((3, 6)));
    assert_eq!(line("9 2 1 0 -1"), Some((3, 8)));
    assert_eq!(line("9 2 1 0 1 -1"), Some((3, 10)));
    assert_eq!(line("9 4 -1 0 0"), Some((3, 4)));
    assert_eq!(line("9 4 0 1 -1 0"), Some((3, 8)));
    assert_eq!(line("9 5 -1 0 0"), Some((3, 4)));
    assert_eq!(line("9 5 1 -1 0"), Some((3, 6)));
    assert_eq!(line("9 5 1 0 1 -1"), Some((3, 10)));
    assert_eq!(line("9 6 1 0 0 -1 0"), Some((3, 10)));
    assert_eq!(line("9 6 1 0 0 0 -1"), Some((3, 12)));
    assert_eq!(line("-1 0 0 0 0"), Some((3, 0)));
    assert_eq!(line("9 -1 0 0"), Some((3, 2)));
    assert_eq!(line("1 -1 0 0 0"), Some((3, 2)));
    assert_eq!(line("1 0 0 -1 0"), Some((3, 6)));
    assert_eq!(line("1 0 0 1 -1 0"), Some((3, 8)));
    assert_eq!(line("1 0 0 1 1 -1"), Some((3, 10)));
    assert_eq!(line("1 0 0 1 1 1 2 -1"), Some((3, 14)));
}

#[test]
fn fields_at_the_end() {
    assert_eq!(lines("1 0 1 1 0 1 -"), Some((3, 12)));
    assert_eq!(lines("1 0 1 1 0 1 1"), Some((3, 13)));
    assert_eq!(lines("1 0 1 1 0 1 4097"), Some((5, 12)));
    assert_eq!(lines("1 0 1 1 0 1 0"), Some((5, 12)));
    assert_eq!(lines("1 0 2"), Some((4, 4)));
    assert_eq!(lines("1 0 1"), Some((3, 5)));
    assert_eq!(lines("2"), Some((4, 0)));
    assert_eq!(lines("1"), Some((3, 1)));
    assert_eq!(lines("11"), Some((3, 0)));
    assert_eq!(lines("0"), Some((3, 1)));
    assert_eq!(lines("01"), Some((3, 0)));
}

#[test]
fn empty_fields() {
    assert_eq!(line("1  0 0 0 0"), Some((3, 2)));
    assert_eq!(line("1 0 0 0 "), Some((3, 8)));
    assert_eq!(line(""), Some((3, 0)));
    assert_eq!(line(" 1 0 0 0 0"), Some((3, 0)));
    assert_eq!(lines(""), Some((3, 0)));
    assert_eq!(lines("1 "), Some((3, 2)));
    assert_eq!(line("1 0 0 0 0 "), Some((3, 9)));
    assert_eq!(line("1 0 0 0 1 1 "), Some((3, 11)));
    assert_eq!(line("1 0 0 0 0 5"), Some((3, 9)));
    assert_eq!(line("1 0 0 0 1"), Some((3, 9)));
    assert_eq!(line("1 0 0 0 2 3"), Some((3, 11)));
    assert_eq!(line("1 0 1 0 0"), Some((5, 6)));
}

#[test]
fn long_digits() {
    let nines = "9".repeat(1000);
    let tens = format!("1{}", "0".repeat(999));
    for big in [nines.as_str(), tens.as_str(), "4294967296", "18446744073709551616", "5000"] {
        assert_eq!(line(big), Some((3, 0)));
        assert_eq!(line(format!("{big} 1")), Some((3, 0)));
        assert_eq!(line(format!("9 {big} 0 0")), Some((3, 2)));
        assert_eq!(line(format!("1 {big} 0 0 0")), Some((3, 2)));
        assert_eq!(line(format!("1 0 0 {big} 0")), Some((3, 6)));
        assert_eq!(line(format!("1 0 {big} 0 0")), Some((4, 4)));
        assert_eq!(line(format!("1 1 {big} 0 0")), Some((5, 4)));
        assert_eq!(line(format!("1 0 1 {big} 0 0")), Some((5, 6)));
        assert_eq!(line(format!("1 0 0 0 {big}")), Some((5, 8)));
        assert_eq!(line(format!("1 0 0 0 1 {big}")), Some((5, 10)));
        assert_eq!(line(format!("1 0 0 0 1 -{big}")), Some((5, 10)));
        assert_eq!(line(format!("1 0 0 1 1 {big}")), Some((5, 10)));
        assert_eq!(line(format!("1 0 0 1 1 1 {big} 1")), Some((5, 12)));
        assert_eq!(line(format!("4 {big} a 0")), Some((5, 2)));
        assert_eq!(line(format!("9 0 {big} 0")), Some((5, 4)));
        assert_eq!(line(format!("9 2 0 {big} 0")), Some((5, 6)));
        assert_eq!(line(format!("9 2 0 -{big} 0")), Some((5, 6)));
        assert_eq!(line(format!("9 5 {big} 0 0")), Some((5, 4)));
        assert_eq!(cand(format!("{big}\n")), Some((7, 0)));
    }
    for big in
        [nines.as_str(), tens.as_str(), "4294967296", "4294967297", "18446744073709551616", "18446744073709551617"]
    {
        assert_eq!(line(format!("1 0 0 1 {big} 0")), Some((5, 8)));
        assert_eq!(line(format!("1 0 0 1 1 1 2 {big}")), Some((5, 14)));
    }
    assert_eq!(line(format!("9 0 0 {nines}")), Some((5, 6)));
    assert_eq!(line(format!("9 0 0 -{nines}")), Some((5, 6)));
}

#[test]
fn selectors() {
    assert_eq!(line("9 3 0 0"), Some((3, 2)));
    assert_eq!(line("9 7 0 0"), Some((3, 2)));
    assert_eq!(line("11 x"), Some((3, 0)));
    assert_eq!(line("1 2 0 0 0"), Some((3, 2)));
    assert_eq!(line("1 0 0 2 0"), Some((3, 6)));
    for kind in [2, 3, 5, 6, 7, 8] {
        assert_eq!(line(kind.to_string()), Some((4, 0)));
        assert_eq!(line(format!("{kind} 1 1")), Some((4, 0)));
    }
    assert_eq!(line("1 0 0 3 0"), Some((3, 6)));
    assert_eq!(line("1 0 0 01 0 0"), Some((3, 6)));
    assert_eq!(line("9 5 0 0 0"), Some((4, 4)));
    assert_eq!(line("9 6 0"), Some((4, 4)));
    assert_eq!(line("9 6 4097 0 0"), Some((5, 4)));
    assert_eq!(line("02 0"), Some((3, 0)));
    assert_eq!(line("9 00 1 1"), Some((3, 2)));
}

#[test]
fn counts_and_heads() {
    assert_eq!(line("1 0 2 1 2 0 0"), Some((4, 4)));
    assert_eq!(line("1 0 4097 1 2 0 0"), Some((4, 4)));
    assert_eq!(line("1 1 4097 1 2 0 0"), Some((5, 4)));
    assert_eq!(line("1 1 2 1 2 0 0"), None);
    assert_eq!(line("1 1 0 0 0"), None);
    assert_eq!(line("1 0 0 0 0"), None);
    let many = " 1".repeat(4096);
    assert_eq!(line(format!("1 1 4096{many} 0 4096{many}")), None);
    assert_eq!(line(format!("1 1 4096{many}")), Some((3, 8 + 8192)));
    assert_eq!(line("1 0 1 0 0 0"), Some((5, 6)));
    assert_eq!(line("1 1 1 0 0 0"), Some((5, 6)));
    assert_eq!(line("1 1 1 4096 0 0"), None);
    assert_eq!(line("1 1 1 4097 0 0"), Some((5, 6)));
    assert_eq!(line("1 0 0 0 1 -4096"), None);
    assert_eq!(line("1 0 0 0 1 -4097"), Some((5, 10)));
    assert_eq!(line("1 0 0 0 1 -0"), Some((3, 10)));
    assert_eq!(line("1 0 0 0 1 0"), Some((5, 10)));
    assert_eq!(line("1 0 0 0 1 01"), Some((3, 10)));
}

#[test]
fn weight_bodies() {
    // The bound.
    assert_eq!(line("1 0 1 1 1"), Some((3, 9)));
    assert_eq!(line("1 0 1 1 1 0"), Some((3, 11)));
    assert_eq!(line("1 0 1 1 1 0 0"), None);
    assert_eq!(line("1 0 1 1 1 1000000000 0"), None);
    assert_eq!(line("1 0 1 1 1 1000000001 0"), Some((5, 10)));
    assert_eq!(line("1 0 1 1 1 1000000001"), Some((5, 10)));
    for wrong in ["", "-", "-0", "-1", "00", "01", "+1", "x", "1x", "1000000001x", "-1000000001"] {
        assert_eq!(line(format!("1 0 1 1 1 {wrong} 0")), Some((3, 10)));
    }
    // The count, of pairs.
    assert_eq!(line("1 0 1 1 1 1 4097"), Some((5, 12)));
    assert_eq!(line("1 0 1 1 1 1 1 2 1"), None);
    assert_eq!(line("1 0 1 1 1 1 1 2 1 3"), Some((3, 17)));
    assert_eq!(line("1 0 1 1 1 1 2 2 1"), Some((3, 17)));
    assert_eq!(line("1 0 1 1 1 1 2 2 1 3"), Some((3, 19)));
    assert_eq!(line("1 0 1 1 1 0 0 1"), Some((3, 13)));
    let many = " 1 1".repeat(4096);
    assert_eq!(line(format!("1 0 1 1 1 4096 4096{many}")), None);
    assert_eq!(line(format!("1 0 1 1 1 4096 4096{many} 1")), Some((3, 19 + 4 * 4096)));
    // Literals, then weights.
    assert_eq!(line("1 0 1 1 1 1 1 0 0"), Some((5, 14)));
    assert_eq!(line("1 0 1 1 1 1 1 -4096 1"), None);
    assert_eq!(line("1 0 1 1 1 1 1 -4097 0"), Some((5, 14)));
    assert_eq!(line("1 0 1 1 1 1 1 2"), Some((3, 15)));
    assert_eq!(line("1 0 1 1 1 1 1 2 0"), Some((5, 16)));
    assert_eq!(line("1 0 1 1 1 1 1 2 100000"), None);
    assert_eq!(line("1 0 1 1 1 1 1 2 100001"), Some((5, 16)));
    for wrong in ["", "-", "-0", "-1", "00", "01", "+1", "x", "1x", "-100001"] {
        assert_eq!(line(format!("1 0 1 1 1 1 1 2 {wrong}")), Some((3, 16)));
    }
    // At the end of the text.
    assert_eq!(lines("1 0 1 1 1"), Some((3, 9)));
    assert_eq!(lines("1 0 1 1 1 1"), Some((3, 11)));
    assert_eq!(lines("1 0 1 1 1 1000000001"), Some((5, 10)));
    assert_eq!(lines("1 0 1 1 1 1 1 2"), Some((3, 15)));
    assert_eq!(lines("1 0 1 1 1 1 1 2 1"), Some((3, 17)));
    assert_eq!(lines("1 0 1 1 1 1 1 2 0"), Some((5, 16)));
}

#[test]
fn bounds_of_numbers() {
    assert_eq!(line("9 0 1023 1000000"), None);
    assert_eq!(line("9 0 1023 -1000000"), None);
    assert_eq!(line("9 0 1024 0"), Some((5, 4)));
    assert_eq!(line("9 0 0 1000001"), Some((5, 6)));
    assert_eq!(line("9 0 0 -1000001"), Some((5, 6)));
    assert_eq!(line("9 0 0 -0"), Some((3, 6)));
    assert_eq!(line("9 0 0 -"), Some((3, 6)));
    assert_eq!(line("9 0 0 +1"), Some((3, 6)));
    assert_eq!(line("9 0 0 00"), Some((3, 6)));
    assert_eq!(line("9 2 0 -3 0"), None);
    assert_eq!(line("9 2 0 -4 0"), Some((5, 6)));
    assert_eq!(line("9 2 0 1023 0"), None);
    assert_eq!(line("9 2 0 1024 0"), Some((5, 6)));
    assert_eq!(line("9 2 0 -0 0"), Some((3, 6)));
    assert_eq!(line("9 2 0 -1 1 1024"), Some((5, 11)));
    assert_eq!(line("9 2 0 -1 4097"), Some((5, 9)));
    assert_eq!(line("9 4 1024 0 0"), Some((5, 4)));
    assert_eq!(line("9 4 0 1 1024 0"), Some((5, 8)));
    assert_eq!(line("9 4 0 0 1 0"), Some((5, 10)));
    assert_eq!(line("9 4 0 0 1 -7"), None);
    assert_eq!(line("9 5 4096 1023 1 1023"), None);
    assert_eq!(line("9 5 1 1024 0"), Some((5, 6)));
    assert_eq!(line("9 5 1 0 1 1024"), Some((5, 10)));
    assert_eq!(line("9 6 1 0 0 1023 1023"), None);
    assert_eq!(line("9 6 1 0 0 1024 0"), Some((5, 10)));
    assert_eq!(line("9 6 1 0 0 0 1024"), Some((5, 12)));
    assert_eq!(line("9 6 1 0 0 0"), Some((3, 11)));
    assert_eq!(line("9 5 1 0 0 0"), Some((3, 9)));
}

#[test]
fn strings() {
    assert_eq!(line("9 1 0 0 "), None);
    assert_eq!(line("9 1 0 0"), Some((3, 7)));
    assert_eq!(line("9 1 0 3 a b"), None);
    assert_eq!(line(b"9 1 0 3 \r\x80\xff"), None);
    assert_eq!(line(b"9 1 0 3 a\0b"), Some((3, 9)));
    assert_eq!(line("9 1 0 3 ab"), Some((3, 10)));
    assert_eq!(line("9 1 0 3 abcd"), Some((3, 11)));
    assert_eq!(line("9 1 0 3 abc "), Some((3, 11)));
    assert_eq!(lines("9 1 0 3 ab"), Some((3, 10)));
    assert_eq!(lines("9 1 0 3 abc"), Some((3, 11)));
    assert_eq!(lines(b"9 1 0 9 a\0b"), Some((3, 9)));
    assert_eq!(lines("9 1 0 9 a\nb"), Some((3, 9)));
    assert_eq!(lines("9 1 0 9 "), Some((3, 8)));
    assert_eq!(lines("9 1 0 9"), Some((3, 7)));
    assert_eq!(line(format!("9 1 0 4096 {}", "x".repeat(4096))), None);
    assert_eq!(line(format!("9 1 0 4097 {}", "x".repeat(4097))), Some((5, 6)));
    assert_eq!(line("4 0  0"), None);
    assert_eq!(line("4 0 0"), Some((3, 4)));
    assert_eq!(line("4 1   0"), None);
    assert_eq!(line("4 1 a 1 1"), None);
    assert_eq!(line("4 1 a 1 0"), Some((5, 8)));
    assert_eq!(line("4 1 ab 0"), Some((3, 5)));
    assert_eq!(line("4 1 a"), Some((3, 5)));
    assert_eq!(line("4 2 a 0"), Some((3, 6)));
    assert_eq!(line("4 2 a  0"), None);
    assert_eq!(line("4 4 a 0"), Some((3, 7)));
    assert_eq!(line("4 1 a 4097"), Some((5, 6)));
}

#[test]
fn comments() {
    assert_eq!(line("10"), Some((3, 2)));
    assert_eq!(line("10 "), None);
    assert_eq!(line("10  a 0 -"), None);
    assert_eq!(line(b"10 a\r\t\xff"), None);
    assert_eq!(line(b"10 a\0"), Some((3, 4)));
    assert_eq!(lines("10 abc"), Some((3, 6)));
    assert_eq!(lines(b"10 a\0c"), Some((3, 4)));
    assert_eq!(lines("10 "), Some((3, 3)));
    assert_eq!(lines("10"), Some((3, 2)));
    assert_eq!(line("010 a"), Some((3, 0)));
}

#[test]
fn first_line() {
    let right = b"asp 1 0 0";
    for end in 0..9 {
        assert_eq!(text(&right[..end]), Some((3, end as u32)));
        let mut changed = right.to_vec();
        changed[end] ^= 1;
        assert_eq!(text(&changed), Some((3, end as u32)));
        changed.extend(b"\n0\n");
        assert_eq!(text(&changed), Some((3, end as u32)));
    }
    assert_eq!(text("asp 1 0 0"), Some((3, 9)));
    assert_eq!(text("asp 1 0 0 incremental\n0\n"), Some((4, 9)));
    assert_eq!(text("asp 1 0 0 "), Some((4, 9)));
    assert_eq!(text("asp 1 0 0 \n0\n"), Some((4, 9)));
    assert_eq!(text("asp 1 0 00\n0\n"), Some((3, 9)));
    assert_eq!(text("asp 1 0 0\r\n0\n"), Some((3, 12)));
    assert_eq!(text("asp 1 0 0\r0\n"), Some((3, 9)));
    assert_eq!(text("asp 1 0 0\n"), Some((3, 10)));
    assert_eq!(text("asp 1 0 0\n0\n"), None);
}

#[test]
fn last_line() {
    assert_eq!(lines("0 "), Some((3, 1)));
    assert_eq!(lines("0 \n"), Some((3, 1)));
    assert_eq!(lines("0\n "), Some((3, 2)));
    assert_eq!(lines("0\n\n"), Some((3, 2)));
    assert_eq!(lines("0\n0\n"), Some((3, 2)));
    assert_eq!(lines("0\n10 x\n0\n"), Some((3, 2)));
    assert_eq!(lines("1 0 0 0 0\n"), Some((3, 10)));
    assert_eq!(lines("00\n"), Some((3, 0)));
    assert_eq!(lines("-0\n"), Some((3, 0)));
    assert_eq!(lines("0\r\n"), Some((3, 1)));
    assert_eq!(lines("0\r"), Some((3, 0)));
}

#[test]
fn tabs_and_returns_belong_to_fields() {
    assert_eq!(line("1\t0 0 0 0"), Some((3, 0)));
    assert_eq!(line("1 0\t0 0 0"), Some((3, 2)));
    assert_eq!(line("1 0 0 0 0\t"), Some((3, 8)));
    assert_eq!(line("1 0 0 0 0\r"), Some((3, 9)));
    assert_eq!(line("1 0 0 0 0\rx"), Some((3, 8)));
    assert_eq!(line("1 0 0\r 0 0"), Some((3, 4)));
    assert_eq!(line(b"1 0 0 0 0\0"), Some((3, 8)));
    assert_eq!(line("1 0 0 0 1 \t1"), Some((3, 10)));
}

const BASE: &str = "9 1 0 4 diff\n9 1 1 1 -\n9 1 2 2 <=\n9 1 3 1 a\n9 0 4 7\n9 2 5 1 2 3 4\n9 4 0 1 5 0\n";

// The refusal of lines after BASE, its place counted from there.
fn more(statements: &str) -> Option<(u32, u32)> {
    unsound(&format!("{BASE}{statements}")).map(|(number, place)| (number, place - BASE.len() as u32))
}

#[test]
fn uses() {
    assert_eq!(more("9 6 1 0 1 0 2 4\n"), None);
    assert_eq!(more("9 2 7 1 1 7\n"), Some((62, 10)));
    assert_eq!(more("9 2 7 7 0\n"), Some((62, 6)));
    assert_eq!(more("9 2 7 8 0\n"), Some((62, 6)));
    assert_eq!(more("9 2 7 -1 1 8\n"), Some((62, 11)));
    assert_eq!(more("9 2 7 -1 0\n9 2 8 -2 0\n9 2 9 -3 0\n"), None);
    assert_eq!(more("9 2 7 4 1 5\n"), None);
    assert_eq!(more("9 4 1 1 8 0\n"), Some((62, 8)));
    assert_eq!(more("9 4 1 0 2 55 -66\n"), None);
    assert_eq!(more("9 4 1 2 3 8 0\n9 0 8 1\n"), Some((62, 10)));
    assert_eq!(more("10 x\n9 6 1 8 1 0 2 4\n"), Some((62, 11)));
    assert_eq!(more("9 6 1 0 1 1 2 4\n"), Some((62, 10)));
    assert_eq!(more("9 6 1 0 1 0 8 4\n"), Some((62, 12)));
    assert_eq!(more("9 6 1 0 1 0 2 8\n"), Some((62, 14)));
    assert_eq!(more("9 6 1 0 1 0 2 8\n9 0 8 1\n"), Some((62, 14)));
    assert_eq!(unsound("9 4 0 0 0\n9 2 0 -1 1 0\n"), Some((62, 21)));
}

#[test]
fn the_leftmost_use() {
    assert_eq!(more("9 2 1000 1023 2 8 9\n"), Some((62, 9)));
    assert_eq!(more("9 2 7 1 2 8 9\n"), Some((62, 10)));
    assert_eq!(more("9 2 7 1 3 3 888 9\n"), Some((62, 12)));
    assert_eq!(more("9 2 7 -2 3 4 5 6\n"), Some((62, 15)));
    assert_eq!(more("9 4 1 3 5 8 9 1 -4096\n"), Some((62, 10)));
    assert_eq!(more("9 5 1 8 2 9 10\n"), Some((62, 6)));
    assert_eq!(more("9 5 4096 0 2 9 10\n"), Some((62, 13)));
    assert_eq!(more("9 6 1 8 1 9 10 11\n"), Some((62, 6)));
    assert_eq!(more("9 6 1 0 1 9 10 11\n"), Some((62, 10)));
    assert_eq!(more("9 6 1 0 1 0 10 11\n"), Some((62, 12)));
    assert_eq!(more("9 6 1 0 2 0 7 8 9\n"), Some((62, 12)));
    check_crowded(|text, cand| verdict(text, cand));
}

#[test]
fn twice() {
    assert_eq!(more("9 0 4 7\n"), Some((61, 0)));
    assert_eq!(more("9 1 4 1 a\n"), Some((61, 0)));
    assert_eq!(more("9 2 4 -1 0\n"), Some((61, 0)));
    assert_eq!(more("9 4 0 1 5 0\n"), Some((61, 0)));
    assert_eq!(more("9 4 4 0 0\n9 4 5 0 0\n9 0 6 1\n9 4 6 0 0\n"), None);
    assert_eq!(more("9 6 1 0 1 0 2 4\n9 6 1 0 1 0 2 4\n"), Some((63, 16)));
    assert_eq!(more("9 6 1 0 1 0 2 4\n9 6 2 0 1 0 2 4\n"), None);
    assert_eq!(more("1 0 1 1 0 0\n1 0 1 1 0 0\n9 6 1 0 1 0 2 4\n4 1 a 1 1\n4 1 a 1 1\n"), None);
}

#[test]
fn several_in_one_line() {
    // Twice and a use.
    assert_eq!(more("9 2 4 8 1 9\n"), Some((61, 0)));
    assert_eq!(more("9 4 0 1 8 0\n"), Some((61, 0)));
    // A use and a second statement; a use and no difference; all three.
    let first = "9 6 1 0 1 0 2 4\n";
    assert_eq!(more(&format!("{first}9 6 1 0 1 0 2 8\n")), Some((62, 30)));
    assert_eq!(more("9 5 1 0 2 0 7\n"), Some((62, 12)));
    assert_eq!(more(&format!("{first}9 5 1 0 2 0 7\n")), Some((62, 28)));
    // A second statement that is no difference.
    assert_eq!(more(&format!("{first}9 5 1 0 0\n")), Some((63, 16)));
    assert_eq!(more(&format!("{first}9 6 1 2 2 0 0 0 3\n")), Some((63, 16)));
    assert_eq!(more(&format!("{first}9 6 2 2 2 0 0 0 3\n")), Some((64, 16)));
}

#[test]
fn the_first_of_several_lines() {
    let faults = [("9 0 4 7\n", 61, 0), ("9 4 1 1 8 0\n", 62, 8), ("9 6 9 0 1 0 2 4\n", 63, 0), ("9 5 8 0 0\n", 64, 0)];
    let first = "9 6 9 0 1 0 2 4\n";
    for (line, number, place) in faults {
        for (other, ..) in faults {
            assert_eq!(more(&format!("{first}{line}{other}")), Some((number, place + first.len() as u32)));
        }
    }
}

#[test]
fn differences() {
    assert_eq!(more("9 5 1 0 1 0\n"), Some((64, 0)));
    assert_eq!(more("9 6 1 1 1 0 2 4\n"), Some((64, 0)));
    assert_eq!(more("9 6 1 0 0 2 4\n"), Some((64, 0)));
    assert_eq!(more("9 6 1 0 2 0 0 2 4\n"), Some((64, 0)));
    assert_eq!(more("9 6 1 0 1 0 1 4\n"), Some((64, 0)));
    assert_eq!(more("9 6 1 0 1 0 2 3\n"), Some((64, 0)));
    assert_eq!(more("9 4 1 1 5 1 1\n9 6 1 0 1 1 2 4\n"), Some((64, 14)));
    assert_eq!(more("9 4 1 0 0\n9 6 1 0 1 1 2 4\n"), Some((64, 10)));
    assert_eq!(more("9 4 1 2 5 5 0\n9 6 1 0 1 1 2 4\n"), Some((64, 14)));
    assert_eq!(more("9 4 1 1 3 0\n9 6 1 0 1 1 2 4\n"), Some((64, 12)));
    assert_eq!(more("9 2 6 1 1 3\n9 4 1 1 6 0\n9 6 1 0 1 1 2 4\n"), Some((64, 24)));
    assert_eq!(more("9 2 6 1 3 3 3 3\n9 4 1 1 6 0\n9 6 1 0 1 1 2 4\n"), Some((64, 28)));
    assert_eq!(more("9 2 6 2 2 3 3\n9 4 1 1 6 0\n9 6 1 0 1 1 2 4\n"), Some((64, 26)));
    assert_eq!(more("9 2 6 -1 2 3 3\n9 4 1 1 6 0\n9 6 1 0 1 1 2 4\n"), Some((64, 27)));
    assert_eq!(more("9 2 6 4 2 3 3\n9 4 1 1 6 0\n9 6 1 0 1 1 2 4\n"), Some((64, 26)));
    assert_eq!(more("9 1 6 1 -\n9 1 7 4 diff\n9 1 8 2 <=\n9 2 9 6 2 4 4\n9 4 1 1 9 0\n9 6 1 7 1 1 8 4\n"), None);
    assert_eq!(more("9 1 6 5 diff \n9 6 1 6 1 0 2 4\n"), Some((64, 14)));
    assert_eq!(more("9 1 6 1 <\n9 6 1 0 1 0 6 4\n"), Some((64, 10)));
}

// The differences after BASE.
fn bounds(statements: &str) -> Vec<(u32, u32, u32, i64)> {
    let read = read_text(wrap(&format!("{BASE}{statements}")).as_bytes()).unwrap();
    terms(&read).unwrap().iter().map(|d| (d.atom, d.x, d.y, d.bound)).collect()
}

#[test]
fn signed_bounds() {
    assert_eq!(bounds("9 6 1 0 1 0 2 4\n"), [(1, 3, 4, 7)]);
    assert_eq!(bounds("9 2 6 1 1 4\n9 6 1 0 1 0 2 6\n"), [(1, 3, 4, -7)]);
    assert_eq!(
        bounds("9 0 6 -1000000\n9 2 7 1 1 6\n9 6 1 0 1 0 2 7\n9 6 2 0 1 0 2 6\n"),
        [(1, 3, 4, 1_000_000), (2, 3, 4, -1_000_000)]
    );
    assert_eq!(bounds("9 1 6 1 -\n9 2 7 6 1 4\n9 6 1 0 1 0 2 7\n"), [(1, 3, 4, -7)]);
    assert_eq!(more("9 2 6 1 1 4\n9 2 7 1 1 6\n9 6 1 0 1 0 2 7\n"), Some((64, 24)));
    assert_eq!(more("9 2 6 1 2 4 4\n9 6 1 0 1 0 2 6\n"), Some((64, 14)));
    assert_eq!(more("9 2 6 1 0\n9 6 1 0 1 0 2 6\n"), Some((64, 10)));
    assert_eq!(more("9 2 6 1 1 3\n9 6 1 0 1 0 2 6\n"), Some((64, 12)));
    assert_eq!(more("9 2 6 -1 1 4\n9 6 1 0 1 0 2 6\n"), Some((64, 13)));
    assert_eq!(more("9 1 6 1 +\n9 2 7 6 1 4\n9 6 1 0 1 0 2 7\n"), Some((64, 22)));
    assert_eq!(more("9 1 6 1 5\n9 6 1 0 1 0 2 6\n"), Some((64, 10)));
}

#[test]
fn candidates() {
    assert_eq!(cand(""), Some((7, 0)));
    assert_eq!(cand("\n"), None);
    assert_eq!(cand("1 \n"), Some((7, 2)));
    assert_eq!(cand(" \n"), Some((7, 0)));
    assert_eq!(cand(" 1\n"), Some((7, 0)));
    assert_eq!(cand("1  2\n"), Some((7, 2)));
    assert_eq!(cand("1 "), Some((7, 2)));
    assert_eq!(cand("1"), Some((7, 1)));
    assert_eq!(cand("1 2"), Some((7, 3)));
    assert_eq!(cand("1 1"), Some((7, 2)));
    assert_eq!(cand("1\n\n"), Some((7, 2)));
    assert_eq!(cand("\n\n"), Some((7, 1)));
    assert_eq!(cand("\n1\n"), Some((7, 1)));
    assert_eq!(cand("1\n "), Some((7, 2)));
    assert_eq!(cand("0\n"), Some((7, 0)));
    assert_eq!(cand("-1\n"), Some((7, 0)));
    assert_eq!(cand("4096\n"), None);
    assert_eq!(cand("4097\n"), Some((7, 0)));
    assert_eq!(cand("01\n"), Some((7, 0)));
    assert_eq!(cand("2 1\n"), Some((7, 2)));
    assert_eq!(cand("2 2\n"), Some((7, 2)));
    assert_eq!(cand("2 2 x"), Some((7, 2)));
    assert_eq!(cand("3 4 4097 -"), Some((7, 4)));
    assert_eq!(cand("1\r\n"), None);
    assert_eq!(cand("1\r"), Some((7, 0)));
    assert_eq!(cand("1\t2\n"), Some((7, 0)));
    assert_eq!(cand("1 2x\n"), Some((7, 2)));
    assert_eq!(cand(b"1 \0\n"), Some((7, 2)));
    let all: Vec<String> = (1..=4096).map(|a: u32| a.to_string()).collect();
    assert_eq!(cand(all.join(" ") + "\n"), None);
    assert_eq!(cand(all.join(" ") + " 4097\n"), Some((7, all.join(" ").len() as u32 + 1)));
    assert_eq!(cand("7".repeat(100_000)), Some((7, 0)));
}

#[test]
fn externals() {
    let with = format!("{BASE}9 6 1 0 1 0 2 4\n");
    assert_eq!(verdict(wrap(&with), "1\n"), Verdict::Accepted(16 + 16 + 4));
    // In a choice head the atom is no longer external.
    assert_eq!(verdict(wrap(&format!("{with}1 1 1 1 0 1 9\n")), "1\n"), refused(9, 1));
    assert_eq!(verdict(wrap(&format!("{with}1 1 1 1 0 0\n")), "1\n"), Verdict::Accepted(36));
    assert_eq!(verdict(wrap(&format!("{with}1 0 1 1 0 1 9\n")), "1\n"), refused(9, 1));
    // Only in a body or an output it stays external.
    assert_eq!(verdict(wrap(&format!("{with}1 0 1 2 0 1 1\n4 1 a 1 1\n")), "1 2\n"), Verdict::Accepted(40));
    assert_eq!(verdict(wrap(&format!("{with}1 0 0 0 1 -1\n")), "\n"), refused(8, 10 + with.len() as u32));
    // An atom that stands nowhere is unfounded.
    assert_eq!(verdict(wrap(&with), "1 4096\n"), refused(9, 4096));
    assert_eq!(verdict(wrap("4 1 a 1 5\n"), "5\n"), refused(9, 5));
}

#[test]
fn table_contents() {
    let text = wrap(&format!("1 0 1 9 0 0\n{BASE}9 6 1 0 1 0 2 4\n"));
    assert_eq!(report(text.as_bytes(), b"9\n"), "accepted 2 1\n3 0\n4 0\n");
    assert_eq!(report(text.as_bytes(), b"1 9\n"), "accepted 2 2\n3 0\n4 0\n");
    // A bound and an element's terms are no names by themselves.
    let text = text.replace("9 6 1 0 1 0 2 4\n", "");
    assert_eq!(report(text.as_bytes(), b"9\n"), "accepted 0 1\n");
}

#[test]
fn choice_rules() {
    let text = wrap("1 1 2 1 2 0 1 3\n1 1 1 3 0 0\n");
    for cand in ["\n", "3\n", "1 3\n", "2 3\n", "1 2 3\n"] {
        assert!(matches!(verdict(&text, cand), Verdict::Accepted(_)));
    }
    assert_eq!(verdict(&text, "1 2\n"), refused(9, 1));
    // A constraint is broken by a true body, also an empty one.
    assert_eq!(verdict(wrap("1 1 1 1 0 0\n1 0 0 0 1 1\n"), "1\n"), refused(8, 22));
    assert_eq!(verdict(wrap("1 1 1 1 0 0\n1 0 0 0 1 1\n"), "\n"), Verdict::Accepted(16));
    assert_eq!(verdict(wrap("1 1 0 0 0\n"), "\n"), Verdict::Accepted(16));
}

#[test]
fn the_heaviest_body() {
    check_heaviest(|text, cand| verdict(text, cand));
}

#[test]
fn cycle_is_rotated_not_sorted() {
    // Atom 1: a - b, atom 3: b - c, atom 2: c - a; the list is 1 3 2.
    let text = wrap("9 1 0 4 diff\n9 1 1 1 -\n9 1 2 2 <=\n9 1 3 1 a\n9 1 4 1 b\n9 1 5 1 c\n9 0 6 -1\n9 2 7 1 2 3 4\n9 2 8 1 2 4 5\n9 2 9 1 2 5 3\n9 4 0 1 7 0\n9 4 1 1 8 0\n9 4 2 1 9 0\n9 6 1 0 1 0 2 6\n9 6 3 0 1 1 2 6\n9 6 2 0 1 2 2 6\n");
    let got = judged(text.as_bytes(), b"1 2 3\n");
    assert_eq!((got.verdict, got.cycle), (refused(10, 3), vec![1, 3, 2]));
    assert!(!second::check_cycle(text.as_bytes(), b"1 2 3\n", &[1, 2, 3]));
    assert!(!second::check_cycle(text.as_bytes(), b"1 2 3\n", &[2, 1, 3]));
}
