//! The examples of document 01, and those of the requests.
mod common;
use common::*;
use second::testing::plans::{unsound, Unsound};
use second::{check_cycle, report, show, time, Refusal, Verdict};

// The accepted timetable's times of the names send and recv.
fn times(text: &str, cand: &str, length: u32) -> (u32, u32) {
    let got = judged(text.as_bytes(), cand.as_bytes());
    assert_eq!(got.verdict, Verdict::Accepted(length));
    (time(&got.room, 3).unwrap(), time(&got.room, 4).unwrap())
}

#[test]
fn p_with_all() {
    assert_eq!(times(P, "1 2 3\n", 44), (0, 5));
    let got = judged(P.as_bytes(), b"1 2 3\n");
    let words = [2u32, 3, 16, 32, 3, 0, 4, 5, 1, 2, 3];
    let bytes: Vec<u8> = words.iter().flat_map(|w| w.to_le_bytes()).collect();
    assert_eq!(got.room, bytes);
    assert_eq!(report(P.as_bytes(), b"1 2 3\n"), "accepted 2 3\n3 0\n4 5\n");
}

#[test]
fn p_with_others() {
    assert_eq!(times(P, "3\n", 36), (0, 5));
    assert_eq!(verdict(P, "1 3\n"), refused(8, 22));
    assert_eq!(verdict(P, "\n"), refused(8, 36));
    assert_eq!(verdict(P, "2 3\n"), refused(9, 2));
    assert_eq!(show(P.as_bytes(), b"1 3\n", 8, 22), b"1 0 1 2 0 1 1");
    assert_eq!(show(P.as_bytes(), b"\n", 8, 36), b"1 0 1 3 0 0");
}

#[test]
fn q_has_a_cycle() {
    let got = judged(q().as_bytes(), b"1 2 3\n");
    assert_eq!(got.verdict, refused(10, 2));
    assert_eq!(got.cycle, [2, 3]);
    assert!(check_cycle(q().as_bytes(), b"1 2 3\n", &[2, 3]));
    assert!(!check_cycle(q().as_bytes(), b"1 2 3\n", &[3, 2]));
    assert!(!check_cycle(P.as_bytes(), b"1 2 3\n", &[2, 3]));
    assert!(!check_cycle(q().as_bytes(), b"3\n", &[2, 3]));
    assert!(!check_cycle(q().as_bytes(), b"1 2 3\n", &[2]));
    assert!(!check_cycle(q().as_bytes(), b"1 2 3\n", &[]));
    assert!(!check_cycle(q().as_bytes(), b"1 2 3\n", &[2, 3, 2, 3]));
    assert!(!check_cycle(q().as_bytes(), b"1 2 3\n", &[1]));
    assert_eq!(report(q().as_bytes(), b"1 2 3\n"), "refused 10 2\n2 3\n");
    assert_eq!(times(&q(), "3\n", 36), (0, 45));
}

#[test]
fn sum_zero_is_accepted() {
    let text = P.replace("9 0 5 40\n", "9 0 5 5\n");
    assert_eq!(times(&text, "1 2 3\n", 44), (0, 5));
}

#[test]
fn external_atom() {
    let text = P.replace("1 0 1 2 0 1 1\n", "");
    assert_eq!(times(&text, "2 3\n", 40), (0, 5));
}

#[test]
fn loops_and_negation() {
    let text = wrap("1 0 1 1 0 1 2\n1 0 1 2 0 1 1\n");
    assert_eq!(verdict(&text, "1 2\n"), refused(9, 1));
    assert_eq!(verdict(&text, "\n"), Verdict::Accepted(16));
    let text = wrap("1 0 1 1 0 1 -1\n");
    assert_eq!(verdict(&text, "\n"), refused(8, 10));
    assert_eq!(verdict(&text, "1\n"), refused(9, 1));
}

#[test]
fn weights() {
    check_traps(|text, cand| verdict(text, cand));
}

#[test]
fn terms() {
    check_terms(|text, cand| verdict(text, cand), common::shown);
}

#[test]
fn a_cycle_of_one() {
    let text =
        wrap("9 1 0 4 diff\n9 1 1 1 -\n9 1 2 2 <=\n9 0 3 0\n9 2 4 1 2 3 3\n9 4 0 1 4 0\n9 0 5 -1\n9 6 7 0 1 0 2 5\n");
    let got = judged(text.as_bytes(), b"7\n");
    assert_eq!((got.verdict, got.cycle), (refused(10, 1), vec![7]));
    assert!(check_cycle(text.as_bytes(), b"7\n", &[7]));
    assert_eq!(report(text.as_bytes(), b"7\n"), "refused 10 1\n7\n");
    // Out of force the name stays in the table, at 0.
    assert_eq!(report(text.as_bytes(), b"\n"), "accepted 1 0\n3 0\n");
    assert_eq!(verdict(text.replace("9 0 5 -1", "9 0 5 0"), "7\n"), Verdict::Accepted(28));
}

#[test]
fn empty_things() {
    assert_eq!(verdict("", "\n"), refused(3, 0));
    assert_eq!(verdict("", ""), refused(3, 0));
    assert_eq!(verdict(wrap(""), "\n"), Verdict::Accepted(16));
    assert_eq!(judged(wrap("").as_bytes(), b"\n").room, [0, 0, 0, 0, 0, 0, 0, 0, 16, 0, 0, 0, 16, 0, 0, 0]);
    assert_eq!(report(wrap("").as_bytes(), b"\n"), "accepted 0 0\n");
    assert_eq!(report(b"", b""), "refused 3 0\n");
}

#[test]
fn text_length() {
    let text = second::testing::generating::long_text(60_000);
    assert_eq!(text.len(), 60_000);
    assert_eq!(verdict(&text, "\n"), Verdict::Accepted(16));
    let text = second::testing::generating::long_text(60_001);
    assert_eq!(text.len(), 60_001);
    assert_eq!(verdict(&text, "\n"), refused(2, 60_000));
    assert_eq!(second::describe(&text), "refused 2 60000\n");
    assert_eq!(verdict(vec![0u8; 60_000], "\n"), refused(3, 0));
    assert_eq!(verdict(vec![0u8; 60_001], "\n"), refused(2, 60_000));
}

#[test]
fn published_listings() {
    let first = wrap("1 1 1 1 0 0\n1 0 1 2 0 1 1\n1 0 1 3 0 1 -1\n4 1 a 1 1\n4 1 b 1 2\n4 1 c 1 3\n");
    assert_eq!(verdict(&first, "1 2\n"), Verdict::Accepted(24));
    assert_eq!(verdict(&first, "3\n"), Verdict::Accepted(20));
    assert_eq!(verdict(&first, "1 2 3\n"), refused(9, 3));
    let facts: String = (1..=6).map(|a| format!("1 0 1 {a} 0 0\n")).collect();
    let second = wrap(&(facts + "4 7 task(1) 0\n4 7 task(2) 0\n4 15 duration(1,200) 0\n4 15 duration(2,400) 0\n9 0 1 200\n9 0 3 400\n9 0 6 1\n9 0 11 2\n9 1 0 4 diff\n9 1 2 2 <=\n9 1 4 1 -\n9 1 5 3 end\n9 1 8 5 start\n9 2 7 5 1 6\n9 2 9 8 1 6\n9 2 10 4 2 7 9\n9 2 12 5 1 11\n9 2 13 8 1 11\n9 2 14 4 2 12 13\n9 4 0 1 10 0\n9 4 1 1 14 0\n9 6 5 0 1 0 2 1\n9 6 6 0 1 1 2 3\n"));
    assert_eq!(report(second.as_bytes(), b"1 2 3 4 5 6\n"), "accepted 4 6\n7 0\n9 0\n12 0\n13 0\n");
}

#[test]
fn described() {
    let text = wrap("1 1 2 1 2 0 2 3 -4\n4 2 a  0\n9 0 5 -7\n9 1 1 0 \n9 2 6 -3 1 4\n9 4 0 1 6 1 -9\n9 5 2 0 1 0\n9 6 2 0 1 0 2 5\n10 hi\n10 \n1 0 0 0 0\n");
    let wanted = "read 11\n1 10 1 2 1 2 0 0 2 6 9\n4 29 2 97 32 0\n90 38 5 15\n91 47 1 0\n92 56 6 7 1 4\n94 69 0 1 6 1 19\n95 84 2 0 1 0\n96 96 2 0 1 0 2 5\n10 112 2 104 105\n10 118 0\n1 122 0 0 0 0 0\n";
    assert_eq!(second::describe(text.as_bytes()), wanted);
    let text = wrap("1 0 1 6 1 2 3 1 1 -2 3 4096 100000\n1 1 0 1 1000000000 0\n");
    let wanted = "read 2\n1 10 0 1 6 1 2 3 16386 49157 1638408192\n1 45 1 0 1 1000000000 0\n";
    assert_eq!(second::describe(text.as_bytes()), wanted);
    assert_eq!(second::describe(b"asp 1 0 0\n"), "refused 3 10\n");
    assert_eq!(second::describe_candidate(b"\n"), "candidate 0\n");
    assert_eq!(second::describe_candidate(b"1 4096\n"), "candidate 2 1 4096\n");
    assert_eq!(second::describe_candidate(b"1 1\n"), "refused 7 2\n");
}

#[test]
fn shown() {
    let (text, cand) = (b"ab\ncd".as_slice(), b"xy\nz".as_slice());
    for n in [3, 4, 5, 8, 61, 62, 63, 64] {
        assert_eq!(show(text, cand, n, 0), b"ab");
        assert_eq!(show(text, cand, n, 1), b"b");
        assert_eq!(show(text, cand, n, 2), b"");
        assert_eq!(show(text, cand, n, 3), b"cd");
        assert_eq!(show(text, cand, n, 5), b"");
        assert_eq!(show(text, cand, n, 6), b"");
        assert_eq!(show(text, cand, n, u32::MAX), b"");
    }
    assert_eq!(show(text, cand, 7, 0), b"xy");
    assert_eq!(show(text, cand, 7, 3), b"z");
    for n in [0, 1, 2, 6, 9, 10, 11, 12, 20, 21, 60, 65, u32::MAX] {
        assert_eq!(show(text, cand, n, 0), b"");
    }
    assert_eq!(show(text, cand, 4, 1).as_ptr(), text[1..].as_ptr());
}

#[test]
fn rooms() {
    let mut room = vec![7u8; 24_592];
    let mut cycle = vec![7u32; 1_024];
    let long = second::testing::generating::long_text(60_001);
    for text in [P.as_bytes(), b"", &long] {
        assert_eq!(second::judge(text, b"", &mut room[..24_591], &mut cycle[..1_023]), refused(1, 24_592));
        assert_eq!(second::judge(text, b"", &mut room, &mut cycle[..1_023]), refused(1, 1_024));
        assert_eq!(second::judge(text, b"", &mut [], &mut []), refused(1, 24_592));
    }
    assert!(room.iter().all(|b| *b == 7) && cycle.iter().all(|c| *c == 7));
    assert_eq!(second::judge(P.as_bytes(), b"1 2 3\n", &mut room, &mut cycle), Verdict::Accepted(44));
}

#[test]
fn order_of_refusals() {
    // 61 to 64 before 7, 3 before these, 7 before 8, 8 before 9, 9 before 10.
    for Unsound { text, refusal, .. } in unsound() {
        assert_eq!(verdict(&text, ""), Verdict::Refused(refusal));
        assert_eq!(verdict(format!("{text}\n"), ""), refused(3, text.len() as u32));
    }
    assert_eq!(verdict(wrap("1 0 0 0 0\n"), ""), refused(7, 0));
    assert_eq!(verdict(wrap("1 0 0 0 0\n"), "1\n"), refused(8, 10));
    assert_eq!(verdict(q(), "1 2 3 4\n"), refused(9, 4));
}

#[test]
fn timetable_reader() {
    let got = judged(P.as_bytes(), b"1 2 3\n").room;
    let not_a_table = Err(Refusal { number: 20, place: 0 });
    assert_eq!(time(&got, 5), Err(Refusal { number: 21, place: 5 }));
    assert_eq!(time(&got, u32::MAX), Err(Refusal { number: 21, place: u32::MAX }));
    for end in 0..got.len() {
        assert_eq!(time(&got[..end], 3), not_a_table);
    }
    for more in 1..9 {
        assert_eq!(time(&[got.clone(), vec![0; more]].concat(), 3), not_a_table);
    }
    let with = |word: usize, value: u32| {
        let mut table = got.clone();
        table[4 * word..4 * word + 4].copy_from_slice(&value.to_le_bytes());
        time(&table, 3)
    };
    for (word, value) in [(0, 1), (0, 3), (0, 0x2000_0002), (1, 2), (1, 0x4000_0003), (2, 15), (2, 0), (3, 33), (3, 31)]
    {
        assert_eq!(with(word, value), not_a_table);
    }
    assert_eq!(with(4, 4), not_a_table);
    assert_eq!(with(6, 3), not_a_table);
    assert_eq!(with(6, 1023), Ok(0));
    assert_eq!(with(6, 1024), not_a_table);
    assert_eq!(with(5, 1_023_000_000), Ok(1_023_000_000));
    assert_eq!(with(5, 1_023_000_001), not_a_table);
    assert_eq!(with(5, u32::MAX), not_a_table);
    assert_eq!(with(8, 0), not_a_table);
    assert_eq!(with(8, 2), not_a_table);
    assert_eq!(with(10, 4096), Ok(0));
    assert_eq!(with(10, 4097), not_a_table);
    assert_eq!(time(&[], 0), not_a_table);
    // The counts traded: 8n + 4m the same, the shape not.
    let mut traded = got.clone();
    traded[0] = 1;
    traded[4] = 5;
    assert_eq!(time(&traded, 3), not_a_table);
}
