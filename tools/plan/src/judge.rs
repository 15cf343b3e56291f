//! The linked judge: the functions of include/plan_judge.h. It alone decides.

use std::ops::Range;

/// Bytes of the timetable room, places of the cycle room.
const ROOM_BYTES: usize = 24_592;
const CYCLE_PLACES: usize = 1_024;

extern "C" {
    #[allow(clippy::too_many_arguments)]
    fn plan_judge(
        text: *const u8,
        text_length: usize,
        cand: *const u8,
        cand_length: usize,
        room: *mut u8,
        room_length: usize,
        cycle: *mut u32,
        cycle_length: usize,
    ) -> u64;
    fn plan_time(table: *const u8, table_length: usize, term: u32) -> u64;
    fn plan_shown(
        text: *const u8,
        text_length: usize,
        cand: *const u8,
        cand_length: usize,
        number: u32,
        place: u32,
    ) -> u64;
}

/// A verdict of the library, with what it wrote into the rooms.
#[derive(Clone, Debug, PartialEq, Eq)]
pub enum Verdict {
    Accepted { table: Vec<u8> },
    Refused { number: u32, place: u32, cycle: Vec<u32> },
}

/// The verdict on a candidate against a plan text.
pub fn judge(text: &[u8], cand: &[u8]) -> Verdict {
    let mut room = vec![0u8; ROOM_BYTES];
    let mut cycle = vec![0u32; CYCLE_PLACES];
    let (t, c) = ((text.as_ptr(), text.len()), (cand.as_ptr(), cand.len()));
    let (r, l) = ((room.as_mut_ptr(), room.len()), (cycle.as_mut_ptr(), cycle.len()));
    // SAFETY: each pointer is that of a slice or a room with the length given beside it, and the rooms overlap nothing.
    let (number, place) = halves(unsafe { plan_judge(t.0, t.1, c.0, c.1, r.0, r.1, l.0, l.1) });
    if number == 0 {
        room.truncate(place as usize);
        return Verdict::Accepted { table: room };
    }
    cycle.truncate(if number == 10 { place as usize } else { 0 });
    Verdict::Refused { number, place, cycle }
}

/// The time of a term in a timetable; none if it is no name of it.
pub fn time(table: &[u8], term: u32) -> Option<u32> {
    // SAFETY: the pointer is that of a slice with the length given beside it.
    let (number, time) = halves(unsafe { plan_time(table.as_ptr(), table.len(), term) });
    (number == 0).then_some(time)
}

/// The faulty part for a refusal: of the candidate for 7, else of the text.
pub fn shown(text: &[u8], cand: &[u8], number: u32, place: u32) -> Range<usize> {
    // SAFETY: each pointer is that of a slice with the length given beside it.
    let (start, length) =
        halves(unsafe { plan_shown(text.as_ptr(), text.len(), cand.as_ptr(), cand.len(), number, place) });
    start as usize..start as usize + length as usize
}

/// The names and the atoms of a timetable, as term numbers and atom numbers.
pub fn contents(table: &[u8]) -> (Vec<u32>, Vec<u32>) {
    let word = |i: usize| table.get(4 * i..4 * i + 4).map_or(0, |b| u32::from_le_bytes([b[0], b[1], b[2], b[3]]));
    let (n, m) = (word(0) as usize, word(1) as usize);
    ((0..n).map(|i| word(4 + 2 * i)).collect(), (0..m).map(|j| word(4 + 2 * n + j)).collect())
}

// The upper and the lower half of an answer.
fn halves(answer: u64) -> (u32, u32) {
    ((answer >> 32) as u32, answer as u32)
}
