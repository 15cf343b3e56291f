//! The proved judge, called through its static library (`include/plan_judge.h`).

use crate::judge::refusal::{Refusal, Verdict};

/// A function that judges: a text, a candidate, a timetable room and a cycle room, each by its start and length.
type Judge = unsafe extern "C" fn(*const u8, usize, *const u8, usize, *mut u8, usize, *mut u32, usize) -> u64;

extern "C" {
    fn plan_judge(
        text: *const u8,
        text_length: usize,
        cand: *const u8,
        cand_length: usize,
        room: *mut u8,
        room_length: usize,
        cycle: *mut u32,
        cycle_length: usize,
    ) -> u64;
    fn plan_judge_long(
        text: *const u8,
        text_length: usize,
        cand: *const u8,
        cand_length: usize,
        room: *mut u8,
        room_length: usize,
        cycle: *mut u32,
        cycle_length: usize,
    ) -> u64;
    fn plan_time(table: *const u8, table_length: usize, term: u32) -> u64;
    fn plan_shown(
        text: *const u8,
        text_length: usize,
        cand: *const u8,
        cand_length: usize,
        number: u32,
        place: u32,
    ) -> u64;
}

// An answer's upper half as a number and its lower half.
fn halves(answer: u64) -> (u32, u32) {
    ((answer >> 32) as u32, answer as u32)
}

// The verdict by one of the two functions that judge.
fn judged_by(judge: Judge, text: &[u8], cand: &[u8], room: &mut [u8], cycle: &mut [u32]) -> Verdict {
    // SAFETY: each pointer goes with its slice's length, and the rooms are borrowed alone.
    let answer = unsafe {
        judge(
            text.as_ptr(),
            text.len(),
            cand.as_ptr(),
            cand.len(),
            room.as_mut_ptr(),
            room.len(),
            cycle.as_mut_ptr(),
            cycle.len(),
        )
    };
    match halves(answer) {
        (0, length) => Verdict::Accepted(length),
        (number, place) => Verdict::Refused(Refusal { number, place }),
    }
}

/// The proved judge's verdict on a text and a candidate, with both rooms.
pub fn judge(text: &[u8], cand: &[u8], room: &mut [u8], cycle: &mut [u32]) -> Verdict {
    judged_by(plan_judge, text, cand, room, cycle)
}

/// The same, with the large frame for every text.
pub fn judge_long(text: &[u8], cand: &[u8], room: &mut [u8], cycle: &mut [u32]) -> Verdict {
    judged_by(plan_judge_long, text, cand, room, cycle)
}

/// The time of a term in a timetable, by the proved judge.
pub fn time(table: &[u8], term: u32) -> Result<u32, Refusal> {
    // SAFETY: the pointer goes with its slice's length.
    match halves(unsafe { plan_time(table.as_ptr(), table.len(), term) }) {
        (0, time) => Ok(time),
        (number, place) => Err(Refusal { number, place }),
    }
}

/// Where the faulty part starts and how long it is, by the proved judge; 0 and 0 for an empty part.
pub fn shown(text: &[u8], cand: &[u8], number: u32, place: u32) -> (u32, u32) {
    // SAFETY: each pointer goes with its slice's length.
    halves(unsafe { plan_shown(text.as_ptr(), text.len(), cand.as_ptr(), cand.len(), number, place) })
}
