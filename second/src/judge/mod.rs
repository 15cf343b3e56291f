//! The judge, written from documents 01 and 02 and the decided points alone. It shares nothing with the proved code, and
//! nothing here uses what stands outside this module.

pub mod candidate;
pub mod differences;
pub mod fields;
pub mod judging;
pub mod meaning;
pub mod reading;
pub mod refusal;
pub mod times;
pub mod timetable;
