//! A report as a picture in SVG: the timetable as a chart, or the ring of differences that no times keep.

mod canvas;
mod chart;
mod ring;

use crate::report::{Edge, Report};

const NEGATIVE_CYCLE: u32 = 10;

/// The picture of a report, where it has one: an acceptance and refusal 10 have.
pub fn picture(report: &Report) -> Option<String> {
    if report.accepted {
        Some(chart::chart(report))
    } else if report.number == NEGATIVE_CYCLE {
        Some(ring::ring(report))
    } else {
        None
    }
}

// A count with what is counted.
fn counted(count: usize, thing: &str) -> String {
    format!("{count} {thing}{}", if count == 1 { "" } else { "s" })
}

// What a difference says, its atom and its line.
fn said(edge: &Edge) -> String {
    format!("{} - {} ≤ {} ({}, line {})", edge.x, edge.y, edge.k, edge.name, edge.line)
}
