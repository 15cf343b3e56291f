//! The timetable as a chart: a row a name, time to scale, the tight differences as arrows.

use super::canvas::{number, shortened, width, Anchor, Area, Canvas, Face, Point, Text};
use super::canvas::{LATER, NAME, NOTE, TITLE, WITHIN};
use super::{counted, said};
use crate::report::{Edge, Report, Time};
use std::collections::BTreeMap;

const MOST_ROWS: usize = 60;
const MOST_COLUMNS: usize = 40;
const MOST_STEPS: u64 = 8;

// Time 0 is at 0, the end of the axis at PLOT; the first row is at 0, the axis above it. Names end left of the gutter.
const PLOT: f64 = 640.0;
const ROW: f64 = 26.0;
const GUTTER: f64 = 56.0;
const AXIS: f64 = -20.0;
const MARK: f64 = 5.0;
const TIME_AT: f64 = 10.0;
const BASE: f64 = 4.0;
// With more rows than this the axis is drawn below them too.
const ROWS_IN_VIEW: usize = 24;
// An arrow to a mark that is less than this to the right goes round by the left.
const NEAR: f64 = 28.0;
// How much further than others the arrow of a name to itself swings out.
const LOOP: f64 = 12.0;
// The parts of an arrow's way at which its label may be, and the sides (see `beside`), the best first.
const PARTS: [f64; 7] = [0.5, 0.6, 0.4, 0.7, 0.3, 0.8, 0.2];
const SIDES: [f64; 3] = [1.0, -1.0, 0.0];
// The height of a label, and how many pieces of an arrow are looked at to keep labels off it.
const LABEL: f64 = 11.0;
const SAMPLES: usize = 32;

/// The steps of an axis: their size and their count.
#[derive(Clone, Copy)]
struct Steps {
    size: u64,
    count: u64,
}

/// A name's row: its mark, what is written beside it, and where that ends.
struct Row<'a> {
    time: &'a Time,
    mark: Point,
    beside: String,
    end: f64,
}

/// A tight difference, or some between the same rows, from the row of x to the row of y.
struct Arrow<'a> {
    edges: Vec<&'a Edge>,
    ends: (usize, usize),
    face: Face,
    curve: [Point; 4],
}

/// The chart of an accepted report.
pub fn chart(report: &Report) -> String {
    let shown = &report.times[..report.times.len().min(MOST_ROWS)];
    let steps = steps_to(shown.iter().map(|time| time.time).max().unwrap_or(0));
    let rows = rows(shown, steps);
    let arrows = arrows(&report.tight, &rows);
    let mut canvas = Canvas::default();
    axis(&mut canvas, steps, rows.len());
    rows.iter().for_each(|row| canvas.line("row", (8.0 - GUTTER, row.mark.1), row.mark));
    arrows.iter().for_each(|arrow| draw_arrow(&mut canvas, arrow));
    rows.iter().for_each(|row| draw_row(&mut canvas, row));
    let unlabelled = labels(&mut canvas, &arrows);
    let drawn = arrows.iter().map(|arrow| arrow.edges.len()).sum();
    notes(&mut canvas, report, drawn, unlabelled);
    let title = format!("Timetable: {} at the earliest times", counted(report.times.len(), "name"));
    head(&mut canvas, &title, report);
    canvas.finish(&title)
}

// Steps to `most`: their size is the smallest of 1, 2, 5, 10, 20, 50, .. that needs few of them.
fn steps_to(most: u32) -> Steps {
    let most = u64::from(most.max(1));
    let sizes = (0..11).flat_map(|power| [1, 2, 5].map(|digit| digit * 10u64.pow(power)));
    let size = sizes.into_iter().find(|size| most <= size * MOST_STEPS).unwrap_or(most);
    Steps { size, count: most.div_ceil(size) }
}

// Where a time is along the axis.
fn along(time: u64, steps: Steps) -> f64 {
    time as f64 * PLOT / (steps.size * steps.count) as f64
}

// The time less that of 0, where that is another.
fn since(time: &Time) -> Option<i64> {
    time.since_zero.filter(|since| *since != i64::from(time.time))
}

// The rows of the names.
fn rows<'a>(times: &'a [Time], steps: Steps) -> Vec<Row<'a>> {
    let row = |(index, time): (usize, &'a Time)| {
        let mark = (along(u64::from(time.time), steps), index as f64 * ROW);
        let beside = since(time).map_or(time.time.to_string(), |since| format!("{} ({since})", time.time));
        let end = mark.0 + TIME_AT + width(&beside, NAME) + BASE;
        Row { time, mark, beside, end }
    };
    times.iter().enumerate().map(row).collect()
}

// The rows of each name as it is written; two names may be written alike.
fn by_name<'a>(rows: &[Row<'a>]) -> BTreeMap<&'a str, Vec<usize>> {
    let mut named: BTreeMap<&str, Vec<usize>> = BTreeMap::new();
    for (index, row) in rows.iter().enumerate() {
        named.entry(&row.time.name).or_default().push(index);
    }
    named
}

// The arrows between rows: those of the names whose times make the difference tight.
fn arrows<'a>(tight: &'a [Edge], rows: &[Row]) -> Vec<Arrow<'a>> {
    let named = by_name(rows);
    let rows_of = |name: &str| named.get(name).map_or(&[][..], Vec::as_slice);
    let apart = |x: usize, y: usize| i64::from(rows[x].time.time) - i64::from(rows[y].time.time);
    let mut between: BTreeMap<(usize, usize), Vec<&Edge>> = BTreeMap::new();
    for edge in tight {
        let mut pairs = rows_of(&edge.x).iter().flat_map(|x| rows_of(&edge.y).iter().map(|y| (*x, *y)));
        if let Some(pair) = pairs.find(|(x, y)| apart(*x, *y) == edge.k) {
            between.entry(pair).or_default().push(edge);
        }
    }
    between.into_iter().map(|((x, y), edges)| arrow(edges, rows, x, y)).collect()
}

// The arrow of some differences from row x to row y.
fn arrow<'a>(edges: Vec<&'a Edge>, rows: &[Row], x: usize, y: usize) -> Arrow<'a> {
    let ends = (x, y);
    if edges[0].k < 0 {
        Arrow { edges, ends, face: LATER, curve: left_curve(rows, x, y) }
    } else {
        Arrow { edges, ends, face: WITHIN, curve: right_curve(rows, x, y) }
    }
}

// How far an arrow between two rows swings out.
fn swing(x: usize, y: usize) -> f64 {
    16.0 + 5.0 * x.abs_diff(y).min(9) as f64
}

// Down from a mark and right to a later one; round by the left where a mark is in the way or the later one near.
fn left_curve(rows: &[Row], x: usize, y: usize) -> [Point; 4] {
    let (from, to) = (rows[x].mark, rows[y].mark);
    let end = (to.0 - MARK, to.1);
    let between = rows.get(x + 1..y).unwrap_or_default();
    let round = to.0 - from.0 < NEAR || between.iter().any(|row| row.mark.0 - from.0 < 2.0 * MARK);
    if round {
        let far = from.0 - MARK - swing(x, y);
        return [(from.0 - MARK, from.1), (far, from.1), (far, to.1), end];
    }
    let start = (from.0, from.1 + MARK);
    let corner = |point: Point| (point.0 + (from.0 - point.0) * 0.8, point.1 + (to.1 - point.1) * 0.8);
    [start, corner(start), corner(end), end]
}

// From beside one time round by the right to beside another; to the same one from above it to below.
fn right_curve(rows: &[Row], x: usize, y: usize) -> [Point; 4] {
    let between = &rows[x.min(y)..=x.max(y)];
    let far = between.iter().map(|row| row.end).fold(0.0, f64::max) + swing(x, y);
    let (far, apart) = if x == y { (far + LOOP, MARK) } else { (far, 0.0) };
    let (from, to) = ((rows[x].end, rows[x].mark.1 - apart), (rows[y].end, rows[y].mark.1 + apart));
    [from, (far, from.1), (far, to.1), to]
}

// A curve as a path.
fn written(curve: &[Point; 4]) -> String {
    let [a, b, c, d] = curve.map(|(x, y)| format!("{} {}", number(x), number(y)));
    format!("M{a}C{b} {c} {d}")
}

// The point of a curve at a part of its way.
fn at(curve: &[Point; 4], part: f64) -> Point {
    let rest = 1.0 - part;
    let shares = [rest * rest * rest, 3.0 * rest * rest * part, 3.0 * rest * part * part, part * part * part];
    let sum = |of: fn(&Point) -> f64| curve.iter().zip(shares).map(|(point, share)| of(point) * share).sum();
    (sum(|point| point.0), sum(|point| point.1))
}

// Draws an arrow; pointed at, it says its differences.
fn draw_arrow(canvas: &mut Canvas, arrow: &Arrow) {
    let lines: Vec<String> = arrow.edges.iter().map(|edge| said(edge)).collect();
    canvas.path(arrow.face, &written(&arrow.curve), true, &lines.join("; "));
    samples(&arrow.curve).for_each(|point| canvas.reach(Area::about(point, 1.0)));
}

// Writes the labels of the arrows, one for two to and fro with the same bound, and answers how many had no room.
fn labels(canvas: &mut Canvas, arrows: &[Arrow]) -> usize {
    let back = |(x, y)| arrows.iter().any(|arrow| arrow.face == WITHIN && arrow.ends == (y, x));
    let alone = |arrow: &&Arrow| arrow.face == LATER || arrow.ends.0 <= arrow.ends.1 || !back(arrow.ends);
    let lines: Vec<Point> = arrows.iter().flat_map(|arrow| samples(&arrow.curve)).collect();
    arrows.iter().filter(alone).filter(|arrow| !label(canvas, arrow, &lines)).count()
}

// Points of a curve, close to each other.
fn samples(curve: &[Point; 4]) -> impl Iterator<Item = Point> + '_ {
    (0..=SAMPLES).map(|index| at(curve, index as f64 / SAMPLES as f64))
}

// Writes the label of an arrow where there is room, best where no arrow passes, and says whether there was.
fn label(canvas: &mut Canvas, arrow: &Arrow, lines: &[Point]) -> bool {
    let k = arrow.edges[0].k;
    let words = if k < 0 { format!("+{}", k.unsigned_abs()) } else { format!("≤ {k}") };
    let text = |at| Text { at, anchor: Anchor::Middle, face: arrow.face, words: &words };
    let places = SIDES.into_iter().flat_map(|side| PARTS.map(|part| (side, part)));
    let texts = places.map(|(side, part)| text(beside(arrow, part, side, width(&words, arrow.face))));
    let free: Vec<Text> = texts.filter(|text| canvas.free(text)).collect();
    let off = free.iter().find(|text| !lines.iter().any(|point| text.area().holds(*point)));
    let best = off.or(free.first());
    best.into_iter().for_each(|text| canvas.write(text));
    best.is_some()
}

// Where a label so wide is at a part of an arrow's way: outside its bend for side 1, inside for -1, on it for 0.
fn beside(arrow: &Arrow, part: f64, side: f64, width: f64) -> Point {
    let [(x, y), ahead, behind] = [part, part + 0.01, part - 0.01].map(|part| at(&arrow.curve, part));
    let (dx, dy) = (ahead.0 - behind.0, ahead.1 - behind.1);
    let length = dx.hypot(dy).max(f64::MIN_POSITIVE);
    let turn = if arrow.face == WITHIN && arrow.ends.0 <= arrow.ends.1 { -side } else { side };
    let (across, down) = (-dy / length * turn, dx / length * turn);
    let away = across.abs() * width / 2.0 + down.abs() * LABEL / 2.0 + BASE;
    (x + across * away, y + down * away + BASE)
}

// Draws the axis with its steps, and their lines through the rows.
fn axis(canvas: &mut Canvas, steps: Steps, rows: usize) {
    let bottom = rows.saturating_sub(1) as f64 * ROW - AXIS;
    for index in 0..=steps.count {
        let (x, words) = (along(index * steps.size, steps), (index * steps.size).to_string());
        canvas.line("step", (x, AXIS), (x, bottom));
        let mut write = |y| canvas.write(&Text { at: (x, y), anchor: Anchor::Middle, face: NOTE, words: &words });
        write(AXIS - 6.0);
        if rows > ROWS_IN_VIEW {
            write(bottom + 14.0);
        }
    }
    canvas.line("axis", (0.0, AXIS), (PLOT, AXIS));
    canvas.write(&Text { at: (-GUTTER, AXIS - 6.0), anchor: Anchor::End, face: NOTE, words: "time" });
    canvas.reach(Area { left: 0.0, top: AXIS, right: PLOT, bottom });
}

// Draws a row: the name, the mark with the time beside it.
fn draw_row(canvas: &mut Canvas, row: &Row) {
    let (x, y) = row.mark;
    canvas.dot(row.mark, MARK, &format!("{}: {}", row.time.name, row.beside));
    let name = shortened(&row.time.name, MOST_COLUMNS);
    canvas.write(&Text { at: (-GUTTER, y + BASE), anchor: Anchor::End, face: NAME, words: &name });
    canvas.write(&Text { at: (x + TIME_AT, y + BASE), anchor: Anchor::Start, face: NAME, words: &row.beside });
}

// Writes below the rows what the chart leaves out.
fn notes(canvas: &mut Canvas, report: &Report, drawn: usize, unlabelled: usize) {
    let (names, tight) = (report.times.len().saturating_sub(MOST_ROWS), report.tight.len().saturating_sub(drawn));
    let mut notes = Vec::new();
    if report.times.is_empty() {
        notes.push("No names: there is nothing to time.".to_string());
    }
    if names > 0 {
        notes.push(format!("Left out: the {} after these.", counted(names, "name")));
    }
    if tight > 0 {
        notes.push(format!("Left out: {}.", counted(tight, "tight difference")));
    }
    if unlabelled > 0 {
        notes.push(format!("Without a label, for want of room: {}.", counted(unlabelled, "arrow")));
    }
    let left = canvas.all().left;
    for words in notes {
        let y = canvas.all().bottom + 20.0;
        canvas.write(&Text { at: (left, y), anchor: Anchor::Start, face: NOTE, words: &words });
    }
}

// Writes the title and the legend above the axis.
fn head(canvas: &mut Canvas, title: &str, report: &Report) {
    let (left, top) = (canvas.all().left, canvas.all().top);
    canvas.write(&Text { at: (left, top - 42.0), anchor: Anchor::Start, face: TITLE, words: title });
    let zero = report.times.iter().any(|time| since(time).is_some());
    let legend = [
        ("x → y +d: y at least d after x", LATER),
        ("x → y ≤ d: x at most d after y", WITHIN),
        ("(t): time less the time of 0", NOTE),
    ];
    let mut x = left;
    for (words, face) in legend.into_iter().take(if zero { 3 } else { 2 }) {
        canvas.write(&Text { at: (x, top - 18.0), anchor: Anchor::Start, face, words });
        x += width(words, face) + 24.0;
    }
}
