//! A negative cycle as a ring: names as dots, differences as arrows with their bounds, the sum in the middle.

use super::canvas::{number, shortened, Anchor, Area, Canvas, Face, Point, Text};
use super::canvas::{LATER, NAME, NOTE, SUM, TITLE, WITHIN};
use super::{counted, said};
use crate::report::{Edge, Report};
use std::f64::consts::{FRAC_PI_2, TAU};

// With more names than this the texts stand like spokes.
const MOST_LEVEL: usize = 16;
const MOST_COLUMNS: usize = 32;
const MOST_ATOM_COLUMNS: usize = 48;
const LEAST_RADIUS: f64 = 190.0;
const MOST_RADIUS: f64 = 420.0;
// What a text that stands like a spoke takes of the ring, and how far in from the ring it must have that.
const SPOKE: f64 = 16.0;
const INNER: f64 = 50.0;
// How far names are outside the ring, and bounds inside.
const OUTSIDE: f64 = 16.0;
const INSIDE: f64 = 14.0;
const DOT: f64 = 6.0;

/// A ring about 0: its radius, how many names it has, and that one in `every` of them is written.
struct Ring {
    radius: f64,
    count: usize,
    every: usize,
}

/// The ring of a report of refusal 10.
pub fn ring(report: &Report) -> String {
    let ring = Ring::of(report.cycle.len());
    let mut canvas = Canvas::default();
    canvas.reach(Area::about((0.0, 0.0), ring.radius));
    report.cycle.iter().enumerate().for_each(|(index, edge)| ring.draw(&mut canvas, index, edge));
    let sum = format!("sum {}: no times", report.sum);
    canvas.write(&Text { at: (0.0, 5.0), anchor: Anchor::Middle, face: SUM, words: &sum });
    let chosen = || report.cycle.iter().enumerate().filter(|(index, _)| ring.chosen(*index));
    chosen().for_each(|(index, edge)| ring.write(&mut canvas, index, edge));
    chosen().for_each(|(index, edge)| ring.write_atom(&mut canvas, index, edge));
    let title = format!("Negative cycle: {} that no times keep", counted(report.cycle.len(), "difference"));
    head(&mut canvas, &title, ring.every);
    canvas.finish(&title)
}

impl Ring {
    // A ring for so many names.
    fn of(count: usize) -> Ring {
        let radius = (count as f64 * SPOKE / TAU + INNER).clamp(LEAST_RADIUS, MOST_RADIUS);
        let room = TAU * (radius - INNER) / SPOKE;
        Ring { radius, count, every: (count as f64 / room).ceil().max(1.0) as usize }
    }

    // The angle at so many names from the top, clockwise.
    fn angle(&self, names: f64) -> f64 {
        names * TAU / self.count as f64 - FRAC_PI_2
    }

    // Whether a name is written: one in `every` is, none too close to the first.
    fn chosen(&self, index: usize) -> bool {
        index.is_multiple_of(self.every) && index + self.every <= self.count
    }

    // How far a name is from the next along the ring.
    fn apart(&self) -> f64 {
        TAU * self.radius / self.count as f64
    }

    // The radius of the dots: small enough to leave room for the arrows.
    fn dot(&self) -> f64 {
        DOT.min(self.apart() / 5.0)
    }

    // Draws the dot of a difference's x and the arrow from there to its y, which is the next name.
    fn draw(&self, canvas: &mut Canvas, index: usize, edge: &Edge) {
        let gap = (self.dot() + 2.0).min(self.apart() / 3.0) / self.radius;
        let (from, to) = (self.angle(index as f64) + gap, self.angle((index + 1) as f64) - gap);
        let [(x1, y1), (x2, y2)] = [from, to].map(|angle| polar(self.radius, angle));
        let large = usize::from(to - from > TAU / 2.0);
        let [r, x1, y1, x2, y2] = [self.radius, x1, y1, x2, y2].map(number);
        let path = format!("M{x1} {y1}A{r} {r} 0 {large} 1 {x2} {y2}");
        canvas.path(face(edge), &path, self.chosen(index), &said(edge));
        canvas.dot(polar(self.radius, self.angle(index as f64)), self.dot(), &edge.x);
    }

    // Writes the name of a difference's x outside the ring, and its bound inside.
    fn write(&self, canvas: &mut Canvas, index: usize, edge: &Edge) {
        let (node, middle) = (self.angle(index as f64), self.angle(index as f64 + 0.5));
        let (name, bound) = (shortened(&edge.x, MOST_COLUMNS), edge.k.to_string());
        if self.count > MOST_LEVEL {
            spoke(canvas, (self.radius + OUTSIDE, node), true, NAME, &name);
            spoke(canvas, (self.radius - INSIDE, middle), false, face(edge), &bound);
        } else {
            canvas.write(&level((self.radius + OUTSIDE, node), true, NAME, &name));
            canvas.write(&level((self.radius - INSIDE, middle), false, face(edge), &bound));
        }
    }

    // Writes the name of a difference's atom outside the ring at its arrow, if there is room.
    fn write_atom(&self, canvas: &mut Canvas, index: usize, edge: &Edge) {
        if self.count <= MOST_LEVEL {
            let name = shortened(&edge.name, MOST_ATOM_COLUMNS);
            let middle = self.angle(index as f64 + 0.5);
            let text = level((self.radius + OUTSIDE, middle), true, NOTE, &name);
            if canvas.free(&text) {
                canvas.write(&text);
            }
        }
    }
}

// The point at a distance from 0 and an angle.
fn polar(radius: f64, angle: f64) -> Point {
    (radius * angle.cos(), radius * angle.sin())
}

// How a difference looks.
fn face(edge: &Edge) -> Face {
    if edge.k < 0 {
        LATER
    } else {
        WITHIN
    }
}

// A level text that begins or ends at a distance and an angle and leads away from the ring, outward or inward.
fn level(place: (f64, f64), outward: bool, face: Face, words: &str) -> Text<'_> {
    let (x, y) = polar(place.0, place.1);
    let (side, lift) = if outward { (x, y) } else { (-x, -y) };
    let anchor = match side / place.0 {
        side if side > 0.1 => Anchor::Start,
        side if side < -0.1 => Anchor::End,
        _ => Anchor::Middle,
    };
    Text { at: (x, y + 4.0 + 6.0 * lift / place.0), anchor, face, words }
}

// Writes a text along the line from 0, outward or inward from a distance and an angle, never upside down.
fn spoke(canvas: &mut Canvas, place: (f64, f64), outward: bool, face: Face, words: &str) {
    let (x, y) = polar(place.0, place.1);
    let right = x >= 0.0;
    let angle = if right { place.1 } else { place.1 + TAU / 2.0 };
    let anchor = if right == outward { Anchor::Start } else { Anchor::End };
    // The base line is a little beside the line from 0, so that the middle of the letters is on it.
    let at = (x - 4.0 * angle.sin(), y + 4.0 * angle.cos());
    canvas.write_turned(&Text { at, anchor, face, words }, angle.to_degrees());
}

// Writes the title above the ring, and the legend below it.
fn head(canvas: &mut Canvas, title: &str, every: usize) {
    let (top, bottom) = (canvas.all().top, canvas.all().bottom);
    canvas.write(&Text { at: (0.0, top - 24.0), anchor: Anchor::Middle, face: TITLE, words: title });
    let mut legend = vec![
        ("x → y with k: x - y ≤ k; the k add up to the sum".to_string(), NOTE),
        ("k below 0: y at least -k after x".to_string(), LATER),
        ("k 0 or above: x at most k after y".to_string(), WITHIN),
    ];
    if every > 1 {
        legend.push((format!("one in {every} is written and has a head"), NOTE));
    }
    for (index, (words, face)) in legend.iter().enumerate() {
        let y = bottom + 30.0 + 16.0 * index as f64;
        canvas.write(&Text { at: (0.0, y), anchor: Anchor::Middle, face: *face, words });
    }
}
