//! A picture in the making: shapes below, texts above them, and the areas that texts and marks take.

/// A point; down is positive.
pub type Point = (f64, f64);

/// Which end of a text its point is.
#[derive(Clone, Copy, PartialEq, Eq)]
pub enum Anchor {
    Start,
    Middle,
    End,
}

/// How a text looks: its class in the style, and its size there.
#[derive(Clone, Copy, PartialEq)]
pub struct Face {
    class: &'static str,
    size: f64,
}

pub const TITLE: Face = Face { class: "title", size: 15.0 };
pub const NAME: Face = Face { class: "name", size: 12.0 };
pub const NOTE: Face = Face { class: "note", size: 11.0 };
pub const LATER: Face = Face { class: "later", size: 11.0 };
pub const WITHIN: Face = Face { class: "within", size: 11.0 };
pub const SUM: Face = Face { class: "sum", size: 16.0 };

/// A text at the left, middle or right of a point of its base line.
pub struct Text<'a> {
    pub at: Point,
    pub anchor: Anchor,
    pub face: Face,
    pub words: &'a str,
}

/// A rectangle along the axes.
#[derive(Clone, Copy)]
pub struct Area {
    pub left: f64,
    pub top: f64,
    pub right: f64,
    pub bottom: f64,
}

impl Area {
    // The square around a point.
    pub fn about(at: Point, radius: f64) -> Area {
        Area { left: at.0 - radius, top: at.1 - radius, right: at.0 + radius, bottom: at.1 + radius }
    }

    // Whether a point is in the area.
    pub fn holds(&self, at: Point) -> bool {
        self.meets(&Area::about(at, 0.5))
    }

    // Whether two areas have a point in common.
    fn meets(&self, other: &Area) -> bool {
        self.left < other.right && other.left < self.right && self.top < other.bottom && other.top < self.bottom
    }

    // The least area around both.
    fn with(&self, other: &Area) -> Area {
        Area {
            left: self.left.min(other.left),
            top: self.top.min(other.top),
            right: self.right.max(other.right),
            bottom: self.bottom.max(other.bottom),
        }
    }
}

impl Text<'_> {
    // The area that the text takes.
    pub fn area(&self) -> Area {
        let (width, (x, y)) = (width(self.words, self.face), self.at);
        let left = match self.anchor {
            Anchor::Start => x,
            Anchor::Middle => x - width / 2.0,
            Anchor::End => x - width,
        };
        Area { left, top: y - self.face.size, right: left + width, bottom: y + self.face.size / 3.0 }
    }

    // The element, with an attribute more.
    fn element(&self, more: &str) -> String {
        let (x, y) = (number(self.at.0), number(self.at.1));
        let anchor = match self.anchor {
            Anchor::Start => "start",
            Anchor::Middle => "middle",
            Anchor::End => "end",
        };
        let (class, words) = (self.face.class, escaped(self.words));
        format!("<text class=\"{class}\" x=\"{x}\" y=\"{y}\" text-anchor=\"{anchor}\"{more}>{words}</text>\n")
    }
}

// Characters take the same width each, some of them two. Text is drawn with a white rim, so that lines do not cross it.
const STYLE: &str = "\
text{font:12px ui-monospace,Menlo,Consolas,'DejaVu Sans Mono',monospace;fill:#1b2733;
 paint-order:stroke;stroke:#fff;stroke-width:3px;stroke-linejoin:round}
text.title{font-size:15px;font-weight:bold}text.sum{font-size:16px;font-weight:bold;fill:#a3212a}
text.note{font-size:11px;fill:#5b6875}text.later{font-size:11px;fill:#1f5fa8}text.within{font-size:11px;fill:#b5541c}
path{fill:none;stroke-width:1.5px}path.later{stroke:#1f5fa8}path.within{stroke:#b5541c;stroke-dasharray:5 3}
path.head-later{fill:#1f5fa8}path.head-within{fill:#b5541c}
text.later,text.within{stroke-width:5px}line{stroke:#e3e8ed}line.axis{stroke:#9aa7b3}circle{fill:#1b2733}
";

// A character's width as a part of its size, the white about a text, and that about the whole picture.
const ADVANCE: f64 = 0.61;
const RIM: f64 = 3.0;
const MARGIN: f64 = 16.0;

/// The shapes and texts so far, and the areas that are taken.
#[derive(Default)]
pub struct Canvas {
    shapes: String,
    texts: String,
    taken: Vec<Area>,
    all: Option<Area>,
}

impl Canvas {
    // Makes the picture reach as far as an area.
    pub fn reach(&mut self, area: Area) {
        self.all = Some(self.all.map_or(area, |all| all.with(&area)));
    }

    // The area that the picture has so far.
    pub fn all(&self) -> Area {
        self.all.unwrap_or(Area::about((0.0, 0.0), 0.0))
    }

    // Keeps texts that look for a free place out of an area.
    pub fn take(&mut self, area: Area) {
        self.reach(area);
        self.taken.push(area);
    }

    // Writes a text where it is.
    pub fn write(&mut self, text: &Text) {
        self.take(text.area());
        self.texts.push_str(&text.element(""));
    }

    // Whether no text or mark is where a text would be.
    pub fn free(&self, text: &Text) -> bool {
        let area = text.area();
        let wide = Area { left: area.left - RIM, right: area.right + RIM, ..area };
        !self.taken.iter().any(|taken| taken.meets(&wide))
    }

    // Writes a text turned about its point by so many degrees.
    pub fn write_turned(&mut self, text: &Text, degrees: f64) {
        let (sin, cos) = degrees.to_radians().sin_cos();
        let width =
            if text.anchor == Anchor::End { -width(text.words, text.face) } else { width(text.words, text.face) };
        self.reach(Area::about((text.at.0 + width * cos, text.at.1 + width * sin), text.face.size));
        let turn = format!("rotate({} {} {})", number(degrees), number(text.at.0), number(text.at.1));
        self.texts.push_str(&text.element(&format!(" transform=\"{turn}\"")));
    }

    // Draws a straight line.
    pub fn line(&mut self, class: &str, from: Point, to: Point) {
        let [x1, y1, x2, y2] = [from.0, from.1, to.0, to.1].map(number);
        self.shapes.push_str(&format!("<line class=\"{class}\" x1=\"{x1}\" y1=\"{y1}\" x2=\"{x2}\" y2=\"{y2}\"/>\n"));
    }

    // Draws a dot that says `title` when pointed at.
    pub fn dot(&mut self, at: Point, radius: f64, title: &str) {
        self.take(Area::about(at, radius));
        let ([x, y, r], title) = ([at.0, at.1, radius].map(number), escaped(title));
        self.shapes.push_str(&format!("<circle cx=\"{x}\" cy=\"{y}\" r=\"{r}\"><title>{title}</title></circle>\n"));
    }

    // Draws a path that says `title` when pointed at, with a head at its end if asked.
    pub fn path(&mut self, face: Face, path: &str, head: bool, title: &str) {
        let (class, title) = (face.class, escaped(title));
        let head = if head { format!(" marker-end=\"url(#head-{class})\"") } else { String::new() };
        self.shapes.push_str(&format!("<path class=\"{class}\" d=\"{path}\"{head}><title>{title}</title></path>\n"));
    }

    // The whole picture under a title.
    pub fn finish(self, title: &str) -> String {
        let all = self.all();
        let (left, top) = ((all.left - MARGIN).floor(), (all.top - MARGIN).floor());
        let (width, height) = ((all.right + MARGIN - left).ceil(), (all.bottom + MARGIN - top).ceil());
        let (title, heads) = (escaped(title), head(LATER) + &head(WITHIN));
        format!(
            "<svg xmlns=\"http://www.w3.org/2000/svg\" role=\"img\" width=\"{width}\" height=\"{height}\" \
             viewBox=\"{left} {top} {width} {height}\">\n<title>{title}</title>\n<style>\n{STYLE}</style>\n\
             <defs>\n{heads}</defs>\n\
             <rect x=\"{left}\" y=\"{top}\" width=\"{width}\" height=\"{height}\" fill=\"#fff\"/>\n{}{}</svg>\n",
            self.shapes, self.texts
        )
    }
}

// The head of the arrows that look like `face`.
fn head(face: Face) -> String {
    let class = face.class;
    format!(
        "<marker id=\"head-{class}\" viewBox=\"0 0 10 10\" refX=\"9\" refY=\"5\" markerWidth=\"9\" markerHeight=\"9\" \
         markerUnits=\"userSpaceOnUse\" orient=\"auto\"><path class=\"head-{class}\" d=\"M0 1L10 5L0 9z\"/></marker>\n"
    )
}

/// The width of a text.
pub fn width(words: &str, face: Face) -> f64 {
    let count: usize = words.chars().map(columns).sum();
    count as f64 * face.size * ADVANCE
}

// How many columns a character takes at most.
fn columns(c: char) -> usize {
    match c {
        '\0'..='\u{1f}' | '\u{1100}'..='\u{115f}' | '\u{2300}'.. => 2,
        _ => 1,
    }
}

/// A text cut to so many columns, with a sign that it was cut.
pub fn shortened(words: &str, most: usize) -> String {
    if words.chars().map(columns).sum::<usize>() <= most {
        return words.to_string();
    }
    let mut left = most.saturating_sub(1);
    let fits = |c: &char| {
        let fits = columns(*c) <= left;
        left = left.saturating_sub(columns(*c));
        fits
    };
    words.chars().take_while(fits).chain(['…']).collect()
}

/// A coordinate to a tenth; adding 0 makes a negative zero positive.
pub fn number(value: f64) -> String {
    format!("{:.1}", (value * 10.0).round() / 10.0 + 0.0)
}

// A text as XML takes it, in an element or an attribute; what XML does not allow is shown by a sign.
fn escaped(words: &str) -> String {
    let mut written = String::with_capacity(words.len());
    for c in words.chars() {
        match c {
            '&' => written.push_str("&amp;"),
            '<' => written.push_str("&lt;"),
            '>' => written.push_str("&gt;"),
            '"' => written.push_str("&quot;"),
            '\'' => written.push_str("&apos;"),
            '\0'..='\u{1f}' => written.extend(char::from_u32(0x2400 + u32::from(c))),
            '\u{7f}'..='\u{9f}' | '\u{fffe}' | '\u{ffff}' => written.push('\u{fffd}'),
            _ => written.push(c),
        }
    }
    written
}
