//! The pictures, read back by a strict checker of XML: what is drawn, where, and that texts stay clear of each other.
mod reports;
use plan::report::{Edge, Report, Time};
use plan::svg::picture;
use reports::{at, difference, plan_p, report, Random, AWKWARD};
use std::collections::{BTreeMap, BTreeSet};

/// An element: its name, its attributes, the text right inside it, and how deep it is.
#[derive(Debug)]
struct Element {
    name: String,
    attributes: BTreeMap<String, String>,
    text: String,
    depth: usize,
}

impl Element {
    // An attribute that must be there.
    fn get(&self, key: &str) -> &str {
        self.attributes.get(key).unwrap_or_else(|| panic!("no {key} in {self:?}"))
    }

    // An attribute that is a number.
    fn number(&self, key: &str) -> f64 {
        self.get(key).parse().unwrap()
    }

    // Whether it is an element so named, of this class.
    fn is(&self, name: &str, class: &str) -> bool {
        self.name == name && self.attributes.get("class").is_some_and(|c| c == class)
    }
}

// The elements of a text that is well-formed: one root, tags nest, attributes quoted and once each, entities known.
fn parsed(text: &str) -> Option<Vec<Element>> {
    let (mut elements, mut open): (Vec<Element>, Vec<usize>) = (Vec::new(), Vec::new());
    let mut rest = text.trim_end_matches('\n');
    while !rest.is_empty() {
        if let Some(tag) = rest.strip_prefix("</") {
            let (name, after) = tag.split_once('>')?;
            (elements[open.pop()?].name == name).then_some(())?;
            rest = after;
        } else if let Some(tag) = rest.strip_prefix('<') {
            (elements.is_empty() || !open.is_empty()).then_some(())?;
            let (inside, after) = tag.split_once('>')?;
            elements.push(element(inside.trim_end_matches('/'), open.len())?);
            if !inside.ends_with('/') {
                open.push(elements.len() - 1);
            }
            rest = after;
        } else {
            let (words, after) = rest.split_at(rest.find('<')?);
            elements[*open.last()?].text.push_str(&unescaped(words)?);
            rest = after;
        }
    }
    (open.is_empty() && !elements.is_empty()).then_some(elements)
}

// The element of a tag, without its brackets.
fn element(tag: &str, depth: usize) -> Option<Element> {
    let (name, mut rest) = tag.split_at(tag.find(' ').unwrap_or(tag.len()));
    named(name)?;
    let mut attributes = BTreeMap::new();
    while !rest.is_empty() {
        let (key, after) = rest.strip_prefix(' ')?.split_once("=\"")?;
        let (value, after) = after.split_once('"')?;
        attributes.insert(named(key)?.to_string(), unescaped(value)?).is_none().then_some(())?;
        rest = after;
    }
    Some(Element { name: name.to_string(), attributes, text: String::new(), depth })
}

// A name of an element or attribute.
fn named(name: &str) -> Option<&str> {
    let good = name.starts_with(|c: char| c.is_ascii_alphabetic());
    (good && name.chars().all(|c| c.is_ascii_alphanumeric() || c == '-')).then_some(name)
}

// A text without its entities; nothing where it has a character that must not be there.
fn unescaped(words: &str) -> Option<String> {
    let allowed = |c: char| c == '\n' || (c >= ' ' && !('\u{7f}'..='\u{9f}').contains(&c) && c < '\u{fffe}');
    if words.chars().any(|c| "<>".contains(c) || !(allowed(c) || c > '\u{ffff}')) {
        return None;
    }
    let mut parts = words.split('&');
    let mut found = parts.next()?.to_string();
    for part in parts {
        let (entity, after) = part.split_once(';')?;
        let index = ["amp", "lt", "gt", "quot", "apos"].iter().position(|known| *known == entity)?;
        found.extend("&<>\"'".chars().nth(index));
        found.push_str(after);
    }
    Some(found)
}

// The elements of the picture that a report must have.
fn drawn(report: &Report) -> Vec<Element> {
    let text = picture(report).unwrap();
    let elements = parsed(&text).unwrap_or_else(|| panic!("not well-formed: {text}"));
    assert_eq!((elements[0].name.as_str(), elements[0].get("xmlns")), ("svg", "http://www.w3.org/2000/svg"));
    assert!(elements[1..].iter().all(|element| element.depth > 0 && element.name != "script"));
    inside_the_view(&elements);
    elements
}

/// Left, top, right, bottom.
type Frame = [f64; 4];

// The frame of a text that is not turned.
fn frame(text: &Element) -> Frame {
    let size = match text.get("class") {
        "title" => 15.0,
        "sum" => 16.0,
        "name" => 12.0,
        _ => 11.0,
    };
    // A monospaced letter is 0.6 of its size wide.
    let wide = text.text.chars().count() as f64 * size * 0.6;
    let left = match text.get("text-anchor") {
        "start" => text.number("x"),
        "middle" => text.number("x") - wide / 2.0,
        _ => text.number("x") - wide,
    };
    [left, text.number("y") - 0.75 * size, left + wide, text.number("y") + 0.2 * size]
}

// The texts that are not turned.
fn level_texts(elements: &[Element]) -> Vec<&Element> {
    elements.iter().filter(|e| e.name == "text" && !e.attributes.contains_key("transform")).collect()
}

// The numbers of a path.
fn numbers(path: &Element) -> Vec<f64> {
    path.get("d").split(['M', 'C', 'A', ' ']).filter_map(|n| n.parse().ok()).collect()
}

// Points of a curve, as frames without width and height.
fn points(path: &Element) -> Vec<Frame> {
    let n = numbers(path);
    let along = |t: f64, i: usize| {
        let r = 1.0 - t;
        r * r * r * n[i] + 3.0 * r * r * t * n[i + 2] + 3.0 * r * t * t * n[i + 4] + t * t * t * n[i + 6]
    };
    let point = |part| [along(part, 0), along(part, 1), along(part, 0), along(part, 1)];
    (0..=16).map(|part| point(f64::from(part) / 16.0)).collect()
}

// Asks that texts, dots and curves are inside the view box.
fn inside_the_view(elements: &[Element]) {
    let view: Vec<f64> = elements[0].get("viewBox").split(' ').map(|n| n.parse().unwrap()).collect();
    let [left, top, width, height] = view[..] else { panic!("{view:?}") };
    let inside = |f: Frame| f[0] >= left && f[1] >= top && f[2] <= left + width && f[3] <= top + height;
    level_texts(elements).iter().for_each(|text| assert!(inside(frame(text)), "{text:?}"));
    let around = |e: &Element| {
        let (x, y, r) = (e.number("cx"), e.number("cy"), e.number("r"));
        [x - r, y - r, x + r, y + r]
    };
    assert!(elements.iter().filter(|e| e.name == "circle").all(|e| inside(around(e))));
    let curved = |e: &&Element| e.attributes.get("d").is_some_and(|d| d.contains('C'));
    elements.iter().filter(curved).for_each(|e| assert!(points(e).into_iter().all(inside), "{e:?}"));
}

// Asks that no two texts that are not turned overlap.
fn apart(elements: &[Element]) {
    let texts = level_texts(elements);
    for (index, one) in texts.iter().enumerate() {
        for other in &texts[..index] {
            let (a, b) = (frame(one), frame(other));
            let meet = a[0] < b[2] && b[0] < a[2] && a[1] < b[3] && b[1] < a[3];
            assert!(!meet, "{one:?} meets {other:?}");
        }
    }
}

// The texts of a class.
fn texts<'a>(elements: &'a [Element], class: &str) -> Vec<&'a str> {
    elements.iter().filter(|e| e.is("text", class)).map(|e| e.text.as_str()).collect()
}

// The middles of the dots, in their order.
fn dots(elements: &[Element]) -> Vec<(f64, f64)> {
    elements.iter().filter(|e| e.name == "circle").map(|e| (e.number("cx"), e.number("cy"))).collect()
}

/// An arrow: its class, where it begins and ends, whether it has a head.
#[derive(Debug)]
struct Arrow {
    class: String,
    from: (f64, f64),
    to: (f64, f64),
    head: bool,
}

// The arrows, in their order.
fn arrows(elements: &[Element]) -> Vec<Arrow> {
    let paths = elements.iter().filter(|e| e.is("path", "later") || e.is("path", "within"));
    let arrow = |e: &Element| {
        let numbers = numbers(e);
        let n = numbers.len();
        let head = e.attributes.get("marker-end").is_some_and(|m| *m == format!("url(#head-{})", e.get("class")));
        let (from, to) = ((numbers[0], numbers[1]), (numbers[n - 2], numbers[n - 1]));
        Arrow { class: e.get("class").to_string(), from, to, head }
    };
    paths.map(arrow).collect()
}

// An accepted report.
fn accepted(times: Vec<Time>, tight: Vec<Edge>) -> Report {
    Report { accepted: true, times, tight, ..Report::default() }
}

// Names n0, n1, .. at some times.
fn named_times(times: &[u32]) -> Vec<Time> {
    times.iter().enumerate().map(|(index, time)| at(&format!("n{index}"), *time)).collect()
}

// A report of refusal 10 with a ring of so many names.
fn ring(count: usize) -> Report {
    let name = |index: usize| format!("open(stage{})", index % count);
    let edge = |index| difference(&name(index), &name(index + 1), if index % 2 == 0 { -50 } else { 40 });
    let cycle: Vec<Edge> = (0..count).map(edge).collect();
    let sum = cycle.iter().map(|edge| edge.k).sum();
    Report { number: 10, cycle, sum, ..Report::default() }
}

#[test]
fn plan_p_as_a_chart() {
    let elements = drawn(&plan_p());
    assert_eq!(texts(&elements, "name"), ["send", "0", "recv", "5"]);
    assert_eq!(dots(&elements), [(0.0, 0.0), (640.0, 26.0)]);
    assert!(texts(&elements, "later").contains(&"+5"));
    let [arrow] = &arrows(&elements)[..] else { panic!() };
    assert_eq!((arrow.class.as_str(), arrow.head), ("later", true));
    assert_eq!((arrow.from, arrow.to), ((0.0, 5.0), (635.0, 26.0)));
    apart(&elements);
}

#[test]
fn a_bound_from_above() {
    let tight = vec![difference("send", "recv", -5), difference("recv", "send", 5)];
    let elements = drawn(&Report { tight, ..plan_p() });
    let [up, down] = &arrows(&elements)[..] else { panic!() };
    let (later, within) = if up.class == "later" { (up, down) } else { (down, up) };
    assert_eq!((later.from.1, later.to.1), (5.0, 26.0));
    assert_eq!((within.class.as_str(), within.from.1, within.to.1), ("within", 26.0, 0.0));
    assert!(texts(&elements, "later").contains(&"+5") && texts(&elements, "within").contains(&"≤ 5"));
    apart(&elements);
}

#[test]
fn no_picture_of_other_refusals() {
    let none = |number| picture(&Report { number, cycle: ring(2).cycle, ..plan_p_refused() }).is_none();
    assert!((1..10).chain(11..13).all(none));
}

// Plan P's names and times in a refusal.
fn plan_p_refused() -> Report {
    Report { accepted: false, ..plan_p() }
}

#[test]
fn a_row_a_name_up_to_sixty() {
    for count in [0, 1, 2, 12, 24, 25, 60, 61, 500] {
        let times: Vec<u32> = (0..count).map(|n| n * 3).collect();
        let elements = drawn(&accepted(named_times(&times), Vec::new()));
        let rows = dots(&elements);
        assert_eq!(rows.len(), count.min(60) as usize);
        assert!(rows.windows(2).all(|two| two[1].1 - two[0].1 == 26.0));
        let names = texts(&elements, "name");
        let beside = |n: usize| names[2 * n] == format!("n{n}") && names[2 * n + 1] == (3 * n).to_string();
        assert!(names.len() == 2 * rows.len() && (0..rows.len()).all(beside), "{names:?}");
        let left_out = texts(&elements, "note").iter().find(|note| note.starts_with("Left out")).copied();
        let expected = [(61, "Left out: the 1 name after these."), (500, "Left out: the 440 names after these.")];
        assert_eq!(left_out, expected.iter().find(|(n, _)| *n == count).map(|(_, note)| *note));
        apart(&elements);
    }
}

// The steps of the axis: what is written and where.
fn steps(elements: &[Element]) -> Vec<(u64, f64)> {
    let notes = elements.iter().filter(|e| e.is("text", "note"));
    notes.filter_map(|e| Some((e.text.parse().ok()?, e.number("x")))).collect()
}

#[test]
fn time_is_to_scale() {
    let mut random = Random(7);
    for round in 0..300 {
        let most = [1, 9, 44, 140, 1_023_000_000, u32::MAX][round % 6];
        let mut times: Vec<u32> = (0..1 + random.below(20)).map(|_| random.below(u64::from(most) + 1) as u32).collect();
        times.sort_unstable();
        let elements = drawn(&accepted(named_times(&times), Vec::new()));
        let steps = steps(&elements);
        let size = steps[1].0;
        let digits = size.to_string();
        assert!("125".contains(&digits[..1]) && digits[1..].bytes().all(|d| d == b'0'), "{size}");
        assert!(steps.len() <= 9 && (0..).zip(&steps).all(|(n, step)| step.0 == n * size));
        let end = steps[steps.len() - 1].0;
        assert!(end >= u64::from(times[times.len() - 1]));
        let to_scale = |time: u64, x: f64| (x - time as f64 / end as f64 * 640.0).abs() < 0.051;
        assert!(steps.iter().all(|(time, x)| to_scale(*time, *x)));
        assert!(times.iter().zip(dots(&elements)).all(|(time, (x, _))| to_scale(u64::from(*time), x)));
        apart(&elements);
    }
}

#[test]
fn all_times_equal() {
    for time in [0, 7] {
        let tight = vec![difference("n0", "n4", 0), difference("n4", "n0", 0), difference("n3", "n3", 0)];
        let elements = drawn(&accepted(named_times(&[time; 5]), tight));
        let dots = dots(&elements);
        assert!(dots.iter().all(|dot| dot.0 == dots[0].0) && (dots[0].0 == 0.0) == (time == 0));
        let ends: Vec<(f64, f64)> = arrows(&elements).iter().map(|arrow| (arrow.from.1, arrow.to.1)).collect();
        assert_eq!(ends, [(0.0, 104.0), (73.0, 83.0), (104.0, 0.0)]);
        // To and fro are one line with two heads, and one label.
        assert_eq!(texts(&elements, "within").iter().filter(|label| **label == "≤ 0").count(), 2);
        apart(&elements);
    }
}

#[test]
fn an_arrow_for_each_tight_difference() {
    let mut random = Random(9);
    for _ in 0..300 {
        let mut times: Vec<u32> = (0..2 + random.below(40)).map(|_| random.below(150) as u32).collect();
        times.sort_unstable();
        let count = times.len() as u64;
        let pairs: BTreeSet<(usize, usize)> = (0..random.below(2 * count))
            .map(|_| (random.below(count) as usize, random.below(count) as usize))
            .collect();
        let k = |x: usize, y: usize| i64::from(times[x]) - i64::from(times[y]);
        let tight = pairs.iter().map(|(x, y)| difference(&format!("n{x}"), &format!("n{y}"), k(*x, *y))).collect();
        let elements = drawn(&accepted(named_times(&times), tight));
        let arrows = arrows(&elements);
        assert_eq!(arrows.len(), pairs.len());
        for ((x, y), arrow) in pairs.iter().zip(&arrows) {
            assert!(arrow.head && arrow.class == if k(*x, *y) < 0 { "later" } else { "within" });
            let (from, to) = (*x as f64 * 26.0, *y as f64 * 26.0);
            assert!((arrow.from.1 - from).abs() <= 5.0 && (arrow.to.1 - to).abs() <= 5.0, "{arrow:?}");
        }
        apart(&elements);
    }
}

#[test]
fn the_arrow_of_names_written_alike() {
    let times = vec![at("a", 0), at("a", 3), at("b", 8)];
    let elements = drawn(&accepted(times, vec![difference("a", "b", -5), difference("a", "b", -4)]));
    let [arrow] = &arrows(&elements)[..] else { panic!() };
    assert_eq!((arrow.from.1, arrow.to.1), (31.0, 52.0));
    assert!(texts(&elements, "note").contains(&"Left out: 1 tight difference."));
}

#[test]
fn times_less_the_time_of_0() {
    let since = |name, time, since| Time { since_zero: Some(since), ..at(name, time) };
    let elements = drawn(&accepted(vec![since("a", 0, -4), since("0", 4, 0)], Vec::new()));
    assert_eq!(texts(&elements, "name"), ["a", "0 (-4)", "0", "4 (0)"]);
    assert!(texts(&elements, "note").iter().any(|note| note.starts_with("(t)")));
    let elements = drawn(&accepted(vec![since("0", 0, 0), since("a", 4, 4)], Vec::new()));
    assert_eq!(texts(&elements, "name"), ["0", "0", "a", "4"]);
}

#[test]
fn rings() {
    for count in [1, 2, 3, 5, 12, 16, 17, 40, 100, 200, 1000, 1024] {
        let report = ring(count);
        let elements = drawn(&report);
        assert_eq!(texts(&elements, "sum"), [format!("sum {}: no times", report.sum)]);
        let (dots, arrows) = (dots(&elements), arrows(&elements));
        assert_eq!((dots.len(), arrows.len()), (count, count));
        for (index, arrow) in arrows.iter().enumerate() {
            // Each arrow begins at its dot and ends at the next, clockwise.
            let near = |a: (f64, f64), b: (f64, f64)| (a.0 - b.0).hypot(a.1 - b.1) < 9.0;
            assert!(near(arrow.from, dots[index]) && near(arrow.to, dots[(index + 1) % count]), "{arrow:?}");
            assert!(count < 3 || arrow.from.0 * arrow.to.1 - arrow.from.1 * arrow.to.0 > 0.0);
            assert_eq!(arrow.class, if report.cycle[index].k < 0 { "later" } else { "within" });
        }
        let flags = format!(" 0 {} 1 ", usize::from(count == 1));
        let arcs = elements.iter().filter(|e| e.is("path", "later") || e.is("path", "within"));
        arcs.for_each(|e| assert!(e.get("d").contains(&flags), "{e:?}"));
        apart(&elements);
    }
}

#[test]
fn large_rings_are_thinned() {
    for (count, every) in [(100, 1), (155, 2), (200, 2), (999, 7), (1000, 7), (1001, 7), (1024, 8)] {
        let elements = drawn(&ring(count));
        let chosen: Vec<usize> = (0..=count - every).step_by(every).collect();
        let names: Vec<String> = chosen.iter().map(|index| format!("open(stage{index})")).collect();
        assert_eq!(texts(&elements, "name"), names);
        let arrows = arrows(&elements);
        assert_eq!((0..count).filter(|index| arrows[*index].head).collect::<Vec<_>>(), chosen);
        let note = texts(&elements, "note").iter().any(|note| note.starts_with(&format!("one in {every} ")));
        assert_eq!(note, every > 1);
    }
}

#[test]
fn a_ring_says_names_bounds_and_atoms() {
    let cycle = vec![difference("recv", "send", 40), difference("send", "recv", -45)];
    let elements = drawn(&Report { number: 10, cycle, sum: -5, ..Report::default() });
    assert_eq!(texts(&elements, "name"), ["recv", "send"]);
    assert_eq!(texts(&elements, "sum"), ["sum -5: no times"]);
    assert!(texts(&elements, "later").contains(&"-45") && texts(&elements, "within").contains(&"40"));
    assert_eq!(texts(&elements, "note").iter().filter(|note| **note == "#3").count(), 2);
    // A ring without differences is none that the judge gives; it has a picture all the same.
    drawn(&Report { number: 10, ..Report::default() });
}

#[test]
fn names_are_escaped() {
    let shown = |c: char| match u32::from(c) {
        n @ 0..=0x1f => char::from_u32(0x2400 + n).unwrap(),
        0x7f..=0x9f | 0xffff => '\u{fffd}',
        _ => c,
    };
    for name in AWKWARD {
        let elements = drawn(&accepted(vec![at(name, 0)], vec![difference(name, name, 0)]));
        assert_eq!(texts(&elements, "name")[0], name.chars().map(shown).collect::<String>());
        assert_eq!(arrows(&elements).len(), 1);
    }
    let long = "x".repeat(1000);
    let elements = drawn(&accepted(vec![at(&long, 0)], Vec::new()));
    assert_eq!(texts(&elements, "name")[0], format!("{}…", &long[..39]));
}

#[test]
fn random_reports() {
    let mut random = Random(11);
    let mut pictures = 0;
    for _ in 0..5000 {
        let report = report(&mut random);
        if let Some(text) = picture(&report) {
            assert!(parsed(&text).is_some(), "not well-formed: {text}");
            assert_eq!(picture(&report).as_ref(), Some(&text));
            pictures += 1;
        }
    }
    assert!(pictures > 2000);
}

#[test]
fn the_checker_is_strict() {
    let good = ["<a/>", "<a b=\"&quot;\">x<c></c>&amp;</a>\n", "<a><b/><b c=\"1\" d=\"2\"/></a>"];
    good.iter().for_each(|text| assert!(parsed(text).is_some(), "{text}"));
    let bad = [
        "", "x", "<a>", "<a></b>", "</a>", "<a/><b/>", "<a/>x", "<a b=1/>", "<a b='1'/>", "<a b=\"1\"c=\"2\"/>",
        "<a b=\"1\" b=\"1\"/>", "<a b=\"<\"/>", "<a>&</a>", "<a>&x;</a>", "<a>></a>", "<a>\u{1}</a>", "<a>\t</a>",
        "<a>\u{ffff}</a>", "<a><b></a></b>", "<1/>", "< a/>", "<a",
    ];
    bad.iter().for_each(|text| assert!(parsed(text).is_none(), "{text}"));
}
