//! The JSON of a report, parsed back by a strict parser: no space, no number but an integer, no key twice.
mod reports;
use plan::json::object;
use plan::report::{Atom, Edge, LineAt, Report, Time};
use reports::{difference, plan_p, report, Random, AWKWARD};

#[derive(Clone, Debug, PartialEq)]
enum Value {
    Null,
    Integer(i128),
    String(String),
    Array(Vec<Value>),
    Object(Vec<(String, Value)>),
}

// The value that a text is, if it is one and nothing else.
fn parsed(text: &str) -> Option<Value> {
    let mut rest = text;
    let value = value(&mut rest)?;
    rest.is_empty().then_some(value)
}

// Takes some bytes off the front.
fn take(rest: &mut &str, front: &str) -> Option<()> {
    *rest = rest.strip_prefix(front)?;
    Some(())
}

// A value at the front.
fn value(rest: &mut &str) -> Option<Value> {
    match rest.chars().next()? {
        'n' => take(rest, "null").map(|()| Value::Null),
        '"' => string(rest).map(Value::String),
        '[' => list(rest, "[", "]", value).map(Value::Array),
        '{' => {
            let members = list(rest, "{", "}", member)?;
            let twice = |(index, (key, _)): (usize, &(String, Value))| members[..index].iter().any(|(k, _)| k == key);
            (!members.iter().enumerate().any(twice)).then_some(Value::Object(members))
        }
        _ => integer(rest),
    }
}

// A list between brackets, commas between its things.
fn list<T>(rest: &mut &str, open: &str, close: &str, thing: fn(&mut &str) -> Option<T>) -> Option<Vec<T>> {
    take(rest, open)?;
    let mut things = Vec::new();
    if take(rest, close).is_some() {
        return Some(things);
    }
    loop {
        things.push(thing(rest)?);
        if take(rest, close).is_some() {
            return Some(things);
        }
        take(rest, ",")?;
    }
}

// A member of an object.
fn member(rest: &mut &str) -> Option<(String, Value)> {
    let key = string(rest)?;
    take(rest, ":")?;
    Some((key, value(rest)?))
}

// An integer, written the only way it can be.
fn integer(rest: &mut &str) -> Option<Value> {
    let end = rest.find(|c: char| c != '-' && !c.is_ascii_digit()).unwrap_or(rest.len());
    let (front, after) = rest.split_at(end);
    let number: i128 = front.parse().ok()?;
    *rest = after;
    (number.to_string() == front).then_some(Value::Integer(number))
}

// A string in quotes.
fn string(rest: &mut &str) -> Option<String> {
    take(rest, "\"")?;
    let mut found = String::new();
    loop {
        let c = rest.chars().next()?;
        *rest = &rest[c.len_utf8()..];
        match c {
            '"' => return Some(found),
            '\\' => found.push(escape(rest)?),
            '\0'..='\u{1f}' => return None,
            _ => found.push(c),
        }
    }
}

// What stands after a backslash; halves of a pair are refused, for the writer needs none.
fn escape(rest: &mut &str) -> Option<char> {
    let c = rest.chars().next()?;
    *rest = &rest[c.len_utf8()..];
    if c == 'u' {
        let digits = rest.get(..4).filter(|digits| digits.bytes().all(|d| d.is_ascii_hexdigit()))?;
        *rest = &rest[4..];
        return char::from_u32(u32::from_str_radix(digits, 16).ok()?);
    }
    let index = "\"\\/bfnrt".find(c)?;
    "\"\\/\u{8}\u{c}\n\r\t".chars().nth(index)
}

impl Value {
    // The values of exactly these keys, in this order.
    fn members<const N: usize>(self, keys: [&str; N]) -> [Value; N] {
        let Value::Object(members) = self else { panic!("no object: {self:?}") };
        assert_eq!(members.iter().map(|(key, _)| key.as_str()).collect::<Vec<_>>(), keys);
        let values: Vec<Value> = members.into_iter().map(|(_, value)| value).collect();
        values.try_into().unwrap()
    }

    // The things of an array, each read by `read`.
    fn each<T>(self, read: fn(Value) -> T) -> Vec<T> {
        let Value::Array(values) = self else { panic!("no array: {self:?}") };
        values.into_iter().map(read).collect()
    }

    // A string.
    fn words(self) -> String {
        let Value::String(words) = self else { panic!("no string: {self:?}") };
        words
    }

    // An integer of some type.
    fn number<T: TryFrom<i128>>(self) -> T {
        let Value::Integer(number) = self else { panic!("no integer: {self:?}") };
        T::try_from(number).ok().unwrap()
    }

    // Nothing for null.
    fn unless_null<T>(self, read: fn(Value) -> T) -> Option<T> {
        (self != Value::Null).then(|| read(self))
    }
}

// A place in a line.
fn line(value: Value) -> LineAt {
    let [number, text, column] = value.members(["number", "text", "column"]);
    LineAt { number: number.number(), text: text.words(), column: column.number() }
}

// A name with its time.
fn time(value: Value) -> Time {
    let [name, term, time, since] = value.members(["name", "term", "time", "since_zero"]);
    let since_zero = since.unless_null(Value::number);
    Time { term: term.number(), name: name.words(), time: time.number(), since_zero }
}

// An atom with its name.
fn atom(value: Value) -> Atom {
    let [atom, name] = value.members(["atom", "name"]);
    Atom { atom: atom.number(), name: name.words() }
}

// A difference.
fn edge(value: Value) -> Edge {
    let [atom, name, x, y, k, line] = value.members(["atom", "name", "x", "y", "k", "line"]);
    let (atom, k, line) = (atom.number(), k.number(), line.number());
    Edge { atom, name: name.words(), x: x.words(), y: y.words(), k, line }
}

const KEYS: [&str; 10] =
    ["verdict", "number", "place", "line", "times", "atoms", "cycle", "sum", "warnings", "comment"];

// The report that an object says; its first line and tight differences are not in it.
fn read(text: &str) -> Report {
    let value = parsed(text).unwrap_or_else(|| panic!("does not parse: {text}"));
    let [verdict, number, place, line_at, times, atoms, cycle, sum, warnings, comment] = value.members(KEYS);
    let verdict = verdict.words();
    assert!(["accepted", "refused"].contains(&verdict.as_str()), "{verdict}");
    Report {
        accepted: verdict == "accepted",
        number: number.number(),
        place: place.number(),
        first: String::new(),
        line: line_at.unless_null(line),
        times: times.each(time),
        tight: Vec::new(),
        atoms: atoms.each(atom),
        cycle: cycle.each(edge),
        sum: sum.number(),
        warnings: warnings.each(Value::words),
        comment: comment.each(Value::words),
    }
}

// Asks that a report comes back from its object.
fn check(report: &Report) {
    let text = object(report);
    assert!(!text.contains('\n'), "{text}");
    assert_eq!(read(&text), Report { first: String::new(), tight: Vec::new(), ..report.clone() });
}

#[test]
fn plan_p_as_written() {
    let expected = concat!(
        r#"{"verdict":"accepted","number":0,"place":44,"line":null,"#,
        r#""times":[{"name":"send","term":3,"time":0,"since_zero":null},"#,
        r#"{"name":"recv","term":4,"time":5,"since_zero":null}],"#,
        r##""atoms":[{"atom":1,"name":"#1"},{"atom":2,"name":"#2"},{"atom":3,"name":"#3"}],"##,
        r#""cycle":[],"sum":0,"warnings":[],"comment":[]}"#,
    );
    assert_eq!(object(&plan_p()), expected);
    check(&plan_p());
}

#[test]
fn refusals() {
    let line = Some(LineAt { number: 3, text: "1 0 1 2 0 1 1".to_string(), column: 1 });
    let warnings = vec!["open(2-1)".to_string()];
    check(&Report { number: 8, place: 22, line, warnings, comment: vec![String::new()], ..Report::default() });
    let field = Some(LineAt { number: 12, text: "9 4 0 1 70 0".to_string(), column: 9 });
    check(&Report { number: 62, place: 139, line: field, ..Report::default() });
    let cycle = vec![difference("recv", "send", 40), difference("send", "recv", -45)];
    check(&Report { number: 10, place: 2, cycle, sum: -5, ..Report::default() });
}

#[test]
fn escapes() {
    let comment = vec!["\"\\\n\r\t\0\u{8}\u{c}\u{1f}\u{7f}\u{2028}é😀".to_string()];
    let text = object(&Report { comment, ..Report::default() });
    let expected = "\"comment\":[\"\\\"\\\\\\n\\r\\t\\u0000\\u0008\\u000c\\u001f\u{7f}\u{2028}é😀\"]}";
    assert!(text.ends_with(expected), "{text}");
}

#[test]
fn awkward_names() {
    for name in AWKWARD.map(str::to_string) {
        let line = Some(LineAt { number: 1, text: name.clone(), column: 1 });
        let times = vec![Time { term: u32::MAX, name: name.clone(), time: u32::MAX, since_zero: Some(i64::MIN) }];
        let edge = Edge { name: name.clone(), ..difference(&name, &name, i64::MAX) };
        let atoms = vec![Atom { atom: 1, name: name.clone() }];
        let (warnings, comment) = (vec![name.clone()], vec![name]);
        check(&Report { line, times, atoms, cycle: vec![edge], warnings, comment, ..Report::default() });
    }
}

#[test]
fn random_reports() {
    let mut random = Random(12);
    (0..5000).for_each(|_| check(&report(&mut random)));
}

#[test]
fn the_parser_is_strict() {
    let good = [r#"{"a":-1,"b":[null,"\u00e9\/"]}"#, "[]", "{}", "0", "\"\""];
    assert!(good.iter().all(|text| parsed(text).is_some()));
    let bad = [
        "", "{", "[1,]", "[1 ]", "[,1]", "01", "-0", "+1", "1.0", "-", "nul", "true", "{\"a\":1,\"a\":2}", "{a:1}",
        "\"\n\"", "\"\\x\"", "\"\\u12g4\"", "\"\\ud83d\"", "\"", "{}{}", "{\"a\"}", "'a'",
    ];
    bad.iter().for_each(|text| assert_eq!(parsed(text), None, "{text}"));
}
