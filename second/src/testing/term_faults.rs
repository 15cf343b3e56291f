//! Faults in what the theory lines of a readable text say: each of 61 to 64, alone or several in one line or in two.

use super::generating::{counted, difference_lines, line_of, literal, merge, text_of};
use super::random::Random;
use crate::judge::differences::{NO_DIFFERENCE, SECOND, TWICE, UNKNOWN};
use crate::judge::fields::{integer_of, FEED, SPACE};
use crate::judge::reading::LARGEST_INDEX;
use std::collections::BTreeSet;

// The types of theory lines.
const NUMERIC: i64 = 0;
const STRING: i64 = 1;
const COMPOUND: i64 = 2;
const ELEMENT: i64 = 4;
const PLAIN: i64 = 5;
const GUARDED: i64 = 6;

// Where fields stand: the type; the number that is defined, or the atom; t or p; how many are listed; the first listed.
const TYPE: usize = 1;
const GIVEN: usize = 2;
const NAME: usize = 3;
const COUNT: usize = 4;
const LISTED: usize = 5;

// An element has neither t nor p: its count and its first term stand one field earlier.
const ELEMENT_COUNT: usize = 3;
const ELEMENT_TERMS: usize = 4;

/// The three countings.
#[derive(Clone, Copy, PartialEq, Eq)]
enum Counting {
    Terms,
    Elements,
    Atoms,
}

use Counting::*;

/// A line: its numbers, and what stands behind these: a length and a string, or all of a line that is no theory line.
#[derive(Clone)]
struct Row {
    numbers: Vec<i64>,
    rest: Vec<u8>,
}

impl Row {
    // A line taken apart.
    fn new(line: &[u8]) -> Row {
        let count = match line {
            [b'9', SPACE, b'1', ..] => GIVEN + 1,
            [b'9', ..] => line.len(),
            _ => 0,
        };
        let number = |field: &[u8]| integer_of(field).unwrap_or(0);
        let numbers: Vec<i64> = line.split(|b| *b == SPACE).take(count).map(number).collect();
        let rest = line[line_of(&numbers).len()..].to_vec();
        Row { numbers, rest }
    }

    // The line again.
    fn line(&self) -> Vec<u8> {
        [line_of(&self.numbers), self.rest.clone()].concat()
    }

    // The type of a theory line.
    fn kind(&self) -> Option<i64> {
        self.numbers.get(TYPE).copied()
    }

    // The counting of which a theory line gives a number.
    fn gives(&self) -> Option<Counting> {
        match self.kind()? {
            NUMERIC | STRING | COMPOUND => Some(Terms),
            ELEMENT => Some(Elements),
            _ => Some(Atoms),
        }
    }

    // The fields that use something, from left to right, each with the counting.
    fn uses(&self) -> Vec<(usize, Counting)> {
        let all = |counting: Counting, from: usize, to: usize| (from..to).map(move |field| (field, counting));
        let end = self.numbers.len();
        match self.kind() {
            Some(COMPOUND) => {
                let t = if self.numbers[NAME] < 0 { COUNT } else { NAME };
                all(Terms, t, COUNT).chain(all(Terms, LISTED, end)).collect()
            }
            Some(ELEMENT) => all(Terms, ELEMENT_TERMS, ELEMENT_TERMS + self.numbers[ELEMENT_COUNT] as usize).collect(),
            Some(PLAIN) => all(Terms, NAME, COUNT).chain(all(Elements, LISTED, end)).collect(),
            Some(GUARDED) => {
                let guard = end - 2;
                all(Terms, NAME, COUNT).chain(all(Elements, LISTED, guard)).chain(all(Terms, guard, end)).collect()
            }
            _ => Vec::new(),
        }
    }

    // Puts other numbers for all that are listed in a compound or theory atom.
    fn list(&mut self, numbers: &[i64]) {
        let old = self.numbers[COUNT] as usize;
        self.numbers.splice(COUNT..LISTED + old, counted(numbers));
    }

    // What is listed in a compound or theory atom.
    fn listed(&self) -> Vec<i64> {
        self.numbers[LISTED..LISTED + self.numbers[COUNT] as usize].to_vec()
    }
}

/// The lines of a text between the first and the last; two of them at least are theory atoms.
struct Sheet {
    rows: Vec<Row>,
}

impl Sheet {
    // The lines of a readable text, with two differences more if it has not two theory atoms.
    fn new(random: &mut Random, text: &[u8]) -> Sheet {
        let lines: Vec<&[u8]> = text.split(|b| *b == FEED).collect();
        let mut sheet = Sheet { rows: lines[1..lines.len() - 2].iter().map(|l| Row::new(l)).collect() };
        if sheet.giving(sheet.rows.len(), Atoms).len() < 2 {
            sheet.grow(random);
        }
        sheet
    }

    // Puts the lines of two differences among the others; their numbers are free.
    fn grow(&mut self, random: &mut Random) {
        let taken: BTreeSet<i64> = self.rows.iter().flat_map(|r| r.numbers.clone()).collect();
        let mut free: Vec<i64> = (1..=i64::from(LARGEST_INDEX)).filter(|n| !taken.contains(n)).collect();
        random.shuffle(&mut free);
        let lines = difference_lines(random, free.clone(), free.clone(), &free[..2]);
        let more = lines.iter().map(|l| Row::new(l)).collect();
        self.rows = merge(random, std::mem::take(&mut self.rows), more);
    }

    // The lines before one that give a number of some counting.
    fn giving(&self, end: usize, counting: Counting) -> Vec<usize> {
        (0..end).filter(|j| self.rows[*j].gives() == Some(counting)).collect()
    }

    // The numbers that some lines give.
    fn given(&self, lines: &[usize]) -> Vec<i64> {
        lines.iter().map(|j| self.rows[*j].numbers[GIVEN]).collect()
    }

    // The line before one that gives a number.
    fn giver(&self, end: usize, counting: Counting, number: i64) -> Option<usize> {
        self.giving(end, counting).into_iter().find(|j| self.rows[*j].numbers[GIVEN] == number)
    }

    // The faults that a line can be given.
    fn possible(&self, i: usize) -> Vec<u32> {
        let row = &self.rows[i];
        let again = row.gives().is_some_and(|counting| !self.giving(i, counting).is_empty());
        let atom = row.gives() == Some(Atoms);
        let all = [
            (TWICE, again && !atom),
            (UNKNOWN, !row.uses().is_empty()),
            (SECOND, again && atom),
            (NO_DIFFERENCE, atom),
        ];
        all.iter().filter(|(_, can)| *can).map(|(number, _)| *number).collect()
    }

    // Gives a fault to any line that can have it; says which line that is.
    fn put_anywhere(&mut self, random: &mut Random) -> usize {
        let number = fault(random);
        let lines: Vec<usize> = (0..self.rows.len()).filter(|i| self.possible(*i).contains(&number)).collect();
        let line = *random.one_of(&lines);
        self.put(random, number, line)
    }

    // Gives a line a fault; says which line it is then.
    fn put(&mut self, random: &mut Random, number: u32, i: usize) -> usize {
        match number {
            TWICE | SECOND => self.again(random, i),
            UNKNOWN => return self.unknown(random, i),
            _ => self.no_difference(random, i),
        }
        i
    }

    // Has a line give what an earlier one does, or puts that one again in front of it.
    fn again(&mut self, random: &mut Random, i: usize) {
        let earlier = self.rows[i].gives().map_or(Vec::new(), |counting| self.giving(i, counting));
        let j = *random.one_of(&earlier);
        if random.once_in(3) {
            self.rows.insert(i, self.rows[j].clone());
        } else {
            self.rows[i].numbers[GIVEN] = self.rows[j].numbers[GIVEN];
        }
    }

    // Has a line use what no earlier one defines, now and then among many elements; says which line it is then.
    fn unknown(&mut self, random: &mut Random, i: usize) -> usize {
        if self.rows[i].gives() == Some(Atoms) && random.once_in(4) {
            self.crowd(random, i);
        }
        let uses = self.rows[i].uses();
        let last = uses.len() - 1;
        let (field, counting) = match random.below(6) {
            0 => uses[0],
            1 => uses[last],
            2 => uses[last.saturating_sub(1)],
            _ => *random.one_of(&uses),
        };
        if random.once_in(6) {
            return self.postpone(random, i, field, counting);
        }
        self.rows[i].numbers[field] = self.undefined(random, i, counting);
        i
    }

    // A number that no line before one gives: half of the time one that it gives itself or a later one.
    fn undefined(&self, random: &mut Random, i: usize, counting: Counting) -> i64 {
        let before = self.given(&self.giving(i, counting));
        let new = |numbers: Vec<i64>| -> Vec<i64> { numbers.into_iter().filter(|n| !before.contains(n)).collect() };
        let later = new(self.given(&self.giving(self.rows.len(), counting)));
        if random.once_in(2) && !later.is_empty() {
            return *random.one_of(&later);
        }
        *random.one_of(&new((0..=i64::from(LARGEST_INDEX)).collect()))
    }

    // Moves the line that gives what a field uses behind the line of the field; says which line that is then.
    fn postpone(&mut self, random: &mut Random, i: usize, field: usize, counting: Counting) -> usize {
        let Some(j) = self.giver(i, counting, self.rows[i].numbers[field]) else { return i };
        let row = self.rows.remove(j);
        let to = i + random.below(self.rows.len() - i + 1);
        self.rows.insert(to, row);
        i - 1
    }

    // Gives a theory atom more elements, some or many.
    fn crowd(&mut self, random: &mut Random, i: usize) {
        let defined = self.given(&self.giving(i, Elements));
        if defined.is_empty() {
            return;
        }
        let n = if random.once_in(8) { random.below(300) } else { random.below(20) };
        let mut elements = self.rows[i].listed();
        elements.extend((0..=n).map(|_| *random.one_of(&defined)));
        self.rows[i].list(&elements);
    }

    // Makes a theory atom no difference: by its type, its elements, its terms, or what these are.
    fn no_difference(&mut self, random: &mut Random, i: usize) {
        let row = &mut self.rows[i];
        if row.kind() == Some(PLAIN) {
            return;
        }
        match random.below(13) {
            0 => {
                row.numbers[TYPE] = PLAIN;
                row.numbers.truncate(row.numbers.len() - 2);
            }
            1 => row.list(&[]),
            2 => self.crowd(random, i),
            3..=5 => self.other_term(random, i),
            6 => self.other_string(random, i),
            7 | 8 => self.other_element(random, i),
            9 | 10 => self.other_sides(random, i),
            _ => self.other_bound(random, i),
        }
    }

    // A term that a line before one gives, other than the one named; a numeric one only if asked for.
    fn another(&self, random: &mut Random, i: usize, term: i64, numeric: bool) -> i64 {
        let mut lines = self.giving(i, Terms);
        lines.retain(|j| numeric || self.rows[*j].kind() != Some(NUMERIC));
        let mut others = self.given(&lines);
        others.retain(|other| *other != term);
        if others.is_empty() {
            term
        } else {
            *random.one_of(&others)
        }
    }

    // Puts another term as a guarded atom's name, operator or bound.
    fn other_term(&mut self, random: &mut Random, i: usize) {
        let end = self.rows[i].numbers.len();
        let field = *random.one_of(&[NAME, end - 2, end - 1]);
        let term = self.rows[i].numbers[field];
        self.rows[i].numbers[field] = self.another(random, i, term, field != end - 1);
    }

    // Puts another string for the name or the operator.
    fn other_string(&mut self, random: &mut Random, i: usize) {
        let numbers = &self.rows[i].numbers;
        let term = *random.one_of(&[numbers[NAME], numbers[numbers.len() - 2]]);
        let strings = [" 0 ", " 3 dif", " 4 Diff", " 5 diff ", " 5 diff\r", " 1 <", " 2 =<", " 3 <= ", " 3 <=\r"];
        match self.giver(i, Terms, term) {
            Some(j) if self.rows[j].kind() == Some(STRING) => {
                self.rows[j].rest = random.one_of(&strings).as_bytes().to_vec()
            }
            _ => (),
        }
    }

    // The line of a theory atom's first element.
    fn element_of(&self, i: usize) -> Option<usize> {
        self.giver(i, Elements, *self.rows[i].listed().first()?)
    }

    // Changes the first element of a theory atom: a condition, no term, one more, or another.
    fn other_element(&mut self, random: &mut Random, i: usize) {
        let Some(j) = self.element_of(i) else { return };
        let numbers = self.rows[j].numbers.clone();
        let end = ELEMENT_TERMS + numbers[ELEMENT_COUNT] as usize;
        let (mut terms, mut condition) = (numbers[ELEMENT_TERMS..end].to_vec(), numbers[end + 1..].to_vec());
        let first = terms.first().copied().unwrap_or(0);
        match random.below(4) {
            0 => condition.push(literal(random, 6)),
            1 => terms.clear(),
            2 => terms.push(self.another(random, j, first, true)),
            _ => terms = vec![self.another(random, j, first, true)],
        }
        self.rows[j].numbers = [numbers[..ELEMENT_COUNT].to_vec(), counted(&terms), counted(&condition)].concat();
    }

    // Changes the term of a theory atom's first element: what it is built with, or how many arguments it has.
    fn other_sides(&mut self, random: &mut Random, i: usize) {
        let Some(j) = self.element_of(i) else { return };
        let Some((field, _)) = self.rows[j].uses().first().copied() else { return };
        let Some(k) = self.giver(j, Terms, self.rows[j].numbers[field]) else { return };
        self.other_compound(random, k);
    }

    // Changes the bound: a number becomes a string; a minus sign stands on something else, or it is no such compound.
    fn other_bound(&mut self, random: &mut Random, i: usize) {
        let Some(k) = self.rows[i].numbers.last().and_then(|u| self.giver(i, Terms, *u)) else { return };
        match self.rows[k].kind() {
            Some(NUMERIC) => self.rows[k] = Row::new(format!("9 1 {} 1 7", self.rows[k].numbers[GIVEN]).as_bytes()),
            Some(COMPOUND) if random.once_in(2) => {
                let arguments = self.rows[k].listed();
                let others: Vec<i64> = arguments.iter().map(|u| self.another(random, k, *u, false)).collect();
                self.rows[k].list(&others);
            }
            _ => self.other_compound(random, k),
        }
    }

    // Changes a compound: what it is built with, or one argument less or more.
    fn other_compound(&mut self, random: &mut Random, k: usize) {
        if self.rows[k].kind() != Some(COMPOUND) {
            return;
        }
        let t = self.rows[k].numbers[NAME];
        let mut arguments = self.rows[k].listed();
        match random.below(5) {
            0 => self.rows[k].numbers[NAME] = random.from_to(-3, -1),
            1 => self.rows[k].numbers[NAME] = self.another(random, k, t, true),
            2 => self.rows[k].numbers[NAME] = self.another(random, k, t, false),
            3 => drop(arguments.pop()),
            _ => arguments.push(self.another(random, k, t, true)),
        }
        self.rows[k].list(&arguments);
    }
}

// A fault. The four verdicts come about equally often by this, since of two in a line the first hides the other.
fn fault(random: &mut Random) -> u32 {
    match random.below(13) {
        0..=2 => TWICE,
        3 | 4 => UNKNOWN,
        5..=8 => SECOND,
        _ => NO_DIFFERENCE,
    }
}

/// A readable text with a fault in what its theory lines say; often with another in that line, or in any.
pub fn put(random: &mut Random, text: &[u8]) -> Vec<u8> {
    let mut sheet = Sheet::new(random, text);
    let line = sheet.put_anywhere(random);
    if random.once_in(3) {
        let number = *random.one_of(&sheet.possible(line));
        sheet.put(random, number, line);
    }
    if random.once_in(4) {
        sheet.put_anywhere(random);
    }
    text_of(&sheet.rows.iter().map(Row::line).collect::<Vec<_>>())
}
