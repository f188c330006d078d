//! What a run of books has met, by edition: the answers that each program printed, who said
//! what they should be, and the answers about section 12.

use std::collections::BTreeMap;

use crate::book::{self, LONGEST};
use crate::bookshape::{is_bits, shape, Fault, Shape, FIRST, SECOND};
use crate::check::{self, Check};
use crate::functioncounts;
use crate::operation::Operation;
use crate::ours::Answer;
use crate::rules::{self, ACCEPTED};

/// How often each thing came.
#[derive(Default)]
pub struct BookCounts {
    came: BTreeMap<String, u64>,
}

impl BookCounts {
    /// Counts what a program must print about an input.
    pub fn count(&mut self, check: &Check, input: &[u8], expected: Answer) {
        let labels = [
            Some(label(input, expected)),
            edge(input, expected),
            judged_by(check, input, expected),
        ];
        for label in labels.into_iter().flatten() {
            self.add(input, label);
        }
    }

    /// Counts the answer about section 12.
    pub fn count_section(&mut self, input: &[u8]) {
        let (answer, _) = book::section(input, SECOND as u64);
        self.add(input, of_section(answer.number));
    }

    fn add(&mut self, input: &[u8], label: String) {
        let label = format!("{}, {label}", edition(book::sections(input)));
        *self.came.entry(label).or_default() += 1;
    }

    pub fn print(&self) {
        for (label, count) in &self.came {
            println!("  {label}: {count:8}");
        }
    }

    /// Each of these that never came.
    pub fn missing(&self, due: Vec<String>) -> Vec<String> {
        let never = due
            .into_iter()
            .filter(|label| !self.came.contains_key(label));
        never.collect()
    }
}

/// What must come for the program of a check.
pub fn due(check: &Check) -> Vec<String> {
    let first = due_in(check, FIRST).into_iter().chain(by_references());
    let second = due_in(check, SECOND).into_iter();
    let second = second.chain([numbered(28), BY_DEFINITION.to_string()]);
    let short = [FIRST, SECOND].map(Shape::Short);
    let none = [short[0], short[1], Shape::Section(1, Fault::Start)].map(shaped);
    let named = |sections, labels: Vec<String>| {
        let edition = edition(sections);
        let named = labels
            .into_iter()
            .map(move |label| format!("{edition}, {label}"));
        named.collect::<Vec<String>>()
    };
    [
        named(Some(FIRST), first.collect()),
        named(Some(SECOND), second.collect()),
        named(None, none.into()),
    ]
    .concat()
}

/// The same about section 12.
pub fn due_sections() -> Vec<String> {
    let asked = [
        (Some(FIRST), 24),
        (Some(FIRST), 20),
        (Some(SECOND), 0),
        (Some(SECOND), 20),
    ];
    let all = asked.into_iter().chain([(None, 20)]);
    all.map(|(sections, number)| format!("{}, {}", edition(sections), of_section(number)))
        .collect()
}

/// What must come in an edition of so many sections. 18 cannot: the programs' work lists
/// are long enough. The first start is the edition's.
fn due_in(check: &Check, sections: usize) -> Vec<String> {
    let mut due: Vec<String> = (0..=17).map(numbered).collect();
    if check.strict {
        due.extend([1, 2].map(rooted));
    }
    due.extend([Shape::LeftOver(sections), Shape::Long].map(shaped));
    due.extend([LAST_TAKEN, FIRST_REFUSED].map(String::from));
    for section in 0..sections {
        let number = section as u64 + 1;
        let mut faults = vec![Fault::Past];
        if section > 0 {
            faults.push(Fault::Start);
        }
        if !is_bits(section) {
            faults.push(Fault::Words);
        }
        let faults = faults.into_iter();
        due.extend(faults.map(|fault| shaped(Shape::Section(number, fault))));
    }
    due
}

/// Who must have answered about first editions.
fn by_references() -> Vec<String> {
    let mut due = vec![BY_RUST.to_string()];
    due.extend([1, 2].map(by_rule));
    due.extend(functioncounts::DUE.map(by_widths));
    due
}

fn edition(sections: Option<usize>) -> &'static str {
    match sections {
        Some(FIRST) => "first edition",
        Some(_) => "second edition",
        None => "neither edition",
    }
}

/// The answer's number, for 19 its detail, and for 20 its place with the reason.
fn label(input: &[u8], expected: Answer) -> String {
    match book::input_shape(input) {
        Shape::Good if expected.number == 19 => rooted(expected.detail),
        Shape::Good => numbered(expected.number),
        bad => shaped(bad),
    }
}

/// For books of good shape that are as long as a book may be, or a byte longer.
fn edge(input: &[u8], expected: Answer) -> Option<String> {
    let good = shape(input) == Shape::Good;
    match input.len() {
        LONGEST if expected == ACCEPTED => Some(LAST_TAKEN.to_string()),
        LONGEST_AND_ONE if good => Some(FIRST_REFUSED.to_string()),
        _ => None,
    }
}

/// Who answered about a book that has good shape and is not refused by 15 to 18.
fn judged_by(check: &Check, input: &[u8], expected: Answer) -> Option<String> {
    if book::input_shape(input) != Shape::Good || (15..=18).contains(&expected.number) {
        return None;
    }
    if book::sections(input) == Some(SECOND) {
        return Some(BY_DEFINITION.to_string());
    }
    let held = book::held(input);
    let above = || rules::above(check.lists(), &held).is_some();
    if matches!(expected.number, 1 | 2) && above() {
        return Some(by_rule(expected.number));
    }
    if check::by_edition(check.strict, &held).told_apart(&held) {
        return Some(by_widths(expected.number));
    }
    Some(BY_RUST.to_string())
}

const BY_RUST: &str = "with the Rust";
const BY_DEFINITION: &str = "by the definition";

fn by_rule(number: u64) -> String {
    format!("{} above the ceiling, by the rule", numbered(number))
}

fn by_widths(number: u64) -> String {
    format!("{}, functions told apart by widths", numbered(number))
}

const LONGEST_AND_ONE: usize = LONGEST + 1;
const LAST_TAKEN: &str = "65,536 bytes, accepted";
const FIRST_REFUSED: &str = "65,537 bytes, good but for that";

fn numbered(number: u64) -> String {
    format!("answer {number:2}")
}

fn of_section(number: u64) -> String {
    format!("section 12, {}", numbered(number))
}

fn rooted(detail: u64) -> String {
    format!("{} for {detail}", numbered(19))
}

fn shaped(shape: Shape) -> String {
    let reason = match shape {
        Shape::Short(FIRST) => ", under 176 bytes",
        Shape::Short(_) => ", under 192 bytes",
        Shape::Section(_, Fault::Start) => ", start",
        Shape::Section(_, Fault::Past) => ", past the end",
        Shape::Section(_, Fault::Words) => ", no whole words",
        _ => "",
    };
    format!("answer 20 at {:2}{reason}", shape.answer().place)
}
