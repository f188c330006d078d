//! The library's sections and verdicts on a book against the scope: each
//! section's answer and stretch, and the verdict, strict or not, with five lent lists of
//! any length, each whole.

use crate::book;
use crate::bookshape::{is_bits, shape, Shape, SECOND};
use crate::check::{self, at, Check};
use crate::operation::Operation;
use crate::ours::{self, Answer};
use crate::random::Random;
use crate::rules::{answer, ACCEPTED};

/// The lists lent to a verdict: Check's four and the book's words.
type Lent = Vec<Vec<u64>>;

/// Numbers of sections that are asked for: all, and some that there are not.
fn numbers() -> impl Iterator<Item = u64> {
    (0..=SECOND as u64 + 1).chain([u64::MAX, 1 << 32, (1 << 32) + 12])
}

/// Nothing where the library's sections are as the scope asks, or what differs.
pub fn section_differs(input: &[u8]) -> Option<String> {
    let differs = |number: &u64| ours::section(input, *number) != book::section(input, *number);
    let number = numbers().find(differs)?;
    Some(format!("section {number}"))
}

/// The same for the verdict of a check.
pub fn verdict_differs(check: &Check, input: &[u8], random: &mut Random) -> Option<String> {
    let lent = lists(input, random);
    let expected = expected(check, input, &lent);
    let mut after = lent.clone();
    let mut bytes = input.to_vec();
    let [a, b, c, d, e] = &mut after[..] else {
        unreachable!("five lists")
    };
    let answer = ours::judge(check.strict, &mut bytes, [a, b, c, d, e]);
    if bytes != input {
        return Some("the book was written to".to_string());
    }
    ((answer, after) != expected).then(|| {
        format!(
            "the library's verdict by {}, lists of {:?} words",
            check.name(),
            lent.iter().map(Vec::len).collect::<Vec<_>>()
        )
    })
}

/// The words that a book holds, all in one list.
fn words(book: &[u8]) -> Vec<u64> {
    let lists = book::held(book);
    let sections = (0..at::lent(&lists)).filter(|&section| !is_bits(section));
    sections
        .flat_map(|section| lists[section].clone())
        .collect()
}

/// Lists as long as the book needs them, longer, or now and then shorter.
fn lists(input: &[u8], random: &mut Random) -> Lent {
    let needs: Vec<usize> = match shape(input) {
        Shape::Good => {
            let lists = book::held(input);
            let graphs = lists[at::lent(&lists)..].iter().map(Vec::len);
            graphs.chain([words(input).len()]).collect()
        }
        _ => vec![2; 5],
    };
    let mut length = |need: usize| match random.below(12) {
        0 => need.saturating_sub(1 + random.place(3)),
        1..=4 => need + random.place(4),
        _ => need,
    };
    let lengths: Vec<usize> = needs.into_iter().map(&mut length).collect();
    lengths.into_iter().map(|n| random.junk(n)).collect()
}

/// The answer and the five lists that the scope asks for.
fn expected(check: &Check, input: &[u8], lent: &Lent) -> (Answer, Lent) {
    let zeros = || lent.iter().map(|list| vec![0; list.len()]).collect();
    let shape = shape(input);
    if shape != Shape::Good {
        return (shape.answer(), zeros());
    }
    let mut lists = book::held(input);
    lists.truncate(at::lent(&lists));
    lists.extend(lent[..4].iter().cloned());
    let checked = check::by_edition(check.strict, &lists).expected(&lists);
    if [15, 18].contains(&checked.answer.number) {
        return (checked.answer, lent.clone());
    }
    let mut after = words(input);
    let room = lent[4].len();
    if room < after.len() {
        return (answer(18, 5, 0), lent.clone());
    }
    if checked.answer != ACCEPTED {
        return (checked.answer, zeros());
    }
    after.resize(room, 0);
    let mut all: Lent = checked.lists[at::lent(&lists)..].to_vec();
    all.push(after);
    (checked.answer, all)
}
