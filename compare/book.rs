//! Books by the scope's text: how one is written, what it holds, and the answer that the
//! programs `verdict` and `strict_verdict` must print. It is a second statement; nothing
//! of the library is used. The shape that 20 asks for is in bookshape.rs.

use crate::bookshape::{contents, is_bits, shape, word, Books, Shape, FIRST, SECOND};
use crate::check::{self, at, Check};
use crate::operation::Lists;
use crate::ours::Answer;
use crate::rules::{ACCEPTED, SOURCE, TARGET};

/// The longest input that is a book to the program.
pub const LONGEST: usize = 65_536;

/// The shape as the program sees it.
pub fn input_shape(input: &[u8]) -> Shape {
    if input.len() > LONGEST {
        return Shape::Long;
    }
    shape(input)
}

/// The sections that a book has by its first start, if it is long enough for them.
pub fn sections(book: &[u8]) -> Option<usize> {
    let start = book.get(..8).map(|_| word(book, 0));
    let of = |&sections: &usize| start == Some(contents(sections) as u64);
    let sections = [FIRST, SECOND].into_iter().find(of)?;
    (book.len() >= contents(sections)).then_some(sections)
}

/// The stretch of a section, counted from 0, of a good book.
fn body(book: &[u8], section: usize) -> &[u8] {
    let start = word(book, 16 * section) as usize;
    &book[start..start + word(book, 16 * section + 8) as usize]
}

/// The answer about a section by its number, and its stretch, which is empty
/// after a refusal.
pub fn section(book: &[u8], number: u64) -> (Answer, &[u8]) {
    match Books::Right.section(book, number) {
        ACCEPTED => (ACCEPTED, body(book, number as usize - 1)),
        refusal => (refusal, &[]),
    }
}

/// The lists that a good book holds, and work lists as long as their graphs.
pub fn held(book: &[u8]) -> Lists {
    let words = |bytes: &[u8]| {
        (0..bytes.len())
            .step_by(8)
            .map(|k| word(bytes, k))
            .collect()
    };
    let list = |section| {
        let bytes = body(book, section);
        if is_bits(section) {
            return bytes.iter().map(|&byte| u64::from(byte)).collect();
        }
        words(bytes)
    };
    let sections = sections(book).expect("a good book has an edition");
    let mut lists: Lists = (0..sections).map(list).collect();
    let source = lists[at::SOURCE].len() / SOURCE.row;
    let target = lists[at::TARGET].len() / TARGET.row;
    lists.extend([source, target, target, target].map(|rows| vec![1; rows]));
    lists
}

/// The answer that the program of a check must print: 20, or the check's by the Rust and
/// the scope's rules, for a second edition by the definition.
pub fn verdict(check: &Check, input: &[u8]) -> Answer {
    let checked = |lists: Lists| check::by_edition(check.strict, &lists).expected(&lists);
    match input_shape(input) {
        Shape::Good => checked(held(input)).answer,
        bad => bad.answer(),
    }
}

/// The line that says an answer.
pub fn line(answer: Answer) -> String {
    if answer == ACCEPTED {
        return "accepted\n".to_string();
    }
    format!(
        "refused {} {} {}\n",
        answer.number, answer.place, answer.detail
    )
}

/// A book in parts: start and length of each section, and the bytes after the
/// contents.
#[derive(Clone)]
pub struct Draft {
    pub contents: Vec<[u64; 2]>,
    pub bodies: Vec<u8>,
}

/// The good book of these lists, of the second edition if there is a sort table among
/// them; lent lists are left out.
pub fn draft(lists: &Lists) -> Draft {
    let sections = match lists.len() {
        12 | 16 => SECOND,
        _ => FIRST,
    };
    let mut draft = Draft {
        contents: Vec::new(),
        bodies: Vec::new(),
    };
    for (section, list) in lists.iter().take(sections).enumerate() {
        let bytes: Vec<u8> = match is_bits(section) {
            true => list.iter().map(|&byte| byte as u8).collect(),
            false => list.iter().flat_map(|word| word.to_le_bytes()).collect(),
        };
        let start = contents(sections) + draft.bodies.len();
        draft.contents.push([start as u64, bytes.len() as u64]);
        draft.bodies.extend(bytes);
    }
    draft
}

impl Draft {
    /// The bytes before the bodies.
    pub fn start(&self) -> usize {
        contents(self.contents.len())
    }

    /// The place in the bodies of a place in the book, or the nearest there is.
    pub fn place(&self, at: u64) -> usize {
        let after = at.saturating_sub(self.start() as u64);
        after.min(self.bodies.len() as u64) as usize
    }

    pub fn bytes(&self) -> Vec<u8> {
        let contents = self.contents.iter().flatten();
        let mut bytes: Vec<u8> = contents.flat_map(|word| word.to_le_bytes()).collect();
        bytes.extend(&self.bodies);
        bytes
    }
}
