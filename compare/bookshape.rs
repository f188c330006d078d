//! The shape of a book, which 20 asks for, and the answer about one of its sections, by the
//! scope's text. A book of the second edition has a section more, its sort table. Beside
//! the rules stand wrong ones that a run must notice.

use crate::check::at;
use crate::ours::Answer;
use crate::rules::{answer, ACCEPTED};

/// The sections of a first edition, and of a second.
pub const FIRST: usize = 11;
pub const SECOND: usize = 12;

/// The bytes of a table of contents of so many sections, where the first body starts.
pub const fn contents(sections: usize) -> usize {
    16 * sections
}

/// What is wrong with a section.
#[derive(Clone, Copy, PartialEq, Eq, PartialOrd, Ord)]
pub enum Fault {
    /// It does not start where the last one ended.
    Start,
    /// It runs past the book's end.
    Past,
    /// It is not whole words.
    Words,
}

#[derive(Clone, Copy, PartialEq, Eq, PartialOrd, Ord)]
pub enum Shape {
    Good,
    /// Fewer bytes than the contents of so many sections.
    Short(usize),
    /// A section, counted from 1.
    Section(u64, Fault),
    /// Bytes behind the last of so many sections.
    LeftOver(usize),
    Long,
}

impl Shape {
    /// 20 with its place, or acceptance.
    pub fn answer(self) -> Answer {
        match self {
            Shape::Good => ACCEPTED,
            Shape::Short(_) => answer(20, 0, 0),
            Shape::Section(number, _) => answer(20, number, 0),
            Shape::LeftOver(FIRST) => answer(20, 12, 0),
            Shape::LeftOver(_) => answer(20, 14, 0),
            Shape::Long => answer(20, 13, 0),
        }
    }
}

/// What a book is looked at for.
#[derive(Clone, Copy, PartialEq, Eq)]
pub enum Books {
    Right,
    FirstAlone,
    ByLength,
    NoLength,
    LeftOverTwelve,
    AnyBytes,
    TwelveFirst,
    TwelveTaken,
    ShapeFirst,
}

/// The wrong rules, each with what is wrong about it.
pub const WRONG: [(Books, &str); 8] = [
    (Books::FirstAlone, "a first start of 192 refused"),
    (Books::ByLength, "the edition by the book's length"),
    (Books::NoLength, "192 without its test for 192 bytes"),
    (
        Books::LeftOverTwelve,
        "left over at 12 in the second edition",
    ),
    (Books::AnyBytes, "a sort table that is no whole words"),
    (
        Books::TwelveFirst,
        "24 for section 12 of a damaged first edition",
    ),
    (Books::TwelveTaken, "section 12 of a first edition accepted"),
    (Books::ShapeFirst, "20 before 24"),
];

pub fn is_bits(section: usize) -> bool {
    [at::SOURCE_BITS, at::TARGET_BITS].contains(&section)
}

/// The little-endian word at a place.
pub fn word(book: &[u8], place: usize) -> u64 {
    let bytes = book[place..place + 8].try_into();
    u64::from_le_bytes(bytes.expect("eight bytes"))
}

impl Books {
    /// The sections that a book's first start asks for.
    fn sections(self, book: &[u8]) -> Option<usize> {
        let start = word(book, 0);
        let sections = match self {
            Books::ByLength if book.len() < contents(SECOND) => FIRST,
            Books::ByLength => SECOND,
            Books::FirstAlone => FIRST,
            _ if start == contents(SECOND) as u64 => SECOND,
            _ => FIRST,
        };
        (start == contents(sections) as u64).then_some(sections)
    }

    /// The shape of a book of any length. Ends are sums that no word holds, so they are
    /// taken in 128 bits.
    pub fn shape(self, book: &[u8]) -> Shape {
        if book.len() < contents(FIRST) {
            return Shape::Short(FIRST);
        }
        let Some(sections) = self.sections(book) else {
            return Shape::Section(1, Fault::Start);
        };
        if book.len() < contents(sections) && self != Books::NoLength {
            return Shape::Short(sections);
        }
        let mut due = contents(sections) as u128;
        for section in 0..sections {
            let start = u128::from(word(book, 16 * section));
            let length = u128::from(word(book, 16 * section + 8));
            let fault = |fault| Shape::Section(section as u64 + 1, fault);
            if start != due {
                return fault(Fault::Start);
            }
            due = start + length;
            if due > book.len() as u128 {
                return fault(Fault::Past);
            }
            let any = is_bits(section) || section == at::SORTS && self == Books::AnyBytes;
            if !any && length % 8 != 0 {
                return fault(Fault::Words);
            }
        }
        if due == book.len() as u128 {
            return Shape::Good;
        }
        match self {
            Books::LeftOverTwelve => Shape::LeftOver(FIRST),
            _ => Shape::LeftOver(sections),
        }
    }

    /// The answer about a section by its number: 24 outside 1 to 12, then 20, then 24 for
    /// section 12 of a first edition.
    pub fn section(self, book: &[u8], number: u64) -> Answer {
        let none = answer(24, 0, 0);
        let shape = self.shape(book);
        let twelve = number == SECOND as u64;
        let damaged = shape != Shape::Good;
        let first = book.get(..8) == Some(&(contents(FIRST) as u64).to_le_bytes());
        match self {
            Books::ShapeFirst if damaged => return shape.answer(),
            Books::TwelveFirst if twelve && first => return none,
            _ => {}
        }
        if !(1..=SECOND as u64).contains(&number) {
            return none;
        }
        if damaged {
            return shape.answer();
        }
        match twelve && first && self != Books::TwelveTaken {
            true => none,
            false => ACCEPTED,
        }
    }
}

pub fn shape(book: &[u8]) -> Shape {
    Books::Right.shape(book)
}
