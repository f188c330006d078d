//! The sort table of a second edition: the widths of each array's indices and cells, and
//! the tables that 28 refuses. The rule stands here as restated.rs and wellformed.rs ask
//! it, with wrong rules that a run must notice.

use crate::check::at;
use crate::operation::Lists;
use crate::ours::Answer;
use crate::rules::{answer, CEILING};

/// Index width and cell width of an array.
pub type Shape = [u64; 2];

/// That of every array in a first edition.
pub const FIRST: Shape = [32, 8];

/// Words of an entry: array, index width, cell width.
pub const ENTRY: usize = 3;

/// Where the shape of an array comes from.
#[derive(Clone, Copy)]
pub enum Edition<'l> {
    First,
    /// A sort table.
    Second(&'l [u64]),
}

impl<'l> Edition<'l> {
    /// The edition of Check's lists, by their number: twelve with a sort table, or
    /// sixteen with the lent lists behind it.
    pub fn of(lists: &'l Lists) -> Edition<'l> {
        match lists.len() {
            12 | 16 => Edition::Second(&lists[at::SORTS]),
            _ => Edition::First,
        }
    }

    /// The same for a source that stands first in its operation's lists: its own are
    /// five with a sort table.
    pub fn of_source(lists: &'l Lists) -> Edition<'l> {
        match lists.len() {
            5 => Edition::Second(&lists[3]),
            _ => Edition::of(lists),
        }
    }

    /// The shape of an array; none if it is not listed.
    pub fn shape(self, array: u64) -> Option<Shape> {
        match self {
            Edition::First => Some(FIRST),
            Edition::Second(table) => {
                let mut entries = table.chunks_exact(ENTRY);
                let entry = entries.find(|entry| entry[0] == array)?;
                Some([entry[1], entry[2]])
            }
        }
    }

    /// 28: the first bad entry of the table.
    pub fn refused(self) -> Option<Answer> {
        Sorts::Right.refused(self)
    }
}

/// What a sort table is looked at for.
#[derive(Clone, Copy, PartialEq, Eq)]
pub enum Sorts {
    Right,
    Exchanged,
    OneForAll,
    Before,
    FirstElsewhere,
    EmptyIsFirst,
    FirstPairs,
    FirstReads,
    Rising,
    AnyOrder,
    ZeroIndex,
    ZeroCell,
    Cut,
    Ceiling,
    BeforeBits,
    BehindWidths,
}

/// The wrong rules, each with what is wrong about it.
pub const WRONG: [(Sorts, &str); 15] = [
    (Sorts::Exchanged, "index width and cell width exchanged"),
    (Sorts::OneForAll, "the first entry's widths for every array"),
    (Sorts::Before, "the widths of the entry before"),
    (Sorts::FirstElsewhere, "32 and 8 for an array not listed"),
    (Sorts::EmptyIsFirst, "an empty table as the first edition"),
    (Sorts::FirstPairs, "the pairs by 32 and 8"),
    (Sorts::FirstReads, "the read table by 32 and 8"),
    (Sorts::Rising, "an array twice let pass"),
    (Sorts::AnyOrder, "an array below the one before let pass"),
    (Sorts::ZeroIndex, "an index width of 0 let pass"),
    (Sorts::ZeroCell, "a cell width of 0 let pass"),
    (Sorts::Cut, "a cut entry let pass"),
    (Sorts::Ceiling, "28 for a cell width above 4,096"),
    (Sorts::BeforeBits, "28 before 17"),
    (Sorts::BehindWidths, "28 behind 1 and 2"),
];

/// Who asks for a shape.
#[derive(Clone, Copy, PartialEq, Eq)]
pub enum Asked {
    Select,
    Pair,
    Read,
}

/// Where 28 can be looked for.
#[derive(Clone, Copy, PartialEq, Eq)]
pub enum Step {
    BeforeBits,
    BehindBits,
    BehindWidths,
}

impl Sorts {
    /// The step at which 28 is looked for.
    pub fn step(self) -> Step {
        match self {
            Sorts::BeforeBits => Step::BeforeBits,
            Sorts::BehindWidths => Step::BehindWidths,
            _ => Step::BehindBits,
        }
    }

    /// 28 with the first entry that is cut, whose array is not above that of the entry
    /// before, or that has a width of 0.
    pub fn refused(self, edition: Edition) -> Option<Answer> {
        let Edition::Second(table) = edition else {
            return None;
        };
        let mut before = None;
        let bad = |entry: &[u64]| {
            let &[array, index, cell] = entry else {
                return self != Sorts::Cut;
            };
            let falls = before.replace(array).is_some_and(|before| match self {
                Sorts::Rising => array < before,
                Sorts::AnyOrder => array == before,
                _ => array <= before,
            });
            falls
                || index == 0 && self != Sorts::ZeroIndex
                || cell == 0 && self != Sorts::ZeroCell
                || cell > CEILING && self == Sorts::Ceiling
        };
        let place = table.chunks(ENTRY).position(bad)?;
        Some(answer(28, place as u64, 0))
    }

    /// The shape that an array has for one who asks; none if it is not listed.
    pub fn shape(self, edition: Edition, array: u64, asked: Asked) -> Option<Shape> {
        let Edition::Second(table) = edition else {
            return Some(FIRST);
        };
        let listed = edition.shape(array);
        match self {
            Sorts::Exchanged => listed.map(|[index, cell]| [cell, index]),
            Sorts::OneForAll => listed.map(|_| [table[1], table[2]]),
            Sorts::Before => {
                let entries = table.chunks_exact(ENTRY);
                let before = entries.take_while(|entry| entry[0] < array).last();
                listed.map(|shape| before.map_or(shape, |entry| [entry[1], entry[2]]))
            }
            Sorts::FirstElsewhere => listed.or(Some(FIRST)),
            Sorts::EmptyIsFirst if table.is_empty() => Some(FIRST),
            Sorts::FirstPairs if asked == Asked::Pair => listed.map(|_| FIRST),
            Sorts::FirstReads if asked == Asked::Read => Some(FIRST),
            _ => listed,
        }
    }
}
