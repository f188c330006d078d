//! What an operation is to this program. A case is an operation with its
//! lists, all held as words (a bit byte is a word too, at most 255); generators,
//! shrinker and printers go by the kinds of the lists alone.

use crate::check::{CHECK, STRICT_CHECK};
use crate::ours::Answer;
use crate::random::Random;
use crate::roots::ROOTS;
use crate::sortedcheck::{CHECK_WITH_SORTS, STRICT_CHECK_WITH_SORTS};
use crate::sortedwidths::SOURCE_WIDTHS_WITH_SORTS;
use crate::sorts::ENTRY;
use crate::values::VALUES;
use crate::widths::{SOURCE_WIDTHS, TARGET_WIDTHS};

pub type Lists = Vec<Vec<u64>>;

/// What one list of an operation holds.
#[derive(Clone, Copy, PartialEq, Eq)]
pub enum Kind {
    /// Rows of so many words, the first being the tag.
    Rows(usize),
    /// Bytes that should be 0 or 1.
    Bits,
    /// A word given for each row of the list at this index.
    Given(usize),
    /// Entries of a table, of so many words each.
    Entries(usize),
    /// Entries of a sort table.
    Sorts,
    /// Words of any other meaning.
    Words,
    /// A list lent for writing, a word for each row of the list at this index.
    Lent(usize),
}

impl Kind {
    /// The words of a row or an entry; 0 for a list that holds no words of ours.
    pub fn fields(self) -> usize {
        match self {
            Kind::Rows(size) | Kind::Entries(size) => size,
            Kind::Sorts => ENTRY,
            Kind::Given(_) | Kind::Words => 1,
            Kind::Bits | Kind::Lent(_) => 0,
        }
    }
}

/// A name, and whether a case shows what it names.
pub type Feature = (String, Box<dyn Fn(&Lists) -> bool>);

/// What a call answered and what all the lists held after it.
#[derive(Clone, PartialEq, Eq)]
pub struct Outcome {
    pub answer: Answer,
    pub lists: Lists,
    /// The call wrote beside a lent list.
    pub strayed: bool,
}

pub trait Operation: Sync {
    /// Its number in the fixed list.
    fn number(&self) -> u64;
    fn name(&self) -> &'static str;
    /// Name and kind of each list, in the order of the C function.
    fn lists(&self) -> &'static [(&'static str, Kind)];
    /// The place of its sort table, if it has one.
    fn sorts(&self) -> Option<usize> {
        let mut kinds = self.lists().iter();
        kinds.position(|&(_, kind)| kind == Kind::Sorts)
    }
    /// Answer numbers that a comparison must have met.
    fn answers(&self) -> &'static [u64];
    /// So many tags must each have been accepted and refused in the first list.
    fn tags(&self) -> usize {
        0
    }
    /// Refusals 15 to 18 that must have come, each with the graph or the lent
    /// list that it names.
    fn parts(&self) -> &'static [(u64, u64)] {
        &[]
    }
    /// What accepted cases must have shown.
    fn features(&self) -> Vec<Feature> {
        Vec::new()
    }
    /// Cases whose answers the scope names.
    fn known(&self) -> Vec<(Lists, Answer)> {
        Vec::new()
    }
    /// Every case that one change makes of an accepted one of these, and tiny ones.
    fn changed(&self) -> Vec<Lists> {
        Vec::new()
    }
    /// A random case of at most about `rows` rows.
    fn generate(&self, random: &mut Random, rows: usize) -> Lists;
    /// The library's outcome.
    fn ours(&self, lists: &Lists) -> Outcome;
    /// The outcome that the rules and the reference ask for.
    fn expected(&self, lists: &Lists) -> Outcome;
    /// The same by a second reference, if there is one for this case.
    fn second(&self, _lists: &Lists) -> Option<Outcome> {
        None
    }
    /// Does the rule that tells functions apart by their widths answer, not the Rust?
    fn told_apart(&self, _lists: &Lists) -> bool {
        false
    }
    /// A case of a first edition once more, for the operation with sorts: with a table that
    /// lists 32 and 8 for each array that it names.
    fn with_sorts(&self, _lists: &Lists) -> Option<(&'static dyn Operation, Lists)> {
        None
    }
    /// Cases for the shrinker to try beside those with parts dropped or words
    /// lowered: each has fewer rows that are no variables, or lower words.
    fn simpler(&self, _lists: &Lists) -> Vec<Lists> {
        Vec::new()
    }
}

/// Every operation, with how many of a hundred random cases it gets.
pub const OPERATIONS: [(&dyn Operation, u64); 9] = [
    (&SOURCE_WIDTHS, 15),
    (&TARGET_WIDTHS, 10),
    (&ROOTS, 5),
    (&VALUES, 15),
    (&CHECK, 20),
    (&STRICT_CHECK, 10),
    (&SOURCE_WIDTHS_WITH_SORTS, 5),
    (&CHECK_WITH_SORTS, 10),
    (&STRICT_CHECK_WITH_SORTS, 10),
];

/// Two outcomes of a case that must be equal.
#[derive(Clone, Copy)]
pub enum Pair {
    Library,
    References,
}

impl Pair {
    pub fn names(self) -> [&'static str; 2] {
        match self {
            Pair::Library => ["ours", "expected"],
            Pair::References => ["second reference", "expected"],
        }
    }

    pub fn outcomes(self, operation: &dyn Operation, lists: &Lists) -> [Outcome; 2] {
        let expected = operation.expected(lists);
        let other = match self {
            Pair::Library => operation.ours(lists),
            Pair::References => operation.second(lists).unwrap_or(expected.clone()),
        };
        [other, expected]
    }

    pub fn agrees(self, operation: &dyn Operation, lists: &Lists) -> bool {
        let [other, expected] = self.outcomes(operation, lists);
        other == expected
    }
}
