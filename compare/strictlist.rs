//! The strict check in the fixed list: its small cases and the marked ones, random ones
//! for each answer and for each reason to refuse a root, and books.

use std::collections::BTreeMap;

use crate::book;
use crate::check::STRICT_CHECK;
use crate::list::{any, some, List, LONG};
use crate::listedbooks;
use crate::listline::{bytes, words_line};
use crate::operation::{Lists, Operation};
use crate::random::Random;
use crate::rootcounts::{Refused, CAUSES};
use crate::strictcases;

/// The number of the strict verdict.
pub const STRICT_VERDICT: u64 = 9;

/// How many random cases each answer gets, and how many each reason.
const WANTED: usize = 3;
const WANTED_CAUSE: usize = 2;

/// A book has at most so many bytes, and at most so many get one number and detail.
const BYTES: usize = 310;
const ALIKE: usize = 3;

/// Answers of books that must be there, by number and detail.
const DUE: [(u64, u64); 8] = [
    (0, 0),
    (2, 0),
    (3, 0),
    (12, 0),
    (17, 2),
    (19, 1),
    (19, 2),
    (20, 0),
];

impl List {
    /// Adds all these; false if a case is too long or gets another answer than the
    /// scope's, or if an answer of a book is missing.
    pub fn add_strict(&mut self, random: &mut Random) -> bool {
        let mut known = strictcases::small()
            .into_iter()
            .chain(strictcases::marked());
        let good = known.all(|(lists, answer)| {
            STRICT_CHECK.expected(&lists).answer == answer && self.add(&STRICT_CHECK, lists, LONG)
        });
        for &number in STRICT_CHECK.answers() {
            some(random, &STRICT_CHECK, number, WANTED, self, any);
        }
        for (_, shows) in CAUSES {
            let test = |lists: &Lists| {
                let answer = STRICT_CHECK.expected(lists).answer;
                Refused::of(lists, answer).is_some_and(|refused| shows(&refused))
            };
            some(random, &STRICT_CHECK, 19, WANTED_CAUSE, self, test);
        }
        self.add_strict_books() && good
    }

    /// Adds the small cases as books, and a few that are none.
    fn add_strict_books(&mut self) -> bool {
        let mut came: BTreeMap<(u64, u64), usize> = BTreeMap::new();
        let small = strictcases::small().into_iter();
        let books = small.map(|(lists, _)| book::draft(&lists).bytes());
        for book in books.chain(listedbooks::misshapen().into_iter().step_by(7)) {
            let answer = book::verdict(&STRICT_CHECK, &book);
            let alike = came.entry((answer.number, answer.detail)).or_default();
            if book.len() <= BYTES && *alike < ALIKE {
                *alike += 1;
                self.add_line(words_line(STRICT_VERDICT, &[bytes(&book)], answer, &[]));
            }
        }
        DUE.iter().all(|due| came.get(due) > Some(&0))
    }
}
