//! Second editions in the fixed list: the cases with a sort table whose answers are known,
//! random ones for each answer, and books of both editions.

use std::collections::BTreeSet;

use crate::book;
use crate::check::{CHECK, STRICT_CHECK};
use crate::editions;
use crate::list::{by_place, some, List, LONG, SECTION, VERDICT};
use crate::listline::{bytes, words_line};
use crate::operation::{Lists, Operation};
use crate::ours::Answer;
use crate::random::Random;
use crate::rules::ACCEPTED;
use crate::secondbooks;
use crate::sortcases;
use crate::sortedcheck::{CHECK_WITH_SORTS, STRICT_CHECK_WITH_SORTS};
use crate::sortedwidths::SOURCE_WIDTHS_WITH_SORTS;
use crate::strictlist::STRICT_VERDICT;

/// How many random cases each answer gets.
const WANTED: usize = 1;

/// Of the known sources one in so many.
const SOURCES: usize = 8;

/// Answers of books that must be there: operation, number, place of 20.
const DUE: [(u64, u64, u64); 20] = [
    (VERDICT, 0, 0),
    (VERDICT, 1, 0),
    (VERDICT, 5, 0),
    (VERDICT, 17, 0),
    (VERDICT, 28, 0),
    (VERDICT, 20, 0),
    (VERDICT, 20, 1),
    (VERDICT, 20, 2),
    (VERDICT, 20, 12),
    (VERDICT, 20, 14),
    (SECTION, 0, 0),
    (SECTION, 24, 0),
    (SECTION, 20, 0),
    (SECTION, 20, 12),
    (SECTION, 20, 14),
    (STRICT_VERDICT, 0, 0),
    (STRICT_VERDICT, 19, 0),
    (STRICT_VERDICT, 28, 0),
    (STRICT_VERDICT, 20, 0),
    (STRICT_VERDICT, 20, 14),
];

impl List {
    /// Adds all these; false if a case is too long or gets another answer than the
    /// scope's, or if an answer of a book is missing.
    pub fn add_sorts(&mut self, random: &mut Random) -> bool {
        let sources = sortcases::sources().into_iter().step_by(SOURCES);
        let rooted = STRICT_CHECK_WITH_SORTS.known().into_iter();
        let rooted = rooted.filter(|(_, answer)| answer.number == 19);
        let strict = sortcases::to_change().into_iter();
        let strict = strict.map(|lists| (lists, ACCEPTED)).chain(rooted);
        let good = self.add_each(&SOURCE_WIDTHS_WITH_SORTS, sources)
            & self.add_each(&CHECK_WITH_SORTS, sortcases::listed().into_iter())
            & self.add_each(&STRICT_CHECK_WITH_SORTS, strict);
        self.add_answers(random, &SOURCE_WIDTHS_WITH_SORTS);
        self.add_answers(random, &CHECK_WITH_SORTS);
        self.add_answers(random, &STRICT_CHECK_WITH_SORTS);
        self.add_second_books() && good
    }

    /// Adds cases whose answers are known.
    fn add_each(
        &mut self,
        operation: &dyn Operation,
        mut known: impl Iterator<Item = (Lists, Answer)>,
    ) -> bool {
        known.all(|(lists, answer)| {
            operation.expected(&lists).answer == answer && self.add(operation, lists, LONG)
        })
    }

    /// Adds random cases of each answer, none of which is one of a first edition.
    fn add_answers(&mut self, random: &mut Random, operation: &dyn Operation) {
        let place = operation.sorts().expect("a sort table");
        let second = |lists: &Lists| editions::unsorted(lists, place).is_none();
        for &number in operation.answers() {
            some(random, operation, number, WANTED, self, second);
        }
    }

    /// Adds books for the verdicts and for sections.
    fn add_second_books(&mut self) -> bool {
        let mut came = BTreeSet::new();
        let verdicts = [
            (VERDICT, &CHECK, secondbooks::verdicts()),
            (
                STRICT_VERDICT,
                &STRICT_CHECK,
                secondbooks::strict_verdicts(),
            ),
        ];
        for (operation, check, books) in verdicts {
            for book in books {
                let answer = book::verdict(check, &book);
                came.insert((operation, answer.number, by_place(answer)));
                self.add_line(words_line(operation, &[bytes(&book)], answer, &[]));
            }
        }
        for (book, number) in secondbooks::sections() {
            let (answer, stretch) = book::section(&book, number);
            came.insert((SECTION, answer.number, by_place(answer)));
            let lists = [bytes(&book), vec![number]];
            self.add_line(words_line(SECTION, &lists, answer, &[bytes(stretch)]));
        }
        DUE.iter().all(|due| came.contains(due))
    }
}
