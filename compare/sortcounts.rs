//! What a run has met at sort tables: for which entry and for what 28 came, what came before
//! it beside a bad table, and the Selects and read entries that were refused for the
//! shape of their array.

use crate::check::at;
use crate::operation::{Lists, Operation};
use crate::ours::Answer;
use crate::rules::{CEILING, SOURCE, TARGET};
use crate::sorts::{Edition, Shape, ENTRY, FIRST};
use crate::tags::SELECT;
use crate::wellformed::{self, at as item, rows, stretch, Row};

/// A refused case of an operation with sorts.
pub struct Refused<'l> {
    lists: &'l Lists,
    answer: Answer,
    table: &'l [u64],
    /// Are the lists those of Check, and not of a source alone?
    check: bool,
}

impl Refused<'_> {
    fn is(&self, number: u64) -> bool {
        self.answer.number == number
    }

    fn edition(&self) -> Edition<'_> {
        Edition::Second(self.table)
    }

    /// The words of the entry that 28 names, and the array of the one before.
    fn entry(&self) -> Option<(&[u64], Option<u64>)> {
        let place = ENTRY * self.answer.place as usize;
        let entry = self.table.chunks(ENTRY).nth(self.answer.place as usize)?;
        let before = place.checked_sub(ENTRY).map(|at| self.table[at]);
        self.is(28).then_some((entry, before))
    }

    /// Does 28 name a whole entry that passes a test, with the array before?
    fn bad(&self, test: fn([u64; 3], Option<u64>) -> bool) -> bool {
        let whole = |(entry, before): (&[u64], _)| {
            let entry: [u64; 3] = entry.try_into().ok()?;
            Some(test(entry, before))
        };
        self.entry().and_then(whole).unwrap_or(false)
    }

    /// How many entries does 28 refuse, each with those before it taken away?
    fn bad_entries(&self) -> usize {
        let entries = self.table.len().div_ceil(ENTRY);
        let bad = |&entry: &usize| {
            let from = ENTRY * entry.saturating_sub(1);
            let end = self.table.len().min(ENTRY * (entry + 1));
            let place = Edition::Second(&self.table[from..end]).refused();
            place.is_some_and(|bad| bad.place as usize == entry.min(1))
        };
        (0..entries).filter(bad).count()
    }

    /// Is there a bad table that another number comes before?
    fn beside(&self, number: u64) -> bool {
        self.is(number) && self.edition().refused().is_some()
    }

    /// The Select that is refused by 1, with its array's shape and the widths before it.
    fn select(&self) -> Option<(Row, Option<Shape>, Vec<u64>)> {
        let place = self.answer.place as usize;
        let words = self.lists[at::SOURCE].get(..SOURCE.row * (place + 1))?;
        let row = *rows(words, SOURCE.row).last()?;
        if !self.is(1) || row[0] != SELECT {
            return None;
        }
        let mut before = self.lists.clone();
        before[at::SOURCE].truncate(SOURCE.row * place);
        let widths = wellformed::widths(&before, at::SOURCE, SOURCE.row)?;
        Some((row, self.edition().shape(row[1]), widths))
    }

    /// Is such a Select refused although its array is listed, with an index or pairs that
    /// pass a test?
    fn misfits(&self, test: fn(&Misfit) -> bool) -> bool {
        let Some((row, Some(shape), widths)) = self.select() else {
            return false;
        };
        let pairs = stretch(&self.lists[at::SIDE], row[3], row[4].saturating_mul(2));
        let width = |&row: &u64| item(&widths, row);
        let pairs = pairs.unwrap_or(&[]).chunks_exact(2);
        test(&Misfit {
            shape,
            index: width(&row[2]),
            pairs: pairs
                .map(|pair| [width(&pair[0]), width(&pair[1])])
                .collect(),
            others: self
                .table
                .chunks_exact(ENTRY)
                .map(|entry| [entry[1], entry[2]])
                .collect(),
        })
    }

    /// The read entry that is refused by 5 and whole, with its array's shape and the widths
    /// of its variable and index.
    fn read(&self) -> Option<(Option<Shape>, [Option<u64>; 2])> {
        if !self.check || !self.is(5) {
            return None;
        }
        let place = 3 * self.answer.place as usize;
        let entry = self.lists[at::READS].get(place..place + 3)?;
        let widths = wellformed::widths(self.lists, at::TARGET, TARGET.row)?;
        let shape = self.edition().shape(entry[1]);
        Some((shape, [item(&widths, entry[2]), item(&widths, entry[0])]))
    }

    /// Is an entry of a listed array refused, with index and variable that pass a test?
    fn read_misfits(&self, test: fn(Shape, Shape) -> bool) -> bool {
        match self.read() {
            Some((Some(shape), [Some(index), Some(cell)])) => test(shape, [index, cell]),
            _ => false,
        }
    }
}

/// What a refused Select has.
struct Misfit {
    shape: Shape,
    index: Option<u64>,
    pairs: Vec<[Option<u64>; 2]>,
    /// The shapes of all listed arrays.
    others: Vec<Shape>,
}

impl Misfit {
    fn index_fits(&self) -> bool {
        self.index == Some(self.shape[0])
    }
}

/// A name, and whether a refused case shows what it names.
type Cause = (&'static str, fn(&Refused) -> bool);

/// Each must come in every operation with sorts.
const TABLES: [Cause; 24] = [
    ("28, cut by one word", |of| {
        of.entry().is_some_and(|(entry, _)| entry.len() == 2)
    }),
    ("28, cut by two words", |of| {
        of.entry().is_some_and(|(entry, _)| entry.len() == 1)
    }),
    ("28, the array of the entry before", |of| {
        of.bad(|[array, ..], before| before == Some(array))
    }),
    ("28, an array below", |of| {
        of.bad(|[array, ..], before| before.is_some_and(|before| array < before))
    }),
    ("28, an index width of 0", |of| {
        of.bad(|[_, index, cell], _| index == 0 && cell > 0)
    }),
    ("28, a cell width of 0", |of| {
        of.bad(|[_, index, cell], _| index > 0 && cell == 0)
    }),
    ("28, two causes in one entry", |of| {
        of.bad(|[array, index, cell], before| {
            let falls = before.is_some_and(|before| array <= before);
            [falls, index == 0, cell == 0]
                .into_iter()
                .filter(|&bad| bad)
                .count()
                > 1
        })
    }),
    ("28, two bad entries", |of| {
        of.is(28) && of.bad_entries() > 1
    }),
    ("28, the first of several entries", |of| {
        of.is(28) && of.answer.place == 0 && of.table.len() > ENTRY
    }),
    ("28, an entry between others", |of| {
        let end = ENTRY * (of.answer.place as usize + 1);
        of.is(28) && of.answer.place > 0 && end < of.table.len()
    }),
    ("28, the last of several entries", |of| {
        let end = ENTRY * (of.answer.place as usize + 1);
        of.is(28) && of.answer.place > 0 && end >= of.table.len()
    }),
    ("15 beside a bad table", |of| of.beside(15)),
    ("18 beside a bad table", |of| of.beside(18)),
    ("16 beside a bad table", |of| of.beside(16)),
    ("17 beside a bad table", |of| of.beside(17)),
    ("1, an array not listed", |of| {
        of.select().is_some_and(|(_, shape, _)| shape.is_none())
    }),
    ("the same, an empty table", |of| {
        of.table.is_empty() && of.select().is_some_and(|(_, shape, _)| shape.is_none())
    }),
    ("1, a cell width above 4,096", |of| {
        of.misfits(|of| of.shape[1] > CEILING && of.index_fits())
    }),
    ("1, an index width above 4,096", |of| {
        of.misfits(|of| of.shape[0] > CEILING)
    }),
    ("1, an index of another width", |of| {
        of.misfits(|of| of.index.is_some() && !of.index_fits())
    }),
    ("1, an index of the cells' width", |of| {
        of.misfits(|of| !of.index_fits() && of.index == Some(of.shape[1]))
    }),
    ("1, an index of another array's width", |of| {
        of.misfits(|of| {
            let found = |other: &Shape| of.index == Some(other[0]);
            !of.index_fits() && of.others.iter().any(found)
        })
    }),
    ("1, a pair's index of another width", |of| {
        of.misfits(|of| {
            let other = |pair: &[Option<u64>; 2]| pair[0].is_some_and(|width| width != of.shape[0]);
            of.index_fits() && of.pairs.iter().any(other)
        })
    }),
    ("1, a pair's value of another width", |of| {
        of.misfits(|of| {
            let other = |pair: &[Option<u64>; 2]| pair[1].is_some_and(|width| width != of.shape[1]);
            of.index_fits() && of.pairs.iter().any(other)
        })
    }),
];

/// The same for Check and the strict check with sorts.
const CHECKS: [Cause; 10] = [
    ("17 of the target beside a bad table", |of| {
        of.beside(17) && of.answer.detail == 2
    }),
    ("28 beside an ill-formed target", |of| {
        of.is(28) && wellformed::widths(of.lists, at::TARGET, TARGET.row).is_none()
    }),
    ("28 beside a map of another length", |of| {
        of.is(28) && of.lists[at::MAP].len() != of.lists[at::SOURCE].len() / SOURCE.row
    }),
    ("28 beside a cut read table", |of| {
        of.is(28) && of.lists[at::READS].len() % 3 > 0
    }),
    ("5, an array not listed", |of| {
        of.read().is_some_and(|(shape, _)| shape.is_none())
    }),
    ("5, a variable of another width", |of| {
        of.read_misfits(|shape, found| found[0] == shape[0] && found[1] != shape[1])
    }),
    ("5, an index of another width", |of| {
        of.read_misfits(|shape, found| found[0] != shape[0] && found[1] == shape[1])
    }),
    ("5, the widths of the first edition", |of| {
        of.read_misfits(|shape, found| shape != FIRST && found == FIRST)
    }),
    ("5, the two widths exchanged", |of| {
        of.read_misfits(|shape, [index, cell]| index != cell && shape == [cell, index])
    }),
    ("5, the same key again", |of| {
        of.read_misfits(|shape, found| shape == found)
    }),
];

pub struct SortCounts {
    /// The place of the sort table.
    place: usize,
    causes: Vec<(Cause, u64)>,
}

impl SortCounts {
    /// Those of an operation that has a sort table.
    pub fn new(operation: &dyn Operation) -> Option<SortCounts> {
        let place = operation.sorts()?;
        let mut causes = TABLES.to_vec();
        if place == at::SORTS {
            causes.extend(CHECKS);
        }
        let causes = causes.into_iter().map(|cause| (cause, 0)).collect();
        Some(SortCounts { place, causes })
    }

    pub fn count(&mut self, lists: &Lists, answer: Answer) {
        let refused = Refused {
            lists,
            answer,
            table: &lists[self.place],
            check: self.place == at::SORTS,
        };
        for ((_, shows), count) in &mut self.causes {
            *count += u64::from(shows(&refused));
        }
    }

    pub fn print(&self) {
        println!("  refused for sorts");
        for ((name, _), count) in &self.causes {
            println!("    {name}: {count}");
        }
    }

    /// Everything that must come, with its count.
    pub fn due(&self) -> impl Iterator<Item = (u64, String)> + '_ {
        let causes = self.causes.iter();
        causes.map(|((name, _), count)| (*count, format!("{name:?}")))
    }
}
