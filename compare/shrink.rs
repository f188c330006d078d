//! Makes a failing case small: as long as it still fails, drop rows and words,
//! lower words, and take what the operation itself calls simpler. Greedy, and
//! it ends because every step makes the case shorter, a row a variable, or a
//! word smaller.

use crate::operation::{Kind, Lists, Operation, Pair};
use crate::rules::CEILING;
use crate::sorts::ENTRY;
use crate::tags::names_row;

/// Words that others are lowered to, the lowest first.
const PLAIN: [u64; 10] = [
    0,
    1,
    2,
    8,
    32,
    CEILING,
    CEILING + 1,
    1 << 32,
    1 << 63,
    u64::MAX - 1,
];

/// A case whose two outcomes differ, while it is made small.
struct Failing<'o> {
    operation: &'o dyn Operation,
    pair: Pair,
    lists: Lists,
}

/// The smallest failing case that single steps reach from this one.
pub fn shrink(operation: &dyn Operation, pair: Pair, lists: Lists) -> Lists {
    let mut failing = Failing {
        operation,
        pair,
        lists,
    };
    while failing.drop_parts() | failing.simplify() | failing.lower_words() {}
    failing.lists
}

/// Words that are dropped together from a list.
fn unit(kind: Kind) -> usize {
    match kind {
        Kind::Rows(size) | Kind::Entries(size) => size,
        Kind::Sorts => ENTRY,
        _ => 1,
    }
}

impl Failing<'_> {
    /// Takes the change if the case still fails with it.
    fn take(&mut self, changed: Lists) -> bool {
        let fails = !self.pair.agrees(self.operation, &changed);
        if fails {
            self.lists = changed;
        }
        fails
    }

    fn kind(&self, place: usize) -> Kind {
        self.operation.lists()[place].1
    }

    /// Drops stretches of each list, long ones first, from the end to the
    /// start; of a graph also single words at the end.
    fn drop_parts(&mut self) -> bool {
        let mut any = false;
        for place in 0..self.lists.len() {
            let unit = unit(self.kind(place));
            let mut length = (self.lists[place].len() / unit).next_power_of_two();
            while length > 0 {
                let mut start = self.lists[place].len() / unit;
                while start > 0 {
                    start = start.saturating_sub(length);
                    any |= self.drop_part(place, start * unit, length * unit);
                }
                length /= 2;
            }
            while unit > 1 && self.drop_part(place, self.lists[place].len().max(1) - 1, 1) {
                any = true;
            }
        }
        any
    }

    /// Drops one stretch, if the case still fails: alone or with the words
    /// given for its rows, and each of these plainly, or with the numbers of
    /// later rows lowered, or with every lent list made shorter by as many
    /// words, or with both.
    fn drop_part(&mut self, place: usize, start: usize, length: usize) -> bool {
        let end = self.lists[place].len().min(start + length);
        if start >= end {
            return false;
        }
        let unit = unit(self.kind(place));
        let (row, rows) = (start / unit, (end - start) / unit);
        let mut plain = self.lists.clone();
        plain[place].drain(start..end);
        let matched = drop_given(self.operation, &plain, place, row, rows);
        let bases = [matched, Some(plain)];
        bases.into_iter().flatten().any(|base| {
            let lowered = lower_numbers(self.operation, &base, row as u64, rows as u64);
            let shorter = shorten_lent(self.operation, &base, rows);
            let both = shorten_lent(self.operation, &lowered, rows);
            [base, lowered, shorter, both]
                .into_iter()
                .any(|changed| self.take(changed))
        })
    }

    /// Takes simpler cases of the operation as long as there are any.
    fn simplify(&mut self) -> bool {
        let mut any = false;
        while self
            .operation
            .simpler(&self.lists)
            .into_iter()
            .any(|changed| self.take(changed))
        {
            any = true;
        }
        any
    }

    /// Lowers each word to 0, else to a small or a plainer one.
    fn lower_words(&mut self) -> bool {
        let mut any = false;
        for place in 0..self.lists.len() {
            for word in 0..self.lists[place].len() {
                let old = self.lists[place][word];
                let plainer = PLAIN.into_iter().chain([old / 2]);
                any |= plainer.filter(|&new| new < old).any(|new| {
                    let mut changed = self.lists.clone();
                    changed[place][word] = new;
                    self.take(changed)
                });
            }
        }
        any
    }
}

/// Drops the words given for these rows of the list at `place`, if it has such
/// words.
fn drop_given(
    operation: &dyn Operation,
    lists: &Lists,
    place: usize,
    row: usize,
    rows: usize,
) -> Option<Lists> {
    let kinds = operation.lists();
    let given = kinds
        .iter()
        .position(|&(_, kind)| kind == Kind::Given(place))?;
    let mut dropped = lists.clone();
    let end = lists[given].len().min(row + rows);
    dropped[given].drain(row.min(end)..end);
    Some(dropped)
}

/// Lowers, in rows and word lists, what names a row behind the dropped ones;
/// words too large to be one of our rows stay.
fn lower_numbers(operation: &dyn Operation, lists: &Lists, row: u64, rows: u64) -> Lists {
    let lower = |word: &mut u64| {
        if *word >= row + rows && *word < 1000 {
            *word -= rows;
        }
    };
    let mut lowered = lists.clone();
    for (list, &(_, kind)) in lowered.iter_mut().zip(operation.lists()) {
        match kind {
            Kind::Rows(size) => list.chunks_mut(size).for_each(|row| {
                let tag = row[0];
                (1..row.len())
                    .filter(|&k| names_row(tag, k))
                    .for_each(|k| lower(&mut row[k]));
            }),
            Kind::Entries(_) | Kind::Words => list.iter_mut().for_each(lower),
            Kind::Bits | Kind::Given(_) | Kind::Sorts | Kind::Lent(_) => {}
        }
    }
    lowered
}

fn shorten_lent(operation: &dyn Operation, lists: &Lists, by: usize) -> Lists {
    let mut shorter = lists.clone();
    for (list, &(_, kind)) in shorter.iter_mut().zip(operation.lists()) {
        if matches!(kind, Kind::Lent(_)) {
            list.truncate(list.len().saturating_sub(by));
        }
    }
    shorter
}
