//! Can every root of a graph be made true? A search gives the rows their values one
//! after the other. Where a row's value is to be chosen it tries all that its width
//! allows, and it takes a value back as soon as a root is not true with it.
//! openmemory.rs and openrows.rs say what the rows of a source and of a target mean.

use crate::openplan::Plan;
use crate::plain::ones;

/// A search that gives values to rows more often than this is given up.
const STEPS: u64 = 1 << 19;

#[derive(Clone, Copy, PartialEq, Eq, Debug)]
pub enum Found {
    /// Some choice makes every root true.
    Open,
    /// None does.
    Closed,
    /// Not all choices could be tried.
    TooBig,
}

/// What the rows of a graph mean in one search.
pub trait Meaning {
    /// A row's value by those of the rows before it; none if it is to be chosen.
    fn value(&self, row: usize, values: &[u64]) -> Option<u64>;
    /// May this value be chosen for a row? Only wrong statements leave some out.
    fn allows(&self, _row: usize, _value: u64) -> bool {
        true
    }
    /// The row's value has been chosen; from here on it counts.
    fn choose(&mut self, _row: usize, _values: &[u64]) {}
    /// The last choice counts no more.
    fn take_back(&mut self) {}
}

/// What a search found, and how.
pub struct Searched {
    pub found: Found,
    /// The values with which it is `Open`, of the rows that the roots stand on.
    values: Vec<Option<u64>>,
    /// The rows for which a value was chosen at some time.
    chosen: Vec<bool>,
    /// Was a choice taken back?
    pub back: bool,
}

impl Searched {
    /// Was a value chosen for a row that passes the test?
    pub fn chose(&self, test: impl Fn(usize) -> bool) -> bool {
        (0..self.chosen.len()).any(|row| self.chosen[row] && test(row))
    }

    /// Have both rows one value, where the search is `Open`?
    pub fn alike(&self, one: u64, other: u64) -> bool {
        let [one, other] = [one, other].map(|row| self.values[row as usize]);
        one.is_some() && one == other
    }

    /// Have both rows values, and not the same?
    pub fn unlike(&self, one: u64, other: u64) -> bool {
        let [one, other] = [one, other].map(|row| self.values[row as usize]);
        one.is_some() && other.is_some() && one != other
    }
}

impl Plan {
    /// Searches for choices that make the roots true.
    pub fn search(&self, meaning: &mut dyn Meaning) -> Searched {
        let rows = self.is_root.len();
        let mut search = Search {
            plan: self,
            meaning,
            values: vec![0; rows],
            chosen: vec![false; rows],
            back: false,
            steps: 0,
        };
        let found = match search.from(0) {
            Some(true) => Found::Open,
            Some(false) => Found::Closed,
            None => Found::TooBig,
        };
        let mut values = vec![None; rows];
        for &row in &self.order {
            values[row] = Some(search.values[row]);
        }
        Searched {
            found,
            values,
            chosen: search.chosen,
            back: search.back,
        }
    }
}

/// A search under way.
struct Search<'s> {
    plan: &'s Plan,
    meaning: &'s mut dyn Meaning,
    values: Vec<u64>,
    chosen: Vec<bool>,
    back: bool,
    steps: u64,
}

impl Search<'_> {
    /// Can the rows from this place of the order on get values with which their roots
    /// are true? None where that took too many steps.
    fn from(&mut self, place: usize) -> Option<bool> {
        let Some(&row) = self.plan.order.get(place) else {
            return Some(true);
        };
        if let Some(value) = self.meaning.value(row, &self.values) {
            return self.with(place, value);
        }
        self.chosen[row] = true;
        for value in 0..=ones(self.plan.widths[row]) {
            if !self.meaning.allows(row, value) {
                continue;
            }
            self.values[row] = value;
            self.meaning.choose(row, &self.values);
            if self.with(place, value)? {
                return Some(true);
            }
            self.meaning.take_back();
            self.back = true;
        }
        Some(false)
    }

    /// The same where the first of these rows has this value.
    fn with(&mut self, place: usize, value: u64) -> Option<bool> {
        self.steps += 1;
        if self.steps > STEPS {
            return None;
        }
        let row = self.plan.order[place];
        self.values[row] = value;
        if self.plan.is_root[row] && !(self.plan.is_true)(self.plan.widths[row], value) {
            return Some(false);
        }
        self.from(place + 1)
    }
}
