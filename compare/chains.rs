//! Selects and Calls of random graphs, with their stretches of the side list.

use crate::graphs::{Builder, Chain};
use crate::sorts::{Shape, FIRST};
use crate::tags::SELECT;

impl Builder<'_> {
    /// A number of an array or a function: any word will do.
    fn name(&mut self) -> u64 {
        self.random.pick(&[0, 1, 7, u64::MAX])
    }

    /// A start for a count of 0: any word will do.
    fn any_start(&mut self) -> u64 {
        let end = self.side.len() as u64;
        self.random
            .pick(&[0, end, end + 1, 1 << 63, u64::MAX - 1, u64::MAX])
    }

    /// The chains for arrays of this shape.
    pub fn chains_of(&self, shape: Shape) -> Vec<Chain> {
        let chains = self.chains.iter().copied();
        chains.filter(|chain| chain.shape == shape).collect()
    }

    /// The fields of a Select. In a first edition any array will do, and is drawn last.
    pub fn select(&mut self) -> [u64; 4] {
        let listed = self.listed();
        let shape = listed.map_or(FIRST, |array| self.shape(array));
        let chains = self.chains_of(shape);
        let index = self.row_of(shape[0]);
        let (start, count) = match self.random.below(4) {
            0 => (self.any_start(), 0),
            1 if !chains.is_empty() => {
                let Chain { start, count, .. } = self.random.pick(&chains);
                let skip = self.random.below(count + 1);
                (start + 2 * skip, count - skip)
            }
            _ => {
                let count = 1 + self.random.below(3);
                (self.chain(count, shape), count)
            }
        };
        [listed.unwrap_or_else(|| self.name()), index, start, count]
    }

    /// Adds a Select over a new chain of so many pairs.
    pub fn select_of(&mut self, count: u64) {
        let index = self.row_of(FIRST[0]);
        let start = self.chain(count, FIRST);
        self.push(SELECT, [7, index, start, count]);
    }

    /// A new chain in the side list, sometimes after a word that nothing uses.
    fn chain(&mut self, count: u64, shape: Shape) -> u64 {
        if self.random.once_in(6) {
            self.side.push(u64::MAX);
        }
        let start = self.side.len() as u64;
        for _ in 0..count {
            let pair = shape.map(|width| self.row_of(width));
            self.side.extend(pair);
        }
        self.chains.push(Chain {
            start,
            count,
            shape,
        });
        start
    }

    pub fn call(&mut self) -> [u64; 4] {
        let (start, count) = match self.random.below(4) {
            0 => (self.any_start(), 0),
            1 if !self.chains.is_empty() => {
                let Chain { start, count, .. } = self.random.pick(&self.chains);
                let skip = self.random.below(2 * count + 1);
                (start + skip, 2 * count - skip)
            }
            _ => self.arguments(),
        };
        [self.name(), self.width(), start, count]
    }

    /// New arguments at the side list's end.
    fn arguments(&mut self) -> (u64, u64) {
        let (start, count) = (self.side.len() as u64, 1 + self.random.below(3));
        for _ in 0..count {
            let argument = self.any_row();
            self.side.push(argument);
        }
        (start, count)
    }
}
