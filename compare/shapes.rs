//! Random sort tables, and what a source in the making takes from its own: the shape of an
//! array, an array to read.

use crate::graphs::{Builder, Style};
use crate::random::Random;
use crate::rules::CEILING;
use crate::sorts::{Shape, FIRST};

const MAX: u64 = u64::MAX;

/// Array, index width, cell width.
pub type Sort = [u64; 3];

/// A good table of none to six arrays. Of some no Select can be made, since a width is above
/// the ceiling.
pub fn table(random: &mut Random, style: Style) -> Vec<Sort> {
    let count = random.pick(&[0, 1, 1, 2, 2, 3, 3, 4, 6]);
    let mut table: Vec<Sort> = Vec::new();
    for _ in 0..count {
        let any = random.word();
        let array = random.pick(&[0, 1, 2, 7, 7, 8, 1 << 32, 1 << 63, MAX - 1, MAX, any]);
        if table.iter().all(|entry| entry[0] != array) {
            let [index, cell] = shape(random, style, &table);
            table.push([array, index, cell]);
        }
    }
    table.sort();
    table
}

/// Often 16 and 16, or near the shape of another array; up to 70 bits, now and then at the
/// ceiling or above.
fn shape(random: &mut Random, style: Style, table: &[Sort]) -> Shape {
    let [one, other] = [1 + random.below(70), 1 + random.below(70)];
    let [small, few] = [1 + random.below(3), 1 + random.below(3)];
    if style == Style::Small {
        return random.pick(&[[small, few], [small, few], [small, few], [16, few], FIRST]);
    }
    if let ([.., [_, index, cell]], true) = (table, random.once_in(3)) {
        let (index, cell) = (*index, *cell);
        return random.pick(&[[cell, index], [index, other], [one, cell], [index, cell]]);
    }
    let high = random.pick(&[CEILING, CEILING, CEILING + 1, MAX]);
    match random.below(12) {
        0..=3 => [16, 16],
        4 => FIRST,
        5 => [one, one],
        6 => [small, few],
        7 if style == Style::Wide => random.pick(&[[one, high], [high, other], [high, high]]),
        8 => random.pick(&[[64, 64], [65, 65], [70, 1], [1, 70], [8, 32]]),
        _ => [one, other],
    }
}

/// A table's words.
pub fn words(table: &[Sort]) -> Vec<u64> {
    table.concat()
}

impl Builder<'_> {
    /// The shape of an array; in a second edition it must be listed.
    pub fn shape(&self, array: u64) -> Shape {
        let Some(table) = &self.sorts else {
            return FIRST;
        };
        let listed = table.iter().find(|entry| entry[0] == array);
        let [_, index, cell] = *listed.expect("a listed array");
        [index, cell]
    }

    /// The listed arrays of which Selects can be made.
    fn readable(&self) -> Vec<u64> {
        let table = self.sorts.iter().flatten();
        let within = |entry: &&Sort| entry[1].max(entry[2]) <= CEILING;
        table.filter(within).map(|entry| entry[0]).collect()
    }

    /// Can a Select be made?
    pub fn reads(&self) -> bool {
        self.sorts.is_none() || !self.readable().is_empty()
    }

    /// In a second edition an array to read, often the first, if there is one.
    pub fn listed(&mut self) -> Option<u64> {
        let arrays = self.readable();
        if arrays.is_empty() {
            return None;
        }
        let any = self.random.pick(&arrays);
        Some(self.random.pick(&[arrays[0], any, any]))
    }

    /// The shape of some array to read; in a first edition there is one alone.
    pub fn some_shape(&mut self) -> Shape {
        let array = self.listed();
        array.map_or(FIRST, |array| self.shape(array))
    }
}
