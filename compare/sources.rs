//! Random sources for lowerings: rich in reads and calls, with indices that are
//! constants, variables or computed from other reads. Calls are in signatures.rs.

use crate::graphs::{Builder, Chain, Style, HIGH};
use crate::random::Random;
use crate::shapes;
use crate::signatures::Functions;
use crate::sorts::Shape;
use crate::tags::*;

/// No constant to be an index is wider.
const WIDEST: u64 = 128;

/// A source of 0 to about `rows` rows, well formed.
pub fn source(random: &mut Random, rows: usize) -> Builder<'_> {
    let style = random.pick(&[Style::Narrow, Style::Narrow, Style::Narrow, Style::Wide]);
    let rows = random.place(rows + 1);
    filled(Builder::new(random, style, usize::MAX), rows)
}

/// The same of a second edition.
pub fn with_sorts(random: &mut Random, rows: usize) -> Builder<'_> {
    let style = random.pick(&[Style::Narrow, Style::Narrow, Style::Narrow, Style::Wide]);
    let rows = random.place(rows + 1);
    let table = shapes::table(random, style);
    let mut builder = Builder::new(random, style, usize::MAX);
    builder.sorts = Some(table);
    filled(builder, rows)
}

/// The builder with about so many rows.
fn filled(mut builder: Builder<'_>, rows: usize) -> Builder<'_> {
    let mut functions = Functions::new(builder.random);
    while builder.len() < rows {
        match builder.random.below(8) {
            0 | 1 => builder.read(),
            2 => builder.apply(&mut functions),
            3 => builder.index(),
            4 if functions.apart => builder.apply(&mut functions),
            _ => builder.core_row(),
        }
    }
    builder
}

impl Builder<'_> {
    /// A row of any core tag.
    pub fn core_row(&mut self) {
        match self.random.below(SELECT) {
            CONST => {
                let width = match self.style {
                    Style::Wide if self.random.once_in(30) => self.random.pick(&HIGH),
                    _ => self.random.pick(&[1, 2, 8, 8]),
                };
                self.sparse_constant(width);
            }
            tag => self.row(tag),
        }
    }

    /// A row of one bit, to be a root: one that is there, or a new relation.
    pub fn one_bit_row(&mut self) -> u64 {
        if !self.random.once_in(3) {
            return self.row_of(1);
        }
        let tag = self.random.pick(&[EQ, EQ, NE, ULT, SGE, NOT, BOOL_AND]);
        self.row(tag);
        self.len() as u64 - 1
    }

    /// A row to be an index, of 32 bits in a first edition. Some are made of a row as wide
    /// as the array's cells, or as wide as there is room for.
    pub fn index(&mut self) {
        let [width, cell] = self.some_shape();
        let part = cell.min(width - 1);
        match self.random.below(8) {
            0 => self.push(VAR, [width, 0, 0, 0]),
            1 | 2 | 3 => self.index_constant(width),
            4 | 5 if part > 0 => {
                let value = self.row_of(part);
                let tag = self.random.pick(&[ZERO_EXT, SIGN_EXT]);
                self.push(tag, [value, width - part, 0, 0]);
            }
            6 if part > 0 => {
                let (word, value) = (self.row_of(width), self.row_of(part));
                self.push(EXTRACT, [width - 1, part, word, 0]);
                self.push(CONCAT, [self.len() as u64 - 1, value, 0, 0]);
            }
            _ => {
                let words = [self.row_of(width), self.row_of(width), 0, 0];
                self.push(ADD, words);
            }
        }
    }

    /// A constant to be an index; the widest have so many bits that it is a variable then.
    fn index_constant(&mut self, width: u64) {
        match width {
            0..=WIDEST => self.sparse_constant(width as usize),
            _ => self.push(VAR, [width, 0, 0, 0]),
        }
    }

    /// A constant over bits that are mostly 0, so that equal ones are common
    /// and their stretches overlap.
    fn sparse_constant(&mut self, width: usize) {
        let spare = self.random.place(3);
        while self.bits.len() < width + spare {
            let one = self.random.once_in(16);
            self.bits.push(u64::from(one));
        }
        let start = self.random.place(self.bits.len() - width + 1);
        self.push(CONST, [start as u64, width as u64, 0, 0]);
    }

    /// A Select, often of the same array, over no to three pairs; another row where no
    /// array can be read.
    pub fn read(&mut self) {
        let array = match self.sorts {
            None => Some(self.random.pick(&[7, 7, 7, 7, 0, u64::MAX])),
            Some(_) => self.listed(),
        };
        let Some(array) = array else {
            return self.core_row();
        };
        let shape = self.shape(array);
        let index = self.some_index(shape[0]);
        let chains = self.chains_of(shape);
        let (start, count) = match self.random.below(6) {
            0 | 1 => (self.start_of_none(), 0),
            2 if !chains.is_empty() => {
                let Chain { start, count, .. } = self.random.pick(&chains);
                let skip = self.random.below(count + 1);
                (start + 2 * skip, count - skip)
            }
            _ => self.pairs(index, shape),
        };
        self.push(SELECT, [array, index, start, count]);
    }

    /// A row of this width to read at: an earlier one or a new constant.
    fn some_index(&mut self, width: u64) -> u64 {
        if !self.random.once_in(4) {
            return self.row_of(width);
        }
        self.index_constant(width);
        self.len() as u64 - 1
    }

    /// A start for a count of 0: any word will do.
    pub fn start_of_none(&mut self) -> u64 {
        let end = self.side.len() as u64;
        self.random.pick(&[0, 0, end, end + 1, u64::MAX])
    }

    /// New pairs in the side list, some at the Select's own index row.
    fn pairs(&mut self, index: u64, shape: Shape) -> (u64, u64) {
        if self.random.once_in(8) {
            self.side.push(u64::MAX);
        }
        let count = self.random.pick(&[1, 1, 2, 2, 3]);
        let mut pairs = Vec::new();
        for _ in 0..count {
            let at = if self.random.once_in(5) {
                index
            } else {
                self.some_index(shape[0])
            };
            pairs.extend([at, self.row_of(shape[1])]);
        }
        let start = self.side.len() as u64;
        self.side.extend(pairs);
        self.chains.push(Chain {
            start,
            count,
            shape,
        });
        (start, count)
    }
}
