//! Random well-formed graphs. A row is made to fit the rows before it; where
//! none of them has the width it needs, a variable of that width is put first.
//! Selects and Calls are in chains.rs, operands for values in operands.rs, the shapes of
//! arrays in shapes.rs.

use crate::operation::Lists;
use crate::random::Random;
use crate::rules::{Graph, CEILING, SOURCE};
use crate::shapes::{self, Sort};
use crate::sorts::Shape;
use crate::tags::*;

/// What a graph is rich in.
#[derive(Clone, Copy, PartialEq, Eq)]
pub enum Style {
    /// Few widths, so that operands often match.
    Narrow,
    /// Widths and sums of widths at the ceiling or near it.
    Wide,
    /// Selects and Calls, in a source.
    Chains,
    /// Widths up to 64 and operands at the edges, in a target.
    Values,
    /// Narrow functions, and widths up to 64.
    Small,
}

/// Widths of constants at the ceiling; rare, since they take so many bits.
pub const HIGH: [usize; 2] = [CEILING as usize, CEILING as usize - 1];

pub struct Builder<'r> {
    pub random: &'r mut Random,
    pub style: Style,
    pub rows: Vec<[u64; 5]>,
    pub widths: Vec<u64>,
    pub bits: Vec<u64>,
    pub side: Vec<u64>,
    /// The chains in the side list.
    pub chains: Vec<Chain>,
    /// The sort table of a second edition.
    pub sorts: Option<Vec<Sort>>,
    /// Operands are taken from so many rows back at most.
    reach: usize,
}

/// Pairs in the side list, made for an array of this shape.
#[derive(Clone, Copy)]
pub struct Chain {
    pub start: u64,
    pub count: u64,
    pub shape: Shape,
}

/// Rows, bits and, for a source, the side list of a random graph that is well
/// formed, of 0 to about `rows` rows.
pub fn well_formed(random: &mut Random, graph: Graph, rows: usize) -> Lists {
    let style = random.pick(&[Style::Narrow, Style::Narrow, Style::Wide, Style::Chains]);
    let rows = random.place(rows + 1);
    let mut builder = Builder::new(random, style, usize::MAX);
    while builder.rows.len() < rows {
        let tag = builder.tag(graph);
        builder.row(tag);
    }
    builder.lists(graph)
}

/// Rows, bits, side list and sort table of a random source of a second edition.
pub fn with_sorts(random: &mut Random, rows: usize) -> Lists {
    let style = random.pick(&[Style::Narrow, Style::Wide, Style::Chains, Style::Chains]);
    let rows = random.place(rows + 1);
    let table = shapes::table(random, style);
    let mut builder = Builder::new(random, style, usize::MAX);
    builder.sorts = Some(table.clone());
    while builder.rows.len() < rows {
        match builder.tag(SOURCE) {
            SELECT if !builder.reads() => builder.row(CALL),
            tag => builder.row(tag),
        }
    }
    let mut lists = builder.lists(SOURCE);
    lists.push(shapes::words(&table));
    lists
}

impl<'r> Builder<'r> {
    pub fn new(random: &'r mut Random, style: Style, reach: usize) -> Builder<'r> {
        let (rows, widths, chains) = (Vec::new(), Vec::new(), Vec::new());
        let (bits, side) = (Vec::new(), Vec::new());
        Builder {
            random,
            style,
            rows,
            widths,
            bits,
            side,
            chains,
            sorts: None,
            reach,
        }
    }

    pub fn len(&self) -> usize {
        self.rows.len()
    }

    pub fn lists(self, graph: Graph) -> Lists {
        let words = self
            .rows
            .iter()
            .flat_map(|row| row[..graph.row].to_vec())
            .collect();
        let mut lists = vec![words, self.bits];
        if graph.tags > SELECT {
            lists.push(self.side);
        }
        lists
    }

    fn tag(&mut self, graph: Graph) -> u64 {
        let chains = self.style == Style::Chains && graph.tags > SELECT;
        let wide = self.style == Style::Wide;
        match self.random.below(4) {
            0 if chains => SELECT,
            1 if chains => CALL,
            0 if wide => self.random.pick(&[CONCAT, ZERO_EXT, SIGN_EXT, EXTRACT]),
            _ => self.random.below(graph.tags),
        }
    }

    /// Adds a row with this tag.
    pub fn row(&mut self, tag: u64) {
        let fields = match tag {
            VAR => [self.width(), 0, 0, 0],
            CONST => self.constant(),
            EXTRACT => self.extract(),
            CONCAT => self.concat(),
            ZERO_EXT | SIGN_EXT => self.extension(),
            ITE => {
                let then = self.any_row();
                let other = self.row_of(self.widths[then as usize]);
                [self.row_of(1), then, other, 0]
            }
            NOT => [self.row_of(1), 0, 0, 0],
            BOOL_AND | BOOL_OR => [self.row_of(1), self.row_of(1), 0, 0],
            BV_NOT | NEG => [self.any_row(), 0, 0, 0],
            SELECT => self.select(),
            CALL => self.call(),
            _ => {
                let a = self.any_row();
                [a, self.row_of(self.widths[a as usize]), 0, 0]
            }
        };
        self.push(tag, fields);
    }

    pub fn push(&mut self, tag: u64, f: [u64; 4]) {
        let of = |row: u64| self.widths[row as usize];
        let width = match tag {
            VAR => f[0],
            CONST | CALL => f[1],
            EXTRACT => f[0] - f[1] + 1,
            CONCAT => of(f[0]) + of(f[1]),
            ZERO_EXT | SIGN_EXT => of(f[0]) + f[1],
            ITE => of(f[1]),
            EQ..=BOOL_OR => 1,
            SELECT => self.shape(f[0])[1],
            _ => of(f[0]),
        };
        self.rows.push([tag, f[0], f[1], f[2], f[3]]);
        self.widths.push(width);
    }

    pub fn width(&mut self) -> u64 {
        if self.style == Style::Values {
            return self.value_width();
        }
        if self.style == Style::Small {
            return self.random.pick(&[1, 2, 2, 2, 2, 3, 8, 8, 32]);
        }
        if self.style == Style::Wide && !self.random.once_in(4) {
            let half = CEILING / 2;
            let any = 1 + self.random.below(CEILING);
            return self
                .random
                .pick(&[1, 2, half, half + 1, half - 1, CEILING - 1, CEILING, any]);
        }
        self.random.pick(&[1, 1, 8, 8, 32, 32, 2, 3, 64])
    }

    /// The first row within reach.
    fn first(&self) -> usize {
        self.rows.len().saturating_sub(self.reach)
    }

    /// An earlier row, often the first or the last.
    pub fn any_row(&mut self) -> u64 {
        if self.rows.is_empty() {
            let width = self.width();
            self.push(VAR, [width, 0, 0, 0]);
        }
        let (first, last) = (self.first(), self.rows.len() - 1);
        let other = first + self.random.place(last + 1 - first);
        self.random.pick(&[first, last, last, other, other, other]) as u64
    }

    /// An earlier row whose width passes the test, from a random place on.
    fn find(&mut self, fits: impl Fn(u64) -> bool) -> Option<u64> {
        let (first, end) = (self.first(), self.rows.len());
        let from = first + self.random.place((end - first).max(1));
        let found = (from..end)
            .chain(first..from)
            .find(|&row| fits(self.widths[row]));
        found.map(|row| row as u64)
    }

    /// A row of this width, which is above 0.
    pub fn row_of(&mut self, width: u64) -> u64 {
        if self.style == Style::Values && self.random.once_in(2) {
            return self.new_operand(width);
        }
        self.find(|w| w == width).unwrap_or_else(|| {
            self.push(VAR, [width, 0, 0, 0]);
            self.rows.len() as u64 - 1
        })
    }

    fn constant(&mut self) -> [u64; 4] {
        if self.style == Style::Values {
            let width = self.value_width();
            return self.edge_constant(width);
        }
        let width = match self.style {
            Style::Wide if self.random.once_in(30) => self.random.pick(&HIGH),
            _ => self.random.pick(&[1, 2, 8, 8, 32]),
        };
        self.constant_of(width)
    }

    /// A constant of this width over random bits, the last ones or earlier ones.
    pub fn constant_of(&mut self, width: usize) -> [u64; 4] {
        let spare = self.random.place(3);
        while self.bits.len() < width + spare {
            let bit = self.random.below(2);
            self.bits.push(bit);
        }
        let last = self.bits.len() - width;
        let other = self.random.place(last + 1);
        let start = self.random.pick(&[last, last, other]);
        [start as u64, width as u64, 0, 0]
    }

    fn extract(&mut self) -> [u64; 4] {
        let a = self.any_row();
        let top = self.widths[a as usize] - 1;
        let other = self.random.below(top + 1);
        let high = self.random.pick(&[top, top, other, 0]);
        let other = self.random.below(high + 1);
        let low = self.random.pick(&[0, high, other]);
        [high, low, a, 0]
    }

    /// The width that sums of widths stay within.
    fn widest(&self) -> u64 {
        match self.style {
            Style::Wide => CEILING,
            Style::Values | Style::Small => 64,
            _ => 128,
        }
    }

    fn concat(&mut self) -> [u64; 4] {
        let mut a = self.any_row();
        if self.widths[a as usize] >= self.widest() {
            a = self.row_of(1);
        }
        let room = self.widest() - self.widths[a as usize];
        let b = if self.style == Style::Wide && self.random.once_in(2) {
            self.row_of(room)
        } else {
            self.find(|w| w <= room).unwrap_or_else(|| self.row_of(1))
        };
        self.random.pick(&[[a, b, 0, 0], [b, a, 0, 0]])
    }

    fn extension(&mut self) -> [u64; 4] {
        let a = self.any_row();
        let room = self.widest().saturating_sub(self.widths[a as usize]);
        let small = self.random.below(32).min(room);
        let wide = [0, room, room.saturating_sub(1), room / 2, small];
        let by = if matches!(self.style, Style::Wide | Style::Values) {
            self.random.pick(&wide)
        } else {
            small
        };
        [a, by, 0, 0]
    }
}
