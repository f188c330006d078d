//! Graphs for values: mostly without rows wider than 64 bits, operands at the
//! edges of their widths, from variables and from constants alike.

use crate::graphs::{Builder, Style, HIGH};
use crate::operation::Lists;
use crate::random::Random;
use crate::rules::{CEILING, TARGET};
use crate::tags::*;

/// The highest word of this width; a wider row is taken as 64 bits wide.
pub fn highest(width: u64) -> u64 {
    u64::MAX >> (64 - width.clamp(1, 64))
}

/// The edges of a width: of unsigned and of signed numbers, and the amounts of
/// shifts and rotations around the width.
pub fn edges(width: u64) -> Vec<u64> {
    let (top, half) = (highest(width), highest(width) / 2);
    let words = [0, 1, 2, half, half + 1, top.wrapping_sub(1), top];
    let amounts = [width.wrapping_sub(1), width, width.wrapping_add(1)];
    let mut all: Vec<u64> = words.into_iter().chain(amounts).map(|w| w & top).collect();
    all.sort();
    all.dedup();
    all
}

/// A word of this width: an edge, a small one or any.
pub fn operand(random: &mut Random, width: u64) -> u64 {
    let word = match random.below(6) {
        0 => random.word(),
        1 => random.word() >> random.below(64),
        2 => random.below(2 * width.min(64) + 2),
        _ => random.pick(&edges(width)),
    };
    word & highest(width)
}

/// Rows, bits and given words of a random well-formed graph of 0 to about
/// `rows` rows. One in twelve has rows above 64 bits.
pub fn well_formed(random: &mut Random, rows: usize) -> Lists {
    let rows = random.place(rows + 1);
    let wide = random.once_in(12).then(|| random.place(rows + 1));
    graph(random, rows, wide.unwrap_or(usize::MAX))
}

/// The same without rows above 64 bits.
pub fn narrow(random: &mut Random, rows: usize) -> Lists {
    let rows = random.place(rows + 1);
    graph(random, rows, usize::MAX)
}

/// A graph of about `rows` rows; from the row `wide` on some have more than 64
/// bits.
fn graph(random: &mut Random, rows: usize, wide: usize) -> Lists {
    let mut builder = Builder::new(random, Style::Values, usize::MAX);
    while builder.len() < rows {
        if builder.len() >= wide && builder.random.once_in(4) {
            builder.too_wide();
        }
        let tag = builder.random.below(TARGET.tags);
        builder.row(tag);
    }
    let widths = builder.widths.clone();
    let mut lists = builder.lists(TARGET);
    let given = given(random, &lists[0], &widths);
    lists.push(given);
    lists
}

/// A fitting word for each variable, and for the other rows one that is
/// ignored.
pub fn given(random: &mut Random, rows: &[u64], widths: &[u64]) -> Vec<u64> {
    let mut word = |(row, &width): (&[u64], &u64)| match row[0] {
        VAR => operand(random, width),
        _ => random.word(),
    };
    rows.chunks_exact(TARGET.row)
        .zip(widths)
        .map(&mut word)
        .collect()
}

/// Gives some variable a word that does not fit, if there is a narrow one.
pub fn overfill(random: &mut Random, lists: &mut Lists) {
    let rows = lists[0].chunks_exact(TARGET.row).zip(&lists[2]);
    let narrow: Vec<(usize, u64)> = rows
        .enumerate()
        .filter(|(_, (row, _))| row[0] == VAR && (1..64).contains(&row[1]))
        .map(|(place, (row, _))| (place, row[1]))
        .collect();
    if narrow.is_empty() {
        return;
    }
    let (place, width) = random.pick(&narrow);
    let (old, least) = (lists[2][place], 1 << width);
    let far = 1 << (width + random.below(64 - width));
    lists[2][place] = random.pick(&[least, least, old | far, old | least, u64::MAX, far]);
}

impl Builder<'_> {
    /// A width of 1 to 64.
    pub fn value_width(&mut self) -> u64 {
        let any = 1 + self.random.below(64);
        self.random
            .pick(&[1, 2, 8, 16, 32, 33, 63, 64, 64, any, any, any])
    }

    /// A new variable or constant of this width.
    pub fn new_operand(&mut self, width: u64) -> u64 {
        if width > 64 || self.random.once_in(2) {
            self.push(VAR, [width, 0, 0, 0]);
        } else {
            let fields = self.edge_constant(width);
            self.push(CONST, fields);
        }
        self.len() as u64 - 1
    }

    /// A constant over earlier bits, or over new ones that make an operand.
    pub fn edge_constant(&mut self, width: u64) -> [u64; 4] {
        let room = self.bits.len() as u64;
        if room >= width && self.random.once_in(4) {
            return [self.random.below(room - width + 1), width, 0, 0];
        }
        let word = operand(self.random, width);
        self.bits.extend((0..width).map(|k| word >> k & 1));
        [room, width, 0, 0]
    }

    /// Adds a row above 64 bits, some of them at the ceiling.
    fn too_wide(&mut self) {
        let a = self.any_row();
        let width = self.widths[a as usize];
        if self.random.once_in(30) {
            let width = self.random.pick(&HIGH);
            let fields = self.constant_of(width);
            return self.push(CONST, fields);
        }
        if width > 64 || self.random.once_in(3) {
            let width = self.random.pick(&[65, 65, 66, 128, CEILING - 1, CEILING]);
            return self.push(VAR, [width, 0, 0, 0]);
        }
        let (least, most) = (65 - width, CEILING - width);
        if self.random.once_in(3) {
            let other = self.random.pick(&[least, least, most]);
            let b = self.row_of(other);
            return self.push(CONCAT, [a, b, 0, 0]);
        }
        let by = self.random.pick(&[least, least, least + 1, most - 1, most]);
        let tag = self.random.pick(&[ZERO_EXT, SIGN_EXT]);
        self.push(tag, [a, by, 0, 0]);
    }
}
