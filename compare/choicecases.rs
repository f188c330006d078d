//! Small lowerings for choices.rs: roots that relate reads, calls and variables, over
//! functions of few bits and few reads, so that all choices can be tried. Those of a
//! second edition have arrays of few bits, or of more where a solver is asked.

use crate::check::{self, at};
use crate::graphs::{Builder, Style};
use crate::lowering;
use crate::operation::Lists;
use crate::random::Random;
use crate::rules::TARGET;
use crate::shapes::{self, Sort};
use crate::signatures::Functions;
use crate::sorts::Shape;
use crate::tags::*;

/// About the most rows of a source that is made as those of Check.
const ROWS: usize = 8;

/// So many Selects and Calls at most in the other sources.
const READS: usize = 3;
const CALLS: usize = 4;

/// A random lowering that Check accepts, with its lent lists.
pub fn lowering(random: &mut Random) -> Lists {
    let lists = if random.once_in(8) {
        lowering::accepted(random, ROWS)
    } else {
        let (source, roots) = source(random, None);
        lowering::of(source, roots)
    };
    finished(random, lists)
}

/// The same of a second edition, with a table of this style.
pub fn with_sorts(random: &mut Random, style: Style) -> Lists {
    let table = shapes::table(random, style);
    let (source, roots) = source(random, Some(table));
    let lists = lowering::of(source, roots);
    finished(random, lists)
}

/// The lists with idle rows now and then, and with lent lists.
fn finished(random: &mut Random, mut lists: Lists) -> Lists {
    if random.once_in(3) {
        idle_rows(random, &mut lists[at::TARGET]);
    }
    check::lent(random, lists)
}

/// A small source, rich in reads and calls, and its roots. Some rows follow that the
/// roots do not need.
fn source(random: &mut Random, sorts: Option<Vec<Sort>>) -> (Builder<'_>, Vec<u64>) {
    let mut source = Builder::new(random, Style::Small, usize::MAX);
    source.sorts = sorts;
    let mut functions = Functions::new(source.random);
    source.variables();
    for _ in 0..source.random.pick(&[0, 2, 4, 5, 6, 7, 8]) {
        source.step(&mut functions);
    }
    let roots = source.roots();
    for _ in 0..source.random.pick(&[0, 0, 1, 2]) {
        source.row(VAR);
        source.step(&mut functions);
    }
    (source, roots)
}

impl Builder<'_> {
    /// One to three indices, and one to four variables of any width.
    fn variables(&mut self) {
        for _ in 0..self.random.pick(&[1, 2, 2, 3]) {
            let [index, _] = self.some_shape();
            self.push(VAR, [index, 0, 0, 0]);
        }
        for _ in 0..self.random.pick(&[1, 2, 3, 4]) {
            self.row(VAR);
        }
    }

    /// One or a few rows more.
    fn step(&mut self, functions: &mut Functions) {
        match self.random.below(12) {
            0..=2 if self.count(SELECT) < READS => self.read(),
            3..=5 if self.count(CALL) < CALLS => {
                functions.twin(self.random);
                self.apply(functions);
                if functions.apart && self.count(CALL) < CALLS {
                    self.apply(functions);
                }
            }
            6 => self.index(),
            7 if self.count(SELECT) < READS => self.nested(),
            8 if self.count(SELECT) < READS => self.passed_over(),
            9 => {
                self.relation();
            }
            _ => self.core_row(),
        }
    }

    /// No to four roots: mostly new relations, now and then rows that are there, of
    /// any width.
    fn roots(&mut self) -> Vec<u64> {
        let mut roots = Vec::new();
        let mut count = self.random.pick(&[0, 1, 1, 2, 2, 3, 4]);
        if self.random.once_in(2) {
            roots = match self.random.below(3) {
                0 => self.each_call(),
                _ => self.apart(),
            };
            count = self.random.pick(&[0, 0, 1, 2]);
        }
        for _ in 0..count {
            let root = match self.random.below(10) {
                0 => self.any_row(),
                1 => self.of_tags(&[VAR]),
                2 => self.of_tags(&[SELECT, CALL]),
                _ => self.relation(),
            };
            roots.push(root);
        }
        roots
    }

    /// A new row that relates each call to another row of its width.
    fn each_call(&mut self) -> Vec<u64> {
        let calls = (0..).zip(&self.rows).filter(|(_, row)| row[0] == CALL);
        let calls: Vec<u64> = calls.map(|(number, _)| number).collect();
        calls
            .into_iter()
            .map(|call| self.relation_of(call))
            .collect()
    }

    /// A new row that relates a read or a call to another row of its width.
    fn relation(&mut self) -> u64 {
        let one = self.of_tags(&[SELECT, CALL]);
        self.relation_of(one)
    }

    fn relation_of(&mut self, one: u64) -> u64 {
        let other = self.other_than(one);
        let tag = self.random.pick(&[EQ, EQ, EQ, NE, NE, ULT, SGE]);
        self.added(tag, [one, other, 0, 0])
    }

    /// Rows that say of two reads, or of two calls of one width, that only one of them
    /// has a certain value.
    fn apart(&mut self) -> Vec<u64> {
        let one = self.of_tags(&[SELECT, CALL]);
        let kind = |row: u64| (self.rows[row as usize][0], self.widths[row as usize]);
        let rows = (0..self.len() as u64).filter(|&row| row != one);
        let cells: Vec<u64> = rows.filter(|&row| kind(row) == kind(one)).collect();
        if kind(one).0 < SELECT || cells.is_empty() {
            return Vec::new();
        }
        let (other, value) = (self.random.pick(&cells), self.other_than(one));
        [(EQ, one), (NE, other)]
            .map(|(tag, cell)| self.added(tag, [cell, value, 0, 0]))
            .into()
    }

    /// Another row of the same width.
    fn other_than(&mut self, row: u64) -> u64 {
        let width = self.widths[row as usize];
        match self.row_of(width) {
            same if same == row => self.added(VAR, [width, 0, 0, 0]),
            other => other,
        }
    }

    /// A read at a read or a call, or at another row that can be made an index.
    fn nested(&mut self) {
        let inner = self.of_tags(&[SELECT, CALL]);
        let width = self.widths[inner as usize];
        let Some((array, [index, _])) = self.array() else {
            return;
        };
        if width <= index {
            let index = self.added(ZERO_EXT, [inner, index - width, 0, 0]);
            self.push(SELECT, [array, index, 0, 0]);
        }
    }

    /// Array 7, in a second edition one that is listed, with its shape; none if none is.
    fn array(&mut self) -> Option<(u64, Shape)> {
        let array = match self.sorts {
            None => Some(7),
            Some(_) => self.listed(),
        };
        array.map(|array| (array, self.shape(array)))
    }

    /// A read at a constant over a pair at another constant, whose value is a variable
    /// that needs no image.
    fn passed_over(&mut self) {
        let Some((array, [width, cell])) = self.array() else {
            return;
        };
        let bits = self.bits.len() as u64;
        self.bits.extend((0..=width).map(|k| u64::from(k == width)));
        let index = self.added(CONST, [bits, width, 0, 0]);
        let at = self.added(CONST, [bits + 1, width, 0, 0]);
        let value = self.added(VAR, [cell, 0, 0, 0]);
        let start = self.side.len() as u64;
        self.side.extend([at, value]);
        self.push(SELECT, [array, index, start, 1]);
    }

    /// The number of a row that is put here.
    fn added(&mut self, tag: u64, fields: [u64; 4]) -> u64 {
        self.push(tag, fields);
        self.len() as u64 - 1
    }

    fn count(&self, tag: u64) -> usize {
        self.rows.iter().filter(|row| row[0] == tag).count()
    }

    /// An earlier row of one of these tags; any earlier row if there is none.
    fn of_tags(&mut self, tags: &[u64]) -> u64 {
        let rows = (0..).zip(&self.rows);
        let tagged = rows.filter(|(_, row)| tags.contains(&row[0]));
        let found: Vec<u64> = tagged.map(|(number, _)| number).collect();
        if found.is_empty() {
            return self.any_row();
        }
        self.random.pick(&found)
    }
}

/// Adds a variable that is no image, and a row that relates it to another variable.
fn idle_rows(random: &mut Random, target: &mut Vec<u64>) {
    let rows = (0..).zip(target.chunks_exact(TARGET.row));
    let variables: Vec<[u64; 2]> = rows
        .filter(|(_, row)| row[0] == VAR)
        .map(|(number, row)| [number, row[1]])
        .collect();
    if variables.is_empty() {
        return;
    }
    let [other, width] = random.pick(&variables);
    let idle = (target.len() / TARGET.row) as u64;
    target.extend([VAR, width, 0, 0, EQ, idle, other, 0]);
}
