//! The meaning of a source's rows in a search: the cells of arrays and the results of
//! functions are chosen when a row first needs them.

use crate::open::Meaning;
use crate::openrows::{arguments, Graph};
use crate::plain::ones;
use crate::statement::Statement;
use crate::tags::*;
use crate::wellformed::Row;

/// The number of an array or a function, and the one row that has it. Only wrong
/// statements name a row.
type Symbol = (u64, Option<usize>);

/// What an interpretation gives a value to, beside variables.
#[derive(PartialEq, Eq)]
enum Cell {
    /// Array and index.
    Cell(Symbol, u64),
    /// A function with its result width, and each argument's width and value: calls
    /// of other counts or widths are of another function. Wrong statements have 0 for
    /// the widths.
    Result(Symbol, u64, Vec<(usize, u64)>),
}

/// A source under an interpretation of which some cells are chosen.
pub struct Interpretation<'g> {
    graph: &'g Graph,
    side: &'g [u64],
    /// By row, the values of variables.
    given: &'g [u64],
    statement: Statement,
    cells: Vec<(Cell, u64)>,
}

impl<'g> Interpretation<'g> {
    /// No cell is chosen yet.
    pub fn new(
        graph: &'g Graph,
        side: &'g [u64],
        given: &'g [u64],
        statement: Statement,
    ) -> Interpretation<'g> {
        Interpretation {
            graph,
            side,
            given,
            statement,
            cells: Vec::new(),
        }
    }

    /// The value of the first pair of a Select whose index equals its own.
    fn stored(&self, row: Row, values: &[u64]) -> Option<u64> {
        let [_, _, index, start, count] = row;
        let at = |place: u64| values[self.side[place as usize] as usize];
        let same = |pair: &u64| at(*pair) == values[index as usize];
        let mut pairs = (0..count).map(|l| start + 2 * l).filter(same);
        let pair = match self.statement {
            Statement::OldestFirst => pairs.last(),
            _ => pairs.next(),
        };
        pair.map(|pair| at(pair + 1))
    }

    fn symbol(&self, row: usize) -> Symbol {
        let [tag, number, ..] = self.graph.rows[row];
        match (self.statement, tag) {
            (Statement::OwnBytes, SELECT) | (Statement::OwnResults, CALL) => (number, Some(row)),
            (Statement::OneArray, SELECT) | (Statement::OneFunction, CALL) => (0, None),
            _ => (number, None),
        }
    }

    /// The cell that a Select or a Call needs.
    fn cell(&self, row: usize, values: &[u64]) -> Cell {
        let (symbol, words) = (self.symbol(row), self.graph.rows[row]);
        if words[0] == SELECT {
            let index = words[2] as usize;
            let seen = match self.statement {
                Statement::HalfIndices => ones(self.graph.shape.widths[index]) >> 1,
                _ => u64::MAX,
            };
            return Cell::Cell(symbol, values[index] & seen);
        }
        let argument = |row: u64| (self.argument_width(row), values[row as usize]);
        let arguments = arguments(words, self.side).map(argument).collect();
        match self.statement {
            Statement::AnyResult => Cell::Result(symbol, 0, arguments),
            _ => Cell::Result(symbol, words[2], arguments),
        }
    }

    fn argument_width(&self, row: u64) -> usize {
        match self.statement {
            Statement::AnyArguments => 0,
            _ => self.graph.shape.widths[row as usize],
        }
    }

    /// The value that was chosen for a row's cell; only wrong statements have to cut it
    /// to the row's width.
    fn kept(&self, row: usize, values: &[u64]) -> Option<u64> {
        let cell = self.cell(row, values);
        let kept = self.cells.iter().find(|(kept, _)| *kept == cell);
        kept.map(|&(_, value)| value & ones(self.graph.shape.widths[row]))
    }
}

impl Meaning for Interpretation<'_> {
    fn value(&self, row: usize, values: &[u64]) -> Option<u64> {
        let words = self.graph.rows[row];
        match words[0] {
            VAR => Some(self.given[row]),
            SELECT => (self.stored(words, values)).or_else(|| self.kept(row, values)),
            CALL => self.kept(row, values),
            _ => Some(self.graph.core(row, values)),
        }
    }

    fn allows(&self, row: usize, value: u64) -> bool {
        let half = ones(self.graph.shape.widths[row]) >> 1;
        let is_read = self.graph.tag(row) == SELECT;
        self.statement != Statement::HalfCells || !is_read || value <= half
    }

    fn choose(&mut self, row: usize, values: &[u64]) {
        let cell = self.cell(row, values);
        self.cells.push((cell, values[row]));
    }

    fn take_back(&mut self) {
        self.cells.pop();
    }
}
