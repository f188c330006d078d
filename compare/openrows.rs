//! The rows of a graph in a search, and their meaning in a target, whose variables of
//! tables are chosen when a row first needs them. A source's is in openmemory.rs.

use kernel::blast_kernel::DagNode;

use crate::open::Meaning;
use crate::openplan::Shape;
use crate::plain::{self, ones};
use crate::reference::{dag_node, flags, sizes};
use crate::tags::*;
use crate::wellformed::{rows, Row};

/// A well-formed graph without rows above 64 bits.
pub struct Graph {
    pub rows: Vec<Row>,
    /// The core node of each row that has one.
    nodes: Vec<Option<DagNode>>,
    bits: Vec<bool>,
    pub shape: Shape,
}

impl Graph {
    /// The graph of these words, in rows of a size; `free` says of a row and its tag
    /// whether its value may be to be chosen.
    pub fn new(
        [words, bits, side, widths]: [&[u64]; 4],
        size: usize,
        free: impl Fn(usize, u64) -> bool,
    ) -> Graph {
        let rows = rows(words, size);
        let node = |row: &Row| (row[0] < SELECT).then(|| dag_node(row));
        let operands = |row: &Row| sizes(&operands(*row, side));
        let tags = rows.iter().map(|row| row[0]).enumerate();
        let shape = Shape {
            widths: sizes(&widths[..rows.len()]),
            operands: rows.iter().map(operands).collect(),
            free: tags.map(|(row, tag)| free(row, tag)).collect(),
        };
        Graph {
            nodes: rows.iter().map(node).collect(),
            bits: flags(bits),
            shape,
            rows,
        }
    }

    pub fn tag(&self, row: usize) -> u64 {
        self.rows[row][0]
    }

    pub fn variables(&self) -> impl Iterator<Item = usize> + '_ {
        (0..self.rows.len()).filter(|&row| self.tag(row) == VAR)
    }

    /// The values of the constants.
    pub fn constants(&self) -> impl Iterator<Item = u64> + '_ {
        let constants = (0..self.rows.len()).filter(|&row| self.tag(row) == CONST);
        constants.map(|row| self.core(row, &[]))
    }

    /// The values of all rows of a target whose variables have these.
    pub fn values(&self, variables: &[u64]) -> Vec<u64> {
        let mut values = variables.to_vec();
        for row in (0..values.len()).filter(|&row| self.tag(row) != VAR) {
            values[row] = self.core(row, &values);
        }
        values
    }

    /// The value of a row that is no variable, Select or Call.
    pub fn core(&self, row: usize, values: &[u64]) -> u64 {
        let node = self.nodes[row].expect("a core row");
        let widths = &self.shape.widths;
        plain::value(node, &self.bits, widths, values) & ones(widths[row])
    }
}

/// The rows that a row names.
fn operands(row: Row, side: &[u64]) -> Vec<u64> {
    let [tag, _, index, start, count] = row;
    match tag {
        SELECT => {
            let pairs = (0..2 * count).map(|l| side[(start + l) as usize]);
            [index].into_iter().chain(pairs).collect()
        }
        CALL => arguments(row, side).collect(),
        _ => {
            let named = (1..=TAGS[tag as usize].1).filter(|&k| names_row(tag, k));
            named.map(|k| row[k]).collect()
        }
    }
}

/// The argument rows of a Call.
pub fn arguments([_, _, _, start, count]: Row, side: &[u64]) -> impl Iterator<Item = u64> + '_ {
    (0..count).map(move |l| side[(start + l) as usize])
}

/// A target under an assignment of which only some variables are given.
pub struct Assignment<'g> {
    pub graph: &'g Graph,
    /// By row, the values of variables; none for those to be chosen.
    pub given: Vec<Option<u64>>,
}

impl Meaning for Assignment<'_> {
    fn value(&self, row: usize, values: &[u64]) -> Option<u64> {
        match self.graph.tag(row) {
            VAR => self.given[row],
            _ => Some(self.graph.core(row, values)),
        }
    }
}
