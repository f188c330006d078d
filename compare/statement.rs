//! The statement that a source and its target leave the same choices, for one accepted
//! lowering and given values: some arrays and functions make the source roots true
//! exactly when some values of the tables' variables make the target roots true.
//! Beside it stand statements that are wrong, which a run must notice.

use crate::check::at;
use crate::features;
use crate::open::{Found, Searched};
use crate::openlowering::{Given, Lowering};
use crate::openmemory::Interpretation;
use crate::openplan::{Plan, Truth};
use crate::openrows::Assignment;
use crate::operation::Lists;
use crate::plain::ones;
use crate::reference::sizes;

#[derive(Clone, Copy, PartialEq, Eq)]
pub enum Statement {
    Right,
    Exchanged,
    RootLeftOut,
    NoReadRoots,
    NoCallRoots,
    OwnBytes,
    OwnResults,
    OneArray,
    HalfIndices,
    HalfCells,
    OneFunction,
    AnyResult,
    AnyArguments,
    OldestFirst,
    CallsFixed,
    NotZero,
    /// Right where the strict check accepts.
    Strict,
    StrictSource,
}

/// The wrong statements, each with what is wrong about it.
pub const WRONG: [(Statement, &str); 16] = [
    (Statement::Exchanged, "two images with each other's values"),
    (Statement::RootLeftOut, "the last congruence root left out"),
    (Statement::NoReadRoots, "no congruence roots of reads"),
    (Statement::NoCallRoots, "no congruence roots of calls"),
    (Statement::OwnBytes, "a cell of its own for each Select"),
    (Statement::OwnResults, "a result of its own for each Call"),
    (Statement::OneArray, "one array for all numbers"),
    (
        Statement::HalfIndices,
        "the top bit of an index not looked at",
    ),
    (Statement::HalfCells, "cells whose top bit is 0"),
    (Statement::OneFunction, "one function for all numbers"),
    (
        Statement::AnyResult,
        "one function for all widths of its result",
    ),
    (
        Statement::AnyArguments,
        "one function for all widths of its arguments",
    ),
    (Statement::OldestFirst, "the last pair, not the first"),
    (
        Statement::CallsFixed,
        "variables of calls that are not free",
    ),
    (Statement::NotZero, "target roots true when they are not 0"),
    (
        Statement::StrictSource,
        "source roots true at one bit alone, target roots at any width",
    ),
];

impl Statement {
    /// The target roots that are asked for.
    fn target_roots(self, lists: &Lists) -> Vec<usize> {
        let leads = lists[at::SOURCE_ROOTS].len();
        let reads = leads + features::read_roots(lists);
        let mut roots = sizes(&lists[at::TARGET_ROOTS]);
        match self {
            Statement::RootLeftOut => roots.truncate(leads.max(roots.len().saturating_sub(1))),
            Statement::NoReadRoots => drop(roots.drain(leads..reads)),
            Statement::NoCallRoots => roots.truncate(reads),
            _ => {}
        }
        roots
    }

    /// When a root is true, of the source and of the target.
    fn is_true(self) -> [Truth; 2] {
        match self {
            Statement::NotZero => [is_one, |_, value| value != 0],
            Statement::Strict => [is_one_bit; 2],
            Statement::StrictSource => [is_one_bit, is_one],
            _ => [is_one; 2],
        }
    }
}

fn is_one(_width: usize, value: u64) -> bool {
    value == 1
}

/// As the strict check has it.
fn is_one_bit(width: usize, value: u64) -> bool {
    width == 1 && value == 1
}

/// Assignments are all tried one by one where they differ in so many bits at most.
const FEW: usize = 8;

/// A statement about a lowering.
pub struct Stated<'l> {
    lowering: &'l Lowering,
    statement: Statement,
    source: Plan,
    target: Plan,
}

impl<'l> Stated<'l> {
    pub fn new(lowering: &'l Lowering, statement: Statement) -> Stated<'l> {
        let [source, target] = [&lowering.source.shape, &lowering.target.shape];
        let roots = statement.target_roots(&lowering.lists);
        let is_true = statement.is_true();
        Stated {
            lowering,
            statement,
            source: source.plan(&lowering.roots, is_true[0]),
            target: target.plan(&roots, is_true[1]),
        }
    }

    /// Do some arrays and functions make every source root true?
    pub fn source(&self, given: &Given) -> Searched {
        let (graph, side) = (&self.lowering.source, &self.lowering.lists[at::SIDE]);
        let mut interpretation = Interpretation::new(graph, side, &given.source, self.statement);
        self.source.search(&mut interpretation)
    }

    /// Do some values of the tables' variables make every target root true?
    pub fn target(&self, given: &Given) -> Searched {
        let mut assignment = Assignment {
            graph: &self.lowering.target,
            given: self.target_given(given),
        };
        self.target.search(&mut assignment)
    }

    /// The same, by the values of the whole target under each assignment in turn.
    pub fn target_plainly(&self, given: &Given) -> Found {
        let (graph, given) = (&self.lowering.target, self.target_given(given));
        let free = || graph.variables().filter(|&row| given[row].is_none());
        let bits: usize = free().map(|row| graph.shape.widths[row]).sum();
        if bits > FEW {
            return Found::TooBig;
        }
        let mut values: Vec<u64> = given.iter().map(|given| given.unwrap_or(0)).collect();
        let open = (0..1 << bits).any(|mut word: u64| {
            for row in free() {
                values[row] = word & ones(graph.shape.widths[row]);
                word >>= graph.shape.widths[row];
            }
            let values = graph.values(&values);
            let is_true =
                |root: usize| (self.target.is_true)(graph.shape.widths[root], values[root]);
            let roots = &self.lowering.lists[at::TARGET_ROOTS];
            roots.iter().all(|&root| is_true(root as usize))
        });
        if open {
            Found::Open
        } else {
            Found::Closed
        }
    }

    /// The values of target variables; none for those to be chosen.
    fn target_given(&self, given: &Given) -> Vec<Option<u64>> {
        let graph = &self.lowering.target;
        let mut values = vec![None; graph.rows.len()];
        for row in graph.variables().filter(|&row| self.is_fixed(row)) {
            values[row] = Some(given.target[row]);
        }
        for &[row, image] in &self.lowering.mapped {
            values[image] = Some(given.source[row]);
        }
        if self.statement == Statement::Exchanged {
            self.exchange(&mut values);
        }
        values
    }

    /// Does q count on this target variable?
    fn is_fixed(&self, row: usize) -> bool {
        match self.lowering.class(row) {
            0 => true,
            5 => self.statement == Statement::CallsFixed,
            _ => false,
        }
    }

    /// Exchanges the values of the first two images of one width where they differ.
    fn exchange(&self, values: &mut [Option<u64>]) {
        let widths = &self.lowering.target.shape.widths;
        let images = || self.lowering.mapped.iter().map(|&[_, image]| image);
        for (one, other) in images().flat_map(|one| images().map(move |other| (one, other))) {
            if widths[one] == widths[other] && values[one] != values[other] {
                return values.swap(one, other);
            }
        }
    }
}
