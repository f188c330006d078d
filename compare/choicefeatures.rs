//! What the lowerings and the triples of values of choices.rs are to show: a run that
//! never met one of these has not tried the statement.

use std::collections::BTreeSet;

use crate::callfeatures::{arguments, call_pairs, named_pairs};
use crate::check::at;
use crate::features::reads;
use crate::open::{Found, Searched};
use crate::openlowering::Lowering;
use crate::sorts::{Shape, ENTRY, FIRST};
use crate::tags::*;

/// A triple of values with what was found.
pub struct Tried<'t> {
    pub lowering: &'t Lowering,
    pub source: Searched,
    pub target: Searched,
    /// The target by all its assignments.
    pub plainly: Found,
    /// The same three with roots that are true at one bit alone, where the strict check
    /// accepts.
    pub strictly: Option<[Found; 3]>,
    /// The target is closed, but without the congruence roots of reads, or without
    /// those of calls, it is not.
    pub but_for: [bool; 2],
}

impl Tried<'_> {
    pub fn is(&self, found: Found) -> bool {
        self.source.found == found && self.target.found == found
    }

    fn is_strictly(&self, found: Found) -> bool {
        let both = self.strictly.map(|[source, target, _]| [source, target]);
        both == Some([found; 2])
    }
}

/// A name, and whether a lowering shows what it names.
pub type Showing = (&'static str, fn(&Lowering) -> bool);

/// Of lowerings.
pub const LOWERINGS: [Showing; 18] = [
    ("no source root", |of| of.roots.is_empty()),
    ("no root in either graph", |of| {
        of.lists[at::TARGET_ROOTS].is_empty()
    }),
    ("no source root, but congruence roots", |of| {
        of.roots.is_empty() && !of.lists[at::TARGET_ROOTS].is_empty()
    }),
    ("a root that is a variable", |of| {
        of.roots.iter().any(|&root| of.source.tag(root) == VAR)
    }),
    ("a root of more than one bit", |of| {
        let widths = &of.source.shape.widths;
        of.roots.iter().any(|&root| widths[root] > 1)
    }),
    ("roots, accepted by the strict check", |of| {
        of.strict && !of.roots.is_empty()
    }),
    ("the same with congruence roots", |of| {
        let leads = of.roots.len();
        of.strict && leads > 0 && of.lists[at::TARGET_ROOTS].len() > leads
    }),
    ("an unmapped variable", |of| !of.unmapped.is_empty()),
    ("an unmapped variable that a row names", |of| {
        of.unmapped.iter().any(|&row| of.source.shape.names(row))
    }),
    ("an unmapped variable below a root", |of| {
        of.below_roots().any(|row| of.unmapped.contains(&row))
    }),
    ("a variable of class 0", |of| !of.idle.is_empty()),
    ("a variable of class 0 that a row names", |of| {
        of.idle.iter().any(|&row| of.target.shape.names(row))
    }),
    ("a Select with pairs below a root", |of| {
        let stored = |row: usize| of.source.tag(row) == SELECT && of.source.rows[row][4] > 0;
        of.below_roots().any(stored)
    }),
    ("a read or a call below an index", |of| {
        of.below_roots().any(|row| is_nested(of, row, SELECT))
    }),
    ("a read or a call below an argument", |of| {
        of.below_roots().any(|row| is_nested(of, row, CALL))
    }),
    ("functions of one number told apart by the result", |of| {
        told_apart(of, |one, other| one[0] != other[0])
    }),
    ("functions of one number told apart by arguments", |of| {
        told_apart(of, |one, other| one[1..] != other[1..])
    }),
    ("functions told apart, both below roots", |of| {
        let below: Vec<usize> = of.below_roots().collect();
        let called = |variable: u64| below.iter().any(|&row| of.lists[at::MAP][row] == variable);
        named_pairs(&of.lists).any(|(p, q, is_one)| !is_one && called(p[0]) && called(q[0]))
    }),
];

/// Of lowerings of a second edition, beside these.
pub const SORTED: [Showing; 9] = [
    ("an empty sort table", |of| of.lists[at::SORTS].is_empty()),
    ("an array listed that no row names", |of| {
        let named: Vec<u64> = of.reads().map(|(_, row)| row[1]).collect();
        let mut entries = of.lists[at::SORTS].chunks_exact(ENTRY);
        entries.any(|entry| !named.contains(&entry[0]))
    }),
    ("a read below a root at one bit, a cell of one bit", |of| {
        of.shapes().contains(&[1, 1])
    }),
    ("the same, three bits each", |of| {
        of.shapes().contains(&[3, 3])
    }),
    ("the same, 16 bits, a cell of fewer", |of| {
        of.shapes()
            .iter()
            .any(|shape| shape[0] == 16 && shape[1] < 16)
    }),
    ("the same, 32 and 8", |of| of.shapes().contains(&FIRST)),
    ("reads of two index widths below roots", |of| {
        of.shapes()
            .iter()
            .any(|one| of.shapes().iter().any(|other| one[0] != other[0]))
    }),
    ("reads of two cell widths below roots", |of| {
        of.shapes()
            .iter()
            .any(|one| of.shapes().iter().any(|other| one[1] != other[1]))
    }),
    ("two arrays of one shape below roots", |of| {
        let arrays: BTreeSet<u64> = of.arrays().collect();
        let shapes: BTreeSet<Shape> = of.shapes().into_iter().collect();
        shapes.len() < arrays.len()
    }),
];

/// Are there two calls of one number and count whose widths, the result's before the
/// arguments', pass a test?
fn told_apart(of: &Lowering, test: fn(&[usize], &[usize]) -> bool) -> bool {
    let widths = |entry: &[u64]| -> Vec<usize> {
        let arguments = &of.lists[at::ARGUMENTS][entry[2] as usize..][..entry[3] as usize];
        let rows = entry[..1].iter().chain(arguments);
        rows.map(|&row| of.target.shape.widths[row as usize])
            .collect()
    };
    named_pairs(&of.lists).any(|(p, q, _)| test(&widths(p), &widths(q)))
}

/// Is the row of this tag, with a read or a call below its index or an argument?
fn is_nested(of: &Lowering, row: usize, tag: u64) -> bool {
    let operands = &of.source.shape.operands[row];
    let keys = if tag == SELECT { 1 } else { operands.len() };
    let below = || of.source.shape.reach(&operands[..keys]);
    let cell = |(row, below): (usize, bool)| below && of.source.tag(row) >= SELECT;
    of.source.tag(row) == tag && below().into_iter().enumerate().any(cell)
}

/// Of triples.
pub const TRIPLES: [(&str, fn(&Tried) -> bool); 20] = [
    ("open on both sides", |of| of.is(Found::Open)),
    ("open, after values were taken back", |of| {
        of.is(Found::Open) && of.source.back && of.target.back
    }),
    ("open, by all assignments too", |of| {
        of.plainly == Found::Open
    }),
    ("open on neither side", |of| of.is(Found::Closed)),
    ("closed, after values were taken back", |of| {
        of.is(Found::Closed) && of.source.back && of.target.back
    }),
    ("closed, by all assignments too", |of| {
        of.plainly == Found::Closed
    }),
    ("a cell of an array chosen", |of| {
        of.source.chose(|row| of.lowering.source.tag(row) == SELECT)
    }),
    ("a result of a function chosen", |of| {
        of.source.chose(|row| of.lowering.source.tag(row) == CALL)
    }),
    ("a variable of class 4 chosen", |of| {
        of.target.chose(|row| of.lowering.class(row) == 4)
    }),
    ("a variable of class 5 chosen", |of| {
        of.target.chose(|row| of.lowering.class(row) == 5)
    }),
    ("open, with two read entries of one key", |of| {
        let mut pairs = reads(&of.lowering.lists, |p, q| p[1] == q[1]);
        of.is(Found::Open) && pairs.any(|(p, q)| of.target.alike(p[2], q[2]))
    }),
    ("open, with two call entries of one key", |of| {
        let lists = &of.lowering.lists;
        let alike = |[a, b]: [u64; 2]| of.target.alike(a, b);
        let mut pairs = call_pairs(lists);
        of.is(Found::Open) && pairs.any(|(p, q)| arguments(lists, p, q).all(alike))
    }),
    ("open, functions told apart at one key, two values", |of| {
        let lists = &of.lowering.lists;
        let alike = |[a, b]: [u64; 2]| of.target.alike(a, b);
        let mut pairs = named_pairs(lists).filter(|(_, _, is_one)| !is_one);
        let apart = |(p, q, _): (&[u64], &[u64], bool)| {
            arguments(lists, p, q).all(alike) && of.target.unlike(p[0], q[0])
        };
        of.is(Found::Open) && pairs.any(apart)
    }),
    ("with strict roots, open on both sides", |of| {
        of.is_strictly(Found::Open)
    }),
    ("with strict roots, open on neither side", |of| {
        of.is_strictly(Found::Closed)
    }),
    ("with strict roots, open, by all assignments too", |of| {
        of.strictly.is_some_and(|found| found[2] == Found::Open)
    }),
    ("with strict roots, closed, by all assignments too", |of| {
        of.strictly.is_some_and(|found| found[2] == Found::Closed)
    }),
    ("with strict roots, closed by congruence alone", |of| {
        of.is_strictly(Found::Closed) && of.but_for.contains(&true)
    }),
    ("closed by congruence of reads alone", |of| of.but_for[0]),
    ("closed by congruence of calls alone", |of| of.but_for[1]),
];
