//! An accepted lowering as statement.rs sees it: two graphs, and three kinds of
//! variables whose values are given.

use crate::check::{at, by_edition};
use crate::openrows::Graph;
use crate::operation::Lists;
use crate::reference::sizes;
use crate::rules::{ACCEPTED, SOURCE, TARGET};
use crate::sorts::{Edition, Shape};
use crate::tags::*;
use crate::wellformed::Row;

const MAX: u64 = u64::MAX;

/// The place of the classes, behind the widths of both graphs.
fn classes(lists: &Lists) -> usize {
    at::lent(lists) + 2
}

/// An accepted lowering without rows above 64 bits.
pub struct Lowering {
    /// As the library's Check left them.
    pub lists: Lists,
    pub source: Graph,
    pub target: Graph,
    /// The source roots.
    pub roots: Vec<usize>,
    /// Source variables that are mapped, each with its image, and those that are not.
    pub mapped: Vec<[usize; 2]>,
    pub unmapped: Vec<usize>,
    /// Target variables of class 0.
    pub idle: Vec<usize>,
    /// Does the library's strict check accept it too?
    pub strict: bool,
}

/// By row: u and p on the source's variables; on the target's q, which counts at
/// class 0.
#[derive(Clone)]
pub struct Given {
    pub source: Vec<u64>,
    pub target: Vec<u64>,
}

/// The lists after the library's Check, if it accepts them, each variable of the target
/// has class 1 if it is a source variable's image, else class 0, 4 or 5, and each Select
/// has the widths of its array.
pub fn accepted(lists: &Lists) -> Option<Lists> {
    let outcome = by_edition(false, lists).ours(lists);
    let after = outcome.lists;
    let classes = classes(&after);
    if outcome.answer != ACCEPTED || outcome.strayed {
        return None;
    }
    let images: Vec<usize> = mapped(&after).map(|[_, image]| image).collect();
    let expected = |row: usize, class: u64| {
        let image = images.contains(&row);
        image && class == 1 || !image && matches!(class, 0 | 4 | 5)
    };
    let target = after[at::TARGET].chunks_exact(TARGET.row);
    let mut variables = target.enumerate().filter(|(_, words)| words[0] == VAR);
    let good = variables.all(|(row, _)| expected(row, after[classes][row]));
    (good && shaped(&after)).then_some(after)
}

/// Has each Select a row of its array's index width to read at, and its cell width, by the
/// widths that Check left?
fn shaped(lists: &Lists) -> bool {
    let (edition, widths) = (Edition::of(lists), &lists[at::lent(lists)]);
    let mut rows = lists[at::SOURCE].chunks_exact(SOURCE.row).zip(widths);
    rows.all(|(row, &width)| {
        row[0] != SELECT || edition.shape(row[1]) == Some([widths[row[2] as usize], width])
    })
}

/// Has a graph of these accepted lists a row above 64 bits?
pub fn too_wide(lists: &Lists) -> bool {
    let widths = &lists[at::lent(lists)..classes(lists)];
    widths.iter().flatten().any(|&width| width > 64)
}

/// The source variables that are mapped, each with its image.
fn mapped(lists: &Lists) -> impl Iterator<Item = [usize; 2]> + '_ {
    let rows = lists[at::SOURCE].chunks_exact(SOURCE.row);
    let images = rows.zip(&lists[at::MAP]).enumerate();
    images
        .filter(|(_, (words, &image))| words[0] == VAR && image != MAX)
        .map(|(row, (_, &image))| [row, image as usize])
}

impl Lowering {
    /// The lowering of such lists.
    pub fn new(lists: Lists) -> Lowering {
        let list = |place: usize| &lists[place][..];
        let class = |row: usize| lists[classes(&lists)][row];
        let lent = at::lent(&lists);
        let source = [at::SOURCE, at::SOURCE_BITS, at::SIDE, lent].map(list);
        let source = Graph::new(source, SOURCE.row, |_, tag| matches!(tag, SELECT | CALL));
        let target = [at::TARGET, at::TARGET_BITS, at::SIDE, lent + 1].map(list);
        let target = Graph::new(target, TARGET.row, |row, tag| {
            tag == VAR && matches!(class(row), 4 | 5)
        });
        let unmapped = |row: &usize| lists[at::MAP][*row] == MAX;
        Lowering {
            roots: sizes(list(at::SOURCE_ROOTS)),
            mapped: mapped(&lists).collect(),
            unmapped: source.variables().filter(unmapped).collect(),
            idle: target.variables().filter(|&row| class(row) == 0).collect(),
            strict: by_edition(true, &lists).ours(&lists).answer == ACCEPTED,
            source,
            target,
            lists,
        }
    }

    /// Has every root of both graphs one bit?
    pub fn one_bit_roots(&self) -> bool {
        let one_bit = |list: usize, lent: usize| {
            let widths = &self.lists[lent];
            self.lists[list]
                .iter()
                .all(|&root| widths[root as usize] == 1)
        };
        let lent = at::lent(&self.lists);
        one_bit(at::SOURCE_ROOTS, lent) && one_bit(at::TARGET_ROOTS, lent + 1)
    }

    /// The class of a target row.
    pub fn class(&self, row: usize) -> u64 {
        self.lists[classes(&self.lists)][row]
    }

    /// The source rows that the roots stand on.
    pub fn below_roots(&self) -> impl Iterator<Item = usize> {
        let below = self.source.shape.reach(&self.roots);
        (0..below.len()).filter(move |&row| below[row])
    }

    /// The Selects of the source, each with its row's number.
    pub fn reads(&self) -> impl Iterator<Item = (usize, &Row)> {
        let rows = self.source.rows.iter().enumerate();
        rows.filter(|(_, row)| row[0] == SELECT)
    }

    /// The arrays that are read below the roots.
    pub fn arrays(&self) -> impl Iterator<Item = u64> + '_ {
        let below: Vec<usize> = self.below_roots().collect();
        let reads = self.reads().filter(move |(row, _)| below.contains(row));
        reads.map(|(_, row)| row[1])
    }

    /// Their shapes.
    pub fn shapes(&self) -> Vec<Shape> {
        let edition = Edition::of(&self.lists);
        self.arrays()
            .filter_map(|array| edition.shape(array))
            .collect()
    }
}
