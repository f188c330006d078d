//! What accepted lowerings of a second edition are to show: shapes of arrays, beside each
//! other and in chains, and what a sort table may list for nothing.

use crate::check::at;
use crate::features::{self, mapped, read_roots, reads, Named};
use crate::operation::{Feature, Lists};
use crate::rules::CEILING;
use crate::sorts::{Edition, Shape, ENTRY, FIRST};
use crate::tags::SELECT;

const MAX: u64 = u64::MAX;

/// These, and what the accepted lowerings of a first edition show of Selects and reads.
pub fn features() -> Vec<Feature> {
    let named = TABLES.into_iter().chain(SHAPES).chain(BESIDE);
    let mut features: Vec<Feature> = features::of_reads();
    features.extend(named.map(|(name, has)| -> Feature { (name.to_string(), Box::new(has)) }));
    features
}

/// About the table.
const TABLES: [Named; 8] = [
    ("an empty sort table", |lists| lists[at::SORTS].is_empty()),
    ("one array listed", |lists| lists[at::SORTS].len() == ENTRY),
    ("four arrays listed", |lists| {
        lists[at::SORTS].len() >= 4 * ENTRY
    }),
    ("array 0 and array MAX listed", |lists| {
        let edition = Edition::of(lists);
        edition.shape(0).is_some() && edition.shape(MAX).is_some()
    }),
    ("an array listed that no row names", |lists| {
        unnamed(lists).next().is_some()
    }),
    ("the same, an index width above 4,096", |lists| {
        unnamed(lists).any(|[index, _]| index > CEILING)
    }),
    ("the same, a cell width above 4,096", |lists| {
        unnamed(lists).any(|[_, cell]| cell > CEILING)
    }),
    ("the same, a width of MAX", |lists| {
        unnamed(lists).any(|shape| shape.contains(&MAX))
    }),
];

/// About the shapes of arrays that read entries name.
const SHAPES: [Named; 11] = [
    ("16 and 16", |lists| {
        shapes(lists).any(|shape| shape == [16, 16])
    }),
    ("32 and 8", |lists| {
        shapes(lists).any(|shape| shape == FIRST)
    }),
    ("8 and 32", |lists| {
        shapes(lists).any(|shape| shape == [8, 32])
    }),
    ("1 and 1", |lists| {
        shapes(lists).any(|shape| shape == [1, 1])
    }),
    ("an index of one bit, wider cells", |lists| {
        shapes(lists).any(|[index, cell]| index == 1 && cell > 1)
    }),
    ("a cell of one bit, wider indices", |lists| {
        shapes(lists).any(|[index, cell]| cell == 1 && index > 1)
    }),
    ("an index of 65 bits or more", |lists| {
        shapes(lists).any(|[index, _]| index > 64)
    }),
    ("a cell of 65 bits or more", |lists| {
        shapes(lists).any(|[_, cell]| cell > 64)
    }),
    ("an index of 4,096 bits", |lists| {
        shapes(lists).any(|[index, _]| index == CEILING)
    }),
    ("a cell of 4,096 bits", |lists| {
        shapes(lists).any(|[_, cell]| cell == CEILING)
    }),
    ("no 32 and no 8, a Select over pairs", |lists| {
        selects(lists).any(|(row, shape)| other(shape) && row[4] > 0)
    }),
];

/// About arrays beside each other, and roots of other shapes than the first edition's.
const BESIDE: [Named; 11] = [
    ("two arrays of two index widths", |lists| {
        pairs(lists).any(|[one, other]| one[0] != other[0])
    }),
    ("two arrays of two cell widths", |lists| {
        pairs(lists).any(|[one, other]| one[1] != other[1])
    }),
    ("two arrays of one index width, two cell widths", |lists| {
        pairs(lists).any(|[one, other]| one[0] == other[0] && one[1] != other[1])
    }),
    ("two arrays, widths exchanged", |lists| {
        pairs(lists).any(|[one, other]| one != other && one == [other[1], other[0]])
    }),
    (
        "two arrays of one shape, not the first edition's",
        |lists| pairs(lists).any(|[one, two]| one == two && other(one)),
    ),
    ("two arrays of two shapes over one side list", |lists| {
        let stored = || selects(lists).filter(|(row, _)| row[4] > 0);
        stored().any(|(_, one)| stored().any(|(_, two)| one != two))
    }),
    (
        "reads of two arrays of two cell widths at one index",
        |lists| {
            let edition = Edition::of(lists);
            let cell = |entry: &[u64]| edition.shape(entry[1]).map(|[_, cell]| cell);
            let mut both = reads(lists, |p, q| p[2] == q[2]);
            both.any(|(p, q)| cell(p) != cell(q))
        },
    ),
    ("another shape, a congruence root of reads", |lists| {
        all_other(lists) && read_roots(lists) > 0
    }),
    (
        "another shape, a pair of reads that needs no root",
        |lists| all_other(lists) && read_roots(lists) < reads(lists, |p, q| p[1] == q[1]).count(),
    ),
    ("an index that is a read of another array", |lists| {
        nested(lists, |row| vec![row[2]])
    }),
    ("a pair's value that is a read of another array", |lists| {
        let values = |row: &[u64]| {
            let place = |l: u64| (row[3] + 2 * l + 1) as usize;
            (0..row[4]).map(|l| lists[at::SIDE][place(l)]).collect()
        };
        nested(lists, values)
    }),
];

/// Is this no shape of the first edition, in neither width?
fn other([index, cell]: Shape) -> bool {
    index != FIRST[0] && cell != FIRST[1]
}

/// The shapes of the arrays that read entries name, one for each entry.
fn shapes(lists: &Lists) -> impl Iterator<Item = Shape> + '_ {
    let edition = Edition::of(lists);
    let entries = lists[at::READS].chunks_exact(3);
    entries.filter_map(move |entry| edition.shape(entry[1]))
}

/// Has every read entry a shape that is not the first edition's, in neither width?
fn all_other(lists: &Lists) -> bool {
    shapes(lists).all(other)
}

/// The shapes of each two read entries of two arrays.
fn pairs(lists: &Lists) -> impl Iterator<Item = [Shape; 2]> + '_ {
    let edition = Edition::of(lists);
    let shape = move |entry: &[u64]| edition.shape(entry[1]);
    let both = reads(lists, |p, q| p[1] != q[1]);
    both.filter_map(move |(p, q)| Some([shape(p)?, shape(q)?]))
}

/// The Selects that have an image, each with its array's shape.
fn selects(lists: &Lists) -> impl Iterator<Item = (&[u64], Shape)> + '_ {
    let edition = Edition::of(lists);
    let rows = mapped(lists, SELECT).map(|(row, _)| row);
    rows.filter_map(move |row| Some((row, edition.shape(row[1])?)))
}

/// The shapes of the listed arrays that neither a Select nor a read entry names.
fn unnamed(lists: &Lists) -> impl Iterator<Item = Shape> + '_ {
    let selects = lists[at::SOURCE].chunks_exact(5);
    let selects = selects.filter(|row| row[0] == SELECT);
    let reads = lists[at::READS].chunks_exact(3);
    let named: Vec<u64> = selects.chain(reads).map(|words| words[1]).collect();
    let entries = lists[at::SORTS].chunks_exact(ENTRY);
    let unnamed = entries.filter(move |entry| !named.contains(&entry[0]));
    unnamed.map(|entry| [entry[1], entry[2]])
}

/// Is one of these rows of a Select with an image a Select of another array and shape?
fn nested(lists: &Lists, rows: impl Fn(&[u64]) -> Vec<u64>) -> bool {
    let edition = Edition::of(lists);
    let source = |row: u64| &lists[at::SOURCE][5 * row as usize..][..5];
    let reads = |row: u64, shape: Shape| {
        let words = source(row);
        words[0] == SELECT && edition.shape(words[1]) != Some(shape)
    };
    selects(lists).any(|(row, shape)| rows(row).into_iter().any(|of| reads(of, shape)))
}
