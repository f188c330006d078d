//! What accepted lowerings are to show: a run that never met one of these has
//! not looked at all of Check.

use crate::callfeatures::{self, call_pairs};
use crate::check::at;
use crate::operation::{Feature, Lists};
use crate::rules::{CEILING, SOURCE, TARGET};
use crate::tags::*;
use crate::wellformed::stretch;

const MAX: u64 = u64::MAX;

/// Each with its name; the lists are those of an accepted lowering.
pub fn features() -> Vec<Feature> {
    let mut features: Vec<Feature> = Vec::new();
    for (name, has) in ROWS.into_iter().chain(READS) {
        features.push((name.to_string(), Box::new(has)));
    }
    features.extend(callfeatures::features());
    for (tag, (name, _)) in (0..).zip(TAGS) {
        let image = move |lists: &Lists| mapped(lists, tag).next().is_some();
        features.push((format!("{name} with an image"), Box::new(image)));
        let none =
            move |lists: &Lists| mapping(lists).any(|(row, image)| row[0] == tag && image == MAX);
        features.push((format!("{name} without an image"), Box::new(none)));
    }
    features
}

/// Those about Selects and the read table alone.
pub fn of_reads() -> Vec<Feature> {
    let named = READS.into_iter();
    named
        .map(|(name, has)| -> Feature { (name.to_string(), Box::new(has)) })
        .collect()
}

pub type Named = (&'static str, fn(&Lists) -> bool);

/// About rows, constants and roots.
const ROWS: [Named; 10] = [
    ("two source rows with one image", |lists| {
        let images: Vec<u64> = images(lists).collect();
        repeats(&images)
    }),
    ("a target row twice, no variable", |lists| {
        let target = graph_rows(lists, at::TARGET).filter(|row| row[0] != VAR);
        repeats(&target.collect::<Vec<_>>())
    }),
    ("a target row that nothing uses", unused),
    ("a variable that is no image and in no table", |lists| {
        let free = |row: u64| {
            !images(lists)
                .chain(variables(lists))
                .any(|used| used == row)
        };
        (0..)
            .zip(graph_rows(lists, at::TARGET))
            .any(|(row, words)| words[0] == VAR && free(row))
    }),
    ("a constant at another start", |lists| {
        mapped(lists, CONST).any(|(row, image)| row[1] != image[1])
    }),
    ("a width of 4,096", |lists| {
        mapped(lists, VAR).any(|(row, _)| row[1] == CEILING)
    }),
    ("a source root twice", |lists| {
        repeats(&lists[at::SOURCE_ROOTS])
    }),
    ("a source root of more than one bit", |lists| {
        let wide = |root: &u64| match row_at(lists, at::SOURCE, *root) {
            [VAR, width, ..] => *width > 1,
            row => row[0] == SELECT,
        };
        lists[at::SOURCE_ROOTS].iter().any(wide)
    }),
    ("no source root, congruence roots alone", |lists| {
        lists[at::SOURCE_ROOTS].is_empty() && !lists[at::TARGET_ROOTS].is_empty()
    }),
    ("no row at all", |lists| lists[at::SOURCE].is_empty()),
];

/// About Selects and the read table.
const READS: [Named; 18] = [
    ("a Select without pairs, start MAX", |lists| {
        mapped(lists, SELECT).any(|(row, _)| row[3..] == [MAX, 0])
    }),
    ("a Select of array MAX", |lists| {
        mapped(lists, SELECT).any(|(row, _)| row[1] == MAX)
    }),
    ("a Select whose image is an Ite", |lists| {
        mapped(lists, SELECT).any(|(_, image)| image[0] == ITE)
    }),
    ("a Select whose image is no Ite and no variable", |lists| {
        mapped(lists, SELECT).any(|(_, image)| image[0] != ITE && image[0] != VAR)
    }),
    ("a Select whose image is a variable of no entry", |lists| {
        let free = |image: u64| {
            row_at(lists, at::TARGET, image)[0] == VAR && !variables(lists).any(|v| v == image)
        };
        mapping(lists).any(|(row, image)| row[0] == SELECT && image != MAX && free(image))
    }),
    ("a pair at an unequal constant", |lists| {
        walks(lists).any(|walk| walk.contains(&Pair::Passed))
    }),
    ("a pair at an equal constant", |lists| {
        walks(lists).any(|walk| walk.contains(&Pair::Ends))
    }),
    ("a pair at the Select's own constant", |lists| {
        walks(lists).any(|walk| walk.contains(&Pair::EndsOwn))
    }),
    ("a pair at the Select's own index, no constant", |lists| {
        walks(lists).any(|walk| walk.contains(&Pair::LevelOwn))
    }),
    ("an Ite before the pair that ends the walk", |lists| {
        walks(lists).any(|walk| {
            let end = walk.iter().position(|&pair| pair.ends());
            end.is_some_and(|end| walk[..end].contains(&Pair::Level))
        })
    }),
    ("a pair behind the one that ends the walk", |lists| {
        walks(lists).any(|walk| walk.iter().rev().skip(1).any(|&pair| pair.ends()))
    }),
    ("three levels of Ite", |lists| {
        walks(lists).any(|walk| walk.iter().filter(|&&pair| pair == Pair::Level).count() > 2)
    }),
    ("two Selects over one stretch of pairs", |lists| {
        let pairs = |(row, _): (Words, Words)| [row[3], 2 * row[4]];
        overlap(&mapped(lists, SELECT).map(pairs).collect::<Vec<_>>())
    }),
    ("an index made of a read", nested),
    ("a congruence root of reads", |lists| read_roots(lists) > 0),
    ("a pair of reads that needs no root", |lists| {
        read_roots(lists) < reads(lists, |p, q| p[1] == q[1]).count()
    }),
    ("reads of two arrays at one index", |lists| {
        reads(lists, |p, q| p[1] != q[1] && p[2] == q[2])
            .next()
            .is_some()
    }),
    ("reads not in the order of their variables", |lists| {
        reads(lists, |p, q| p[0] > q[0]).next().is_some()
    }),
];

/// A row as it stands in its graph.
pub type Words<'l> = &'l [u64];

fn graph_rows(lists: &Lists, graph: usize) -> std::slice::ChunksExact<'_, u64> {
    let size = if graph == at::SOURCE {
        SOURCE.row
    } else {
        TARGET.row
    };
    lists[graph].chunks_exact(size)
}

/// The source rows, each with its map word.
pub fn mapping(lists: &Lists) -> impl Iterator<Item = (Words<'_>, u64)> + '_ {
    let source = graph_rows(lists, at::SOURCE);
    source.zip(lists[at::MAP].iter().copied())
}

/// The source rows of one tag that have an image, each with it.
pub fn mapped(lists: &Lists, tag: u64) -> impl Iterator<Item = (Words<'_>, Words<'_>)> + '_ {
    mapping(lists)
        .filter(move |&(row, image)| row[0] == tag && image != MAX)
        .map(|(row, image)| (row, row_at(lists, at::TARGET, image)))
}

/// A row of an accepted graph.
fn row_at(lists: &Lists, graph: usize, row: u64) -> Words<'_> {
    let mut rows = graph_rows(lists, graph);
    rows.nth(row as usize)
        .expect("an accepted graph has this row")
}

/// The bits of a row of an accepted graph, if it is a constant.
pub fn bits(lists: &Lists, graph: usize, row: u64) -> Option<Words<'_>> {
    match row_at(lists, graph, row) {
        [CONST, start, width, ..] => stretch(&lists[graph + 1], *start, *width),
        _ => None,
    }
}

fn images(lists: &Lists) -> impl Iterator<Item = u64> + '_ {
    lists[at::MAP].iter().copied().filter(|&image| image != MAX)
}

/// The variables of both tables.
fn variables(lists: &Lists) -> impl Iterator<Item = u64> + '_ {
    let reads = lists[at::READS].chunks_exact(3);
    let calls = lists[at::CALLS].chunks_exact(4);
    reads.map(|read| read[0]).chain(calls.map(|call| call[0]))
}

pub fn repeats<T: Ord + Clone>(items: &[T]) -> bool {
    let mut sorted = items.to_vec();
    sorted.sort();
    sorted.windows(2).any(|two| two[0] == two[1])
}

/// Do two of these stretches, each a start and a length, have a place in common?
pub fn overlap(stretches: &[[u64; 2]]) -> bool {
    let mut filled: Vec<&[u64; 2]> = stretches.iter().filter(|s| s[1] > 0).collect();
    filled.sort();
    filled
        .windows(2)
        .any(|two| two[0][0] + two[0][1] > two[1][0])
}

/// Is there a target row that no map word, row, entry or root names?
fn unused(lists: &Lists) -> bool {
    let mut used: Vec<u64> = images(lists).chain(variables(lists)).collect();
    used.extend(lists[at::READS].chunks_exact(3).map(|read| read[2]));
    used.extend(&lists[at::ARGUMENTS]);
    used.extend(&lists[at::TARGET_ROOTS]);
    for row in graph_rows(lists, at::TARGET) {
        let operands = (1..=TAGS[row[0] as usize].1).filter(|&k| names_row(row[0], k));
        used.extend(operands.map(|k| row[k]));
    }
    let rows = graph_rows(lists, at::TARGET).len() as u64;
    (0..rows).any(|row| !used.contains(&row))
}

/// What a pair is to a Select's walk.
#[derive(Clone, Copy, PartialEq, Eq)]
enum Pair {
    /// Unequal constants.
    Passed,
    /// Equal constants, at two rows or at one.
    Ends,
    EndsOwn,
    /// Anything else, at two rows or at one.
    Level,
    LevelOwn,
}

impl Pair {
    fn ends(self) -> bool {
        matches!(self, Pair::Ends | Pair::EndsOwn)
    }
}

/// The pairs of each Select that has an image, also those behind its walk.
fn walks(lists: &Lists) -> impl Iterator<Item = Vec<Pair>> + '_ {
    let pair = |row: u64, index: u64| {
        let [one, own] = [row, index].map(|row| bits(lists, at::SOURCE, row));
        match (one, own) {
            (Some(one), Some(own)) if one != own => Pair::Passed,
            (Some(_), Some(_)) if row == index => Pair::EndsOwn,
            (Some(_), Some(_)) => Pair::Ends,
            _ if row == index => Pair::LevelOwn,
            _ => Pair::Level,
        }
    };
    mapped(lists, SELECT)
        .filter(|(row, _)| row[4] > 0)
        .map(move |(row, _)| {
            let pairs = stretch(&lists[at::SIDE], row[3], 2 * row[4]).unwrap_or(&[]);
            pairs
                .chunks_exact(2)
                .map(|two| pair(two[0], row[2]))
                .collect()
        })
}

pub type Entry<'l> = &'l [u64];

/// The pairs of entries of a table, earlier before later, that pass a test.
pub fn entries<'l>(
    table: &'l [u64],
    size: usize,
    test: impl Fn(Entry, Entry) -> bool + Copy + 'l,
) -> impl Iterator<Item = (Entry<'l>, Entry<'l>)> + 'l {
    let each = table.chunks_exact(size);
    let later =
        move |(k, p): (usize, Entry<'l>)| table.chunks_exact(size).skip(k + 1).map(move |q| (p, q));
    each.enumerate()
        .flat_map(later)
        .filter(move |&(p, q)| test(p, q))
}

pub fn reads<'l>(
    lists: &'l Lists,
    test: impl Fn(Entry, Entry) -> bool + Copy + 'l,
) -> impl Iterator<Item = (Entry<'l>, Entry<'l>)> + 'l {
    entries(&lists[at::READS], 3, test)
}

/// The roots that neither the source roots nor the calls account for.
pub fn read_roots(lists: &Lists) -> usize {
    lists[at::TARGET_ROOTS].len() - lists[at::SOURCE_ROOTS].len() - call_pairs(lists).count()
}

/// Does the index of a Select with an image stand on another Select?
fn nested(lists: &Lists) -> bool {
    let mut on_read: Vec<bool> = Vec::new();
    let mut found = false;
    for (row, image) in mapping(lists) {
        let used = if row[0] < SELECT {
            TAGS[row[0] as usize].1
        } else {
            0
        };
        let operand = |k: usize| names_row(row[0], k) && on_read[row[k] as usize];
        let reads = row[0] == SELECT || (1..=used).any(operand);
        found |= row[0] == SELECT && image != MAX && on_read[row[2] as usize];
        on_read.push(reads);
    }
    found
}
