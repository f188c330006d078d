//! The scope's marked cases of Check, and some more of their kind.

use crate::operation::Lists;
use crate::ours::Answer;
use crate::rules::answer;
use crate::tags::*;

const MAX: u64 = u64::MAX;

/// The accepted cases, with a word to spare in each lent list.
pub fn accepted() -> Vec<Lists> {
    [
        base(),
        two_reads(),
        constant_reads(),
        one_store(),
        four_stores(),
        nested_reads(),
        calls_of_none(),
        calls_of_one(),
        calls_of_three(),
        core_rows(),
    ]
    .into_iter()
    .map(lend)
    .collect()
}

/// The marked cases that are refused, with the answers that the scope gives,
/// and a root without image where the target holds MAX.
pub fn refused() -> Vec<(Lists, Answer)> {
    let unmapped = |parts: &mut Parts| {
        parts.map = vec![0, MAX, MAX];
        parts.source_roots = vec![];
        parts.target_roots = vec![];
    };
    let no_image = |parts: &mut Parts| {
        parts.source_roots = vec![2, 3];
        parts.target_roots = vec![2, MAX];
    };
    let cases = [
        (but(base(), |p| p.map = vec![0, 1, MAX]), answer(12, 0, 0)),
        (but(base(), unmapped), answer(14, 1, 0)),
        (but(base(), |p| p.reads = vec![]), answer(10, 1, 0)),
        (
            but(base(), |p| p.reads = vec![[1, 7, 0]; 2]),
            answer(5, 1, 0),
        ),
        (but(base(), |p| p.map = vec![0, 1]), answer(3, 3, 2)),
        (but(base(), |p| p.map = vec![0, 1, 3]), answer(4, 2, 0)),
        (
            but(base(), |p| p.target_roots = vec![2, 2]),
            answer(12, 0, 0),
        ),
        (
            but(two_reads(), |p| p.target_roots = vec![]),
            answer(13, 0, 0),
        ),
        (constants(one_bit(33, 0), vec![7]), answer(12, 0, 0)),
        (constants(vec![0; 33], vec![]), answer(13, 0, 0)),
        (
            but(one_store(), |p| p.target[4] = [EQ, 1, 0, 0]),
            answer(10, 3, 0),
        ),
        (but(base(), no_image), answer(12, 1, 0)),
    ];
    cases.map(|(parts, answer)| (lend(parts), answer)).into()
}

/// The parts but for a change.
fn but(mut parts: Parts, change: impl FnOnce(&mut Parts)) -> Parts {
    change(&mut parts);
    parts
}

/// Marked case 9 over these bits, with the rows of case 8's congruence root.
fn constants(bits: Vec<u64>, target_roots: Vec<u64>) -> Parts {
    Parts {
        source_bits: bits.clone(),
        source_roots: vec![],
        target: [&constant_reads().target[..], &two_reads().target[4..]].concat(),
        target_bits: bits,
        target_roots,
        ..constant_reads()
    }
}

/// A lowering by its parts; what a case does not name is empty.
#[derive(Default)]
pub struct Parts {
    pub source: Vec<[u64; 5]>,
    pub source_bits: Vec<u64>,
    pub side: Vec<u64>,
    pub source_roots: Vec<u64>,
    pub map: Vec<u64>,
    pub reads: Vec<[u64; 3]>,
    pub calls: Vec<[u64; 4]>,
    pub arguments: Vec<u64>,
    pub target: Vec<[u64; 4]>,
    pub target_bits: Vec<u64>,
    pub target_roots: Vec<u64>,
}

/// The lists of a lowering, with a word to spare in each lent one.
pub fn lend(parts: Parts) -> Lists {
    let (source, target) = (parts.source.len(), parts.target.len());
    let mut lists = vec![
        parts.source.concat(),
        parts.source_bits,
        parts.side,
        parts.source_roots,
        parts.map,
        parts.reads.concat(),
        parts.calls.concat(),
        parts.arguments,
        parts.target.concat(),
        parts.target_bits,
        parts.target_roots,
    ];
    lists.extend([source, target, target, target].map(|rows| vec![9; rows + 1]));
    lists
}

/// So many bits, a single one at `place`.
fn one_bit(length: usize, place: usize) -> Vec<u64> {
    (0..length).map(|k| u64::from(k == place)).collect()
}

/// Marked case 1.
fn base() -> Parts {
    Parts {
        source: vec![[VAR, 32, 0, 0, 0], [SELECT, 7, 0, 0, 0], [EQ, 1, 1, 0, 0]],
        source_roots: vec![2],
        map: vec![0, 1, 2],
        reads: vec![[1, 7, 0]],
        target: vec![[VAR, 32, 0, 0], [VAR, 8, 0, 0], [EQ, 1, 1, 0]],
        target_roots: vec![2],
        ..Parts::default()
    }
}

/// Marked case 8.
fn two_reads() -> Parts {
    Parts {
        source: vec![
            [VAR, 32, 0, 0, 0],
            [VAR, 32, 0, 0, 0],
            [SELECT, 7, 0, 0, 0],
            [SELECT, 7, 1, 0, 0],
        ],
        map: vec![0, 1, 2, 3],
        reads: vec![[2, 7, 0], [3, 7, 1]],
        target: vec![
            [VAR, 32, 0, 0],
            [VAR, 32, 0, 0],
            [VAR, 8, 0, 0],
            [VAR, 8, 0, 0],
            [EQ, 0, 1, 0],
            [NOT, 4, 0, 0],
            [EQ, 2, 3, 0],
            [BOOL_OR, 5, 6, 0],
        ],
        target_roots: vec![7],
        ..Parts::default()
    }
}

/// Marked case 9, the unequal constants over stretches that overlap.
fn constant_reads() -> Parts {
    Parts {
        source: vec![
            [CONST, 0, 32, 0, 0],
            [CONST, 1, 32, 0, 0],
            [SELECT, 7, 0, 0, 0],
            [SELECT, 7, 1, 0, 0],
        ],
        source_bits: one_bit(33, 0),
        source_roots: vec![3],
        map: vec![0, 1, 2, 3],
        reads: vec![[2, 7, 0], [3, 7, 1]],
        target: vec![
            [CONST, 0, 32, 0],
            [CONST, 1, 32, 0],
            [VAR, 8, 0, 0],
            [VAR, 8, 0, 0],
        ],
        target_bits: one_bit(33, 0),
        target_roots: vec![3],
        ..Parts::default()
    }
}

/// Marked case 10.
fn one_store() -> Parts {
    Parts {
        source: vec![
            [VAR, 32, 0, 0, 0],
            [VAR, 32, 0, 0, 0],
            [VAR, 8, 0, 0, 0],
            [SELECT, 7, 1, 0, 1],
        ],
        side: vec![0, 2],
        map: vec![0, 1, 2, 5],
        reads: vec![[3, 7, 1]],
        target: vec![
            [VAR, 32, 0, 0],
            [VAR, 32, 0, 0],
            [VAR, 8, 0, 0],
            [VAR, 8, 0, 0],
            [EQ, 0, 1, 0],
            [ITE, 4, 2, 3],
        ],
        ..Parts::default()
    }
}

/// Pairs at an unequal constant, at a variable, at an equal constant that ends
/// the walk, and one behind it. The unequal constant has no image.
fn four_stores() -> Parts {
    Parts {
        source: vec![
            [CONST, 0, 32, 0, 0],
            [CONST, 1, 32, 0, 0],
            [VAR, 32, 0, 0, 0],
            [VAR, 8, 0, 0, 0],
            [VAR, 8, 0, 0, 0],
            [SELECT, 7, 0, 0, 4],
        ],
        source_bits: one_bit(33, 32),
        side: vec![1, 4, 2, 3, 0, 4, 1, 3],
        source_roots: vec![5],
        map: vec![0, MAX, 1, 2, 3, 5],
        target: vec![
            [CONST, 0, 32, 0],
            [VAR, 32, 0, 0],
            [VAR, 8, 0, 0],
            [VAR, 8, 0, 0],
            [EQ, 1, 0, 0],
            [ITE, 4, 2, 3],
        ],
        target_bits: vec![0; 32],
        target_roots: vec![5],
        ..Parts::default()
    }
}

/// A read at an index made of another read, which comes second in the table.
fn nested_reads() -> Parts {
    Parts {
        source: vec![
            [VAR, 32, 0, 0, 0],
            [SELECT, 7, 0, 0, 0],
            [ZERO_EXT, 1, 24, 0, 0],
            [SELECT, 7, 2, 0, 0],
        ],
        source_roots: vec![3],
        map: vec![0, 1, 2, 3],
        reads: vec![[3, 7, 2], [1, 7, 0]],
        target: vec![
            [VAR, 32, 0, 0],
            [VAR, 8, 0, 0],
            [ZERO_EXT, 1, 24, 0],
            [VAR, 8, 0, 0],
            [EQ, 2, 0, 0],
            [NOT, 4, 0, 0],
            [EQ, 3, 1, 0],
            [BOOL_OR, 5, 6, 0],
        ],
        target_roots: vec![3, 7],
        ..Parts::default()
    }
}

/// Marked case 11.
fn calls_of_none() -> Parts {
    Parts {
        source: vec![[CALL, 3, 8, 0, 0], [CALL, 3, 8, 0, 0]],
        map: vec![0, 0],
        calls: vec![[0, 3, 0, 0]],
        target: vec![[VAR, 8, 0, 0]],
        ..Parts::default()
    }
}

/// A call over a call of the same function.
fn calls_of_one() -> Parts {
    Parts {
        source: vec![[VAR, 8, 0, 0, 0], [CALL, 3, 8, 0, 1], [CALL, 3, 8, 1, 1]],
        side: vec![0, 1],
        source_roots: vec![2],
        map: vec![0, 1, 2],
        calls: vec![[1, 3, 0, 1], [2, 3, 1, 1]],
        arguments: vec![0, 1],
        target: vec![
            [VAR, 8, 0, 0],
            [VAR, 8, 0, 0],
            [VAR, 8, 0, 0],
            [EQ, 0, 1, 0],
            [NOT, 3, 0, 0],
            [EQ, 1, 2, 0],
            [BOOL_OR, 4, 5, 0],
        ],
        target_roots: vec![2, 6],
        ..Parts::default()
    }
}

/// Two calls whose arguments overlap in their lists.
fn calls_of_three() -> Parts {
    Parts {
        source: vec![
            [VAR, 8, 0, 0, 0],
            [VAR, 8, 0, 0, 0],
            [CALL, 3, 8, 0, 3],
            [CALL, 3, 8, 1, 3],
        ],
        side: vec![0, 1, 1, 0],
        map: vec![0, 1, 2, 3],
        calls: vec![[2, 3, 0, 3], [3, 3, 1, 3]],
        arguments: vec![0, 1, 1, 0],
        target: vec![
            [VAR, 8, 0, 0],
            [VAR, 8, 0, 0],
            [VAR, 8, 0, 0],
            [VAR, 8, 0, 0],
            [EQ, 0, 1, 0],
            [EQ, 1, 1, 0],
            [EQ, 1, 0, 0],
            [BOOL_AND, 4, 5, 0],
            [BOOL_AND, 7, 6, 0],
            [NOT, 8, 0, 0],
            [EQ, 2, 3, 0],
            [BOOL_OR, 9, 10, 0],
        ],
        target_roots: vec![11],
        ..Parts::default()
    }
}

/// Core rows of several shapes, a constant at another start, a root twice.
fn core_rows() -> Parts {
    Parts {
        source: vec![
            [CONST, 0, 8, 0, 0],
            [VAR, 8, 0, 0, 0],
            [ADD, 0, 1, 0, 0],
            [EXTRACT, 3, 1, 2, 0],
            [EQ, 2, 1, 0, 0],
            [ITE, 4, 2, 1, 0],
        ],
        source_bits: one_bit(8, 1),
        source_roots: vec![4, 4, 5],
        map: vec![0, 1, 2, 3, 4, 5],
        target: vec![
            [CONST, 1, 8, 0],
            [VAR, 8, 0, 0],
            [ADD, 0, 1, 0],
            [EXTRACT, 3, 1, 2],
            [EQ, 2, 1, 0],
            [ITE, 4, 2, 1],
        ],
        target_bits: one_bit(9, 2),
        target_roots: vec![4, 4, 5],
        ..Parts::default()
    }
}
