//! Lowerings for the strict check with the answers that the scope gives: small ones for
//! each reason to refuse a root, and Check's known cases as the strict check answers them.

use crate::ceilingcases;
use crate::check::at;
use crate::functioncases;
use crate::marked::{self, lend, Parts};
use crate::operation::Lists;
use crate::ours::Answer;
use crate::rules::{answer, ACCEPTED, CEILING};
use crate::tags::*;

/// A case with its answer.
type Case = (Lists, Answer);

const MAX: u64 = u64::MAX;

/// The first root of a source, and of a target, is refused.
const SOURCE_ROOT: Answer = answer(19, 0, 1);
const TARGET_ROOT: Answer = answer(19, 0, 2);

/// What the marked cases that Check accepts get, in their order: some of their roots
/// have 8 bits.
const MARKED: [Answer; 10] = [
    ACCEPTED,
    ACCEPTED,
    SOURCE_ROOT,
    ACCEPTED,
    SOURCE_ROOT,
    SOURCE_ROOT,
    ACCEPTED,
    SOURCE_ROOT,
    ACCEPTED,
    answer(19, 2, 1),
];

pub fn known() -> Vec<Case> {
    let functions = functioncases::known().into_iter();
    small()
        .into_iter()
        .chain(marked())
        .chain(ceilingcases::lowerings())
        .chain(functions.map(told_apart))
        .collect()
}

/// The scope's marked cases. Where Check refuses a root without image at place 1, its row
/// is past the source.
pub fn marked() -> impl Iterator<Item = Case> {
    let accepted = marked::accepted().into_iter().zip(MARKED);
    let refused = marked::refused().into_iter().map(|(lists, old)| match old {
        Answer {
            number: 12,
            place: 1,
            ..
        } => (lists, answer(19, 1, 1)),
        _ => (lists, old),
    });
    accepted.chain(refused)
}

/// A case of functions told apart. Row 0 of both graphs has 8 bits there, and is the only
/// root that is no congruence root.
fn told_apart((lists, answer): Case) -> Case {
    let answer = match [&lists[at::SOURCE_ROOTS][..], &lists[at::TARGET_ROOTS][..]] {
        [[0, ..], _] => SOURCE_ROOT,
        [_, [0, ..]] => TARGET_ROOT,
        _ => answer,
    };
    (lists, answer)
}

/// Accepted ones of which every change is tried.
pub fn accepted() -> Vec<Lists> {
    let good = |(lists, answer): Case| (answer == ACCEPTED).then_some(lists);
    small()
        .into_iter()
        .chain(marked())
        .filter_map(good)
        .collect()
}

/// Small ones: a bad root of the source, then of the target; accepted; what stands
/// before 19 and what stands behind it.
pub fn small() -> Vec<Case> {
    let cases = [
        source_roots(),
        target_roots(),
        accepted_parts(),
        single(),
        order(),
    ];
    let cases = cases.into_iter().flatten();
    cases.map(|(parts, answer)| (lend(parts), answer)).collect()
}

/// A variable of each of these widths in both graphs, with its image, and these roots.
fn variables(widths: &[u64], source_roots: &[u64], target_roots: &[u64]) -> Parts {
    Parts {
        source: widths.iter().map(|&w| [VAR, w, 0, 0, 0]).collect(),
        source_roots: source_roots.to_vec(),
        map: (0..widths.len() as u64).collect(),
        target: widths.iter().map(|&w| [VAR, w, 0, 0]).collect(),
        target_roots: target_roots.to_vec(),
        ..Parts::default()
    }
}

/// A variable of one bit and one of two, with each list of up to two roots over their rows
/// and words that are no rows, in both graphs, with and without a map.
pub fn tiny() -> Vec<Lists> {
    let mut lists = vec![vec![]];
    let words = [0, 1, 2, MAX];
    lists.extend(words.map(|root| vec![root]));
    lists.extend(
        words
            .iter()
            .flat_map(|&one| words.map(|other| vec![one, other])),
    );
    let pairs = lists
        .iter()
        .flat_map(|one| lists.iter().map(move |other| [one, other]));
    let with_roots = |[source, target]: [&Vec<u64>; 2]| {
        let mapped = variables(&[1, 2], source, target);
        let map = vec![];
        let unmapped = Parts {
            map,
            ..variables(&[1, 2], source, target)
        };
        [mapped, unmapped].map(lend)
    };
    pairs.flat_map(with_roots).collect()
}

/// A target of variables alone.
fn target(widths: &[u64], roots: &[u64]) -> Parts {
    Parts {
        source: vec![],
        map: vec![],
        ..variables(widths, &[], roots)
    }
}

/// No roots; roots of one bit, also twice; a root of the source before a congruence root.
fn accepted_parts() -> Vec<(Parts, Answer)> {
    let cases = [
        Parts::default(),
        variables(&[1], &[0], &[0]),
        variables(&[8, 1], &[1, 1], &[1, 1]),
        two_reads(),
    ];
    cases.map(|parts| (parts, ACCEPTED)).into()
}

/// Two reads of one array that are said to be equal.
fn two_reads() -> Parts {
    Parts {
        source: vec![
            [VAR, 32, 0, 0, 0],
            [VAR, 32, 0, 0, 0],
            [SELECT, 7, 0, 0, 0],
            [SELECT, 7, 1, 0, 0],
            [EQ, 2, 3, 0, 0],
        ],
        source_roots: vec![4],
        map: vec![0, 1, 2, 3, 6],
        reads: vec![[2, 7, 0], [3, 7, 1]],
        target: vec![
            [VAR, 32, 0, 0],
            [VAR, 32, 0, 0],
            [VAR, 8, 0, 0],
            [VAR, 8, 0, 0],
            [EQ, 0, 1, 0],
            [NOT, 4, 0, 0],
            [EQ, 2, 3, 0],
            [BOOL_OR, 5, 6, 0],
        ],
        target_roots: vec![6, 7],
        ..Parts::default()
    }
}

/// Of another width, where Check accepts; past the rows, where it says 12; behind good
/// ones; two; in both lists, earlier in the target's.
fn source_roots() -> Vec<(Parts, Answer)> {
    let past = |root: u64| Parts {
        source_roots: vec![root],
        ..Parts::default()
    };
    let mut cases = vec![
        (variables(&[2], &[0], &[0]), SOURCE_ROOT),
        (variables(&[CEILING], &[0], &[0]), SOURCE_ROOT),
        (
            variables(&[1, 8, 1], &[0, 1, 2], &[0, 1, 2]),
            answer(19, 1, 1),
        ),
        (variables(&[1, 8], &[0, 0, 1], &[0, 0, 1]), answer(19, 2, 1)),
        (variables(&[1, 8], &[1, 2], &[1, 2]), SOURCE_ROOT),
        (variables(&[1, 8], &[0, 1], &[1, 0]), answer(19, 1, 1)),
        (variables(&[1], &[0, 1], &[0, MAX]), answer(19, 1, 1)),
    ];
    let words = [0, 1, MAX, 1 << 32, 1 << 63];
    cases.extend(words.map(|root| (past(root), SOURCE_ROOT)));
    cases.push((variables(&[1], &[1 << 32], &[0]), SOURCE_ROOT));
    cases
}

/// Of another width, where Check says 12; past the rows; behind good ones; in the place
/// of a congruence root.
fn target_roots() -> Vec<(Parts, Answer)> {
    let instead = |root: u64| Parts {
        target_roots: vec![6, root],
        ..two_reads()
    };
    vec![
        (target(&[2], &[0]), TARGET_ROOT),
        (target(&[], &[0]), TARGET_ROOT),
        (target(&[], &[MAX]), TARGET_ROOT),
        (target(&[1], &[0, 1 << 32]), answer(19, 1, 2)),
        (variables(&[1, 8], &[0], &[1]), TARGET_ROOT),
        (variables(&[1, 8], &[0], &[0, 1]), answer(19, 1, 2)),
        (variables(&[1, 8, 1], &[0, 0], &[0, 1, 2]), answer(19, 1, 2)),
        (variables(&[1], &[0], &[0, 1]), answer(19, 1, 2)),
        (instead(3), answer(19, 1, 2)),
        (instead(8), answer(19, 1, 2)),
    ]
}

/// The smallest ones beside other refusals: a map that is missing, a root left over, an
/// entry of a table, a row above the ceiling, a byte above 1.
fn single() -> Vec<(Parts, Answer)> {
    let unmapped = |widths: &[u64], target_root: u64| Parts {
        map: vec![],
        ..variables(widths, &[0], &[target_root])
    };
    let past = || Parts {
        source_roots: vec![0],
        ..Parts::default()
    };
    vec![
        (unmapped(&[1], 0), answer(3, 1, 0)),
        (unmapped(&[8], 0), SOURCE_ROOT),
        (unmapped(&[1, 8], 1), TARGET_ROOT),
        (target(&[1], &[0]), answer(12, 0, 0)),
        (
            Parts {
                reads: vec![[0; 3]],
                ..past()
            },
            SOURCE_ROOT,
        ),
        (
            Parts {
                calls: vec![[0; 4]],
                ..past()
            },
            SOURCE_ROOT,
        ),
        (target(&[CEILING + 1], &[0]), answer(2, 0, 0)),
        (
            Parts {
                target_bits: vec![2],
                ..past()
            },
            answer(17, 0, 2),
        ),
    ]
}

/// 19 before 3, 5, 6, 7, 10, 12, 13 and 14, for a root of the source and of the target;
/// after 1, 2, 16 and 17; and without a bad root the later ones as in Check.
fn order() -> Vec<(Parts, Answer)> {
    let mut cases = Vec::new();
    let changes: [(fn(&mut Parts), Answer); 8] = [
        (|of| of.map.truncate(4), answer(3, 5, 4)),
        (|of| of.map.push(0), answer(3, 5, 6)),
        (|of| of.reads[1][0] = 2, answer(5, 1, 0)),
        (|of| of.calls.push([2, 3, 0, 0]), answer(6, 0, 0)),
        (|of| of.map[0] = 2, answer(7, 0, 0)),
        (|of| of.map[2] = 3, answer(10, 2, 0)),
        (|of| of.target_roots[0] = 5, answer(12, 0, 0)),
        (|of| of.target_roots[1] = 6, answer(13, 1, 0)),
    ];
    for (change, later) in changes {
        let changed = |more: fn(&mut Parts)| {
            let mut parts = two_reads();
            change(&mut parts);
            more(&mut parts);
            parts
        };
        cases.push((changed(|_| ()), later));
        cases.push((changed(|of| of.source_roots[0] = 3), SOURCE_ROOT));
        cases.push((changed(|of| of.target_roots.push(3)), answer(19, 2, 2)));
    }
    let before: [(fn(&mut Parts), Answer); 6] = [
        (|of| of.source[4][1] = 0, answer(1, 4, 0)),
        (|of| of.source[0][1] = CEILING + 1, answer(1, 0, 0)),
        (|of| of.target[7][1] = 2, answer(2, 7, 0)),
        (|of| of.target[0][1] = CEILING + 1, answer(2, 0, 0)),
        (|of| of.target[0][2] = 1, answer(16, 0, 2)),
        (|of| of.target_bits.push(2), answer(17, 0, 2)),
    ];
    for (change, first) in before {
        let mut parts = two_reads();
        change(&mut parts);
        parts.source_roots[0] = 3;
        parts.target_roots[1] = 8;
        cases.push((parts, first));
    }
    cases
}
