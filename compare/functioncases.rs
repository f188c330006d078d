//! Lowerings whose calls have one number and count at several widths, with the
//! answers that the scope gives: told apart by the result or by one argument, with
//! the roots that are due, without them, and with others in their place.

use crate::marked::{lend, Parts};
use crate::operation::Lists;
use crate::ours::Answer;
use crate::rules::{answer, ACCEPTED};
use crate::tags::*;

/// A case with its answer.
type Case = (Lists, Answer);

/// The function number of most cases.
const THREE: u64 = 3;

pub fn known() -> Vec<Case> {
    let mut cases = vec![
        (plain(0, &[1, 2]), ACCEPTED),
        (plain(u64::MAX, &[8, 16, 32]), ACCEPTED),
        (plain(THREE, &[8, 8]), answer(6, 1, 0)),
    ];
    (1..=4).for_each(|count| cases.extend(of_count(count)));
    cases.extend(in_order());
    cases.extend(left_over());
    let others = cases
        .into_iter()
        .map(|(parts, answer)| (lend(parts), answer));
    small().into_iter().chain(others).collect()
}

/// Accepted ones of which every change is tried: without arguments, over the same
/// argument, told apart by the last of two, and three calls of which two are of one
/// function.
pub fn to_change() -> Vec<Lists> {
    [
        plain(THREE, &[8, 16]),
        over(THREE, &[8], &[&[8, 0], &[16, 0]]),
        over(THREE, &[8, 16], &[&[8, 0, 0], &[8, 0, 1]]),
        rooted(over_each_other(), &[(0, 2)]),
        rooted(three(1), &[(0, 2)]),
    ]
    .map(lend)
    .into()
}

/// Those that fit a short book: one number without arguments, accepted, with its key
/// again, with a root that is not due, and unreached; over an argument each, with the
/// root that is due and without it.
pub fn small() -> Vec<Case> {
    let cases = [
        (plain(THREE, &[8, 16]), ACCEPTED),
        (plain(THREE, &[8, 16, 8]), answer(6, 2, 0)),
        (with_root(plain(THREE, &[8, 16]), 0), answer(12, 0, 0)),
        (unreached(), answer(14, 0, 0)),
        (rooted(over_each_other(), &[(0, 2)]), ACCEPTED),
        (over_each_other(), answer(13, 0, 0)),
    ];
    cases.map(|(parts, answer)| (lend(parts), answer)).into()
}

/// Calls of so many arguments, which are more than none.
fn of_count(count: usize) -> Vec<(Parts, Answer)> {
    let same = |result: u64| [vec![result], vec![0; count]].concat();
    let results = |widths: &[u64]| {
        let calls: Vec<Vec<u64>> = widths.iter().map(|&width| same(width)).collect();
        over(THREE, &[8], &slices(&calls))
    };
    let by_argument = |argument: usize| {
        let mut other = same(8);
        other[argument] = 1;
        over(THREE, &[8, 16], &[&same(8), &other])
    };
    let mut cases = vec![
        (results(&[8, 16]), ACCEPTED),
        (results(&[8, 16, 8]), answer(6, 2, 0)),
        (three(count), answer(13, 0, 0)),
        (rooted(three(count), &[(0, 2)]), ACCEPTED),
    ];
    cases.extend((1..=count).map(|argument| (by_argument(argument), ACCEPTED)));
    cases
}

/// Three calls of so many arguments, the last of which are of 8, 16 and 8 bits.
fn three(count: usize) -> Parts {
    let call = |last: u64| [vec![8], vec![0; count - 1], vec![last]].concat();
    over(THREE, &[8, 16, 8], &slices(&[0, 1, 2].map(call)))
}

/// Roots in their order, behind a leading one too; or one missing, or at the place of
/// another.
fn in_order() -> Vec<(Parts, Answer)> {
    let turns = || over(0, &[8, 16, 8, 16], &[&[1, 0], &[1, 1], &[1, 2], &[1, 3]]);
    let behind_a_root = || {
        let mut parts = over(0, &[8, 8], &[&[8, 0], &[16, 0], &[8, 1]]);
        parts.source_roots = vec![0];
        with_root(parts, 0)
    };
    vec![
        (rooted(turns(), &[(0, 2), (1, 3)]), ACCEPTED),
        (rooted(turns(), &[(0, 2)]), answer(13, 1, 0)),
        (rooted(turns(), &[(1, 3), (0, 2)]), answer(13, 0, 0)),
        (rooted(behind_a_root(), &[(0, 2)]), ACCEPTED),
        (behind_a_root(), answer(13, 1, 0)),
        (rooted(over_constants(), &[(0, 1)]), ACCEPTED),
        (rooted(three(1), &[(2, 0)]), answer(13, 0, 0)),
        (rooted(three(1), &[(0, 1), (0, 2)]), answer(13, 0, 0)),
    ]
}

/// Roots that are not due, behind all that are.
fn left_over() -> Vec<(Parts, Answer)> {
    let by_last = over(THREE, &[8, 16], &[&[8, 0, 0], &[8, 0, 1]]);
    let by_result = over(THREE, &[8], &[&[8, 0], &[16, 0]]);
    let cases = [
        rooted(by_last, &[(0, 1)]),
        rooted(by_result, &[(0, 1)]),
        rooted(over_each_other(), &[(0, 2), (0, 2)]),
        rooted(three(1), &[(0, 2), (1, 2)]),
    ];
    cases.map(|parts| (parts, answer(12, 0, 0))).into()
}

/// Two entries that nothing reaches: the smallest table that the rule tells apart.
fn unreached() -> Parts {
    Parts {
        calls: vec![[0, 0, 0, 0], [1, 0, 0, 0]],
        target: vec![[VAR, 1, 0, 0], [VAR, 2, 0, 0]],
        ..Parts::default()
    }
}

/// A call over a variable of 8 bits, one over a variable of 16, and one over the first
/// call: the first and the last are of one function.
fn over_each_other() -> Parts {
    over(THREE, &[8, 16], &[&[8, 0], &[8, 1], &[8, 2]])
}

/// Calls over 1, 0 and a 0 of two bits: unequal constants need a root, those of unequal
/// widths none.
fn over_constants() -> Parts {
    let bits = vec![1, 0, 0];
    let mut parts = Parts {
        source_bits: bits.clone(),
        target_bits: bits,
        ..Parts::default()
    };
    for [start, width] in [[0, 1], [1, 1], [1, 2]] {
        let image = [CONST, start, width, 0];
        put(&mut parts, [CONST, start, width, 0, 0], image);
    }
    (0..3).for_each(|row| call(&mut parts, THREE, &[8, row]));
    parts
}

/// A call without arguments for each of these result widths.
fn plain(number: u64, results: &[u64]) -> Parts {
    let calls: Vec<Vec<u64>> = results.iter().map(|&width| vec![width]).collect();
    over(number, &[], &slices(&calls))
}

fn slices(lists: &[Vec<u64>]) -> Vec<&[u64]> {
    lists.iter().map(|list| &list[..]).collect()
}

/// Variables of these widths, then calls: of each its result width, then its arguments.
fn over(number: u64, variables: &[u64], calls: &[&[u64]]) -> Parts {
    let mut parts = Parts::default();
    for &width in variables {
        put(&mut parts, [VAR, width, 0, 0, 0], [VAR, width, 0, 0]);
    }
    calls.iter().for_each(|of| call(&mut parts, number, of));
    parts
}

/// Puts a row into both graphs; rows have the same numbers there.
fn put(parts: &mut Parts, row: [u64; 5], image: [u64; 4]) -> u64 {
    let number = parts.source.len() as u64;
    parts.source.push(row);
    parts.map.push(number);
    parts.target.push(image);
    number
}

fn call(parts: &mut Parts, number: u64, of: &[u64]) {
    let (width, rows) = (of[0], &of[1..]);
    let (start, count) = (parts.side.len() as u64, rows.len() as u64);
    let row = [CALL, number, width, start, count];
    let variable = put(parts, row, [VAR, width, 0, 0]);
    parts.calls.push([variable, number, start, count]);
    parts.side.extend(rows);
    parts.arguments.extend(rows);
}

/// The parts with the root of each of these pairs of entries. Where the widths of two
/// variables differ, the first stands for the second: such an Eq has no widths.
fn rooted(mut parts: Parts, pairs: &[(usize, usize)]) -> Parts {
    for &(p, q) in pairs {
        let [one, other] = [parts.calls[p], parts.calls[q]];
        let at = |entry: [u64; 4], l: u64| parts.arguments[(entry[2] + l) as usize];
        let both: Vec<[u64; 2]> = (0..one[3]).map(|l| [at(one, l), at(other, l)]).collect();
        let mut all = equal(&mut parts, both[0]);
        for &pair in &both[1..] {
            let last = equal(&mut parts, pair);
            all = target(&mut parts, [BOOL_AND, all, last, 0]);
        }
        let differ = target(&mut parts, [NOT, all, 0, 0]);
        let same = equal(&mut parts, [one[0], other[0]]);
        let root = target(&mut parts, [BOOL_OR, differ, same, 0]);
        parts.target_roots.push(root);
    }
    parts
}

fn with_root(mut parts: Parts, root: u64) -> Parts {
    parts.target_roots.push(root);
    parts
}

fn target(parts: &mut Parts, row: [u64; 4]) -> u64 {
    parts.target.push(row);
    parts.target.len() as u64 - 1
}

fn equal(parts: &mut Parts, [a, b]: [u64; 2]) -> u64 {
    let differ = match [a, b].map(|row| parts.target[row as usize]) {
        [[VAR, one, ..], [VAR, other, ..]] => one != other,
        _ => false,
    };
    let other = if differ { a } else { b };
    target(parts, [EQ, a, other, 0])
}
