//! Lowerings of a second edition with the answers that the scope gives: accepted ones of
//! several shapes, and arrays whose widths are not those of a case; with those of
//! sorttables.rs. All roots have one bit, but for one that 19 is due for, so that both
//! checks answer alike.

use crate::check::at;
use crate::marked::Parts;
use crate::operation::Lists;
use crate::ours::Answer;
use crate::rules::{answer, ACCEPTED, CEILING, SOURCE};
use crate::sortparts::*;
use crate::sorts::{Shape, FIRST};
use crate::sorttables::{before, behind, tables, with_table};

/// A case with its answer.
type Case = (Lists, Answer);

/// A lowering with a sort table.
type Sorted = (Parts, Vec<u64>);

const MAX: u64 = u64::MAX;

/// Those of Check, or of the strict check.
pub fn known(strict: bool) -> Vec<Case> {
    let accepted = accepted().into_iter().map(|case| (case, ACCEPTED));
    let unlisted = first_unlisted().into_iter().chain(missing());
    let mut cases: Vec<Case> = (accepted.chain(unlisted).chain(of_other_widths()))
        .map(|((parts, table), answer)| (lists(parts, table), answer))
        .collect();
    cases.extend(
        tables()
            .into_iter()
            .map(|(table, answer)| (with_table(table), answer)),
    );
    cases.extend(before());
    cases.extend(behind(strict));
    cases
}

/// Those for the fixed list: all tables and shapes, and of the others some, the scope's
/// traps among them: a cell width of 4,097, a bad bit of the target beside a bad table, and
/// an empty table, which is not the first edition.
pub fn listed() -> Vec<Case> {
    let shaped = |of: Vec<(Sorted, Answer)>| of.into_iter().step_by(4);
    let shapes = accepted().into_iter().map(|case| (case, ACCEPTED));
    let trap = (one_read(SIXTEEN), vec![7, 16, OVER]);
    let cases = shapes
        .chain([(trap, answer(1, 1, 0))])
        .chain(first_unlisted())
        .chain(shaped(missing()));
    let mut listed: Vec<Case> = (cases.chain(shaped(of_other_widths())))
        .map(|((parts, table), answer)| (lists(parts, table), answer))
        .collect();
    let tables = tables().into_iter();
    listed.extend(tables.map(|(table, answer)| (with_table(table), answer)));
    listed.extend(before().into_iter().skip(1).step_by(2));
    listed.extend(behind(false).into_iter().skip(1).step_by(3));
    distinct(listed)
}

/// Each case once.
fn distinct(cases: Vec<Case>) -> Vec<Case> {
    let mut distinct: Vec<Case> = Vec::new();
    for case in cases {
        if !distinct.contains(&case) {
            distinct.push(case);
        }
    }
    distinct
}

/// Accepted ones of which every change is tried.
pub fn to_change() -> Vec<Lists> {
    let cases = [
        (one_read(SIXTEEN), vec![7, 16, 16]),
        (two_reads([3, 2]), vec![7, 3, 2]),
        (one_store(SIXTEEN), vec![7, 16, 16]),
        two_arrays(),
        one_bit(),
    ];
    cases.map(|(parts, table)| lists(parts, table)).into()
}

/// The sources of all these, for source widths: what is refused for anything else there is
/// accepted here.
pub fn sources() -> Vec<Case> {
    let source = |(lists, answer): Case| {
        let of_source = match answer.number {
            15 | 18 => answer.place == SOURCE.number,
            16 | 17 => answer.detail == SOURCE.number,
            number => matches!(number, 1 | 28),
        };
        let bad_target = matches!(answer.number, 15..=18) && !of_source;
        let parts = [
            at::SOURCE,
            at::SOURCE_BITS,
            at::SIDE,
            at::SORTS,
            at::lent(&lists),
        ];
        let lists: Lists = parts.map(|list| lists[list].clone()).into();
        (!bad_target).then_some((lists, if of_source { answer } else { ACCEPTED }))
    };
    distinct(known(false).into_iter().filter_map(source).collect())
}

/// Reads, stores and roots at several shapes; arrays beside each other; tables that list
/// arrays for nothing, and none at all.
pub fn accepted() -> Vec<Sorted> {
    let shapes = [
        SIXTEEN,
        [32, 8],
        [8, 32],
        [1, 1],
        [70, 3],
        [3, 70],
        [16, CEILING],
        [CEILING, 16],
    ];
    let of = |[index, cell]: Shape| vec![7, index, cell];
    let mut cases: Vec<Sorted> = shapes.map(|shape| (one_read(shape), of(shape))).into();
    for shape in [SIXTEEN, [2, 5], [5, 2]] {
        cases.push((two_reads(shape), of(shape)));
        cases.push((constant_reads(shape), of(shape)));
        cases.push((one_store(shape), of(shape)));
    }
    cases.extend([two_arrays(), one_index(), read_of_read(), one_bit()]);
    let unused: [&[u64]; 4] = [
        &[0, 1, 1, 7, 16, 16, MAX, MAX, MAX],
        &[7, 16, 16, 8, OVER, 1],
        &[6, 1, OVER, 7, 16, 16],
        &[6, 32, 8, 7, 16, 16, 8, 16, 16],
    ];
    cases.extend(unused.map(|table| (one_read(SIXTEEN), table.to_vec())));
    cases.extend([vec![], vec![7, 16, 16]].map(|table| (Parts::default(), table)));
    cases.push((no_read(), vec![]));
    cases
}

/// Arrays of 32 and 8 that are not listed, in an empty table and in another: these two
/// widths are no array's that is not.
fn first_unlisted() -> Vec<(Sorted, Answer)> {
    let cases = |table: &[u64]| {
        let [select, read] = [one_read(FIRST), read_alone(FIRST)];
        [
            ((select, table.to_vec()), answer(1, 1, 0)),
            ((read, table.to_vec()), answer(5, 0, 0)),
        ]
    };
    [cases(&[]), cases(&[8, 32, 8])]
        .into_iter()
        .flatten()
        .collect()
}

/// Arrays that are not listed: 1 at a Select, 5 at a read entry.
fn missing() -> Vec<(Sorted, Answer)> {
    let unlisted: [&[u64]; 4] = [&[], &[6, 16, 16], &[8, 16, 16], &[7 | 1 << 32, 16, 16]];
    let mut cases: Vec<(Sorted, Answer)> = Vec::new();
    for table in unlisted {
        cases.push(((one_read(SIXTEEN), table.to_vec()), answer(1, 1, 0)));
        cases.push(((read_alone(SIXTEEN), table.to_vec()), answer(5, 0, 0)));
    }
    let (parts, _) = two_arrays();
    cases.push(((parts, vec![7, 16, 16]), answer(1, 3, 0)));
    let unlisted_first = Parts {
        reads: vec![[1, 6, 0], [1, 7, 0]],
        ..one_read(SIXTEEN)
    };
    cases.push(((unlisted_first, vec![7, 16, 16]), answer(5, 0, 0)));
    cases
}

/// Arrays listed with other widths than a case has: exchanged, of another array, of the
/// first edition, above the ceiling.
fn of_other_widths() -> Vec<(Sorted, Answer)> {
    let mut cases: Vec<(Sorted, Answer)> = Vec::new();
    for shape in [[8, 32], [16, 8], [32, 16], [17, 16], [OVER, 16], [MAX, 16]] {
        let table = vec![7, shape[0], shape[1]];
        let row = answer(1, 1, 0);
        let entry = answer(5, 0, 0);
        let same_index = shape[0] == 16;
        let select = if same_index { entry } else { row };
        cases.push(((one_read(SIXTEEN), table.clone()), select));
        cases.push(((read_alone(SIXTEEN), table), entry));
    }
    for cell in [OVER, 1 << 32, MAX] {
        let table = vec![7, 16, cell];
        cases.push(((one_read(SIXTEEN), table.clone()), answer(1, 1, 0)));
        cases.push(((read_alone(SIXTEEN), table), answer(5, 0, 0)));
    }
    let at_ceiling = (one_read(SIXTEEN), vec![7, 16, CEILING]);
    cases.push((at_ceiling, answer(5, 0, 0)));
    let (parts, _) = two_arrays();
    cases.push(((parts, vec![7, 12, 4, 8, 16, 16]), answer(1, 2, 0)));
    let (parts, _) = two_arrays();
    cases.push(((parts, vec![7, 16, 16, 8, 4, 12]), answer(1, 3, 0)));
    // The pairs of a store, each of another width.
    cases.push(((one_store(SIXTEEN), vec![7, 16, 8]), answer(1, 3, 0)));
    for (row, width) in [(0, 15), (2, 15)] {
        let mut parts = one_store(SIXTEEN);
        parts.source[row][1] = width;
        cases.push(((parts, vec![7, 16, 16]), answer(1, 3, 0)));
    }
    cases
}
