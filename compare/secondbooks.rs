//! Books of the second edition for the fixed list, and first ones that stand near: lengths
//! about both tables of contents, first starts of either edition and of none, sections
//! that do not fit, bytes left over, and small lowerings with a sort table.

use crate::book::{self, Draft};
use crate::bookshape::{contents, FIRST, SECOND};
use crate::check::at;
use crate::marked::Parts;
use crate::operation::Lists;
use crate::sortparts::{lists, no_read, one_read, read_alone, OVER, SIXTEEN};

const MAX: u64 = u64::MAX;

/// Books for the verdict.
pub fn verdicts() -> Vec<Vec<u8>> {
    let mut books = misshapen();
    books.push(empty(SECOND).bytes());
    books.extend(small().iter().map(|lists| book::draft(lists).bytes()));
    books
}

/// Books for the strict verdict.
pub fn strict_verdicts() -> Vec<Vec<u8>> {
    let mut books: Vec<Vec<u8>> = misshapen().into_iter().step_by(6).collect();
    books.push(left_over(SECOND, 1));
    books.push(empty(SECOND).bytes());
    let rooted = rooted();
    let small = small().into_iter().step_by(3).chain(rooted);
    books.extend(small.map(|lists| book::draft(&lists).bytes()));
    books
}

/// Books with the number of a section that is asked for.
pub fn sections() -> Vec<(Vec<u8>, u64)> {
    let good = book::draft(&each_list()).bytes();
    let numbers = [0, 1, 2, 10, 11, 12, 13, MAX, (1 << 32) + 12];
    let mut asked: Vec<(Vec<u8>, u64)> = Vec::new();
    asked.extend(numbers.map(|number| (good.clone(), number)));
    // Section 12 where the shape is bad, of either edition and of none, then 24 before 20.
    let whole = [FIRST, SECOND].map(|sections| empty(sections).bytes());
    let bad = [
        vec![],
        whole[0][..contents(FIRST) - 1].to_vec(),
        left_over(FIRST, 1),
        left_over(SECOND, 8),
        with_start(FIRST, 184),
        whole[1][..contents(SECOND) - 1].to_vec(),
    ];
    asked.extend(bad.into_iter().map(|book| (book, 12)));
    asked.extend([13, 0].map(|number| (left_over(FIRST, 1), number)));
    asked.push((whole[0].clone(), 12));
    asked.push((whole[1].clone(), 12));
    asked
}

/// The book of so many empty bodies.
fn empty(sections: usize) -> Draft {
    book::draft(&vec![vec![]; sections])
}

fn left_over(sections: usize, bytes: usize) -> Vec<u8> {
    let mut draft = empty(sections);
    draft.bodies.extend(vec![0; bytes]);
    draft.bytes()
}

/// The book of empty bodies with another first start.
fn with_start(sections: usize, start: u64) -> Vec<u8> {
    let mut draft = empty(sections);
    draft.contents[0][0] = start;
    draft.bytes()
}

/// Inputs that are no books, or of the other edition than they seem to be.
fn misshapen() -> Vec<Vec<u8>> {
    let second = empty(SECOND).bytes();
    let mut books: Vec<Vec<u8>> = [175, 176, 183, 191]
        .map(|end| second[..end].to_vec())
        .into();
    books.extend([191, 193, 208, 192 + (1 << 32)].map(|start| with_start(SECOND, start)));
    books.push(with_start(SECOND, 176));
    books.push(with_start(FIRST, 192));
    for (section, word, to) in [
        (1, 0, 176),
        (10, 0, 193),
        (11, 0, 176),
        (0, 1, 8),
        (11, 1, 8),
        (11, 1, MAX - 7),
    ] {
        let mut draft = empty(SECOND);
        draft.contents[section][word] = to;
        books.push(draft.bytes());
    }
    let mut part_word = empty(SECOND);
    part_word.contents[at::SORTS][1] = 7;
    part_word.bodies = vec![0; 7];
    books.push(part_word.bytes());
    books.extend([1, 8, 16].map(|bytes| left_over(SECOND, bytes)));
    books.push(left_over(FIRST, 16));
    books
}

/// Each list of another length, bits that are no whole words.
fn each_list() -> Lists {
    let mut lists: Lists = (1..=SECOND as u64)
        .map(|k| (0..1 + k % 3).map(|word| 16 * k + word).collect())
        .collect();
    lists[at::SOURCE_BITS] = vec![1, 0, 1];
    lists[at::TARGET_BITS] = vec![0, 1, 1, 0, 1];
    lists
}

/// Those for short books: a read, no read, an array not listed, and bad tables, alone and
/// beside a bad bit; a read entry that nothing reaches, listed and not listed.
fn small() -> Vec<Lists> {
    let alone = || read_alone(SIXTEEN);
    let bad_bit = Parts {
        target_bits: vec![2],
        ..no_read()
    };
    let cases: [(Parts, &[u64]); 13] = [
        (one_read(SIXTEEN), &[7, 16, 16]),
        (no_read(), &[]),
        (no_read(), &[7, 16, OVER]),
        (one_read(SIXTEEN), &[7, 16, OVER]),
        (one_read(SIXTEEN), &[8, 16, 16]),
        (alone(), &[8, 16, 16]),
        (alone(), &[7, 16, 16]),
        (alone(), &[7, 16, 8]),
        (no_read(), &[7, 16]),
        (no_read(), &[7, 16, 16, 7, 16, 16]),
        (no_read(), &[0, 0, 1]),
        (no_read(), &[0, 1, 1, 1, 1, 0]),
        (bad_bit, &[7]),
    ];
    cases
        .map(|(parts, table)| lists(parts, table.to_vec()))
        .into()
}

/// The same with a root of 16 bits in either graph, beside a good table and a bad one.
fn rooted() -> Vec<Lists> {
    let [source, target] = [[vec![1], vec![2]], [vec![2], vec![1]]];
    let of = |[source_roots, target_roots]: [Vec<u64>; 2], table: &[u64]| {
        let parts = Parts {
            source_roots,
            target_roots,
            ..one_read(SIXTEEN)
        };
        lists(parts, table.to_vec())
    };
    vec![
        of(source.clone(), &[7, 16, 16]),
        of(target, &[7, 16, 16]),
        of(source, &[7, 0, 16]),
    ]
}
