//! Sort tables with the answers that the scope gives: each cause of 28, at each entry, and its
//! order among the other refusals.

use crate::check::at;
use crate::operation::Lists;
use crate::ours::Answer;
use crate::rules::{answer, ACCEPTED};
use crate::sortparts::{lists, one_read, OVER, SIXTEEN};
use crate::sorts::ENTRY;
use crate::tags::SELECT;

/// A case with its answer.
type Case = (Lists, Answer);

/// A read of array 7 at 16 and 16, with this table.
pub fn with_table(table: Vec<u64>) -> Lists {
    lists(one_read(SIXTEEN), table)
}

/// Tables that 28 refuses, and some that stand near them.
pub fn tables() -> Vec<(Vec<u64>, Answer)> {
    let good = [[7, 16, 16], [9, 8, 8], [11, 4, 4]];
    let table = |change: &dyn Fn(&mut Vec<u64>)| {
        let mut table = good.concat();
        change(&mut table);
        table
    };
    let bad = |entry: u64| answer(28, entry, 0);
    let mut tables = vec![
        (table(&|_| ()), ACCEPTED),
        (vec![7], bad(0)),
        (vec![7, 16], bad(0)),
        (vec![0, 0, 0], bad(0)),
        (table(&|t| t.truncate(8)), bad(2)),
        (table(&|t| t.truncate(7)), bad(2)),
        (table(&|t| t.truncate(4)), bad(1)),
        (table(&|t| t.push(12)), bad(3)),
        (table(&|t| t.extend([11, 0])), bad(3)),
        (table(&|t| t.swap(3, 6)), bad(2)),
        (table(&|t| t.swap(0, 3)), bad(1)),
        (table(&|t| t.rotate_left(ENTRY)), bad(2)),
    ];
    for entry in 0..3 {
        let at = ENTRY * entry;
        let place = entry as u64;
        tables.push((table(&|t| t[at + 1] = 0), bad(place)));
        tables.push((table(&|t| t[at + 2] = 0), bad(place)));
        if entry > 0 {
            tables.push((table(&|t| t[at] = t[at - ENTRY]), bad(place)));
            tables.push((table(&|t| t[at] = t[at - ENTRY] - 1), bad(place)));
        }
    }
    // Several at once: the first counts.
    tables.push((table(&|t| (t[4], t[8]) = (0, 0)), bad(1)));
    tables.push((table(&|t| (t[5], t[6]) = (0, 9)), bad(1)));
    tables.push((table(&|t| (t[3], t[4]) = (7, 0)), bad(1)));
    tables.push((table(&|t| t.truncate(5)), bad(1)));
    tables.push((
        table(&|t| {
            t[1] = 0;
            t.truncate(7);
        }),
        bad(0),
    ));
    tables
}

/// What comes before 28, beside a bad table: 15, 18, 16 and 17, of either graph.
pub fn before() -> Vec<Case> {
    let changes: [(fn(&mut Lists), Answer); 11] = [
        (|of| of[at::SOURCE].push(0), answer(15, 1, 0)),
        (|of| of[at::TARGET].push(0), answer(15, 2, 0)),
        (|of| of[at::SORTS + 1].truncate(2), answer(18, 1, 0)),
        (|of| of[at::SORTS + 2].truncate(2), answer(18, 2, 0)),
        (|of| of[at::SORTS + 3].truncate(2), answer(18, 3, 0)),
        (|of| of[at::SORTS + 4].clear(), answer(18, 4, 0)),
        (|of| of[at::SOURCE][2] = 1, answer(16, 0, 1)),
        (|of| of[at::TARGET][0] = SELECT, answer(16, 0, 2)),
        (|of| of[at::SOURCE_BITS].push(2), answer(17, 0, 1)),
        (|of| of[at::TARGET_BITS].push(2), answer(17, 0, 2)),
        (
            |of| {
                of[at::TARGET_BITS].extend([1, 255]);
                of[at::SOURCE][1] = 0;
            },
            answer(17, 1, 2),
        ),
    ];
    let bad: [&[u64]; 2] = [&[7, 16], &[7, 0, 16]];
    let case = |(change, first): (fn(&mut Lists), Answer)| {
        bad.map(|table| {
            let mut lists = with_table(table.to_vec());
            change(&mut lists);
            (lists, first)
        })
    };
    changes.into_iter().flat_map(case).collect()
}

/// What comes behind 28: 1, 2, 19 in the strict check, 3, 5 and 12. Beside a bad table it is
/// 28, beside a good one that number.
pub fn behind(strict: bool) -> Vec<Case> {
    let wide_root = match strict {
        false => answer(12, 0, 0),
        true => answer(19, 0, 1),
    };
    let changes: [(fn(&mut Lists), Answer); 7] = [
        (|of| of[at::SOURCE][1] = 0, answer(1, 0, 0)),
        (|of| of[at::SOURCE][1] = OVER, answer(1, 0, 0)),
        (|of| of[at::TARGET][1] = OVER, answer(2, 0, 0)),
        (|of| of[at::SOURCE_ROOTS][0] = 1, wide_root),
        (|of| of[at::MAP].truncate(2), answer(3, 3, 2)),
        (|of| of[at::READS].truncate(2), answer(5, 0, 0)),
        (|of| of[at::TARGET_ROOTS].clear(), answer(12, 0, 0)),
    ];
    let tables: [(&[u64], Option<Answer>); 3] = [
        (&[7, 16, 16], None),
        (&[7, 16, 16, 8, 0, 1], Some(answer(28, 1, 0))),
        (&[7, 16, 16, 7, 16, 16], Some(answer(28, 1, 0))),
    ];
    let case = |(change, later): (fn(&mut Lists), Answer)| {
        tables.map(|(table, first)| {
            let mut lists = with_table(table.to_vec());
            change(&mut lists);
            (lists, first.unwrap_or(later))
        })
    };
    changes.into_iter().flat_map(case).collect()
}
