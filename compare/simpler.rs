//! Lowerings that are simpler than a failing one: without a row of either graph, later
//! rows counted anew; without an entry of a table and its roots; or without both.

use crate::check::at;
use crate::operation::Lists;
use crate::rules::{SOURCE, TARGET};
use crate::tags::{names_row, BOOL_OR};

/// All of these.
pub fn each(lists: &Lists) -> Vec<Lists> {
    let count = |list: usize, size: usize| 0..lists[list].len() / size;
    let reads = count(at::READS, 3).map(|k| without_entry(lists, at::READS, 3 * k, 3));
    let calls = count(at::CALLS, 4).map(|k| without_entry(lists, at::CALLS, 4 * k, 4));
    let entries: Vec<Lists> = reads.chain(calls).collect();
    let mut simpler = entries.clone();
    for row in count(at::SOURCE, SOURCE.row) {
        simpler.push(without_source(lists, row));
        simpler.extend(entries.iter().map(|fewer| without_source(fewer, row)));
    }
    let targets = count(at::TARGET, TARGET.row).map(|row| without_target(lists, row));
    simpler.extend(targets);
    simpler
}

/// The lists without a stretch of one of them.
fn without(lists: &Lists, list: usize, start: usize, length: usize) -> Lists {
    let mut fewer = lists.clone();
    fewer[list].drain(start..start + length);
    fewer
}

/// The lists without an entry of a table and without the roots that say that
/// its variable equals another one.
fn without_entry(lists: &Lists, table: usize, start: usize, size: usize) -> Lists {
    let variable = lists[table][start];
    let row = |number: u64| {
        let start = usize::try_from(number).ok()?.checked_mul(TARGET.row)?;
        lists[at::TARGET].get(start..start.checked_add(TARGET.row)?)
    };
    let says = |root: u64| {
        let equal = row(root)
            .filter(|row| row[0] == BOOL_OR)
            .and_then(|or| row(or[2]));
        equal.is_some_and(|equal| equal[1..3].contains(&variable))
    };
    let mut fewer = without(lists, table, start, size);
    fewer[at::TARGET_ROOTS].retain(|&root| !says(root));
    fewer
}

/// The number of a row once an earlier one is dropped.
fn lowered(word: u64, dropped: usize) -> u64 {
    let counts = word > dropped as u64 && word < 1000;
    word - u64::from(counts)
}

fn lower(words: &mut [u64], dropped: usize) {
    words
        .iter_mut()
        .for_each(|word| *word = lowered(*word, dropped));
}

/// Lowers the operands in the rows of a graph.
fn lower_operands(rows: &mut [u64], size: usize, dropped: usize) {
    for row in rows.chunks_exact_mut(size) {
        let tag = row[0];
        for k in (1..size).filter(|&k| names_row(tag, k)) {
            row[k] = lowered(row[k], dropped);
        }
    }
}

/// The lists without a row of the source.
fn without_source(lists: &Lists, row: usize) -> Lists {
    let mut fewer = without(lists, at::SOURCE, row * SOURCE.row, SOURCE.row);
    lower_operands(&mut fewer[at::SOURCE], SOURCE.row, row);
    lower(&mut fewer[at::SIDE], row);
    lower(&mut fewer[at::SOURCE_ROOTS], row);
    if row < fewer[at::MAP].len() {
        fewer[at::MAP].remove(row);
    }
    fewer
}

/// The lists without a row of the target.
fn without_target(lists: &Lists, row: usize) -> Lists {
    let mut fewer = without(lists, at::TARGET, row * TARGET.row, TARGET.row);
    lower_operands(&mut fewer[at::TARGET], TARGET.row, row);
    for list in [at::MAP, at::ARGUMENTS, at::TARGET_ROOTS] {
        lower(&mut fewer[list], row);
    }
    for read in fewer[at::READS].chunks_mut(3) {
        read[0] = lowered(read[0], row);
        read.iter_mut()
            .skip(2)
            .for_each(|index| *index = lowered(*index, row));
    }
    for call in fewer[at::CALLS].chunks_mut(4) {
        call[0] = lowered(call[0], row);
    }
    fewer
}
