//! Damage to tables and congruence roots that leaves both graphs well formed:
//! the rows it needs are put behind the target's.

use crate::check::at;
use crate::operation::Lists;
use crate::random::Random;
use crate::rules::TARGET;
use crate::sorts::{Edition, FIRST};
use crate::tags::*;

/// Puts rows behind the target's and as many words behind its lent lists; the
/// number of the first.
pub fn append(lists: &mut Lists, rows: &[[u64; 4]]) -> u64 {
    let first = lists[at::TARGET].len() / TARGET.row;
    lists[at::TARGET].extend(rows.concat());
    let lent = at::lent(lists);
    for list in &mut lists[lent + 1..] {
        list.extend(rows.iter().map(|_| 1));
    }
    first as u64
}

fn some_entry(random: &mut Random, table: &[u64], size: usize) -> Option<Vec<u64>> {
    let entries = table.len() / size;
    (entries > 0).then(|| table[random.place(entries) * size..][..size].to_vec())
}

/// The words of a target row, if there is one of this number.
pub fn target_row(lists: &Lists, row: u64) -> Option<[u64; 4]> {
    let start = usize::try_from(row).ok()?.checked_mul(TARGET.row)?;
    let words = lists[at::TARGET].get(start..start.checked_add(TARGET.row)?)?;
    words.try_into().ok()
}

/// The key of an entry once more: for a new variable, a call's arguments where
/// they were or written again, or as a call's entry of a read's variable.
pub fn again(random: &mut Random, lists: &mut Lists) {
    let read = some_entry(random, &lists[at::READS], 3);
    let call = some_entry(random, &lists[at::CALLS], 4);
    match (random.below(4), read, call) {
        (0, Some(read), _) => {
            let shape = Edition::of(lists).shape(read[1]);
            let [_, cell] = shape.unwrap_or(FIRST);
            let variable = append(lists, &[[VAR, cell, 0, 0]]);
            lists[at::READS].extend([variable, read[1], read[2]]);
        }
        (1, Some(read), _) => lists[at::CALLS].extend([read[0], 3, 0, 0]),
        (_, _, Some(call)) => {
            let width = target_row(lists, call[0]).map_or(8, |row| row[1]);
            let variable = append(lists, &[[VAR, width, 0, 0]]);
            let arguments = &mut lists[at::ARGUMENTS];
            let end = arguments.len();
            let [start, count] =
                [call[2], call[3]].map(|word| usize::try_from(word).unwrap_or(end));
            let copied = start <= end && count <= end - start && random.once_in(2);
            if copied {
                arguments.extend_from_within(start..start + count);
            }
            let start = if copied { end as u64 } else { call[2] };
            lists[at::CALLS].extend([variable, call[1], start, call[3]]);
        }
        _ => {}
    }
}

/// A congruence root of a pair of reads, due or not, put somewhere behind the
/// leading roots; or the pair the other way round.
pub fn surplus_root(random: &mut Random, lists: &mut Lists) {
    let reads = lists[at::READS].len() / 3;
    if reads < 2 {
        return;
    }
    let [p, q] = [random.place(reads), random.place(reads)].map(|k| 3 * k);
    let word = |place: usize| lists[at::READS][place];
    let [v, i, w, j] = [word(p), word(p + 2), word(q), word(q + 2)];
    let first = (lists[at::TARGET].len() / TARGET.row) as u64;
    let rows = [
        [EQ, i, j, 0],
        [NOT, first, 0, 0],
        [EQ, v, w, 0],
        [BOOL_OR, first + 1, first + 2, 0],
    ];
    append(lists, &rows);
    let lead = lists[at::SOURCE_ROOTS].len();
    let roots = &mut lists[at::TARGET_ROOTS];
    if roots.len() < lead {
        return;
    }
    let place = lead + random.place(roots.len() - lead + 1);
    if place < roots.len() && random.once_in(2) {
        roots[place] = first + 3;
    } else {
        roots.insert(place, first + 3);
    }
}

/// A congruence root whose BoolAnd is nested to the right.
pub fn nest_right(random: &mut Random, lists: &mut Lists) {
    let nested = |place: usize| {
        let or =
            target_row(lists, lists[at::TARGET_ROOTS][place]).filter(|row| row[0] == BOOL_OR)?;
        let not = target_row(lists, or[1]).filter(|row| row[0] == NOT)?;
        let outer = target_row(lists, not[1]).filter(|row| row[0] == BOOL_AND)?;
        let inner = target_row(lists, outer[1]).filter(|row| row[0] == BOOL_AND)?;
        Some((place, [inner[1], inner[2], outer[2], or[2]]))
    };
    let found: Vec<(usize, [u64; 4])> = (0..lists[at::TARGET_ROOTS].len())
        .filter_map(nested)
        .collect();
    if found.is_empty() {
        return;
    }
    let (place, [a, b, c, equal]) = random.pick(&found);
    let first = (lists[at::TARGET].len() / TARGET.row) as u64;
    let rows = [
        [BOOL_AND, b, c, 0],
        [BOOL_AND, a, first, 0],
        [NOT, first + 1, 0, 0],
        [BOOL_OR, first + 2, equal, 0],
    ];
    append(lists, &rows);
    lists[at::TARGET_ROOTS][place] = first + 3;
}
