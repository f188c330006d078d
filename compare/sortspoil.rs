//! Damage to sort tables: what 28 refuses, at the first, a middle and the last entry; arrays
//! missing, widths exchanged, of another array or of the first edition; and beside a bad
//! table what is refused before it.

use crate::check::at;
use crate::misfits::append;
use crate::operation::Lists;
use crate::random::Random;
use crate::rules::CEILING;
use crate::sorts::{ENTRY, FIRST};
use crate::tags::VAR;

const MAX: u64 = u64::MAX;

/// One damage to the table of a lowering, now and then beside another; or a read entry that
/// does not fit it.
pub fn spoil(random: &mut Random, lists: &mut Lists) {
    if random.once_in(8) {
        return misfit(random, lists);
    }
    table(random, &mut lists[at::SORTS]);
    match random.below(24) {
        0 => lists[at::SOURCE_BITS].push(2),
        1 => lists[at::TARGET_BITS].push(2),
        2 => lists[at::SOURCE].extend([MAX, 0, 0, 0, 0]),
        3 => lists[at::TARGET].push(0),
        4 => {
            let lent = at::lent(lists) + random.place(4);
            lists[lent].pop();
        }
        5 => drop(lists[at::MAP].pop()),
        6 | 7 => rename_read(random, lists),
        _ => {}
    }
}

/// Gives a read entry an array that another one lists, or one that none does.
fn rename_read(random: &mut Random, lists: &mut Lists) {
    let reads = lists[at::READS].len() / 3;
    let sorts = lists[at::SORTS].len() / ENTRY;
    if reads == 0 {
        return;
    }
    let any = random.word();
    let array = match sorts {
        0 => any,
        _ => lists[at::SORTS][ENTRY * random.place(sorts)],
    };
    let read = 3 * random.place(reads);
    lists[at::READS][read + 1] = random.pick(&[array, array, any]);
}

/// A read entry more, of a listed array, whose index and variable have other widths: the
/// array's own exchanged, those of another array or of the first edition, or near.
fn misfit(random: &mut Random, lists: &mut Lists) {
    let entries = lists[at::SORTS].chunks_exact(ENTRY);
    let sorts: Vec<[u64; 3]> = entries.filter_map(|entry| entry.try_into().ok()).collect();
    if sorts.is_empty() {
        return;
    }
    let [[array, index, cell], [_, other_index, other_cell]] =
        [random.pick(&sorts), random.pick(&sorts)];
    let [index, cell] = random.pick(&[
        [cell, index],
        [other_index, other_cell],
        [index, other_cell],
        FIRST,
        [index, cell.saturating_add(1)],
        [index.saturating_add(1), cell],
    ]);
    let first = append(lists, &[[VAR, index, 0, 0], [VAR, cell, 0, 0]]);
    let place = 3 * random.place(lists[at::READS].len() / 3 + 1);
    lists[at::READS].splice(place..place, [first + 1, array, first]);
}

/// One damage to a table, at its first, a middle or its last entry. Some leave it good.
pub fn table(random: &mut Random, table: &mut Vec<u64>) {
    let entries = table.len() / ENTRY;
    if entries == 0 || random.once_in(12) {
        return another(random, table);
    }
    let any = random.place(entries);
    let at = ENTRY * random.pick(&[0, entries / 2, entries - 1, any]);
    let other = ENTRY * random.place(entries);
    let field = at + 1 + random.place(2);
    let near = random.below(3);
    match random.below(16) {
        0 | 1 => table.truncate(table.len() - 1 - random.place(2)),
        2 => table.extend((0..1 + near / 2).map(|_| MAX)),
        3 => again(table, at),
        4 => table[at] = table[other],
        5 => (0..ENTRY).for_each(|k| table.swap(at + k, other + k)),
        6 | 7 => table[field] = 0,
        8 => drop(table.drain(at..at + ENTRY)),
        9 => table.swap(at + 1, at + 2),
        10 => table.copy_within(other + 1..other + ENTRY, at + 1),
        11 => table[at + 2] = random.pick(&[CEILING, CEILING + 1, CEILING + 1, 1 << 32, MAX]),
        12 => table[field] = random.pick(&[CEILING, CEILING + 1, 1 << 63, MAX]),
        13 => table[field] = (table[field] + near).saturating_sub(1),
        14 => table[at + 1..at + ENTRY].copy_from_slice(&FIRST),
        _ => table[at] = random.pick(&[0, table[at] ^ 1, table[at] ^ (1 << 63), MAX]),
    }
}

/// An entry once more, behind itself.
fn again(table: &mut Vec<u64>, at: usize) {
    let entry = table[at..at + ENTRY].to_vec();
    let end = at + ENTRY;
    table.splice(end..end, entry);
}

/// An entry more, in its order, before all or behind all, whole or cut; or no entry at all.
fn another(random: &mut Random, table: &mut Vec<u64>) {
    let array = random.pick(&[0, 3, 7, 9, 1 << 40, MAX]);
    let above = table.chunks(ENTRY).position(|entry| entry[0] > array);
    let order = ENTRY * above.unwrap_or(table.len() / ENTRY);
    let place = random.pick(&[order, order, order, 0, table.len()]);
    let widths = [16, 16, 1, 0, CEILING + 1, MAX];
    let entry = [array, random.pick(&widths), random.pick(&widths)];
    match random.below(8) {
        0 => table.clear(),
        1 => table.extend(&entry[..1 + random.place(2)]),
        _ => drop(table.splice(place..place, entry)),
    }
}
