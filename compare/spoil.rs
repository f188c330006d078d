//! One damage to the lists of a lowering: any of damage.rs, or one that leaves
//! the graphs well formed and is met further on.

use crate::callspoil;
use crate::check::at;
use crate::damage;
use crate::extremes;
use crate::misfits;
use crate::operation::{Kind, Lists};
use crate::random::Random;
use crate::rules::{SOURCE, TARGET};
use crate::sorts::{Edition, Shape, ENTRY, FIRST};
use crate::tags::*;
use crate::wellformed;
use crate::widen;

const MAX: u64 = u64::MAX;

/// Damages the lists once; some damages find nothing to change.
pub fn spoil(random: &mut Random, kinds: &[(&'static str, Kind)], lists: &mut Lists) {
    match random.below(26) {
        0 | 1 => damage::damage(random, kinds, lists),
        2 => bend_map(random, lists),
        3 => alias(random, lists),
        4 => bend_table(random, lists, at::READS, 3),
        5 => bend_table(random, lists, at::CALLS, 4),
        6 => dead_entry(random, lists),
        7 => bend_roots(random, lists),
        8 => bend_source_roots(random, lists),
        9 | 10 => other_operand(random, lists, at::TARGET, TARGET.row),
        11 => other_operand(random, lists, at::SOURCE, SOURCE.row),
        12 => swap_operands(random, lists),
        13 => other_tag(random, lists),
        14 => bend_side(random, lists),
        15 | 16 => extremes::word(random, kinds, lists),
        17 => extremes::stretch(random, lists),
        18 => misfits::again(random, lists),
        19 => misfits::surplus_root(random, lists),
        20 => misfits::nest_right(random, lists),
        21 => bend_constant(random, lists),
        22..=24 => callspoil::spoil(random, lists),
        _ => widen::widen(random, kinds, lists),
    }
}

fn rows(lists: &Lists, graph: usize) -> usize {
    let row = if graph == at::SOURCE {
        SOURCE.row
    } else {
        TARGET.row
    };
    lists[graph].len() / row
}

/// A number of a target row, of the end or of no row.
fn any_target(random: &mut Random, lists: &Lists) -> u64 {
    let rows = rows(lists, at::TARGET);
    let row = random.place(rows + 1) as u64;
    random.pick(&[row, row, row, row, rows as u64, MAX, MAX - 1])
}

/// A map word lost, moved to another row, or exchanged; or the map's length.
fn bend_map(random: &mut Random, lists: &mut Lists) {
    let other = any_target(random, lists);
    let map = &mut lists[at::MAP];
    if map.is_empty() || random.once_in(8) {
        if random.once_in(2) {
            map.pop();
        } else {
            map.push(other);
        }
        return;
    }
    let [a, b] = [random.place(map.len()), random.place(map.len())];
    match random.below(5) {
        0 => map[a] = MAX,
        1 => map.swap(a, b),
        2 => map[a] = map[b],
        _ => map[a] = other,
    }
}

/// A variable of the source mapped to the image of another one, or to a
/// variable of a table, of its width if there is one.
fn alias(random: &mut Random, lists: &mut Lists) {
    let source: Vec<&[u64]> = lists[at::SOURCE].chunks_exact(SOURCE.row).collect();
    let variables: Vec<usize> = (0..source.len().min(lists[at::MAP].len()))
        .filter(|&row| source[row][0] == VAR)
        .collect();
    let Some(row) = some(random, &variables) else {
        return;
    };
    let target = lists[at::TARGET].chunks_exact(TARGET.row);
    let alike: Vec<u64> = (0..)
        .zip(target)
        .filter(|(_, words)| words[..2] == source[row][..2])
        .map(|(number, _)| number)
        .collect();
    if let Some(image) = some(random, &alike) {
        lists[at::MAP][row] = image;
    }
}

fn some<T: Copy>(random: &mut Random, from: &[T]) -> Option<T> {
    (!from.is_empty()).then(|| random.pick(from))
}

/// A table cut or grown; an entry dropped, repeated, exchanged with another, or
/// with one word changed.
fn bend_table(random: &mut Random, lists: &mut Lists, table: usize, size: usize) {
    let other = any_target(random, lists);
    let near = random.below(4);
    let list = &mut lists[table];
    let entries = list.len() / size;
    if entries == 0 {
        return list.extend((0..size).map(|_| other.wrapping_sub(near)));
    }
    let [a, b] = [random.place(entries) * size, random.place(entries) * size];
    let word = a + random.place(size);
    match random.below(9) {
        0 => list.truncate(list.len() - 1 - random.place(size - 1)),
        1 => list.push(other),
        2 => {
            list.drain(a..a + size);
        }
        3 => list.extend_from_within(a..a + size),
        4 => (0..size).for_each(|k| list.swap(a + k, b + k)),
        5 => list[a] = list[b],
        6 => list[word] = list[word].wrapping_add(near).wrapping_sub(2),
        7 => list[b + 1] = list[a + 1],
        _ => list[word] = other,
    }
}

/// A new variable with an entry that no row reaches, in one of the tables. In a second
/// edition the array of a read is listed, if one is.
fn dead_entry(random: &mut Random, lists: &mut Lists) {
    let indices: Vec<u64> = lists[at::READS]
        .chunks_exact(3)
        .map(|read| read[2])
        .collect();
    let (array, [index_width, cell]) = some_array(random, lists);
    let variable = misfits::append(lists, &[[VAR, cell, 0, 0]]);
    if random.once_in(2) {
        let start = lists[at::ARGUMENTS].len() as u64;
        let count = random.below(2).min(start);
        lists[at::CALLS].extend([variable, 9, start - count, count]);
    } else if let Some(index) = some(random, &indices) {
        lists[at::READS].extend([variable, array, index]);
    } else {
        let index = misfits::append(lists, &[[VAR, index_width, 0, 0]]);
        lists[at::READS].extend([variable, array, index]);
    }
}

/// An array that a dead entry can name, with its shape.
fn some_array(random: &mut Random, lists: &Lists) -> (u64, Shape) {
    let listed: Vec<(u64, Shape)> = match Edition::of(lists) {
        Edition::First => Vec::new(),
        Edition::Second(table) => {
            let entries = table.chunks_exact(ENTRY);
            entries
                .map(|entry| (entry[0], [entry[1], entry[2]]))
                .collect()
        }
    };
    some(random, &listed).unwrap_or((8, FIRST))
}

/// A target root dropped, doubled, exchanged, changed or added.
fn bend_roots(random: &mut Random, lists: &mut Lists) {
    let other = any_target(random, lists);
    let list = &mut lists[at::TARGET_ROOTS];
    if list.is_empty() {
        return list.push(other);
    }
    let [a, b] = [random.place(list.len()), random.place(list.len())];
    match random.below(6) {
        0 => {
            list.remove(a);
        }
        1 => list.insert(a, list[b]),
        2 => list.swap(a, b),
        3 => list[a] = other,
        4 => list.push(list[a]),
        _ => {
            list.pop();
        }
    }
}

/// A source root dropped, added or changed, to no row perhaps, and the target
/// root there with it.
fn bend_source_roots(random: &mut Random, lists: &mut Lists) {
    let rows = rows(lists, at::SOURCE) as u64;
    let row = random.below(rows + 1);
    let other = random.pick(&[row, row, rows, rows + 1, MAX]);
    let list = &mut lists[at::SOURCE_ROOTS];
    let place = random.place(list.len() + 1);
    match random.below(4) {
        0 => list.insert(place, other),
        1 if place < list.len() => {
            list.remove(place);
        }
        _ if place < list.len() => {
            list[place] = other;
            if let (Some(root), true) = (lists[at::TARGET_ROOTS].get_mut(place), random.once_in(3))
            {
                *root = MAX;
            }
        }
        _ => list.push(other),
    }
}

/// A row before `end` of the same width as this one.
fn alike(random: &mut Random, widths: &[u64], row: u64, end: usize) -> Option<u64> {
    let width = *widths.get(row as usize)?;
    let rows: Vec<u64> = (0..end as u64)
        .filter(|&other| other != row && widths[other as usize] == width)
        .collect();
    some(random, &rows)
}

/// An operand replaced by another row of its width.
fn other_operand(random: &mut Random, lists: &mut Lists, graph: usize, size: usize) {
    let widths = wellformed::widths(lists, graph, size);
    let Some(widths) = widths.filter(|widths| !widths.is_empty()) else {
        return;
    };
    for _ in 0..8 {
        let row = random.place(widths.len());
        let field = 1 + random.place(size - 1);
        let word = row * size + field;
        let tag = lists[graph][row * size];
        if tag < TAGS.len() as u64 && field <= TAGS[tag as usize].1 && names_row(tag, field) {
            if let Some(other) = alike(random, &widths, lists[graph][word], row) {
                lists[graph][word] = other;
                return;
            }
        }
    }
}

/// Two operands exchanged, in a row of either graph.
fn swap_operands(random: &mut Random, lists: &mut Lists) {
    let graph = random.pick(&[at::TARGET, at::TARGET, at::TARGET, at::SOURCE]);
    let size = if graph == at::SOURCE {
        SOURCE.row
    } else {
        TARGET.row
    };
    let two = |row: &&mut [u64]| {
        (ADD..=SREM).contains(&row[0]) && TAGS[row[0] as usize].1 > 1 && row[1] != row[2]
    };
    let mut rows: Vec<&mut [u64]> = lists[graph].chunks_exact_mut(size).filter(two).collect();
    if !rows.is_empty() {
        let row = random.place(rows.len());
        let first = if rows[row][0] == ITE { 2 } else { 1 };
        rows[row].swap(first, first + 1);
    }
}

/// Another tag of the same shape, in a row of either graph.
fn other_tag(random: &mut Random, lists: &mut Lists) {
    let graph = random.pick(&[at::TARGET, at::TARGET, at::SOURCE]);
    let size = if graph == at::SOURCE {
        SOURCE.row
    } else {
        TARGET.row
    };
    let others: [&[u64]; 6] = [
        &[ADD, 3, MUL, UDIV, UREM, AND, XOR, SHL, ROTR, ROTL, SREM],
        &[EQ, NE, ULT, UGE, SLT, SGE],
        &[BOOL_AND, BOOL_OR, EQ, AND],
        &[NOT, BV_NOT],
        &[BV_NOT, NEG],
        &[ZERO_EXT, SIGN_EXT],
    ];
    let group = random.pick(&others);
    let fits = |row: &&mut [u64]| group.contains(&row[0]);
    let mut rows: Vec<&mut [u64]> = lists[graph].chunks_exact_mut(size).filter(fits).collect();
    if !rows.is_empty() {
        let row = random.place(rows.len());
        rows[row][0] = random.pick(group);
    }
}

/// A word of the side list or of the argument list replaced by another row of
/// its width, by any row or by a word near it; or two words exchanged.
fn bend_side(random: &mut Random, lists: &mut Lists) {
    let (graph, size, list) = random.pick(&[
        (at::SOURCE, SOURCE.row, at::SIDE),
        (at::TARGET, TARGET.row, at::ARGUMENTS),
    ]);
    let rows = lists[graph].len() / size;
    let widths = wellformed::widths(lists, graph, size).unwrap_or_default();
    if lists[list].is_empty() {
        return;
    }
    let [a, b] = [
        random.place(lists[list].len()),
        random.place(lists[list].len()),
    ];
    match random.below(6) {
        0 => lists[list][a] = random.below(rows as u64 + 2),
        1 => lists[list].swap(a, b),
        2 => {
            lists[list].pop();
        }
        _ => {
            if let Some(other) = alike(random, &widths, lists[list][a], widths.len()) {
                lists[list][a] = other;
            }
        }
    }
}

/// A bit turned, or a constant's start moved, in either graph.
fn bend_constant(random: &mut Random, lists: &mut Lists) {
    let graph = random.pick(&[at::TARGET, at::TARGET, at::SOURCE]);
    let size = if graph == at::SOURCE {
        SOURCE.row
    } else {
        TARGET.row
    };
    if random.once_in(2) {
        let bits = &mut lists[graph + 1];
        if !bits.is_empty() {
            let bit = random.place(bits.len());
            bits[bit] ^= 1;
        }
        return;
    }
    let constant = |row: &&mut [u64]| row[0] == CONST;
    let mut rows: Vec<&mut [u64]> = lists[graph]
        .chunks_exact_mut(size)
        .filter(constant)
        .collect();
    if !rows.is_empty() {
        let row = random.place(rows.len());
        let field = random.pick(&[1, 1, 2]);
        rows[row][field] = rows[row][field]
            .wrapping_add(random.below(3))
            .wrapping_sub(1);
    }
}
