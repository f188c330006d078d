//! One damage to the lists of a case: a word of a row or of another list, a
//! bit byte, a row moved or dropped, or a length.

use crate::operation::{Kind, Lists};
use crate::random::Random;
use crate::rules::CEILING;

/// Damages one list, the graphs more often than the others.
pub fn damage(random: &mut Random, kinds: &[(&'static str, Kind)], lists: &mut Lists) {
    let weight = |kind: Kind| if matches!(kind, Kind::Rows(_)) { 4 } else { 1 };
    let total = kinds.iter().map(|&(_, kind)| weight(kind)).sum();
    let mut ticket = random.below(total);
    for (place, &(_, kind)) in kinds.iter().enumerate() {
        if ticket < weight(kind) {
            return damage_list(random, kinds, lists, place);
        }
        ticket -= weight(kind);
    }
}

fn damage_list(
    random: &mut Random,
    kinds: &[(&'static str, Kind)],
    lists: &mut Lists,
    place: usize,
) {
    // Positions worth naming: rows and words of the lists.
    let ends: Vec<u64> = lists
        .iter()
        .zip(kinds)
        .map(|(list, &(_, kind))| end(list, kind))
        .collect();
    let list = &mut lists[place];
    match kinds[place].1 {
        Kind::Rows(row) => damage_rows(random, list, row, &ends),
        Kind::Bits => damage_bits(random, list),
        Kind::Given(_) | Kind::Entries(_) | Kind::Sorts | Kind::Words => {
            damage_words(random, list, &ends)
        }
        Kind::Lent(of) => relend(random, list, ends[of] as usize),
    }
}

/// The number of rows, or of words, in a list.
fn end(list: &[u64], kind: Kind) -> u64 {
    match kind {
        Kind::Rows(row) => (list.len() / row) as u64,
        _ => list.len() as u64,
    }
}

/// A word at an edge: of numbers, of widths, of tags, of a list, of the row
/// `at` that it stands in, or next to the old word.
fn edge(random: &mut Random, old: u64, at: u64, ends: &[u64]) -> u64 {
    let max = u64::MAX;
    let near = random.below(3);
    match random.below(9) {
        0 => random.pick(&[0, 1, 2]),
        1 => random.pick(&[1 << 63, (1 << 63) - 1, 1 << 32, max, max, max - 1]),
        2 => random.pick(ends).wrapping_add(near).wrapping_sub(1),
        3 => at.wrapping_add(near).wrapping_sub(1),
        4 => old.wrapping_add(1),
        5 => old.wrapping_sub(1),
        6 => old ^ (1 << random.below(64)),
        7 => random.pick(&[1, 8, 32, CEILING, CEILING + 1]),
        _ => random.below(42),
    }
}

fn damage_rows(random: &mut Random, list: &mut Vec<u64>, row: usize, ends: &[u64]) {
    let rows = list.len() / row;
    match random.below(12) {
        0 => resize(random, list, ends),
        1 if rows > 1 => {
            let (a, b) = (random.place(rows), random.place(rows));
            (0..row).for_each(|k| list.swap(a * row + k, b * row + k));
        }
        2 if rows > 0 => {
            let a = random.place(rows);
            list.drain(a * row..(a + 1) * row);
        }
        _ if rows > 0 => {
            let at = random.place(rows);
            let word = at * row + random.place(row);
            list[word] = edge(random, list[word], at as u64, ends);
        }
        _ => resize(random, list, ends),
    }
}

fn damage_words(random: &mut Random, list: &mut Vec<u64>, ends: &[u64]) {
    if list.is_empty() || random.once_in(4) {
        return resize(random, list, ends);
    }
    let word = random.place(list.len());
    list[word] = edge(random, list[word], word as u64, ends);
}

fn damage_bits(random: &mut Random, list: &mut Vec<u64>) {
    match random.below(5) {
        0 => {
            list.pop();
        }
        1 => list.push(random.pick(&[0, 1, 2, 255])),
        _ if !list.is_empty() => {
            let byte = random.place(list.len());
            list[byte] = random.pick(&[0, 1, 2, 2, 3, 128, 254, 255]);
        }
        _ => list.push(random.pick(&[2, 128])),
    }
}

/// Cuts or grows a list by one to four words.
fn resize(random: &mut Random, list: &mut Vec<u64>, ends: &[u64]) {
    let by = 1 + random.place(4);
    if random.once_in(2) {
        return list.truncate(list.len().saturating_sub(by));
    }
    for _ in 0..by {
        let word = if random.once_in(2) {
            0
        } else {
            edge(random, 0, 0, ends)
        };
        list.push(word);
    }
}

/// Lends a list of another length, mostly close to its graph's rows.
fn relend(random: &mut Random, list: &mut Vec<u64>, rows: usize) {
    let short = rows.saturating_sub(1);
    let length = random.pick(&[0, rows / 2, short, short, short, rows, rows + 1, rows + 9]);
    *list = random.junk(length);
}
