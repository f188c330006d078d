//! Damage by numbers at the edges: a word of any field of any list, and stretches
//! whose start and length add up past 2^64.

use crate::check::at;
use crate::operation::{Kind, Lists};
use crate::random::Random;
use crate::rules::{CEILING, SOURCE, TARGET};
use crate::tags::*;

const MAX: u64 = u64::MAX;

/// Sets a word of some field, each field as often as any other, to an edge.
pub fn word(random: &mut Random, kinds: &[(&'static str, Kind)], lists: &mut Lists) {
    let mut fields: Vec<(usize, usize, usize)> = Vec::new();
    for (list, (_, kind)) in kinds.iter().enumerate() {
        let size = kind.fields();
        if size > 0 && lists[list].len() >= size {
            fields.extend((0..size).map(|field| (list, field, size)));
        }
    }
    if fields.is_empty() {
        return;
    }
    let (list, field, size) = random.pick(&fields);
    let words = &mut lists[list];
    let length = words.len() as u64;
    let place = random.place(words.len() / size) * size + field;
    words[place] = edge(random, words[place], length);
}

/// Near 2^64, 2^63, 2^32 or the ceiling; some equal the old word in their low
/// bits, some give a small sum with it.
fn edge(random: &mut Random, old: u64, length: u64) -> u64 {
    let small = random.below(4);
    match random.below(9) {
        0 | 1 => MAX - small,
        2 => (1 << 63) - 2 + small,
        3 => (1 << 32) - 2 + small,
        4 => CEILING - 1 + small,
        5 => old ^ (1 << 63),
        6 => old ^ (1 << 32),
        7 => small.wrapping_sub(old),
        _ => small.wrapping_sub(length),
    }
}

/// Where a start and a length stand, how many words one of the length takes,
/// and in which list.
type Stretch = (usize, usize, u64, usize);

/// Gives some stretch a start and a length that fit if their sum wraps.
pub fn stretch(random: &mut Random, lists: &mut Lists) {
    let mut all: Vec<Stretch> = Vec::new();
    for (row, words) in lists[at::SOURCE].chunks_exact(SOURCE.row).enumerate() {
        let start = row * SOURCE.row;
        match words[0] {
            CONST => all.push((at::SOURCE, start + 1, 1, at::SOURCE_BITS)),
            SELECT => all.push((at::SOURCE, start + 3, 2, at::SIDE)),
            CALL => all.push((at::SOURCE, start + 3, 1, at::SIDE)),
            _ => {}
        }
    }
    for (row, words) in lists[at::TARGET].chunks_exact(TARGET.row).enumerate() {
        if words[0] == CONST {
            all.push((at::TARGET, row * TARGET.row + 1, 1, at::TARGET_BITS));
        }
    }
    let calls = 0..lists[at::CALLS].len() / 4;
    all.extend(calls.map(|call| (at::CALLS, 4 * call + 2, 1, at::ARGUMENTS)));
    if all.is_empty() {
        return;
    }
    let (list, place, unit, of) = random.pick(&all);
    let [start, count] = wrapping(random, lists[of].len() as u64, unit);
    lists[list][place] = start;
    lists[list][place + 1] = count;
}

/// A start and a count with start + unit * count within the list, modulo 2^64,
/// or next to its end.
fn wrapping(random: &mut Random, length: u64, unit: u64) -> [u64; 2] {
    let end = random.below(length + 2);
    let near = random.below(4);
    match random.below(5) {
        0 => [MAX - near, (end + near) / unit + 1],
        1 => [near, end.wrapping_sub(near) / unit],
        2 => [near, (1 << 63) + end / unit],
        3 => [1 << 63, 1 << 63],
        _ => [length + near.min(1), 0],
    }
}
