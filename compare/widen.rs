//! Damage that takes a row past the ceiling, by one or by much.

use crate::operation::{Kind, Lists};
use crate::random::Random;
use crate::rules::{self, CEILING};
use crate::tags::*;
use crate::wellformed;

const MAX: u64 = u64::MAX;

/// Widens a row of one of the graphs, if it is well formed and has such a row.
pub fn widen(random: &mut Random, kinds: &[(&'static str, Kind)], lists: &mut Lists) {
    let (place, graph) = random.pick(&rules::graphs(kinds));
    let Some(widths) = wellformed::widths(lists, place, graph.row) else {
        return;
    };
    let Some(row) = some_row(random, &lists[place], graph.row) else {
        return;
    };
    let (graphs, bits) = lists.split_at_mut(place + 1);
    let (before, words) = graphs[place].split_at_mut(row * graph.row);
    match words[0] {
        VAR => words[1] = above(random),
        CALL => words[2] = above(random),
        CONST => words[2] = constant(random, words[1], &mut bits[0]),
        CONCAT => concat(random, &mut words[1..3], before, &widths[..row]),
        _ => words[2] = amount(random, widths[words[1] as usize]),
    }
}

/// A row that can be wide; each tag of such rows counts the same.
fn some_row(random: &mut Random, words: &[u64], size: usize) -> Option<usize> {
    let rows = |tag: u64| -> Vec<usize> {
        let rows = words.chunks_exact(size).enumerate();
        let found = rows.filter(|(_, row)| row[0] == tag);
        found.map(|(number, _)| number).collect()
    };
    let mut some = WIDENING.map(rows).to_vec();
    some.retain(|rows| !rows.is_empty());
    if some.is_empty() {
        return None;
    }
    let tag = random.place(some.len());
    Some(random.pick(&some[tag]))
}

/// A width above the ceiling; some hold a good one in their low bits.
fn above(random: &mut Random) -> u64 {
    let small = random.below(8);
    match random.below(6) {
        0 | 1 => CEILING + 1,
        2 => CEILING + 1 + small,
        3 => (1 << (13 + random.below(51))) + 1 + small,
        4 => MAX - small,
        _ => random.pick(&[2 * CEILING, 1 << 32, 1 << 63, (1 << 63) - 1]),
    }
}

/// A constant's width, now and then with bits enough for it behind its start;
/// that is rare because they are so many.
fn constant(random: &mut Random, start: u64, bits: &mut Vec<u64>) -> u64 {
    if !random.once_in(8) {
        return above(random);
    }
    let width = CEILING + 1 + random.below(3);
    let end = (start + width) as usize;
    bits.resize(end.max(bits.len()), 1);
    width
}

/// Operands that are too wide together; where there are none, a variable that
/// is the first operand gets the width that makes the sum one too wide.
fn concat(random: &mut Random, operands: &mut [u64], before: &mut [u64], widths: &[u64]) {
    let a = random.place(widths.len());
    let wide: Vec<usize> = (0..widths.len())
        .filter(|&b| widths[a] + widths[b] > CEILING)
        .collect();
    if !wide.is_empty() {
        let b = random.pick(&wide);
        return operands.copy_from_slice(&[a as u64, b as u64]);
    }
    let size = before.len() / widths.len();
    let variable = &mut before[operands[0] as usize * size..][..2];
    if variable[0] == VAR && operands[0] != operands[1] {
        variable[1] = CEILING + 1 - widths[operands[1] as usize];
    }
}

/// The amount of an extension: to a width above the ceiling, or one with which
/// the sum wraps to a width below the old one.
fn amount(random: &mut Random, width: u64) -> u64 {
    if random.once_in(4) {
        return MAX - random.below(width);
    }
    above(random) - width
}
