//! Tiny graphs, all of them: one row over no, one or two variables, its fields
//! taken from a few edge values in every combination; likewise over variables
//! near the ceiling, and Selects with every small sort table. Also tiny root lists.
//! grid.rs has the operators on all operands of small widths.

use crate::operation::{Kind, Lists, Operation};
use crate::roots::ROOTS;
use crate::rules::{Graph, CEILING, SOURCE, TARGET};
use crate::sortedwidths::SOURCE_WIDTHS_WITH_SORTS;
use crate::tags::*;
use crate::values::VALUES;
use crate::widths::{SOURCE_WIDTHS, TARGET_WIDTHS};

const MAX: u64 = u64::MAX;
const TOP: u64 = CEILING;

/// What is done with each case; false stops the walk.
pub type Visit<'v> = dyn FnMut(&'static dyn Operation, &Lists) -> bool + 'v;

/// Visits every tiny case; false when the visitor stopped it.
pub fn each(visit: &mut Visit) -> bool {
    graphs(SOURCE, &SOURCE_WIDTHS, visit)
        && graphs(TARGET, &TARGET_WIDTHS, visit)
        && graphs(TARGET, &VALUES, visit)
        && roots(visit)
        && sorted(visit)
}

/// Every list of exactly `length` words taken from `words`.
fn lists_of(length: usize, words: &[u64]) -> Vec<Vec<u64>> {
    let mut all = vec![Vec::new()];
    for _ in 0..length {
        let longer = |list: &Vec<u64>| {
            let list = list.clone();
            words
                .iter()
                .map(move |&word| [list.clone(), vec![word]].concat())
        };
        all = all.iter().flat_map(longer).collect();
    }
    all
}

/// Every list of at most `length` words taken from `words`.
fn lists_up_to(length: usize, words: &[u64]) -> Vec<Vec<u64>> {
    (0..=length).flat_map(|n| lists_of(n, words)).collect()
}

/// The edge values, those of widths last.
const EDGES: [u64; 12] = [0, 1, 2, 3, 7, 8, 32, MAX - 1, MAX, TOP - 1, TOP, TOP + 1];

/// The edge values that a tag's fields take.
fn edges(tag: u64) -> &'static [u64] {
    match tag {
        VAR | ZERO_EXT | SIGN_EXT => &EDGES,
        _ => &EDGES[..9],
    }
}

/// The last row's tag and fields in every combination. A used field takes the
/// edge values; the unused ones are 0, and once each 1 or MAX.
fn last_rows(graph: Graph) -> Vec<Vec<u64>> {
    let mut rows = Vec::new();
    for tag in 0..graph.tags.min(SELECT) {
        let used = TAGS[tag as usize].1;
        for fields in lists_of(used, edges(tag)) {
            rows.push(padded(tag, &fields, graph));
        }
        for (unused, word) in (used + 1..graph.row).flat_map(|k| [(k, 1), (k, MAX)]) {
            let mut row = padded(tag, &vec![0; used], graph);
            row[unused] = word;
            rows.push(row);
        }
    }
    for tag in [37, 38, 39, 255, 1 << 32, 1 << 63, MAX] {
        if tag >= graph.tags {
            rows.push(padded(tag, &[], graph));
        }
    }
    rows
}

fn padded(tag: u64, fields: &[u64], graph: Graph) -> Vec<u64> {
    let mut row = [&[tag], fields].concat();
    row.resize(graph.row, 0);
    row
}

/// Last rows over variables near the ceiling: those that add to their widths,
/// and Extracts.
fn high_rows(graph: Graph) -> Vec<Vec<u64>> {
    let amounts = [0, 1, 2, TOP - 1, TOP, TOP + 1, MAX - TOP, MAX - 1, MAX];
    let mut rows = Vec::new();
    for operand in [0, 1] {
        rows.extend([0, 1].map(|other| padded(CONCAT, &[operand, other], graph)));
        for tag in [ZERO_EXT, SIGN_EXT] {
            rows.extend(amounts.map(|by| padded(tag, &[operand, by], graph)));
        }
    }
    for ends in lists_of(2, &[0, TOP - 1, TOP]) {
        rows.push(padded(EXTRACT, &[ends[0], ends[1], 0], graph));
    }
    rows
}

/// Select and Call rows: first field 3, the others in every combination.
fn chain_rows() -> Vec<Vec<u64>> {
    let seconds = [[0, 1, 2, 32, MAX], [0, 1, TOP, TOP + 1, MAX]];
    let mut rows = Vec::new();
    for (tag, seconds) in [SELECT, CALL].into_iter().zip(seconds) {
        for second in seconds {
            for ends in lists_of(2, &[0, 1, 2, 3, MAX]) {
                rows.push(vec![tag, 3, second, ends[0], ends[1]]);
            }
        }
    }
    rows
}

fn graphs(graph: Graph, operation: &'static dyn Operation, visit: &mut Visit) -> bool {
    let low = vec![1, 8, 32];
    let high = vec![1, TOP / 2, TOP / 2 + 1, TOP - 1, TOP];
    let mut families = vec![
        (low.clone(), last_rows(graph), vec![vec![]]),
        (high, high_rows(graph), vec![vec![]]),
    ];
    if graph.tags > SELECT {
        families.push((low, chain_rows(), lists_up_to(3, &[0, 1, MAX])));
    }
    let mut all = families.iter();
    all.all(|(widths, last, sides)| over(widths, last, sides, graph, operation, visit))
}

/// Each of these rows over no, one or two variables of these widths, with each
/// of these side lists; a Const over up to three bits.
fn over(
    widths: &[u64],
    last: &[Vec<u64>],
    sides: &[Vec<u64>],
    graph: Graph,
    operation: &'static dyn Operation,
    visit: &mut Visit,
) -> bool {
    for earlier in lists_up_to(2, widths) {
        let before = earlier.iter().flat_map(|&w| padded(VAR, &[w], graph));
        let before: Vec<u64> = before.collect();
        for (row, side) in last.iter().flat_map(|r| sides.iter().map(move |s| (r, s))) {
            let most = if row[0] == CONST { 3 } else { 0 };
            for bits in 0..=most {
                let rows = [&before[..], row].concat();
                if !one(graph, operation, rows, vec![1; bits], side, visit) {
                    return false;
                }
            }
        }
    }
    true
}

fn one(
    graph: Graph,
    operation: &'static dyn Operation,
    rows: Vec<u64>,
    bits: Vec<u64>,
    side: &[u64],
    visit: &mut Visit,
) -> bool {
    let count = rows.len() / graph.row;
    let mut lists = vec![rows, bits];
    for &(_, kind) in &operation.lists()[2..] {
        lists.push(match kind {
            Kind::Given(_) => vec![1; count],
            Kind::Lent(_) => vec![0xa5a5; count + 1],
            _ => side.to_vec(),
        });
    }
    visit(operation, &lists)
}

/// Selects over up to two variables with each table of array 3 at widths of 1, 8 and 32,
/// with none and with tables that are refused; then the other rows with no array listed.
fn sorted(visit: &mut Visit) -> bool {
    let widths = [1, 8, 32];
    let shapes = widths
        .iter()
        .flat_map(|&index| widths.map(|cell| vec![3, index, cell]));
    let others: [&[u64]; 6] = [
        &[],
        &[4, 32, 8],
        &[3, 8],
        &[3, 0, 8],
        &[3, 8, 0],
        &[3, 8, TOP + 1],
    ];
    let others = others.map(<[u64]>::to_vec);
    let tables: Vec<Vec<u64>> = shapes.chain(others).collect();
    let mut rows = chain_rows();
    rows.retain(|row| row[0] == SELECT);
    let sides = lists_up_to(2, &[0, 1]);
    for earlier in lists_up_to(2, &widths) {
        let before = variables(&earlier);
        for (row, side) in rows.iter().flat_map(|r| sides.iter().map(move |s| (r, s))) {
            let rows = [&before[..], row].concat();
            if !tables
                .iter()
                .all(|table| with_table(&rows, side, table, visit))
            {
                return false;
            }
        }
    }
    let last = last_rows(SOURCE);
    let mut over = lists_up_to(1, &widths).into_iter();
    over.all(|earlier| {
        let before = variables(&earlier);
        let mut rows = last.iter().map(|row| [&before[..], row].concat());
        rows.all(|rows| with_table(&rows, &[], &[], visit))
    })
}

/// The words of source variables of these widths.
fn variables(widths: &[u64]) -> Vec<u64> {
    let rows = widths.iter().flat_map(|&w| padded(VAR, &[w], SOURCE));
    rows.collect()
}

fn with_table(rows: &[u64], side: &[u64], table: &[u64], visit: &mut Visit) -> bool {
    let lent = vec![0xa5a5; rows.len() / SOURCE.row + 1];
    let lists = vec![rows.to_vec(), vec![], side.to_vec(), table.to_vec(), lent];
    visit(&SOURCE_WIDTHS_WITH_SORTS, &lists)
}

fn roots(visit: &mut Visit) -> bool {
    let all = lists_up_to(2, &[0, 1, 2, 3, MAX]);
    for widths in lists_up_to(3, &[0, 1, 2, MAX]) {
        for roots in &all {
            if !visit(&ROOTS, &vec![widths.clone(), roots.clone()]) {
                return false;
            }
        }
    }
    true
}
