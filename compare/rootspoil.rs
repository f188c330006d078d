//! Damage to roots that the strict check meets: a root of another width or past the
//! rows, in one list or in both, first, last or between, alone or beside a map of
//! another length or a bad table.

use crate::check::at;
use crate::operation::Lists;
use crate::random::Random;
use crate::rules::{SOURCE, TARGET};
use crate::wellformed;

const MAX: u64 = u64::MAX;

/// One to three such roots, now and then with another damage.
pub fn spoil(random: &mut Random, lists: &mut Lists) {
    for _ in 0..random.pick(&[1, 1, 1, 2, 3]) {
        match random.below(5) {
            0 | 1 => one(random, lists, at::SOURCE, SOURCE.row, at::SOURCE_ROOTS),
            2 | 3 => one(random, lists, at::TARGET, TARGET.row, at::TARGET_ROOTS),
            _ => with_image(random, lists),
        }
    }
    match random.below(12) {
        0 => drop(lists[at::MAP].pop()),
        1 => lists[at::MAP].push(0),
        2 => lists[at::READS].push(0),
        3 => lists[at::CALLS].push(0),
        _ => {}
    }
}

/// The rows of a graph that have not one bit; none where it is ill-formed.
fn others(lists: &Lists, graph: usize, size: usize) -> Vec<u64> {
    let widths = wellformed::widths(lists, graph, size).unwrap_or_default();
    let rows = (0..).zip(widths).filter(|&(_, width)| width != 1);
    rows.map(|(row, _)| row).collect()
}

/// A bad root in the list of a graph: in the place of another, or between two.
fn one(random: &mut Random, lists: &mut Lists, graph: usize, size: usize, list: usize) {
    let rows = (lists[graph].len() / size) as u64;
    let others = others(lists, graph, size);
    let roots = &mut lists[list];
    let (any, last) = (random.place(roots.len() + 1), roots.len().saturating_sub(1));
    let place = random.pick(&[0, any, last, roots.len()]);
    let old = roots.get(place).copied().unwrap_or(0);
    let past = random.pick(&[rows, rows + 1, MAX, MAX - 1, old | 1 << 32, old | 1 << 63]);
    let root = match others.is_empty() || random.once_in(3) {
        true => past,
        false => random.pick(&others),
    };
    match place < roots.len() && !random.once_in(3) {
        true => roots[place] = root,
        false => roots.insert(place, root),
    }
}

/// A source row of another width and its image, as roots at one place of both lists:
/// Check goes on as before.
fn with_image(random: &mut Random, lists: &mut Lists) {
    let mut rows = others(lists, at::SOURCE, SOURCE.row);
    let image = |row: u64| lists[at::MAP].get(row as usize).copied();
    rows.retain(|&row| image(row).is_some_and(|image| image != MAX));
    if rows.is_empty() {
        return;
    }
    let row = random.pick(&rows);
    let both = [at::SOURCE_ROOTS, at::TARGET_ROOTS];
    let leads = both.map(|list| lists[list].len());
    let place = random.place(leads[0].min(leads[1]) + 1);
    let image = lists[at::MAP][row as usize];
    lists[at::SOURCE_ROOTS].insert(place, row);
    lists[at::TARGET_ROOTS].insert(place, image);
}
