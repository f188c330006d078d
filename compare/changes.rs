//! Every case that one change makes of a case of Check: a word set to the number
//! of a row or to an edge value, a list cut or grown by a word, two neighbours
//! exchanged, a root doubled.

use crate::check::at;
use crate::operation::Lists;
use crate::rules::{CEILING, SOURCE, TARGET};
use crate::tags::*;

const MAX: u64 = u64::MAX;

/// What a tag is set to.
const TAG_WORDS: [u64; 12] = [
    VAR, CONST, EXTRACT, ITE, EQ, NE, NOT, BOOL_AND, BOOL_OR, SELECT, CALL, 39,
];

/// Every case that one change makes of this one.
pub fn each(lists: &Lists) -> Vec<Lists> {
    let mut cases = Vec::new();
    for list in 0..lists.len() {
        if list < at::lent(lists) {
            cases.extend(words_changed(lists, list));
            cases.extend(neighbours_swapped(lists, list));
            cases.extend(
                [0, 1, MAX].map(|word| changed(lists, list, |words| words.push(word & cap(list)))),
            );
        }
        let length = lists[list].len();
        let cuts = (1..=2).filter(|&by| by <= length);
        cases.extend(cuts.map(|by| changed(lists, list, |words| words.truncate(length - by))));
    }
    for list in [at::SOURCE_ROOTS, at::TARGET_ROOTS] {
        let doubled =
            |place: usize| changed(lists, list, |words| words.insert(place, words[place]));
        cases.extend((0..lists[list].len()).map(doubled));
    }
    cases
}

fn changed(lists: &Lists, list: usize, change: impl FnOnce(&mut Vec<u64>)) -> Lists {
    let mut changed = lists.clone();
    change(&mut changed[list]);
    changed
}

/// The largest word of a list: a bit is a byte.
fn cap(list: usize) -> u64 {
    match list {
        at::SOURCE_BITS | at::TARGET_BITS => 255,
        _ => MAX,
    }
}

fn words_changed(lists: &Lists, list: usize) -> Vec<Lists> {
    let rows = (lists[at::TARGET].len() / TARGET.row) as u64;
    let mut cases = Vec::new();
    for (place, &old) in lists[list].iter().enumerate() {
        let mut words: Vec<u64> = match cap(list) {
            255 => vec![0, 1, 2, 255],
            _ => (0..=rows).chain([8, 32, MAX - 1, MAX]).collect(),
        };
        if cap(list) == MAX {
            words.extend([old.wrapping_add(1), old.wrapping_sub(1)]);
        }
        let row = if list == at::SOURCE {
            SOURCE.row
        } else {
            TARGET.row
        };
        match list {
            at::SOURCE | at::TARGET if place % row == 0 => words.extend(TAG_WORDS),
            at::SOURCE | at::TARGET | at::SORTS => words.extend([CEILING, CEILING + 1]),
            _ => {}
        }
        words.sort();
        words.dedup();
        words.retain(|&word| word != old);
        cases.extend(
            words
                .iter()
                .map(|&word| changed(lists, list, |list| list[place] = word)),
        );
    }
    cases
}

fn neighbours_swapped(lists: &Lists, list: usize) -> Vec<Lists> {
    (1..lists[list].len())
        .filter(|&place| lists[list][place - 1] != lists[list][place])
        .map(|place| changed(lists, list, |words| words.swap(place - 1, place)))
        .collect()
}
