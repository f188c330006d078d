//! Damage to calls that hits the rule for functions: a Call and its entry added or
//! changed together, so that two functions become one or one falls into two, and the
//! roots of calls. Both graphs mostly stay well formed, and each Call its entry's.

use crate::callfeatures::{call_pairs, named_pairs};
use crate::check::at;
use crate::functions::entry_widths;
use crate::misfits::{append, target_row};
use crate::operation::Lists;
use crate::random::Random;
use crate::rules::{SOURCE, TARGET};
use crate::tags::*;
use crate::wellformed::{self, at as item, stretch};

/// One of these.
pub fn spoil(random: &mut Random, lists: &mut Lists) {
    match random.below(5) {
        0 | 1 => one_more(random, lists),
        2 => other_argument(random, lists),
        3 => other_result(random, lists),
        _ => bend_roots(random, lists),
    }
}

fn some<T: Copy>(random: &mut Random, from: &[T]) -> Option<T> {
    (!from.is_empty()).then(|| random.pick(from))
}

/// An entry of the call table by its place and its words.
type Placed = (usize, [u64; 4]);

/// Some entry, often one that has a namesake.
fn some_entry(random: &mut Random, lists: &Lists) -> Option<Placed> {
    let entries = lists[at::CALLS].chunks_exact(4).enumerate();
    let entries = entries.map(|(place, words)| (place, [words[0], words[1], words[2], words[3]]));
    let all: Vec<Placed> = entries.collect();
    let namesake = |&(place, [_, number, _, count]): &Placed| {
        let same = |&(other, [_, n, _, k]): &Placed| other != place && [n, k] == [number, count];
        all.iter().any(same)
    };
    let named: Vec<Placed> = all.iter().copied().filter(namesake).collect();
    match random.once_in(4) {
        false if !named.is_empty() => some(random, &named),
        _ => some(random, &all),
    }
}

/// The source rows that have an image before a row, each with it.
fn images(lists: &Lists, before: usize) -> Vec<[u64; 2]> {
    let rows = (lists[at::TARGET].len() / TARGET.row) as u64;
    let images = (0..).zip(lists[at::MAP].iter().copied()).take(before);
    images
        .filter(|&(_, image)| image < rows)
        .map(|(row, image)| [row, image])
        .collect()
}

/// A result width: the entry's, that of another entry, or any.
fn result_width(random: &mut Random, lists: &Lists, entry: [u64; 4]) -> u64 {
    let width = |variable: u64| {
        let row = usize::try_from(variable).ok()?.checked_mul(TARGET.row)?;
        lists[at::TARGET].get(row + 1).copied()
    };
    let others = lists[at::CALLS]
        .chunks_exact(4)
        .filter_map(|call| width(call[0]));
    let others: Vec<u64> = others.filter(|&width| width > 0).collect();
    let any = random.pick(&[1, 2, 8, 16, 32]);
    match random.below(3) {
        0 => width(entry[0]).unwrap_or(any),
        1 => some(random, &others).unwrap_or(any),
        _ => any,
    }
}

/// A Call of an entry's number and count with an entry of its own, at the table's end
/// or elsewhere, and no root: over the same arguments, or with one of them exchanged.
fn one_more(random: &mut Random, lists: &mut Lists) {
    let Some((_, entry)) = some_entry(random, lists) else {
        return;
    };
    let images = images(lists, lists[at::SOURCE].len() / SOURCE.row);
    let Some(arguments) = stretch(&lists[at::ARGUMENTS], entry[2], entry[3]) else {
        return;
    };
    let source = |image: &u64| images.iter().copied().find(|pair| pair[1] == *image);
    let Some(mut pairs) = arguments.iter().map(source).collect::<Option<Vec<_>>>() else {
        return;
    };
    if !pairs.is_empty() && !random.once_in(3) {
        let argument = random.place(pairs.len());
        pairs[argument] = random.pick(&images);
    }
    let width = result_width(random, lists, entry);
    let variable = append(lists, &[[VAR, width, 0, 0]]);
    let start = lists[at::SIDE].len() as u64;
    lists[at::SOURCE].extend([CALL, entry[1], width, start, entry[3]]);
    lists[at::SIDE].extend(pairs.iter().map(|pair| pair[0]));
    lists[at::MAP].push(variable);
    let lent = at::lent(lists);
    lists[lent].push(1);
    let start = lists[at::ARGUMENTS].len() as u64;
    lists[at::ARGUMENTS].extend(pairs.iter().map(|pair| pair[1]));
    let entries = lists[at::CALLS].len() / 4;
    let any = random.place(entries + 1);
    let place = 4 * random.pick(&[entries, any]);
    let words = [variable, entry[1], start, entry[3]];
    lists[at::CALLS].splice(place..place, words);
}

/// The source Calls that an entry is the image of.
fn callers(lists: &Lists, variable: u64) -> Vec<usize> {
    let rows = lists[at::SOURCE].chunks_exact(SOURCE.row);
    let rows = rows.zip(&lists[at::MAP]).enumerate();
    let calls = rows.filter(|(_, (row, &image))| row[0] == CALL && image == variable);
    calls.map(|(row, _)| row).collect()
}

/// Another row for one argument of an entry and of its Calls; its roots stay or go.
fn other_argument(random: &mut Random, lists: &mut Lists) {
    let Some((place, entry)) = some_entry(random, lists) else {
        return;
    };
    let callers = callers(lists, entry[0]);
    let Some(&first) = callers.first() else {
        return;
    };
    let call = &lists[at::SOURCE][first * SOURCE.row..][..SOURCE.row];
    let rows = stretch(&lists[at::SIDE], call[3], call[4]).map(<[u64]>::to_vec);
    let arguments = stretch(&lists[at::ARGUMENTS], entry[2], entry[3]).map(<[u64]>::to_vec);
    let (Some(mut rows), Some(mut arguments)) = (rows, arguments) else {
        return;
    };
    let images = images(lists, first);
    if rows.is_empty() || rows.len() != arguments.len() || images.is_empty() {
        return;
    }
    let argument = random.place(rows.len());
    [rows[argument], arguments[argument]] = random.pick(&images);
    let starts = [at::SIDE, at::ARGUMENTS].map(|list| lists[list].len() as u64);
    lists[at::SIDE].extend(rows);
    lists[at::ARGUMENTS].extend(arguments);
    for row in callers {
        lists[at::SOURCE][row * SOURCE.row + 3] = starts[0];
    }
    lists[at::CALLS][4 * place + 2] = starts[1];
    if random.once_in(2) {
        drop_roots(lists, entry[0]);
    }
}

/// Another width for an entry's variable and its Calls; its roots stay or go. Where
/// an Eq of the target names the variable, the other operand takes its place.
fn other_result(random: &mut Random, lists: &mut Lists) {
    let Some((_, entry)) = some_entry(random, lists) else {
        return;
    };
    let variable = entry[0];
    let is_variable = target_row(lists, variable).is_some_and(|row| row[0] == VAR);
    if !is_variable {
        return;
    }
    let width = result_width(random, lists, entry);
    if random.once_in(2) {
        drop_roots(lists, variable);
    }
    lists[at::TARGET][variable as usize * TARGET.row + 1] = width;
    for row in callers(lists, variable) {
        lists[at::SOURCE][row * SOURCE.row + 2] = width;
    }
    for row in lists[at::TARGET].chunks_exact_mut(TARGET.row) {
        match row {
            [EQ, a, b, _] if *a == variable => *a = *b,
            [EQ, a, b, _] if *b == variable => *b = *a,
            _ => {}
        }
    }
}

/// Drops the roots that say that a variable equals another one.
fn drop_roots(lists: &mut Lists, variable: u64) {
    let says = |root: u64| {
        let or = target_row(lists, root).filter(|row| row[0] == BOOL_OR)?;
        let equal = target_row(lists, or[2]).filter(|row| row[0] == EQ)?;
        Some(equal[1..3].contains(&variable))
    };
    let mut roots = lists[at::TARGET_ROOTS].clone();
    roots.retain(|&root| says(root) != Some(true));
    lists[at::TARGET_ROOTS] = roots;
}

/// A root of calls dropped or exchanged with another; or one put there that is not
/// due: any root once more, or the nearest to a root that two functions can have.
fn bend_roots(random: &mut Random, lists: &mut Lists) {
    let due = call_pairs(lists).count();
    let Some(first) = lists[at::TARGET_ROOTS].len().checked_sub(due) else {
        return;
    };
    match random.below(4) {
        0 if due > 0 => {
            let place = first + random.place(due);
            lists[at::TARGET_ROOTS].remove(place);
        }
        1 if due > 1 => {
            let [a, b] = [random.place(due), random.place(due)];
            lists[at::TARGET_ROOTS].swap(first + a, first + b);
        }
        2 if first + due > 0 => {
            let again = random.pick(&lists[at::TARGET_ROOTS]);
            let place = first + random.place(due + 1);
            lists[at::TARGET_ROOTS].insert(place, again);
        }
        _ => nearest_root(random, lists, first),
    }
}

/// Puts a root for two calls that are told apart where it would be due, if their
/// widths counted for nothing; an Eq that has no widths compares a row with itself.
fn nearest_root(random: &mut Random, lists: &mut Lists, first: usize) {
    let mut place = first;
    let mut apart = Vec::new();
    for (p, q, is_one) in named_pairs(lists) {
        match is_one {
            true => place += 1,
            false => apart.push((place, [p.to_vec(), q.to_vec()])),
        }
    }
    if apart.is_empty() {
        return;
    }
    let chosen = random.place(apart.len());
    let (place, [p, q]) = apart.swap_remove(chosen);
    let Some(widths) = wellformed::widths(lists, at::TARGET, TARGET.row) else {
        return;
    };
    let rows = |entry: &[u64]| -> Option<Vec<u64>> {
        entry_widths(lists, &widths, entry)?;
        let arguments = stretch(&lists[at::ARGUMENTS], entry[2], entry[3])?;
        Some([arguments, &entry[..1]].concat())
    };
    let (Some(one), Some(other)) = (rows(&p), rows(&q)) else {
        return;
    };
    let equal = |(&a, &b): (&u64, &u64)| match item(&widths, a) == item(&widths, b) {
        true => [EQ, a, b, 0],
        false => [EQ, a, a, 0],
    };
    let equals: Vec<[u64; 4]> = one.iter().zip(&other).map(equal).collect();
    let (last, arguments) = equals.split_last().expect("a variable each");
    let Some(&argument) = arguments.first() else {
        let root = append(lists, &[*last]);
        return lists[at::TARGET_ROOTS].insert(place, root);
    };
    let mut all = append(lists, &[argument]);
    for &argument in &arguments[1..] {
        let next = append(lists, &[argument]);
        all = append(lists, &[[BOOL_AND, all, next, 0]]);
    }
    let differ = append(lists, &[[NOT, all, 0, 0], *last]);
    let root = append(lists, &[[BOOL_OR, differ, differ + 1, 0]]);
    lists[at::TARGET_ROOTS].insert(place, root);
}
