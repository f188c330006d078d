//! What accepted lowerings are to show of Calls: their counts and arguments, the pairs
//! that have a root, and those of one number and count that have none, since their
//! widths tell them apart.

use std::collections::BTreeMap;

use crate::check::at;
use crate::features::{bits, entries, mapped, mapping, overlap, repeats, Entry, Named};
use crate::functions::entry_widths;
use crate::operation::{Feature, Lists};
use crate::rules::{CEILING, TARGET};
use crate::tags::CALL;
use crate::wellformed::{self, stretch};

const MAX: u64 = u64::MAX;

pub fn features() -> Vec<Feature> {
    let mut features: Vec<Feature> = Vec::new();
    for (name, has) in CALLS.into_iter().chain(TOLD_APART) {
        features.push((name.to_string(), Box::new(has)));
    }
    for count in 0..=4 {
        let name = format!("a Call of {count} arguments");
        let has = move |lists: &Lists| mapped(lists, CALL).any(|(row, _)| row[4] == count);
        features.push((name, Box::new(has)));
    }
    for count in 1..=4 {
        let name = format!("a congruence root of calls of {count} arguments");
        let has = move |lists: &Lists| call_pairs(lists).any(|(p, _)| p[3] == count);
        features.push((name, Box::new(has)));
    }
    (1..=4).for_each(|count| features.extend(of_count(count)));
    features
}

/// About Calls and the call table.
const CALLS: [Named; 7] = [
    ("a Call of function MAX", |lists| {
        mapped(lists, CALL).any(|(row, _)| row[1] == MAX)
    }),
    ("two Calls with one entry", |lists| {
        let calls = mapping(lists).filter(|(row, image)| row[0] == CALL && *image != MAX);
        repeats(&calls.map(|(_, image)| image).collect::<Vec<_>>())
    }),
    ("calls not in the order of their variables", |lists| {
        calls(lists, |p, q| p[0] > q[0]).next().is_some()
    }),
    ("calls of one function number, of two counts", |lists| {
        calls(lists, |p, q| p[1] == q[1] && p[3] != q[3])
            .next()
            .is_some()
    }),
    ("calls over one stretch of the arguments", |lists| {
        let stretches = lists[at::CALLS]
            .chunks_exact(4)
            .map(|call| [call[2], call[3]]);
        overlap(&stretches.collect::<Vec<_>>())
    }),
    ("a root for calls over unequal constants", |lists| {
        let bits = |row: u64| bits(lists, at::TARGET, row);
        let unequal = |[a, b]: [u64; 2]| matches!((bits(a), bits(b)), (Some(a), Some(b)) if a != b);
        call_pairs(lists).any(|(p, q)| arguments(lists, p, q).any(unequal))
    }),
    ("a root for calls over a common argument", |lists| {
        call_pairs(lists).any(|(p, q)| arguments(lists, p, q).any(|[a, b]| a == b))
    }),
];

/// About calls of one number and count that are told apart.
const TOLD_APART: [Named; 6] = [
    ("no arguments, two result widths", |lists| {
        told_apart(lists).any(|group| group[0].entry[3] == 0)
    }),
    ("function 0 at two widths", |lists| {
        told_apart(lists).any(|group| group[0].entry[1] == 0)
    }),
    ("results of 4,096 bits and of fewer", |lists| {
        told_apart(lists).any(|group| {
            let widest = group.iter().filter(|call| call.widths[0] == CEILING);
            (1..group.len()).contains(&widest.count())
        })
    }),
    ("three functions of one number and count", |lists| {
        told_apart(lists).any(|group| functions(&group).len() > 2)
    }),
    ("another function between two calls of one", |lists| {
        told_apart(lists).any(|group| {
            let unlike = |from: &[Called]| from.iter().position(|c| c.widths != from[0].widths);
            (0..group.len()).any(|p| {
                let rest = &group[p..];
                let again = |next| rest[next..].iter().any(|c| c.widths == rest[0].widths);
                unlike(rest).is_some_and(again)
            })
        })
    }),
    ("two functions of one number, a root of each", |lists| {
        let rooted = |&count: &usize| count > 1;
        told_apart(lists).any(|group| functions(&group).into_iter().filter(rooted).count() > 1)
    }),
];

/// About such calls of so many arguments, which are more than none.
fn of_count(count: u64) -> Vec<Feature> {
    let mut features: Vec<Feature> = Vec::new();
    let mut add = |name: String, test: Box<dyn Fn(&[Called]) -> bool>| {
        let has = move |lists: &Lists| {
            told_apart(lists).any(|group| group[0].entry[3] == count && test(&group))
        };
        features.push((format!("{count} arguments, {name}"), Box::new(has)));
    };
    let same_rows = |p: &Called, q: &Called| p.rows == q.rows && p.widths != q.widths;
    let two_results = move |group: &[Called]| pairs(group).any(|(p, q)| same_rows(p, q));
    add(
        "the same rows, two result widths".to_string(),
        Box::new(two_results),
    );
    for argument in 1..=count as usize {
        let alone = move |group: &[Called]| pairs(group).any(|(p, q)| p.differ(q) == [argument]);
        add(
            format!("told apart by number {argument} alone"),
            Box::new(alone),
        );
    }
    let rooted = |group: &[Called]| functions(group).into_iter().any(|count| count > 1);
    add(
        "two of one function, one of another".to_string(),
        Box::new(rooted),
    );
    features
}

/// An entry of the call table of an accepted lowering.
struct Called<'l> {
    entry: Entry<'l>,
    /// Its arguments.
    rows: &'l [u64],
    /// Its result's, then its arguments'.
    widths: Vec<u64>,
}

impl Called<'_> {
    /// Where the widths of two calls of one count differ.
    fn differ(&self, other: &Called) -> Vec<usize> {
        let unequal = |&place: &usize| self.widths[place] != other.widths[place];
        (0..self.widths.len()).filter(unequal).collect()
    }
}

/// The calls of each number and count that has several widths, in the table's order.
fn told_apart(lists: &Lists) -> impl Iterator<Item = Vec<Called<'_>>> {
    let mut groups: BTreeMap<[u64; 2], Vec<Called>> = BTreeMap::new();
    if calls(lists, namesakes).next().is_some() {
        let widths = wellformed::widths(lists, at::TARGET, TARGET.row).unwrap_or_default();
        for entry in lists[at::CALLS].chunks_exact(4) {
            let call = Called {
                entry,
                rows: stretch(&lists[at::ARGUMENTS], entry[2], entry[3]).unwrap_or(&[]),
                widths: entry_widths(lists, &widths, entry).unwrap_or_default(),
            };
            groups.entry([entry[1], entry[3]]).or_default().push(call);
        }
    }
    groups
        .into_values()
        .filter(|group| functions(group).len() > 1)
}

/// How many calls each function of a group has.
fn functions(group: &[Called]) -> Vec<usize> {
    let mut counts: BTreeMap<&[u64], usize> = BTreeMap::new();
    group
        .iter()
        .for_each(|call| *counts.entry(&call.widths).or_default() += 1);
    counts.into_values().collect()
}

fn pairs<'g>(group: &'g [Called<'g>]) -> impl Iterator<Item = (&'g Called<'g>, &'g Called<'g>)> {
    let later = move |p: usize| group[p + 1..].iter().map(move |q| (&group[p], q));
    (0..group.len()).flat_map(later)
}

fn calls<'l>(
    lists: &'l Lists,
    test: impl Fn(Entry, Entry) -> bool + Copy + 'l,
) -> impl Iterator<Item = (Entry<'l>, Entry<'l>)> + 'l {
    entries(&lists[at::CALLS], 4, test)
}

/// Are two entries of one number and count?
fn namesakes(one: Entry, other: Entry) -> bool {
    one[1] == other[1] && one[3] == other[3]
}

/// The pairs of calls of one number and count in the order of roots, each with whether
/// they are of one function, so that the pair has a congruence root.
pub fn named_pairs(lists: &Lists) -> impl Iterator<Item = (Entry<'_>, Entry<'_>, bool)> {
    let pairs: Vec<(Entry, Entry)> = calls(lists, namesakes).collect();
    let widths = match pairs[..] {
        [] => None,
        _ => wellformed::widths(lists, at::TARGET, TARGET.row),
    };
    let widths = widths.unwrap_or_default();
    let of = move |entry: Entry| entry_widths(lists, &widths, entry);
    pairs.into_iter().map(move |(p, q)| (p, q, of(p) == of(q)))
}

/// The pairs of calls that have a congruence root.
pub fn call_pairs(lists: &Lists) -> impl Iterator<Item = (Entry<'_>, Entry<'_>)> {
    named_pairs(lists).filter_map(|(p, q, is_one)| is_one.then_some((p, q)))
}

/// The arguments of two calls, pair by pair.
pub fn arguments<'l>(lists: &'l Lists, p: Entry, q: Entry) -> impl Iterator<Item = [u64; 2]> + 'l {
    let of = |call: Entry| stretch(&lists[at::ARGUMENTS], call[2], call[3]).unwrap_or(&[]);
    of(p).iter().zip(of(q)).map(|(&a, &b)| [a, b])
}
