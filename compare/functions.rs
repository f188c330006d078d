//! Which calls of a table are of one function. The rule stands here as restated.rs
//! asks it, with wrong rules that a run must notice; beside it which tables it tells
//! calls of one number and count apart in, where the Rust is no reference.

use std::collections::BTreeMap;

use crate::check::at as place;
use crate::operation::Lists;
use crate::restated::Check;
use crate::rules::{SOURCE, TARGET};
use crate::wellformed::{self, at, stretch};

/// What two calls of one number and count are looked at for.
#[derive(Clone, Copy, PartialEq, Eq)]
pub enum Rule {
    Right,
    NumberAlone,
    NoResult,
    NoArguments,
    FirstArgument,
    ButTheLast,
    SourceWidths,
    KeysAlone,
    RootsAlone,
}

/// The wrong rules, each with what is wrong about it.
pub const WRONG: [(Rule, &str); 8] = [
    (Rule::NumberAlone, "number and count alone, as in the Rust"),
    (Rule::NoResult, "the result's width not looked at"),
    (Rule::NoArguments, "the arguments' widths not looked at"),
    (Rule::FirstArgument, "of the arguments only the first"),
    (Rule::ButTheLast, "of the arguments all but the last"),
    (Rule::SourceWidths, "the widths of the source's rows"),
    (Rule::KeysAlone, "told apart for 6, not for roots"),
    (Rule::RootsAlone, "told apart for roots, not for 6"),
];

/// What it is asked for: a key that comes again, or a root that is due.
#[derive(Clone, Copy, PartialEq, Eq)]
pub enum Asked {
    Key,
    Root,
}

impl Rule {
    /// Is this width looked at, the result's at 0 and the arguments' from 1 on?
    fn looks_at(self, width: usize, count: u64, asked: Asked) -> bool {
        match self {
            Rule::Right | Rule::SourceWidths => true,
            Rule::NumberAlone => false,
            Rule::NoResult => width > 0,
            Rule::NoArguments => width == 0,
            Rule::FirstArgument => width < 2,
            Rule::ButTheLast => width == 0 || width as u64 != count,
            Rule::KeysAlone => asked == Asked::Key,
            Rule::RootsAlone => asked == Asked::Root,
        }
    }
}

impl Check<'_> {
    /// Are two whole entries of the call table, whose rows are in range, of one
    /// function? Number and count must agree, the width of the variable, and that of
    /// each argument, first to last.
    pub fn same_function(&self, one: &[u64], other: &[u64], asked: Asked) -> bool {
        let looked = |(width, _): &(usize, _)| self.rules.functions.looks_at(*width, one[3], asked);
        let both = self.call_widths(one).zip(self.call_widths(other));
        let mut widths = both.enumerate().filter(looked);
        one[1] == other[1] && one[3] == other[3] && widths.all(|(_, (a, b))| a == b)
    }

    /// The widths of an entry's variable and of its arguments.
    fn call_widths<'c>(&'c self, entry: &'c [u64]) -> impl Iterator<Item = Option<u64>> + 'c {
        let [source, target] = &self.widths;
        let widths = match self.rules.functions {
            Rule::SourceWidths => source,
            _ => target,
        };
        let arguments = stretch(self.arguments, entry[2], entry[3]).unwrap_or(&[]);
        let rows = entry[..1].iter().chain(arguments);
        rows.map(|&row| at(widths, row))
    }
}

/// The widths of an entry of a call table, its variable's before its arguments'; none
/// where a row is out of range.
pub fn entry_widths(lists: &Lists, target: &[u64], entry: &[u64]) -> Option<Vec<u64>> {
    let arguments = stretch(&lists[place::ARGUMENTS], entry[2], entry[3])?;
    let rows = entry[..1].iter().chain(arguments);
    rows.map(|&row| at(target, row)).collect()
}

/// The widths of both graphs, if they are well formed.
pub fn graph_widths(lists: &Lists) -> Option<[Vec<u64>; 2]> {
    let source = wellformed::widths(lists, place::SOURCE, SOURCE.row)?;
    let target = wellformed::widths(lists, place::TARGET, TARGET.row)?;
    Some([source, target])
}

/// Are both graphs well formed, and are there two entries of one number and count in
/// the call table with unequal widths? An entry that is cut or names a row out of
/// range does not count: it is refused, by the Rust and by the rule.
pub fn told_apart(lists: &Lists) -> bool {
    let entries = || lists[place::CALLS].chunks_exact(4);
    let mut keys: Vec<[u64; 2]> = entries().map(|entry| [entry[1], entry[3]]).collect();
    keys.sort();
    if keys.windows(2).all(|two| two[0] != two[1]) {
        return false;
    }
    let Some([_, target]) = graph_widths(lists) else {
        return false;
    };
    let mut first: BTreeMap<[u64; 2], Vec<u64>> = BTreeMap::new();
    entries().any(|entry| {
        let Some(widths) = entry_widths(lists, &target, entry) else {
            return false;
        };
        let known = first.entry([entry[1], entry[3]]);
        *known.or_insert_with(|| widths.clone()) != widths
    })
}
