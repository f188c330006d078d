//! What a run of choices.rs has met. It prints the counts and says whether anything
//! that must come is missing.

use crate::choicefeatures::{Showing, Tried, TRIPLES};
use crate::open::Found;
use crate::openlowering::{Given, Lowering};
use crate::tally::nothing_missing;

/// Of values drawn anew for one u.
const AGAIN: [&str; 2] = ["p drawn two ways", "q drawn two ways"];

/// Of the values of one mapped variable.
const SCANS: [&str; 4] = [
    "none open",
    "exactly one open",
    "more than one open, not all",
    "all open",
];

/// Things of a kind, and how many of them show what.
struct Group {
    title: &'static str,
    total: u64,
    shown: Vec<(&'static str, u64)>,
}

impl Group {
    fn new(title: &'static str, names: impl IntoIterator<Item = &'static str>) -> Group {
        Group {
            title,
            total: 0,
            shown: names.into_iter().map(|name| (name, 0)).collect(),
        }
    }

    fn count(&mut self, shows: impl IntoIterator<Item = bool>) {
        self.total += 1;
        for ((_, count), shows) in self.shown.iter_mut().zip(shows) {
            *count += u64::from(shows);
        }
    }

    fn print(&self) {
        println!("{}: {}", self.title, self.total);
        for (name, count) in &self.shown {
            println!("  {name}: {count}");
        }
    }

    /// Each thing that never came.
    fn missing(&self) -> impl Iterator<Item = String> + '_ {
        let never = self.shown.iter().filter(|(_, count)| *count == 0);
        never.map(|(name, _)| format!("{}: {name:?}", self.title))
    }
}

pub struct Counts {
    edition: &'static str,
    features: Vec<Showing>,
    lowerings: Group,
    triples: Group,
    again: Group,
    scans: Group,
    /// Passed over.
    too_wide: u64,
    too_big: u64,
}

impl Counts {
    /// Those of an edition, whose lowerings are to show these.
    pub fn new(edition: &'static str, features: Vec<Showing>) -> Counts {
        let names: Vec<&'static str> = features.iter().map(|&(name, _)| name).collect();
        Counts {
            edition,
            features,
            lowerings: Group::new("lowerings", names),
            triples: Group::new("triples", TRIPLES.map(|(name, _)| name)),
            again: Group::new("p and q drawn anew", AGAIN),
            scans: Group::new("scans of a mapped variable", SCANS),
            too_wide: 0,
            too_big: 0,
        }
    }

    /// A lowering that has a row above 64 bits.
    pub fn too_wide(&mut self) {
        self.too_wide += 1;
    }

    pub fn lowering(&mut self, lowering: &Lowering) {
        let features = self.features.iter();
        self.lowerings
            .count(features.map(|(_, shows)| shows(lowering)));
    }

    /// A triple counts where both searches came to an end.
    pub fn triple(&mut self, tried: &Tried) {
        if [tried.source.found, tried.target.found].contains(&Found::TooBig) {
            self.too_big += 1;
        } else {
            self.triples.count(TRIPLES.map(|(_, shows)| shows(tried)));
        }
    }

    pub fn again(&mut self, lowering: &Lowering, one: &Given, other: &Given) {
        let p = |&row: &usize| one.source[row] != other.source[row];
        let q = |&row: &usize| one.target[row] != other.target[row];
        let shows = [lowering.unmapped.iter().any(p), lowering.idle.iter().any(q)];
        self.again.count(shows);
    }

    /// What both searches found at each value; a scan counts where all came to an end.
    pub fn scan(&mut self, found: &[[Found; 2]]) {
        if found.concat().contains(&Found::TooBig) {
            return;
        }
        let open = found.iter().filter(|both| both[0] == Found::Open).count();
        let all = found.len();
        let more = 1 < open && open < all;
        self.scans.count([open == 0, open == 1, more, open == all]);
    }

    /// Prints the counts; false if something never came that must.
    pub fn complete(&self, cases: u64) -> bool {
        println!("{}", self.edition);
        let groups = [&self.lowerings, &self.triples, &self.again, &self.scans];
        groups.iter().for_each(|group| group.print());
        println!("passed over");
        println!("  lowerings with a row above 64 bits: {}", self.too_wide);
        println!("  triples with too many choices: {}", self.too_big);
        let (lowerings, triples) = (self.lowerings.total, self.triples.total);
        println!("{lowerings} lowerings, {triples} triples, all as the statement says");
        let missing = groups.iter().flat_map(|group| group.missing());
        let missing: Vec<String> = missing
            .map(|what| format!("{}: {what}", self.edition))
            .collect();
        nothing_missing(cases, &missing)
    }
}
