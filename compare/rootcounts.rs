//! What a run has met where the strict check refuses a root: which one, and what Check
//! says about the same lists. Beside it what the accepted lowerings are to show.

use crate::check::{self, at};
use crate::features::{repeats, Named};
use crate::functions::graph_widths;
use crate::operation::{Feature, Lists};
use crate::ours::Answer;
use crate::tags::VAR;
use crate::wellformed;

/// A case that the strict check refuses by 19.
pub struct Refused<'l> {
    lists: &'l Lists,
    answer: Answer,
    /// Of both graphs.
    widths: [Vec<u64>; 2],
    /// Check's number.
    check: u64,
}

impl Refused<'_> {
    /// The case of these lists, if it is one.
    pub fn of(lists: &Lists, answer: Answer) -> Option<Refused<'_>> {
        if answer.number != 19 {
            return None;
        }
        let expected = check::by_edition(false, lists).expected(lists);
        let (widths, check) = (graph_widths(lists)?, expected.answer.number);
        Some(Refused {
            lists,
            answer,
            widths,
            check,
        })
    }

    /// The roots of the source, 0, or of the target, 1.
    fn roots(&self, graph: usize) -> &[u64] {
        &self.lists[[at::SOURCE_ROOTS, at::TARGET_ROOTS][graph]]
    }

    fn width(&self, graph: usize, root: u64) -> Option<u64> {
        wellformed::at(&self.widths[graph], root)
    }

    /// Is it refused for a root of this graph, whose row is there or not?
    fn is(&self, graph: usize, row: bool) -> bool {
        self.of_graph(graph)
            && (self.width(graph, self.roots(graph)[self.answer.place as usize])).is_some() == row
    }

    fn of_graph(&self, graph: usize) -> bool {
        self.answer.detail == graph as u64 + 1
    }

    /// Is it refused for a root of this graph behind another one, its last or not?
    fn is_later(&self, graph: usize, last: bool) -> bool {
        let place = self.answer.place as usize;
        self.of_graph(graph) && place > 0 && (place + 1 == self.roots(graph).len()) == last
    }

    /// How many roots of this graph are no rows of one bit?
    fn bad(&self, graph: usize) -> usize {
        let roots = self.roots(graph).iter();
        roots
            .filter(|&&root| self.width(graph, root) != Some(1))
            .count()
    }
}

/// A name, and whether a refused case shows what it names.
pub type Cause = (&'static str, fn(&Refused) -> bool);

/// Each must come.
pub const CAUSES: [Cause; 17] = [
    ("a source root of another width", |of| of.is(0, true)),
    ("a source root past the rows", |of| of.is(0, false)),
    ("the same, 12 to Check", |of| {
        of.is(0, false) && of.check == 12
    }),
    ("a target root of another width", |of| of.is(1, true)),
    ("a target root past the rows", |of| of.is(1, false)),
    ("a source root between others", |of| of.is_later(0, false)),
    ("the last of several source roots", |of| {
        of.is_later(0, true)
    }),
    ("a target root between others", |of| of.is_later(1, false)),
    ("the last of several target roots", |of| {
        of.is_later(1, true)
    }),
    ("bad roots in both lists", |of| {
        of.bad(0) > 0 && of.bad(1) > 0
    }),
    ("two bad roots in each list", |of| {
        of.bad(0) > 1 && of.bad(1) > 1
    }),
    ("a source root, 3 to Check", |of| {
        of.of_graph(0) && of.check == 3
    }),
    ("a target root, 3 to Check", |of| {
        of.of_graph(1) && of.check == 3
    }),
    ("a bad read table, 5 to Check", |of| of.check == 5),
    ("a bad call table, 6 to Check", |of| of.check == 6),
    ("accepted by Check", |of| of.check == 0),
    ("a bad row, 7 to 11 to Check", |of| {
        (7..=11).contains(&of.check)
    }),
];

#[derive(Default)]
pub struct RootCounts {
    causes: [u64; CAUSES.len()],
}

impl RootCounts {
    /// Counts a case, if it is one of these.
    pub fn count(&mut self, lists: &Lists, answer: Answer) {
        if let Some(refused) = Refused::of(lists, answer) {
            for (count, (_, shows)) in self.causes.iter_mut().zip(CAUSES) {
                *count += u64::from(shows(&refused));
            }
        }
    }

    pub fn print(&self) {
        println!("  refused by 19 for");
        for (count, (name, _)) in self.causes.iter().zip(CAUSES) {
            println!("    {name}: {count}");
        }
    }

    /// Everything that must come, with its count.
    pub fn due(&self) -> impl Iterator<Item = (u64, String)> + '_ {
        let causes = self.causes.iter().zip(CAUSES);
        causes.map(|(&count, (name, _))| (count, format!("19 for {name}")))
    }
}

/// What accepted lowerings are to show; Check's cases show the rest.
pub fn features() -> Vec<Feature> {
    let features = ACCEPTED.into_iter();
    features
        .map(|(name, has)| -> Feature { (name.to_string(), Box::new(has)) })
        .collect()
}

const ACCEPTED: [Named; 5] = [
    ("source roots and congruence roots", |lists| {
        let leads = lists[at::SOURCE_ROOTS].len();
        leads > 0 && lists[at::TARGET_ROOTS].len() > leads
    }),
    ("no source root, congruence roots alone", |lists| {
        lists[at::SOURCE_ROOTS].is_empty() && !lists[at::TARGET_ROOTS].is_empty()
    }),
    ("no root in either graph", |lists| {
        lists[at::TARGET_ROOTS].is_empty()
    }),
    ("a source root twice", |lists| {
        repeats(&lists[at::SOURCE_ROOTS])
    }),
    ("a source root that is a variable of one bit", |lists| {
        let row = |root: u64| &lists[at::SOURCE][5 * root as usize..][..2];
        lists[at::SOURCE_ROOTS]
            .iter()
            .any(|&root| row(root) == [VAR, 1])
    }),
];
