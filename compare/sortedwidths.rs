//! Source widths over a sort table, as an operation. What is expected comes from the rules
//! and from wellformed.rs; the second reference is the first edition, and so mostly the
//! Rust, where the table says 32 and 8 of each array that a source names.

use crate::damage;
use crate::editions;
use crate::graphs;
use crate::operation::{Kind, Lists, Operation, Outcome};
use crate::ours::{self, Answer};
use crate::random::Random;
use crate::rules::{self, SOURCE};
use crate::sortcases;
use crate::sorted;
use crate::sortspoil;
use crate::widen;
use crate::widths::SOURCE_WIDTHS;

pub struct SortedWidths;

pub const SOURCE_WIDTHS_WITH_SORTS: SortedWidths = SortedWidths;

/// The place of the sort table.
pub const SORTS: usize = 3;

impl Operation for SortedWidths {
    fn number(&self) -> u64 {
        10
    }

    fn name(&self) -> &'static str {
        "source widths with sorts"
    }

    fn lists(&self) -> &'static [(&'static str, Kind)] {
        &[
            ("source", Kind::Rows(5)),
            ("bits", Kind::Bits),
            ("side", Kind::Words),
            ("sorts", Kind::Sorts),
            ("widths", Kind::Lent(0)),
        ]
    }

    fn answers(&self) -> &'static [u64] {
        &[0, 1, 15, 16, 17, 18, 28]
    }

    fn tags(&self) -> usize {
        SOURCE.tags as usize
    }

    fn known(&self) -> Vec<(Lists, Answer)> {
        sortcases::sources()
    }

    /// A well-formed source, then none to three damages, and often one or two to its sort
    /// table; now and then a source of the first edition.
    fn generate(&self, random: &mut Random, rows: usize) -> Lists {
        if random.once_in(8) {
            return editions::sorted(&SOURCE_WIDTHS.generate(random, rows), SORTS);
        }
        let mut lists = graphs::with_sorts(random, rows);
        let spare = random.pick(&[0, 0, 0, 0, 1, 2, 5]);
        lists.push(random.junk(lists[0].len() / SOURCE.row + spare));
        for _ in 0..random.pick(&[0, 0, 0, 0, 1, 1, 1, 2, 3]) {
            match random.once_in(6) {
                true => widen::widen(random, self.lists(), &mut lists),
                false => damage::damage(random, self.lists(), &mut lists),
            }
        }
        for _ in 0..random.pick(&[0, 0, 0, 1, 1, 2]) {
            sortspoil::table(random, &mut lists[SORTS]);
        }
        lists
    }

    fn ours(&self, lists: &Lists) -> Outcome {
        let mut lists = lists.clone();
        let mut bits: Vec<u8> = lists[1].iter().map(|&bit| bit as u8).collect();
        let [source, _, side, sorts, lent] = &mut lists[..] else {
            unreachable!("source widths with sorts has five lists")
        };
        let (answer, strayed) = ours::fenced(lent, |lent| {
            sorted::source_widths([source, side, sorts], &mut bits, lent)
        });
        lists[1] = bits.into_iter().map(u64::from).collect();
        Outcome {
            answer,
            lists,
            strayed,
        }
    }

    fn expected(&self, lists: &Lists) -> Outcome {
        let (answer, written) = rules::widths_with_sorts(lists);
        let mut after = lists.clone();
        let lent = after.pop().expect("the widths come last");
        after.push(rules::lent_after(answer, &lent, &written));
        Outcome {
            answer,
            lists: after,
            strayed: false,
        }
    }

    fn second(&self, lists: &Lists) -> Option<Outcome> {
        let mut outcome = SOURCE_WIDTHS.expected(&editions::unsorted(lists, SORTS)?);
        outcome.lists.insert(SORTS, lists[SORTS].clone());
        Some(outcome)
    }
}
