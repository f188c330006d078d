//! Source widths and target widths as operations.

use crate::ceilingcases;
use crate::damage;
use crate::editions;
use crate::graphs;
use crate::operation::{Kind, Lists, Operation, Outcome};
use crate::ours::{self, Answer};
use crate::random::Random;
use crate::rules::{self, Graph, SOURCE, TARGET};
use crate::sortedwidths::{self, SOURCE_WIDTHS_WITH_SORTS};
use crate::widen;

pub struct Widths(Graph);

pub const SOURCE_WIDTHS: Widths = Widths(SOURCE);
pub const TARGET_WIDTHS: Widths = Widths(TARGET);

const SOURCE_LISTS: [(&str, Kind); 4] = [
    ("source", Kind::Rows(5)),
    ("bits", Kind::Bits),
    ("side", Kind::Words),
    ("widths", Kind::Lent(0)),
];
const TARGET_LISTS: [(&str, Kind); 3] = [
    ("target", Kind::Rows(4)),
    ("bits", Kind::Bits),
    ("widths", Kind::Lent(0)),
];

impl Widths {
    fn is_source(&self) -> bool {
        self.0.number == SOURCE.number
    }
}

impl Operation for Widths {
    fn number(&self) -> u64 {
        self.0.number
    }

    fn name(&self) -> &'static str {
        if self.is_source() {
            "source widths"
        } else {
            "target widths"
        }
    }

    fn lists(&self) -> &'static [(&'static str, Kind)] {
        if self.is_source() {
            &SOURCE_LISTS
        } else {
            &TARGET_LISTS
        }
    }

    fn answers(&self) -> &'static [u64] {
        if self.is_source() {
            &[0, 1, 15, 16, 17, 18]
        } else {
            &[0, 2, 15, 16, 17, 18]
        }
    }

    fn tags(&self) -> usize {
        self.0.tags as usize
    }

    fn known(&self) -> Vec<(Lists, Answer)> {
        if self.is_source() {
            ceilingcases::sources()
        } else {
            ceilingcases::targets()
        }
    }

    fn with_sorts(&self, lists: &Lists) -> Option<(&'static dyn Operation, Lists)> {
        let sorted = || editions::sorted(lists, sortedwidths::SORTS);
        (self.is_source()).then(|| (&SOURCE_WIDTHS_WITH_SORTS as &dyn Operation, sorted()))
    }

    /// A well-formed graph, then none to three damages.
    fn generate(&self, random: &mut Random, rows: usize) -> Lists {
        let mut lists = graphs::well_formed(random, self.0, rows);
        let spare = random.pick(&[0, 0, 0, 0, 1, 2, 5]);
        lists.push(random.junk(lists[0].len() / self.0.row + spare));
        for _ in 0..random.pick(&[0, 0, 0, 1, 1, 1, 1, 1, 2, 3]) {
            if random.once_in(6) {
                widen::widen(random, self.lists(), &mut lists);
            } else {
                damage::damage(random, self.lists(), &mut lists);
            }
        }
        lists
    }

    fn ours(&self, lists: &Lists) -> Outcome {
        let mut lists = lists.clone();
        let mut lent = lists.pop().expect("the widths come last");
        let mut bits: Vec<u8> = lists[1].iter().map(|&b| b as u8).collect();
        let (answer, strayed) = ours::fenced(&mut lent, |lent| {
            if self.is_source() {
                let (source, rest) = lists.split_at_mut(1);
                ours::source_widths(&mut source[0], &mut bits, &mut rest[1], lent)
            } else {
                ours::target_widths(&mut lists[0], &mut bits, lent)
            }
        });
        lists[1] = bits.into_iter().map(u64::from).collect();
        lists.push(lent);
        Outcome {
            answer,
            lists,
            strayed,
        }
    }

    fn expected(&self, lists: &Lists) -> Outcome {
        let (answer, written) = rules::widths(self.0, lists);
        let mut after = lists.clone();
        let lent = after.pop().expect("the widths come last");
        after.push(rules::lent_after(answer, &lent, &written));
        Outcome {
            answer,
            lists: after,
            strayed: false,
        }
    }
}
