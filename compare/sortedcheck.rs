//! Check and the strict check over a sort table, as operations. What is expected comes from
//! the rules and from restated.rs; the second reference is the first edition, and so
//! mostly the Rust, where the table says 32 and 8 of each array that a case names.

use crate::changes;
use crate::check::{self, at, Check, CHECK, PARTS, STRICT_CHECK};
use crate::editions;
use crate::functions;
use crate::lowering;
use crate::operation::{Feature, Kind, Lists, Operation, Outcome};
use crate::ours::{self, Answer};
use crate::random::Random;
use crate::restated::{self, Rules, Written};
use crate::rootspoil;
use crate::rules;
use crate::simpler;
use crate::sortcases;
use crate::sorted;
use crate::sortfeatures;
use crate::sortspoil;
use crate::spoil;

pub struct SortedCheck {
    /// Must every root have one bit?
    strict: bool,
}

pub const CHECK_WITH_SORTS: SortedCheck = SortedCheck { strict: false };

pub const STRICT_CHECK_WITH_SORTS: SortedCheck = SortedCheck { strict: true };

/// Its numbers; the last is the strict check's alone.
const ANSWERS: [u64; 21] = [
    0, 1, 2, 3, 4, 5, 6, 7, 8, 9, 10, 11, 12, 13, 14, 15, 16, 17, 18, 28, 19,
];

impl Operation for SortedCheck {
    fn number(&self) -> u64 {
        match self.strict {
            false => 11,
            true => 12,
        }
    }

    fn name(&self) -> &'static str {
        match self.strict {
            false => "check with sorts",
            true => "strict check with sorts",
        }
    }

    fn lists(&self) -> &'static [(&'static str, Kind)] {
        &[
            ("source", Kind::Rows(5)),
            ("source bits", Kind::Bits),
            ("side", Kind::Words),
            ("source roots", Kind::Words),
            ("map", Kind::Words),
            ("reads", Kind::Entries(3)),
            ("calls", Kind::Entries(4)),
            ("arguments", Kind::Words),
            ("target", Kind::Rows(4)),
            ("target bits", Kind::Bits),
            ("target roots", Kind::Words),
            ("sorts", Kind::Sorts),
            ("source widths", Kind::Lent(at::SOURCE)),
            ("target widths", Kind::Lent(at::TARGET)),
            ("classes", Kind::Lent(at::TARGET)),
            ("entries", Kind::Lent(at::TARGET)),
        ]
    }

    fn answers(&self) -> &'static [u64] {
        match self.strict {
            false => &ANSWERS[..20],
            true => &ANSWERS,
        }
    }

    fn parts(&self) -> &'static [(u64, u64)] {
        &PARTS
    }

    fn features(&self) -> Vec<Feature> {
        sortfeatures::features()
    }

    fn known(&self) -> Vec<(Lists, Answer)> {
        sortcases::known(self.strict)
    }

    fn changed(&self) -> Vec<Lists> {
        let accepted = sortcases::to_change().into_iter();
        accepted.flat_map(|lists| changes::each(&lists)).collect()
    }

    /// An accepted lowering, then none to three damages, and often one or two to its
    /// sort table; now and then a case of the first edition.
    fn generate(&self, random: &mut Random, rows: usize) -> Lists {
        if random.once_in(8) {
            return editions::sorted(&self.first().generate(random, rows), at::SORTS);
        }
        let mut lists = self.undamaged(random, rows);
        for _ in 0..random.pick(&[0, 0, 0, 1, 1, 1, 1, 1, 2, 3]) {
            spoil::spoil(random, self.lists(), &mut lists);
        }
        for _ in 0..random.pick(&[0, 0, 0, 1, 1, 2]) {
            sortspoil::spoil(random, &mut lists);
        }
        if self.strict && random.once_in(4) {
            rootspoil::spoil(random, &mut lists);
        }
        lists
    }

    fn ours(&self, lists: &Lists) -> Outcome {
        let mut lists = lists.clone();
        let mut bits = check::bytes(&lists);
        let [source, _, side, source_roots, map, reads, calls, arguments, target, _, target_roots, sorts, lent @ ..] =
            &mut lists[..]
        else {
            unreachable!("check with sorts has sixteen lists")
        };
        let call = ours::fenced_four(lent, |lent| {
            let words: [&mut [u64]; 10] = [
                source,
                side,
                source_roots,
                map,
                reads,
                calls,
                arguments,
                target,
                target_roots,
                sorts,
            ];
            let bits = bits.each_mut().map(|bits| &mut bits[..]);
            sorted::check(self.strict, words, bits, lent)
        });
        check::left(lists, bits, call)
    }

    fn expected(&self, lists: &Lists) -> Outcome {
        let (answer, written) = match rules::check(lists) {
            Some(refusal) => (refusal, Written::default()),
            None => restated::check_by(Rules::right(self.strict), lists),
        };
        check::outcome(lists, answer, &written)
    }

    fn second(&self, lists: &Lists) -> Option<Outcome> {
        let mut outcome = self
            .first()
            .expected(&editions::unsorted(lists, at::SORTS)?);
        outcome.lists.insert(at::SORTS, lists[at::SORTS].clone());
        Some(outcome)
    }

    fn told_apart(&self, lists: &Lists) -> bool {
        rules::check(lists).is_none()
            && functions::told_apart(lists)
            && self.expected(lists).answer.number != 19
    }

    fn simpler(&self, lists: &Lists) -> Vec<Lists> {
        simpler::each(lists)
    }
}

impl SortedCheck {
    /// The check of the first edition.
    fn first(&self) -> &'static Check {
        match self.strict {
            false => &CHECK,
            true => &STRICT_CHECK,
        }
    }

    /// An accepted lowering, with lent lists that fit it or have words to spare.
    pub fn undamaged(&self, random: &mut Random, rows: usize) -> Lists {
        let lists = lowering::with_sorts(random, rows, self.strict);
        check::lent(random, lists)
    }
}
