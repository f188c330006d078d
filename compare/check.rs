//! Check as an operation, and the strict check. The answer that is expected comes from
//! the published Rust; from the ceiling where a row passes it; from restated.rs where
//! calls of one number and count are told apart by their widths. The strict check asks
//! the Rust's `roots_wf` about both root lists before. Classes and entry offsets, which
//! the Rust keeps to itself, come from restated.rs. The second reference is
//! restated.rs where the Rust is the first, else the Rust with the functions renamed.
//! selftest.rs runs both without the library. sortedcheck.rs has them with a sort table.

use crate::ceilingcases;
use crate::changes;
use crate::editions;
use crate::features;
use crate::functioncases;
use crate::functions;
use crate::lowering;
use crate::marked;
use crate::operation::{Feature, Kind, Lists, Operation, Outcome};
use crate::ours::{self, Answer};
use crate::random::Random;
use crate::reference;
use crate::renamed::renamed;
use crate::restated::{self, Rules, Written};
use crate::rootcounts;
use crate::rootspoil;
use crate::rules::{self, ACCEPTED, SOURCE, TARGET};
use crate::simpler;
use crate::sortedcheck::{CHECK_WITH_SORTS, STRICT_CHECK_WITH_SORTS};
use crate::sorts::Edition;
use crate::spoil;
use crate::strictcases;

pub struct Check {
    /// Must every root have one bit?
    pub strict: bool,
}

pub const CHECK: Check = Check { strict: false };

pub const STRICT_CHECK: Check = Check { strict: true };

/// Its numbers; the last is the strict check's alone.
const ANSWERS: [u64; 20] = [
    0, 1, 2, 3, 4, 5, 6, 7, 8, 9, 10, 11, 12, 13, 14, 15, 16, 17, 18, 19,
];

/// The places of its lists.
pub mod at {
    use crate::operation::Lists;

    pub const SOURCE: usize = 0;
    pub const SOURCE_BITS: usize = 1;
    pub const SIDE: usize = 2;
    pub const SOURCE_ROOTS: usize = 3;
    pub const MAP: usize = 4;
    pub const READS: usize = 5;
    pub const CALLS: usize = 6;
    pub const ARGUMENTS: usize = 7;
    pub const TARGET: usize = 8;
    pub const TARGET_BITS: usize = 9;
    pub const TARGET_ROOTS: usize = 10;
    /// The sort table, which a first edition does not have.
    pub const SORTS: usize = 11;

    /// The first of the four lent lists, which come last.
    pub fn lent(lists: &Lists) -> usize {
        lists.len() - 4
    }
}

/// The lists of bits.
const BITS: [usize; 2] = [at::SOURCE_BITS, at::TARGET_BITS];

/// Its refusals 15 to 18, each with the graph or the lent list that it names.
pub const PARTS: [(u64, u64); 10] = [
    (15, 1),
    (15, 2),
    (16, 1),
    (16, 2),
    (17, 1),
    (17, 2),
    (18, 1),
    (18, 2),
    (18, 3),
    (18, 4),
];

impl Operation for Check {
    fn number(&self) -> u64 {
        match self.strict {
            false => 5,
            true => 8,
        }
    }

    fn name(&self) -> &'static str {
        match self.strict {
            false => "check",
            true => "strict check",
        }
    }

    fn lists(&self) -> &'static [(&'static str, Kind)] {
        &[
            ("source", Kind::Rows(5)),
            ("source bits", Kind::Bits),
            ("side", Kind::Words),
            ("source roots", Kind::Words),
            ("map", Kind::Words),
            ("reads", Kind::Entries(3)),
            ("calls", Kind::Entries(4)),
            ("arguments", Kind::Words),
            ("target", Kind::Rows(4)),
            ("target bits", Kind::Bits),
            ("target roots", Kind::Words),
            ("source widths", Kind::Lent(at::SOURCE)),
            ("target widths", Kind::Lent(at::TARGET)),
            ("classes", Kind::Lent(at::TARGET)),
            ("entries", Kind::Lent(at::TARGET)),
        ]
    }

    fn answers(&self) -> &'static [u64] {
        match self.strict {
            false => &ANSWERS[..19],
            true => &ANSWERS,
        }
    }

    fn parts(&self) -> &'static [(u64, u64)] {
        &PARTS
    }

    fn features(&self) -> Vec<Feature> {
        match self.strict {
            false => features::features(),
            true => rootcounts::features(),
        }
    }

    fn known(&self) -> Vec<(Lists, Answer)> {
        if self.strict {
            return strictcases::known();
        }
        let accepted = marked::accepted().into_iter();
        accepted
            .map(|lists| (lists, ACCEPTED))
            .chain(marked::refused())
            .chain(ceilingcases::lowerings())
            .chain(functioncases::known())
            .collect()
    }

    fn changed(&self) -> Vec<Lists> {
        let (accepted, tiny) = match self.strict {
            false => (marked::accepted(), Vec::new()),
            true => (strictcases::accepted(), strictcases::tiny()),
        };
        let told_apart = functioncases::to_change();
        (accepted.into_iter().chain(told_apart))
            .flat_map(|lists| changes::each(&lists))
            .chain(tiny)
            .collect()
    }

    /// An accepted lowering, then none to three damages; for the strict check often to
    /// the roots too, and now and then with roots of any width.
    fn generate(&self, random: &mut Random, rows: usize) -> Lists {
        if self.strict && random.once_in(10) {
            return CHECK.generate(random, rows);
        }
        let mut lists = self.undamaged(random, rows);
        for _ in 0..random.pick(&[0, 0, 1, 1, 1, 1, 1, 1, 2, 3]) {
            spoil::spoil(random, self.lists(), &mut lists);
        }
        if self.strict && random.once_in(3) {
            rootspoil::spoil(random, &mut lists);
        }
        lists
    }

    fn ours(&self, lists: &Lists) -> Outcome {
        let mut lists = lists.clone();
        let mut bits = bytes(&lists);
        let [source, _, side, source_roots, map, reads, calls, arguments, target, _, target_roots, lent @ ..] =
            &mut lists[..]
        else {
            unreachable!("check has fifteen lists")
        };
        let call = ours::fenced_four(lent, |lent| {
            let words: [&mut [u64]; 9] = [
                source,
                side,
                source_roots,
                map,
                reads,
                calls,
                arguments,
                target,
                target_roots,
            ];
            ours::check(
                self.strict,
                words,
                bits.each_mut().map(|bits| &mut bits[..]),
                lent,
            )
        });
        left(lists, bits, call)
    }

    fn expected(&self, lists: &Lists) -> Outcome {
        let asked = || match functions::told_apart(lists) {
            true => self.restated(lists).0,
            false => reference::check(lists),
        };
        let answer = rules::check(lists)
            .or_else(|| rules::above(self.lists(), lists))
            .or_else(|| self.bad_root(lists))
            .unwrap_or_else(asked);
        with_widths(lists, answer)
    }

    fn second(&self, lists: &Lists) -> Option<Outcome> {
        if let Some(refusal) = rules::check(lists) {
            return Some(outcome(lists, refusal, &Written::default()));
        }
        if self.told_apart(lists) {
            let answer = reference::check(&renamed(lists)?);
            return Some(with_widths(lists, answer));
        }
        let (answer, written) = self.restated(lists);
        Some(outcome(lists, answer, &written))
    }

    fn told_apart(&self, lists: &Lists) -> bool {
        rules::check(lists).is_none()
            && functions::told_apart(lists)
            && self.bad_root(lists).is_none()
    }

    fn with_sorts(&self, lists: &Lists) -> Option<(&'static dyn Operation, Lists)> {
        let operation: &'static dyn Operation = match self.strict {
            false => &CHECK_WITH_SORTS,
            true => &STRICT_CHECK_WITH_SORTS,
        };
        Some((operation, editions::sorted(lists, at::SORTS)))
    }

    fn simpler(&self, lists: &Lists) -> Vec<Lists> {
        simpler::each(lists)
    }
}

impl Check {
    /// An accepted lowering, with lent lists that fit it or have words to spare.
    pub fn undamaged(&self, random: &mut Random, rows: usize) -> Lists {
        let lists = match self.strict {
            false => lowering::accepted(random, rows),
            true => lowering::strict(random, rows),
        };
        lent(random, lists)
    }

    /// 19 by the Rust, in the strict check.
    fn bad_root(&self, lists: &Lists) -> Option<Answer> {
        self.strict.then(|| reference::bad_root(lists)).flatten()
    }

    fn restated(&self, lists: &Lists) -> (Answer, Written) {
        restated::check_by(Rules::right(self.strict), lists)
    }
}

/// Check, or the strict check, as the edition of these lists asks for it.
pub fn by_edition(strict: bool, lists: &Lists) -> &'static dyn Operation {
    match (Edition::of(lists), strict) {
        (Edition::First, false) => &CHECK,
        (Edition::First, true) => &STRICT_CHECK,
        (Edition::Second(_), false) => &CHECK_WITH_SORTS,
        (Edition::Second(_), true) => &STRICT_CHECK_WITH_SORTS,
    }
}

/// The bits of both graphs as bytes.
pub fn bytes(lists: &Lists) -> [Vec<u8>; 2] {
    BITS.map(|list| lists[list].iter().map(|&bit| bit as u8).collect())
}

/// The outcome of a call of the library that left these lists and bits.
pub fn left(mut lists: Lists, bits: [Vec<u8>; 2], (answer, strayed): (Answer, bool)) -> Outcome {
    for (list, bits) in BITS.into_iter().zip(bits) {
        lists[list] = bits.into_iter().map(u64::from).collect();
    }
    Outcome {
        answer,
        lists,
        strayed,
    }
}

/// The lists of a lowering, with lent lists that fit it or have words to spare.
pub fn lent(random: &mut Random, mut lists: Lists) -> Lists {
    let source = lists[at::SOURCE].len() / SOURCE.row;
    let target = lists[at::TARGET].len() / TARGET.row;
    for rows in [source, target, target, target] {
        let spare = random.pick(&[0, 0, 0, 0, 1, 2, 5]);
        lists.push(random.junk(rows + spare));
    }
    lists
}

/// The outcome of an answer, where acceptance writes these lists.
pub fn outcome(lists: &Lists, answer: Answer, written: &Written) -> Outcome {
    let mut after = lists.clone();
    for (list, written) in after[at::lent(lists)..].iter_mut().zip(written) {
        *list = rules::lent_after(answer, list, written);
    }
    Outcome {
        answer,
        lists: after,
        strayed: false,
    }
}

/// The outcome of an answer, where acceptance writes the widths of the Rust, and
/// classes and entries of restated.rs.
fn with_widths(lists: &Lists, answer: Answer) -> Outcome {
    if answer != ACCEPTED {
        return outcome(lists, answer, &Written::default());
    }
    let [source, target] = reference::check_widths(lists);
    let [_, _, classes, entries] = restated::check(lists).1;
    outcome(lists, answer, &[source, target, classes, entries])
}
