//! Values as an operation. What is expected comes from plain.rs; the published
//! gates are its second reference.

use crate::ceilingcases;
use crate::damage;
use crate::operands::{self, highest};
use crate::operation::{Kind, Lists, Operation, Outcome};
use crate::ours::{self, Answer};
use crate::random::Random;
use crate::reference;
use crate::rules::{self, ACCEPTED, TARGET};
use crate::tags::VAR;
use crate::widen;

pub struct Values;

pub const VALUES: Values = Values;

/// The places of its lists.
const GIVEN: usize = 2;
const WIDTHS: usize = 3;
const WRITTEN: usize = 4;

impl Operation for Values {
    fn number(&self) -> u64 {
        4
    }

    fn name(&self) -> &'static str {
        "values"
    }

    fn lists(&self) -> &'static [(&'static str, Kind)] {
        &[
            ("target", Kind::Rows(4)),
            ("bits", Kind::Bits),
            ("given", Kind::Given(0)),
            ("widths", Kind::Lent(0)),
            ("values", Kind::Lent(0)),
        ]
    }

    fn answers(&self) -> &'static [u64] {
        &[0, 2, 15, 16, 17, 18, 21, 22, 23]
    }

    fn tags(&self) -> usize {
        TARGET.tags as usize
    }

    fn known(&self) -> Vec<(Lists, Answer)> {
        ceilingcases::values()
    }

    /// A well-formed graph with fitting words, then none to three damages.
    fn generate(&self, random: &mut Random, rows: usize) -> Lists {
        let mut lists = operands::well_formed(random, rows);
        let rows = lists[0].len() / TARGET.row;
        for _ in 0..2 {
            let spare = random.pick(&[0, 0, 0, 0, 1, 2, 5]);
            lists.push(random.junk(rows + spare));
        }
        for _ in 0..random.pick(&[0, 0, 0, 0, 0, 1, 1, 1, 2, 3]) {
            match random.below(8) {
                0 | 1 => operands::overfill(random, &mut lists),
                2 => widen::widen(random, self.lists(), &mut lists),
                _ => damage::damage(random, self.lists(), &mut lists),
            }
        }
        lists
    }

    fn ours(&self, lists: &Lists) -> Outcome {
        let mut lists = lists.clone();
        let mut bits: Vec<u8> = lists[1].iter().map(|&b| b as u8).collect();
        let (answer, strayed) = match &mut lists[..] {
            [target, _, given, widths, values] => {
                ours::fenced_both([widths, values], |widths, values| {
                    ours::values(target, &mut bits, given, widths, values)
                })
            }
            _ => unreachable!("values has five lists"),
        };
        lists[1] = bits.into_iter().map(u64::from).collect();
        Outcome {
            answer,
            lists,
            strayed,
        }
    }

    fn expected(&self, lists: &Lists) -> Outcome {
        outcome(lists, |widths| {
            reference::plain_values(&lists[0], &lists[1], widths, &lists[GIVEN])
        })
    }

    fn second(&self, lists: &Lists) -> Option<Outcome> {
        let gates = |_: &[u64]| reference::gate_values(&lists[0], &lists[1], &lists[GIVEN]);
        Some(outcome(lists, gates)).filter(|outcome| outcome.answer == ACCEPTED)
    }

    fn simpler(&self, lists: &Lists) -> Vec<Lists> {
        let mut simpler = narrower(lists);
        let expected = self.expected(lists);
        if expected.answer == ACCEPTED {
            let rows = 0..lists[GIVEN].len();
            let inner = rows.filter(|row| lists[0][TARGET.row * row] != VAR);
            simpler.extend(inner.map(|row| as_variable(lists, row, &expected.lists)));
        }
        simpler
    }
}

/// The outcome where acceptance writes the values that `meaning` gives from
/// the widths.
fn outcome(lists: &Lists, meaning: impl FnOnce(&[u64]) -> Vec<u64>) -> Outcome {
    let (answer, widths) = rules::values(lists);
    let values = if answer == ACCEPTED {
        meaning(&widths)
    } else {
        Vec::new()
    };
    let mut after = lists.clone();
    after[WIDTHS] = rules::lent_after(answer, &lists[WIDTHS], &widths);
    after[WRITTEN] = rules::lent_after(answer, &lists[WRITTEN], &values);
    Outcome {
        answer,
        lists: after,
        strayed: false,
    }
}

/// The case with a row made a variable of the same width and value.
fn as_variable(lists: &Lists, row: usize, after: &Lists) -> Lists {
    let mut changed = lists.clone();
    let words = TARGET.row * row..TARGET.row * (row + 1);
    changed[0].splice(words, [VAR, after[WIDTHS][row], 0, 0]);
    changed[GIVEN][row] = after[WRITTEN][row];
    changed
}

/// The cases with all variables of one width made narrower.
fn narrower(lists: &Lists) -> Vec<Lists> {
    let rows = || lists[0].chunks_exact(TARGET.row);
    let mut widths: Vec<u64> = rows().filter(|r| r[0] == VAR).map(|r| r[1]).collect();
    widths.sort();
    widths.dedup();
    let pairs = |&old: &u64| {
        let new = [1, 2, 3, 4, 8, old / 2, old.saturating_sub(1)];
        new.map(|new| (old, new)).into_iter()
    };
    let smaller = widths.iter().flat_map(pairs);
    smaller
        .filter(|&(old, new)| 0 < new && new < old)
        .map(|(old, new)| narrowed(lists, old, new))
        .collect()
}

fn narrowed(lists: &Lists, old: u64, new: u64) -> Lists {
    let mut changed = lists.clone();
    for (row, words) in lists[0].chunks_exact(TARGET.row).enumerate() {
        if words[0] == VAR && words[1] == old {
            changed[0][TARGET.row * row + 1] = new;
            if let Some(word) = changed[GIVEN].get_mut(row) {
                *word &= highest(new);
            }
        }
    }
    changed
}
