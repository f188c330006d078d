//! The comparison: all tiny cases and those whose answers the scope names, then
//! random ones, each held to the expected outcome; the first disagreement is made
//! small and printed. Where there is a second reference, it must say the same.

use crate::grid;
use crate::operation::{Lists, Operation, Pair, OPERATIONS};
use crate::ours::Answer;
use crate::random::Random;
use crate::show;
use crate::shrink::shrink;
use crate::tally::Tally;
use crate::tiny;

/// About the most rows of a random graph.
const ROWS: usize = 40;

/// A comparison under way.
pub struct Run {
    /// Is the library asked, or are only the references held to each other?
    library: bool,
    tally: Tally,
    /// Cases of a first edition that were run again with a sort table.
    again: u64,
}

/// Runs the comparison, of all operations or of some alone; false at a disagreement or
/// where something never came.
pub fn compare(seed: u64, cases: u64, only: &[&'static dyn Operation]) -> bool {
    let mut operations = OPERATIONS.to_vec();
    if !only.is_empty() {
        let numbers: Vec<u64> = only.iter().map(|operation| operation.number()).collect();
        operations.retain(|(operation, _)| numbers.contains(&operation.number()));
    }
    println!("seed {seed}, all tiny cases and {cases} random ones");
    let chosen: Vec<&'static dyn Operation> = operations.iter().map(|&(of, _)| of).collect();
    let mut run = Run::new(&chosen, true);
    if !(run.tiny(&chosen) && chosen.iter().all(|&operation| run.known(operation))) {
        return false;
    }
    println!("tiny and known cases: {}", run.tally.total());
    let good = (0..cases).all(|case| {
        let mut random = Random::of_case(seed, case);
        let operation = choose(&mut random, &operations);
        let lists = operation.generate(&mut random, ROWS);
        run.judge_both(operation, &lists, || {
            format!("random case {case} of seed {seed}")
        })
    });
    good && run.complete(cases)
}

fn choose(random: &mut Random, from: &[(&'static dyn Operation, u64)]) -> &'static dyn Operation {
    let total = from.iter().map(|&(_, weight)| weight).sum();
    let mut ticket = random.below(total);
    for &(operation, weight) in from {
        if ticket < weight {
            return operation;
        }
        ticket -= weight;
    }
    unreachable!("the weights add up to the total")
}

impl Run {
    pub fn new(operations: &[&'static dyn Operation], library: bool) -> Run {
        Run {
            library,
            tally: Tally::new(operations),
            again: 0,
        }
    }

    fn tiny(&mut self, operations: &[&'static dyn Operation]) -> bool {
        let mut visit = |operation: &'static dyn Operation, lists: &Lists| {
            let chosen = operations
                .iter()
                .any(|of| of.number() == operation.number());
            !chosen || self.judge_both(operation, lists, || "a tiny case".to_string())
        };
        tiny::each(&mut visit) && grid::each(&mut visit)
    }

    /// The cases whose answers are known, then all changes of the accepted ones.
    pub fn known(&mut self, operation: &dyn Operation) -> bool {
        let known = operation.known();
        (known
            .iter()
            .all(|(lists, answer)| self.answered(operation, lists, *answer, "a known case")))
            && (operation.changed().iter()).all(|lists| {
                self.judge_both(operation, lists, || "a changed known case".to_string())
            })
    }

    /// Runs one case and counts it; false, with a report, when outcomes differ.
    fn judge(
        &mut self,
        operation: &dyn Operation,
        lists: &Lists,
        which: impl Fn() -> String,
    ) -> bool {
        let expected = operation.expected(lists);
        self.tally.count(operation, lists, expected.answer);
        if self.library && operation.ours(lists) != expected {
            return report(operation, Pair::Library, lists, &which());
        }
        let Some(other) = operation.second(lists) else {
            return true;
        };
        self.tally.count_second(operation, lists);
        other == expected || report(operation, Pair::References, lists, &which())
    }

    /// Runs one case, then the same with a sort table of 32 and 8, where the run has that
    /// operation.
    pub fn judge_both(
        &mut self,
        operation: &dyn Operation,
        lists: &Lists,
        which: impl Fn() -> String,
    ) -> bool {
        let good = self.judge(operation, lists, &which);
        let again = operation.with_sorts(lists);
        let again = again.filter(|(sorted, _)| self.tally.has(*sorted));
        good && again.is_none_or(|(sorted, lists)| {
            self.again += 1;
            self.judge(sorted, &lists, || format!("{}, with a sort table", which()))
        })
    }

    /// The same for a case whose answer is known.
    pub fn answered(
        &mut self,
        operation: &dyn Operation,
        lists: &Lists,
        known: Answer,
        which: &str,
    ) -> bool {
        let answer = operation.expected(lists).answer;
        if answer != known {
            println!("{which} should get {known:?}, but Rust and rules give {answer:?}");
            return false;
        }
        self.judge_both(operation, lists, || which.to_string())
    }

    /// Prints what came; false if something never did in so many random cases.
    pub fn complete(&self, cases: u64) -> bool {
        println!(
            "with a sort table of 32 and 8 once more: {} cases",
            self.again
        );
        self.tally.complete(cases)
    }
}

/// Prints a disagreement, made small. Always false.
fn report(operation: &dyn Operation, pair: Pair, lists: &Lists, which: &str) -> bool {
    println!("DISAGREEMENT, found in {which}, made small:");
    let small = shrink(operation, pair, lists.clone());
    print!("{}", show::disagreement(operation, pair, &small));
    false
}
