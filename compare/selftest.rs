//! Check and the strict check without the library: the published Rust against
//! restated.rs, over the marked cases with all their changes and over random lowerings,
//! each without damage and as generated; all of them again with a sort table, and
//! lowerings of a second edition. Before that, wrong rules for functions, for roots, for
//! sort tables and for books must be noticed.

use crate::bookdamage;
use crate::bookshape::{self, Books};
use crate::check::{CHECK, STRICT_CHECK};
use crate::compare::Run;
use crate::functions;
use crate::operation::{Lists, Operation};
use crate::ours::Answer;
use crate::random::Random;
use crate::restated::{self, Rules};
use crate::rules::{self, ACCEPTED};
use crate::sortedcheck::{CHECK_WITH_SORTS, STRICT_CHECK_WITH_SORTS};
use crate::sorts;
use crate::strict;

/// About the most rows of a random source.
const ROWS: usize = 24;

/// A wrong rule must be noticed within so many random cases.
const SOON: u64 = 3_000;

/// Runs the marked cases and so many random ones; false at a disagreement or
/// where something never came.
pub fn selftest(seed: u64, cases: u64) -> bool {
    let mut run = Run::new(&CHECKS.map(|(check, _)| check), false);
    (wrong_rules(seed) & wrong_books(seed))
        && CHECKS.iter().all(|&(check, _)| run.known(check))
        && (0..cases).all(|case| {
            let which = format!("random case {case} of seed {seed}");
            let random = || Random::of_case(seed, case);
            CHECKS.iter().all(|&(check, undamaged)| {
                let damaged = check.generate(&mut random(), ROWS);
                run.answered(check, &undamaged(&mut random()), ACCEPTED, &which)
                    && run.judge_both(check, &damaged, || which.clone())
            })
        })
        && run.complete(cases)
}

/// Each check with its accepted lowerings.
const CHECKS: [(&dyn Operation, fn(&mut Random) -> Lists); 4] = [
    (&CHECK, |random| CHECK.undamaged(random, ROWS)),
    (&STRICT_CHECK, |random| STRICT_CHECK.undamaged(random, ROWS)),
    (&CHECK_WITH_SORTS, |random| {
        CHECK_WITH_SORTS.undamaged(random, ROWS)
    }),
    (&STRICT_CHECK_WITH_SORTS, |random| {
        STRICT_CHECK_WITH_SORTS.undamaged(random, ROWS)
    }),
];

/// Tries every wrong rule: those for functions, those for roots on cases of the strict
/// check, the strict rule on cases of Check, and those for sort tables on cases with one;
/// false if one is not noticed.
fn wrong_rules(seed: u64) -> bool {
    let [check, strict] = [false, true].map(Rules::right);
    let mut wrong: Vec<(&dyn Operation, Rules, Rules, &str)> = Vec::new();
    wrong.push((&CHECK, check, strict, "roots of one bit asked in Check"));
    for (functions, what) in functions::WRONG {
        wrong.push((&CHECK, check, Rules { functions, ..check }, what));
    }
    for (roots, what) in strict::WRONG {
        let rules = Rules {
            strict: roots,
            ..strict
        };
        wrong.push((&STRICT_CHECK, strict, rules, what));
    }
    for (sorts, what) in sorts::WRONG {
        wrong.push((&CHECK_WITH_SORTS, check, Rules { sorts, ..check }, what));
    }
    let noticed = wrong.into_iter().map(|(of, right, wrong, what)| {
        let lists = |case| of.generate(&mut Random::of_case(seed, case), ROWS);
        is_noticed(what, |case| {
            let lists = lists(case);
            judged(wrong, &lists) != judged(right, &lists)
        })
    });
    noticed.fold(true, |all, noticed| all & noticed)
}

/// The same for wrong rules of books: the shape, and the answers about all sections.
fn wrong_books(seed: u64) -> bool {
    let noticed = bookshape::WRONG.map(|(wrong, what)| {
        is_noticed(what, |case| {
            let book = bookdamage::generate(&mut Random::of_case(seed, case));
            let answers = |rule: Books| {
                let shape = rule.shape(&book).answer();
                (
                    shape,
                    [0, 1, 11, 12, 13].map(|number| rule.section(&book, number)),
                )
            };
            answers(wrong) != answers(Books::Right)
        })
    });
    noticed.into_iter().all(|noticed| noticed)
}

/// The answer by these rules.
fn judged(rules: Rules, lists: &Lists) -> Answer {
    let refusal = rules::check_by(rules.sorts, lists);
    refusal.unwrap_or_else(|| restated::check_by(rules, lists).0)
}

/// Says in which random case wrong rules first give another answer than the right ones,
/// and in how many of them they do; false if in none.
fn is_noticed(what: &str, differs: impl Fn(u64) -> bool) -> bool {
    let cases: Vec<u64> = (0..SOON).filter(|&case| differs(case)).collect();
    match cases.first() {
        Some(first) => println!(
            "wrong, and noticed in random case {first}, in {} of {SOON}: {what}",
            cases.len()
        ),
        None => println!("wrong, but not noticed in {SOON} random cases: {what}"),
    }
    !cases.is_empty()
}
