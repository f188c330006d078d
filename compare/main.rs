//! Holds the library libgilfrunt.a to the published Rust.
//!
//! `compare` runs many cases through both, `list` writes a fixed list of cases
//! with the expected outcomes, `bench` takes times, `smt` writes the library's
//! values as a script for a solver, `check-self` holds two statements of Check
//! against each other, `choices` tries that source and target leave the same choices,
//! `smt-choices` asks a solver for that at second editions of any shape,
//! `books` gives books to the programs `verdict` and `strict_verdict`, `slow` times the
//! first.
//! docs/COMPARISON.md tells more; `compare/run` builds and starts this program.

mod bench;
mod bench_check;
mod bench_sorts;
mod book;
mod bookcounts;
mod bookdamage;
mod books;
mod bookshape;
mod callfeatures;
mod callspoil;
mod ceilingcases;
mod ceilingcounts;
mod chains;
mod changes;
mod check;
mod choicecases;
mod choicecounts;
mod choicefeatures;
mod choices;
mod choicevalues;
mod compare;
mod congruence;
mod damage;
mod editions;
mod extremes;
mod features;
mod finish;
mod functioncases;
mod functioncounts;
mod functions;
mod graphs;
mod grid;
mod judged;
mod large;
mod list;
mod listed;
mod listedbooks;
mod listline;
mod lowering;
mod marked;
mod misfits;
mod open;
mod openlowering;
mod openmemory;
mod openplan;
mod openrows;
mod operands;
mod operation;
mod ours;
mod plain;
mod race;
mod random;
mod reference;
mod renamed;
mod restated;
mod rootcounts;
mod roots;
mod rootspoil;
mod rules;
mod secondbooks;
mod selftest;
mod shapes;
mod show;
mod shrink;
mod signatures;
mod simpler;
mod slow;
mod smt;
mod smtchoices;
mod smtterms;
mod sortcases;
mod sortcounts;
mod sorted;
mod sortedcheck;
mod sortedwidths;
mod sortfeatures;
mod sortlist;
mod sortparts;
mod sorts;
mod sortspoil;
mod sorttables;
mod sources;
mod spoil;
mod statement;
mod strict;
mod strictcases;
mod strictlist;
mod tags;
mod tally;
mod tiny;
mod values;
mod wellformed;
mod widen;
mod widths;
mod wrong;

use std::process::ExitCode;

use operation::{Operation, OPERATIONS};

const USAGE: &str = "usage: [compare|bench|list|smt|check-self|choices|smt-choices|books|slow] \
[--seed N] [--cases N] [--rows N] [--only NAME] [--verdict PROGRAM] [--strict-verdict PROGRAM]";

/// The words of the command line.
struct Command {
    what: String,
    seed: u64,
    cases: Option<u64>,
    rows: u64,
    only: Vec<&'static dyn Operation>,
    verdict: String,
    strict_verdict: String,
}

/// The operation of this name, its words joined by hyphens; by `sorts` all that have a sort
/// table.
fn operations(name: &str) -> Option<Vec<&'static dyn Operation>> {
    let mut operations: Vec<_> = OPERATIONS.iter().map(|&(operation, _)| operation).collect();
    operations.retain(|operation| match name {
        "sorts" => operation.sorts().is_some(),
        _ => operation.name().replace(' ', "-") == name,
    });
    (!operations.is_empty()).then_some(operations)
}

fn command(mut words: impl Iterator<Item = String>) -> Option<Command> {
    let mut command = Command {
        what: "compare".to_string(),
        seed: 1,
        cases: None,
        rows: 20_000,
        only: Vec::new(),
        verdict: "target/bin/verdict".to_string(),
        strict_verdict: "target/bin/strict_verdict".to_string(),
    };
    while let Some(word) = words.next() {
        match word.as_str() {
            "--seed" => command.seed = words.next()?.parse().ok()?,
            "--cases" => command.cases = Some(words.next()?.parse().ok()?),
            "--rows" => command.rows = words.next()?.parse().ok()?,
            "--only" => command.only = operations(&words.next()?)?,
            "--verdict" => command.verdict = words.next()?,
            "--strict-verdict" => command.strict_verdict = words.next()?,
            "compare" | "bench" | "list" | "smt" | "check-self" | "choices" | "smt-choices"
            | "books" | "slow" => command.what = word,
            _ => return None,
        }
    }
    Some(command)
}

fn main() -> ExitCode {
    let Some(command) = command(std::env::args().skip(1)) else {
        eprintln!("{USAGE}");
        return ExitCode::from(2);
    };
    let cases = command.cases.unwrap_or(match command.what.as_str() {
        "books" => 50_000,
        "choices" => 15_000,
        "smt-choices" => 2_000,
        _ => 1_000_000,
    });
    let good = match command.what.as_str() {
        "bench" => {
            let seed = command.seed;
            bench::bench(seed) && bench_check::bench(seed) && bench_sorts::bench(seed)
        }
        "list" => list::list(command.seed),
        "smt" => smt::smt(command.seed, command.rows),
        "check-self" => selftest::selftest(command.seed, cases),
        "choices" => choices::choices(command.seed, cases),
        "smt-choices" => smtchoices::smt_choices(command.seed, cases),
        "books" => {
            let programs = [&command.verdict, &command.strict_verdict];
            books::books(command.seed, cases, programs[0], programs[1])
        }
        "slow" => slow::slow(&command.verdict),
        _ => compare::compare(command.seed, cases, &command.only),
    };
    ExitCode::from(if good { 0 } else { 1 })
}
