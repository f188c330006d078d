//! What a run has met so far: answers, tags, features, edge words, rows at the
//! ceiling, functions told apart, roots of another width, sort tables. It prints the counts
//! and says whether anything that must come is missing.

use crate::ceilingcounts::CeilingCounts;
use crate::check::{CHECK, STRICT_CHECK};
use crate::functioncounts::FunctionCounts;
use crate::operation::{Feature, Kind, Lists, Operation};
use crate::ours::Answer;
use crate::rootcounts::RootCounts;
use crate::rules::ACCEPTED;
use crate::sortcounts::SortCounts;
use crate::sortedcheck::{CHECK_WITH_SORTS, STRICT_CHECK_WITH_SORTS};

/// Words from here on are near 2^64 - 1.
const HIGH: u64 = u64::MAX - 3;

/// From so many random cases on, everything that must come does; a run of fewer
/// does not fail because something never came.
const ENOUGH: u64 = 10_000;

/// Prints what never came in a run of so many random cases; false if that is a failure.
pub fn nothing_missing(cases: u64, missing: &[String]) -> bool {
    missing
        .iter()
        .for_each(|what| println!("{what} never came"));
    if missing.is_empty() || cases >= ENOUGH {
        return missing.is_empty();
    }
    println!("with fewer than {ENOUGH} random cases that is no failure");
    true
}

pub struct Tally {
    operations: Vec<Counts>,
}

struct Counts {
    operation: &'static dyn Operation,
    /// By answer number.
    answers: [u64; 32],
    /// Of `Operation::parts`.
    parts: Vec<u64>,
    /// Of `Operation::features`, in accepted cases.
    features: Vec<(Feature, u64)>,
    /// By list and field: words near 2^64 - 1.
    high: Vec<Vec<u64>>,
    /// By tag: rows in accepted graphs, and rows that a graph was refused for.
    taken: [u64; 64],
    refused: [u64; 64],
    /// Cases that the second reference judged, and their rows.
    second: [u64; 2],
    ceiling: CeilingCounts,
    /// In Check, strict or not.
    functions: Option<FunctionCounts>,
    /// In the strict check.
    roots: Option<RootCounts>,
    /// In operations with a sort table.
    sorts: Option<SortCounts>,
}

impl Tally {
    pub fn new(operations: &[&'static dyn Operation]) -> Tally {
        let operations = operations.iter().copied().map(Counts::new).collect();
        Tally { operations }
    }

    /// Does the run have this operation?
    pub fn has(&self, operation: &dyn Operation) -> bool {
        let mut numbers = self
            .operations
            .iter()
            .map(|counts| counts.operation.number());
        numbers.any(|number| number == operation.number())
    }

    fn of(&mut self, operation: &dyn Operation) -> &mut Counts {
        let same = |counts: &&mut Counts| counts.operation.number() == operation.number();
        let found = self.operations.iter_mut().find(same);
        found.expect("the run has this operation")
    }

    pub fn total(&self) -> u64 {
        let answers = self.operations.iter().flat_map(|counts| counts.answers);
        answers.sum()
    }

    pub fn count(&mut self, operation: &dyn Operation, lists: &Lists, answer: Answer) {
        let counts = self.of(operation);
        counts.answers[answer.number as usize] += 1;
        counts.count_parts(answer);
        counts.count_high(lists);
        let functions = counts.functions.as_mut();
        let told_apart = functions.is_some_and(|of| of.count(operation, lists, answer));
        counts.ceiling.count(lists, answer, told_apart);
        let roots = counts.roots.iter_mut();
        roots.for_each(|roots| roots.count(lists, answer));
        let sorts = counts.sorts.iter_mut();
        sorts.for_each(|sorts| sorts.count(lists, answer));
        if let (Kind::Rows(row), true) = (operation.lists()[0].1, operation.tags() > 0) {
            counts.count_tags(row, &lists[0], answer);
        }
        if answer == ACCEPTED {
            for ((_, has), count) in &mut counts.features {
                *count += u64::from(has(lists));
            }
        }
    }

    pub fn count_second(&mut self, operation: &dyn Operation, lists: &Lists) {
        let rows = match operation.lists()[0].1 {
            Kind::Rows(row) => lists[0].len() / row,
            _ => 0,
        };
        let second = &mut self.of(operation).second;
        second[0] += 1;
        second[1] += rows as u64;
    }

    /// Prints the counts; false if something never came that must.
    pub fn complete(&self, cases: u64) -> bool {
        self.operations.iter().for_each(Counts::print);
        println!("{} cases, all as expected", self.total());
        let missing: Vec<String> = self.operations.iter().flat_map(Counts::missing).collect();
        nothing_missing(cases, &missing)
    }
}

impl Counts {
    fn new(operation: &'static dyn Operation) -> Counts {
        let fields = operation.lists().iter().map(|(_, kind)| kind.fields());
        let number = operation.number();
        let strict = [STRICT_CHECK.number(), STRICT_CHECK_WITH_SORTS.number()].contains(&number);
        let calls = strict || [CHECK.number(), CHECK_WITH_SORTS.number()].contains(&number);
        Counts {
            operation,
            answers: [0; 32],
            parts: vec![0; operation.parts().len()],
            features: operation.features().into_iter().map(|f| (f, 0)).collect(),
            high: fields.map(|fields| vec![0; fields]).collect(),
            taken: [0; 64],
            refused: [0; 64],
            second: [0; 2],
            ceiling: CeilingCounts::new(operation),
            functions: calls.then(FunctionCounts::default),
            roots: strict.then(RootCounts::default),
            sorts: SortCounts::new(operation),
        }
    }

    /// 15 and 18 name a graph or list by their place, 16 and 17 by their detail.
    fn count_parts(&mut self, answer: Answer) {
        let part = match answer.number {
            15 | 18 => answer.place,
            _ => answer.detail,
        };
        for (count, due) in self.parts.iter_mut().zip(self.operation.parts()) {
            *count += u64::from(*due == (answer.number, part));
        }
    }

    fn count_high(&mut self, lists: &Lists) {
        for (counts, list) in self.high.iter_mut().zip(lists) {
            let fields = counts.len();
            for (place, _) in list.iter().enumerate().filter(|(_, &word)| word >= HIGH) {
                if fields > 0 {
                    counts[place % fields] += 1;
                }
            }
        }
    }

    fn count_tags(&mut self, row: usize, rows: &[u64], answer: Answer) {
        match answer.number {
            0 => rows
                .chunks(row)
                .for_each(|row| self.taken[row[0] as usize] += 1),
            1 | 2 => self.refused[rows[answer.place as usize * row] as usize] += 1,
            _ => {}
        }
    }

    fn print(&self) {
        let tags = self.operation.tags();
        println!("{}", self.operation.name());
        for (number, count) in self.answers.iter().enumerate().filter(|(_, &c)| c > 0) {
            println!("  answer {number:2}: {count:8}");
        }
        for ((number, part), count) in self.operation.parts().iter().zip(&self.parts) {
            println!("  answer {number:2} for {part}: {count:8}");
        }
        self.ceiling.print();
        self.functions.iter().for_each(FunctionCounts::print);
        self.roots.iter().for_each(RootCounts::print);
        self.sorts.iter().for_each(SortCounts::print);
        let least = |counts: &[u64]| counts.iter().min().copied().unwrap_or(0);
        let high = self.high.iter().flatten().copied().collect::<Vec<u64>>();
        println!(
            "  words near 2^64-1 in each of {} fields: at least {}",
            high.len(),
            least(&high)
        );
        if tags > 0 {
            println!("  each of {tags} tags:");
            println!("    taken at least {} times", least(&self.taken[..tags]));
            println!(
                "    refused at least {} times",
                least(&self.refused[..tags])
            );
        }
        if !self.features.is_empty() {
            println!("  accepted with");
        }
        for ((name, _), count) in &self.features {
            println!("    {name}: {count}");
        }
        let [cases, rows] = self.second;
        if cases > 0 {
            println!("  by the second reference too: {cases} cases, {rows} rows");
        }
    }

    /// Each thing that never came.
    fn missing(&self) -> Vec<String> {
        let mut missing = Vec::new();
        let mut due = |count: u64, what: String| {
            if count == 0 {
                missing.push(format!("{}: {what}", self.operation.name()));
            }
        };
        for &number in self.operation.answers() {
            due(
                self.answers[number as usize],
                format!("the answer {number}"),
            );
        }
        for (count, (number, part)) in self.parts.iter().zip(self.operation.parts()) {
            due(*count, format!("the answer {number} for {part}"));
        }
        let functions = self.functions.iter().flat_map(FunctionCounts::due);
        let roots = self.roots.iter().flat_map(RootCounts::due);
        let sorts = self.sorts.iter().flat_map(SortCounts::due);
        let counts = self.ceiling.due().into_iter().chain(functions);
        for (count, what) in counts.chain(roots).chain(sorts) {
            due(count, what);
        }
        for tag in 0..self.operation.tags() {
            due(self.taken[tag], format!("tag {tag}, taken,"));
            due(self.refused[tag], format!("tag {tag}, refused,"));
        }
        for ((name, _), count) in &self.features {
            due(*count, format!("{name:?}"));
        }
        for (counts, (name, _)) in self.high.iter().zip(self.operation.lists()) {
            for (field, count) in counts.iter().enumerate() {
                due(
                    *count,
                    format!("a word near 2^64-1 in {name}, field {field},"),
                );
            }
        }
        missing
    }
}
