//! The fixed list: small cases with the expected outcomes, one a line, for the
//! program that replays them, and a few wrong lines at the end. Only rules and
//! reference make it; the library is not asked. strictlist.rs has the strict check,
//! sortlist.rs what has a sort table.

use std::collections::BTreeSet;

use crate::book;
use crate::check::CHECK;
use crate::functioncounts;
use crate::graphs::{Builder, Style};
use crate::listed;
use crate::listedbooks;
use crate::listline::{bytes, line, words_line};
use crate::operation::{Kind, Lists, Operation, Outcome, OPERATIONS};
use crate::ours::Answer;
use crate::random::Random;
use crate::roots::ROOTS;
use crate::rules::{Graph, ACCEPTED, CEILING, SOURCE, TARGET};
use crate::tags::{CALL, SELECT, VAR};
use crate::values::VALUES;
use crate::widths::{SOURCE_WIDTHS, TARGET_WIDTHS};
use crate::wrong;

const MAX: u64 = u64::MAX;

/// A case has at most so many rows, a line so many characters.
#[derive(Clone, Copy)]
pub struct Limits {
    rows: usize,
    line: usize,
}

const SHORT: Limits = Limits { rows: 8, line: 400 };
pub const LONG: Limits = Limits {
    rows: 24,
    line: 999,
};

/// For cases of Check that are chosen for what they show: the shortest of so many.
const MIDDLE: Limits = Limits {
    rows: 12,
    line: 800,
};
const CHOICE: usize = 20;

/// Every line has fewer words, and the list fewer bytes, than this.
const WORDS: usize = 1_000;
const BYTES: usize = 380_000;

/// The numbers of the operations on books.
pub const VERDICT: u64 = 6;
pub const SECTION: u64 = 7;

/// How many random cases of an answer an operation gets.
const WANTED: [(u64, usize); 8] = [
    (0, 20),
    (1, 42),
    (2, 42),
    (15, 8),
    (16, 14),
    (17, 8),
    (18, 8),
    (19, 20),
];

/// The same for values.
const WANTED_VALUES: [(u64, usize); 9] = [
    (0, 20),
    (2, 12),
    (15, 4),
    (16, 8),
    (17, 4),
    (18, 8),
    (21, 10),
    (22, 10),
    (23, 12),
];

/// How many random cases each answer of Check gets, beside those that are chosen, and
/// how many more where functions are told apart.
const WANTED_CHECK: usize = 10;
const WANTED_APART: usize = 2;

#[derive(Default)]
pub struct List {
    lines: Vec<String>,
    /// The cases of Check, each with its answer.
    checks: Vec<(Lists, Answer)>,
    /// Operation and tag of the rows taken so far.
    taken: BTreeSet<(u64, u64)>,
    /// A case with a field of MAX was taken, one was refused.
    highest: [bool; 2],
}

/// Writes the list to standard output; false if it is not what it should be.
pub fn list(seed: u64) -> bool {
    let mut random = Random::new(seed);
    let mut list = List::default();
    each_tag(&mut random, SOURCE, &SOURCE_WIDTHS, &mut list);
    each_tag(&mut random, TARGET, &TARGET_WIDTHS, &mut list);
    let mut good = edges()
        .into_iter()
        .all(|lists| list.add(&SOURCE_WIDTHS, lists, SHORT));
    good &= list.add_known(&SOURCE_WIDTHS) && list.add_known(&TARGET_WIDTHS);
    for operation in [&SOURCE_WIDTHS as &dyn Operation, &TARGET_WIDTHS, &ROOTS] {
        for (number, count) in WANTED {
            if operation.answers().contains(&number) {
                some(&mut random, operation, number, count, &mut list, any);
            }
        }
    }
    good &= listed::cases()
        .into_iter()
        .all(|lists| list.add(&VALUES, lists, LONG));
    good &= list.add_known(&VALUES);
    for (number, count) in WANTED_VALUES {
        some(&mut random, &VALUES, number, count, &mut list, any);
    }
    good &= list.add_known(&CHECK);
    for &number in CHECK.answers() {
        some(&mut random, &CHECK, number, WANTED_CHECK, &mut list, any);
    }
    let apart = |lists: &Lists| CHECK.told_apart(lists);
    for number in functioncounts::DUE {
        some(&mut random, &CHECK, number, WANTED_APART, &mut list, apart);
    }
    good &= showing_features(&mut random, &mut list);
    good &= showing_edges(&mut random, &mut list);
    good &= list.add_books(&mut random);
    good &= list.add_strict(&mut random);
    good &= list.add_sorts(&mut random);
    good &= list.add_wrong();
    list.lines.iter().for_each(|line| println!("{line}"));
    list.complete() && good
}

/// A well-formed graph for each tag.
fn each_tag(random: &mut Random, graph: Graph, operation: &dyn Operation, list: &mut List) {
    for tag in 0..graph.tags {
        let style = random.pick(&[Style::Narrow, Style::Wide]);
        let mut builder = Builder::new(random, style, usize::MAX);
        builder.row(tag);
        let rows = builder.len();
        let mut lists = builder.lists(graph);
        let spare = random.place(3);
        lists.push(random.junk(rows + spare));
        list.add(operation, lists, SHORT);
    }
}

/// A source with MAX in every field that may hold it, and the same with an
/// argument there, which is refused.
fn edges() -> [Lists; 2] {
    [0, 1].map(|count| {
        let select = [SELECT, MAX, 0, MAX, 0];
        let call = [CALL, MAX, CEILING, MAX, count];
        let rows = [[VAR, 32, 0, 0, 0], select, call].concat();
        vec![rows, vec![], vec![0], vec![7; 3]]
    })
}

/// So many random cases that answer this number and pass a test.
pub fn some(
    random: &mut Random,
    operation: &dyn Operation,
    number: u64,
    count: usize,
    list: &mut List,
    test: impl Fn(&Lists) -> bool,
) {
    let mut left = count;
    while left > 0 {
        let lists = operation.generate(random, SHORT.rows);
        let answers = operation.expected(&lists).answer.number == number;
        if answers && test(&lists) && list.add(operation, lists, SHORT) {
            left -= 1;
        }
    }
}

pub fn any(_lists: &Lists) -> bool {
    true
}

/// For each feature of accepted lowerings a case that shows it, if there is none yet.
fn showing_features(random: &mut Random, list: &mut List) -> bool {
    CHECK.features().into_iter().all(|(_, has)| {
        let shows = |lists: &Lists, answer: Answer| answer == ACCEPTED && has(lists);
        list.add_shown(shows, || CHECK.undamaged(random, MIDDLE.rows))
    })
}

/// For each field of each list of Check a case with a word near 2^64 there; but
/// for tags, it gets past 15 to 18.
fn showing_edges(random: &mut Random, list: &mut List) -> bool {
    let mut good = true;
    for (place, &(_, kind)) in CHECK.lists().iter().enumerate() {
        for field in 0..kind.fields() {
            let tag = field == 0 && matches!(kind, Kind::Rows(_));
            let shows = |lists: &Lists, answer: Answer| {
                let words = lists[place].iter().skip(field).step_by(kind.fields());
                words.max() >= Some(&(MAX - 3)) && (tag || !(15..=18).contains(&answer.number))
            };
            good &= list.add_shown(shows, || CHECK.generate(random, SHORT.rows));
        }
    }
    good
}

impl List {
    /// Adds the cases of an operation whose answers are known, but for those
    /// with more bits than a line has words.
    fn add_known(&mut self, operation: &dyn Operation) -> bool {
        let fits = |lists: &Lists| lists.iter().all(|list| list.len() < WORDS);
        let mut known = operation.known().into_iter();
        known.all(|(lists, answer)| {
            !fits(&lists)
                || operation.expected(&lists).answer == answer && self.add(operation, lists, LONG)
        })
    }

    /// Adds the shortest of some generated cases of Check that show something,
    /// unless a case of the list shows it; false if all of them are too long.
    fn add_shown(
        &mut self,
        shows: impl Fn(&Lists, Answer) -> bool,
        mut generate: impl FnMut() -> Lists,
    ) -> bool {
        if self
            .checks
            .iter()
            .any(|(lists, answer)| shows(lists, *answer))
        {
            return true;
        }
        let mut found: Vec<(usize, Lists)> = Vec::new();
        while found.len() < CHOICE {
            let mut lists = generate();
            shorten(&CHECK, &mut lists);
            let outcome = CHECK.expected(&lists);
            if shows(&lists, outcome.answer) {
                found.push((line(&CHECK, &lists, &outcome).len(), lists));
            }
        }
        found.sort();
        let mut shortest = found.into_iter().map(|(_, lists)| lists);
        shortest.any(|lists| self.add(&CHECK, lists, MIDDLE))
    }

    /// Adds a case, unless it is too long or there already.
    pub fn add(&mut self, operation: &dyn Operation, mut lists: Lists, limits: Limits) -> bool {
        shorten(operation, &mut lists);
        let outcome = operation.expected(&lists);
        let line = line(operation, &lists, &outcome);
        if line.len() > limits.line
            || rows(operation, &lists) > limits.rows
            || self.lines.contains(&line)
        {
            return false;
        }
        self.note(operation, &lists, &outcome);
        self.lines.push(line);
        true
    }

    fn note(&mut self, operation: &dyn Operation, lists: &Lists, outcome: &Outcome) {
        let refused = outcome.answer.number != 0;
        if lists[0].contains(&MAX) {
            self.highest[usize::from(refused)] = true;
        }
        if operation.number() == CHECK.number() {
            self.checks.push((lists.clone(), outcome.answer));
            return;
        }
        let tags = counts_tags(operation) && !refused;
        if let (Kind::Rows(row), true) = (operation.lists()[0].1, tags) {
            for row in lists[0].chunks(row) {
                self.taken.insert((operation.number(), row[0]));
            }
        }
    }

    /// Adds the books; false if an answer that a short book can get is missing.
    fn add_books(&mut self, random: &mut Random) -> bool {
        let mut answers = BTreeSet::new();
        for book in listedbooks::verdicts(random) {
            let answer = book::verdict(&CHECK, &book);
            answers.insert((VERDICT, answer.number, by_place(answer)));
            self.add_line(words_line(VERDICT, &[bytes(&book)], answer, &[]));
        }
        for (book, number) in listedbooks::sections() {
            let (answer, stretch) = book::section(&book, number);
            answers.insert((SECTION, answer.number, by_place(answer)));
            let lists = [bytes(&book), vec![number]];
            self.add_line(words_line(SECTION, &lists, answer, &[bytes(stretch)]));
        }
        let checks = (0..18).map(|number| (VERDICT, number, 0));
        let shapes = (0..=12).map(|place| (VERDICT, 20, place));
        let sections = [(SECTION, 0, 0), (SECTION, 20, 0), (SECTION, 24, 0)];
        let mut due = checks.chain(shapes).chain(sections);
        due.all(|answer| answers.contains(&answer))
    }

    /// Adds the wrong lines; false if one of them is missing or not wrong.
    fn add_wrong(&mut self) -> bool {
        let wrong = wrong::lines(&self.lines).unwrap_or_default();
        let good = !wrong.is_empty() && wrong.iter().all(|line| !self.lines.contains(line));
        self.lines.extend(wrong);
        good
    }

    /// Adds a line, unless it is there already.
    pub fn add_line(&mut self, line: String) {
        if !self.lines.contains(&line) {
            self.lines.push(line);
        }
    }

    /// Every tag taken, MAX on both sides, and within its length? The answer
    /// numbers are all there because `some` looked for each.
    fn complete(&self) -> bool {
        let bytes: usize = self.lines.iter().map(|line| line.len() + 1).sum();
        let words = self.lines.iter().map(|line| line.split(' ').count()).max();
        let operations = OPERATIONS.iter().filter(|(of, _)| counts_tags(*of));
        let tags: usize = operations.map(|(of, _)| of.tags()).sum();
        eprintln!("{} lines, {bytes} bytes", self.lines.len());
        bytes < BYTES
            && words < Some(WORDS)
            && self.taken.len() == tags
            && self.highest == [true; 2]
    }
}

/// Short words where any would do: in lent lists, still not 0, and for rows
/// that are no variables.
fn shorten(operation: &dyn Operation, lists: &mut Lists) {
    let graph = lists[0].clone();
    for (list, &(_, kind)) in lists.iter_mut().zip(operation.lists()) {
        match kind {
            Kind::Lent(_) => list.iter_mut().for_each(|word| *word = 1 + *word % 15),
            Kind::Given(_) => list
                .iter_mut()
                .zip(graph.chunks(TARGET.row))
                .filter(|(_, row)| row[0] != VAR)
                .for_each(|(word, _)| *word %= 16),
            _ => {}
        }
    }
}

/// Must each tag be taken? With a sort table the rows but for Selects are judged as without.
fn counts_tags(operation: &dyn Operation) -> bool {
    operation.tags() > 0 && operation.sorts().is_none()
}

fn rows(operation: &dyn Operation, lists: &Lists) -> usize {
    match operation.lists()[0].1 {
        Kind::Rows(row) => lists[0].len() / row,
        _ => 0,
    }
}

/// The place of 20; the other numbers count as one each.
pub fn by_place(answer: Answer) -> u64 {
    if answer.number == 20 {
        answer.place
    } else {
        0
    }
}
