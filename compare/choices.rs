//! The statement that source and target leave the same choices, tried on the marked
//! lowerings and on small random ones, of either edition, each with several triples of
//! values: u on the mapped source variables, p on the unmapped ones, q on the target's of
//! class 0. Where the strict check accepts, also with roots that are true at one bit alone.

use crate::check::by_edition;
use crate::choicecases;
use crate::choicecounts::Counts;
use crate::choicefeatures::{Showing, Tried, LOWERINGS, SORTED};
use crate::choicevalues::{draw, redraw};
use crate::functioncases;
use crate::graphs::Style;
use crate::marked;
use crate::open::Found;
use crate::openlowering::{accepted, too_wide, Given, Lowering};
use crate::operation::Lists;
use crate::plain::ones;
use crate::random::Random;
use crate::show;
use crate::sortcases;
use crate::statement::{Stated, Statement, WRONG};

/// So many u are drawn for each random lowering, and for each marked one.
const DRAWS: usize = 6;
const MARKED_DRAWS: usize = 100;

/// A wrong statement must be noticed within so many random lowerings.
const SOON: u64 = 3_000;

/// A mapped variable of at most this width can have all its values tried.
const SCANNED: usize = 3;

/// Where lowerings come from.
struct Edition {
    name: &'static str,
    lowering: fn(&mut Random) -> Lists,
    marked: fn() -> Vec<Lists>,
    /// What they are to show, beside what those of each edition are.
    features: &'static [Showing],
}

const EDITIONS: [Edition; 2] = [
    Edition {
        name: "first edition",
        lowering: choicecases::lowering,
        marked: || [marked::accepted(), functioncases::to_change()].concat(),
        features: &[],
    },
    Edition {
        name: "second edition",
        lowering: |random| choicecases::with_sorts(random, Style::Small),
        marked: sortcases::to_change,
        features: &SORTED,
    },
];

/// Tries the statement on the marked lowerings and on so many random ones of each edition,
/// after wrong ones were noticed; false at a disagreement or where something never came.
pub fn choices(seed: u64, cases: u64) -> bool {
    println!("seed {seed}, the marked lowerings and {cases} random ones of each edition");
    let noticed = |edition: &Edition| {
        let mut wrong = WRONG.iter();
        wrong.all(|&(wrong, what)| is_noticed(seed, edition, wrong, what))
    };
    EDITIONS.iter().all(noticed) && EDITIONS.iter().all(|edition| tried(seed, cases, edition))
}

/// The same for one edition.
fn tried(seed: u64, cases: u64, edition: &Edition) -> bool {
    let mut counts = Counts::new(edition.name, [&LOWERINGS, edition.features].concat());
    let mut marked = (0..).zip((edition.marked)());
    let good = marked.all(|(case, lists)| {
        let which = format!("marked lowering {case}");
        let mut random = Random::of_case(seed, case);
        judge(&mut counts, &lists, &mut random, MARKED_DRAWS, &which)
    }) && (0..cases).all(|case| {
        let which = format!("random case {case} of seed {seed}, {}", edition.name);
        let mut random = Random::of_case(seed, case);
        let lists = (edition.lowering)(&mut random);
        judge(&mut counts, &lists, &mut random, DRAWS, &which)
    });
    good && counts.complete(cases)
}

/// Says in which random case a wrong statement is first noticed; false if in none.
fn is_noticed(seed: u64, edition: &Edition, wrong: Statement, what: &str) -> bool {
    let noticed = |case: &u64| {
        let mut random = Random::of_case(seed, *case);
        let lists = accepted(&(edition.lowering)(&mut random));
        let Some(lists) = lists.filter(|lists| !too_wide(lists)) else {
            return false;
        };
        let lowering = Lowering::new(lists);
        let stated = Stated::new(&lowering, wrong);
        (0..DRAWS).any(|_| {
            let given = draw(&mut random, &lowering);
            differ(&[stated.source(&given).found, stated.target(&given).found])
        })
    };
    let first = (0..SOON).find(noticed);
    match first {
        Some(case) => println!(
            "wrong, and noticed in random case {case}, {}: {what}",
            edition.name
        ),
        None => println!(
            "wrong, but not noticed in {SOON} random cases, {}: {what}",
            edition.name
        ),
    }
    first.is_some()
}

/// Are both `Open` and `Closed` among these?
fn differ(found: &[Found]) -> bool {
    found.contains(&Found::Open) && found.contains(&Found::Closed)
}

/// Tries the statement on a lowering that Check must accept, with so many u; false,
/// with a report, where it does not hold.
fn judge(
    counts: &mut Counts,
    lists: &Lists,
    random: &mut Random,
    draws: usize,
    which: &str,
) -> bool {
    let Some(after) = accepted(lists) else {
        println!("DISAGREEMENT in {which}: Check must accept, each variable in its class");
        print!("{}", show::input(by_edition(false, lists), lists));
        return false;
    };
    if too_wide(&after) {
        counts.too_wide();
        return true;
    }
    let lowering = Lowering::new(after);
    if lowering.strict != lowering.one_bit_roots() {
        println!("DISAGREEMENT in {which}: the strict check must accept roots of one bit alone");
        print!("{}", show::input(by_edition(false, lists), lists));
        return false;
    }
    counts.lowering(&lowering);
    let mut judge = Judge::new(counts, &lowering, which);
    (0..draws).all(|_| judge.twice(random)) && judge.scan(random)
}

/// A lowering under judgement.
struct Judge<'j> {
    counts: &'j mut Counts,
    lowering: &'j Lowering,
    right: Stated<'j>,
    /// Where the strict check accepts.
    strict: Option<Stated<'j>>,
    /// Without the congruence roots of reads, and without those of calls.
    fewer: [Stated<'j>; 2],
    which: &'j str,
}

impl<'j> Judge<'j> {
    fn new(counts: &'j mut Counts, lowering: &'j Lowering, which: &'j str) -> Judge<'j> {
        let fewer = [Statement::NoReadRoots, Statement::NoCallRoots];
        Judge {
            counts,
            lowering,
            right: Stated::new(lowering, Statement::Right),
            strict: (lowering.strict).then(|| Stated::new(lowering, Statement::Strict)),
            fewer: fewer.map(|statement| Stated::new(lowering, statement)),
            which,
        }
    }

    /// What both searches find, and the target's by all assignments; then the three again
    /// with roots that are true at one bit alone, where the strict check accepts.
    fn found(&mut self, given: &Given) -> [Found; 6] {
        let [source, target] = [self.right.source(given), self.right.target(given)];
        let plainly = self.right.target_plainly(given);
        let strictly = self.strict.as_ref().map(|strict| {
            let [source, target] = [strict.source(given), strict.target(given)];
            [source.found, target.found, strict.target_plainly(given)]
        });
        let [a, b, c] = strictly.unwrap_or([Found::TooBig; 3]);
        let found = [source.found, target.found, plainly, a, b, c];
        let searched = found[1] == Found::Closed && target.back;
        let but_for = |fewer: &Stated| searched && fewer.target(given).found == Found::Open;
        let tried = Tried {
            lowering: self.lowering,
            but_for: [but_for(&self.fewer[0]), but_for(&self.fewer[1])],
            source,
            target,
            plainly,
            strictly,
        };
        self.counts.triple(&tried);
        found
    }

    /// The statement at some values, and where there are p or q, with these drawn
    /// anew: all answers must be the same.
    fn twice(&mut self, random: &mut Random) -> bool {
        let given = draw(random, self.lowering);
        let mut tried = vec![(self.found(&given), given.clone())];
        if !(self.lowering.unmapped.is_empty() && self.lowering.idle.is_empty()) {
            let again = redraw(random, self.lowering, &given);
            self.counts.again(self.lowering, &given, &again);
            tried.push((self.found(&again), again));
        }
        let found: Vec<Found> = tried.iter().flat_map(|&(found, _)| found).collect();
        !differ(&found) || self.report(&tried)
    }

    /// A narrow mapped variable, if there is one, below a root if one is.
    fn narrow(&self, random: &mut Random) -> Option<usize> {
        let widths = &self.lowering.source.shape.widths;
        let mapped = self.lowering.mapped.iter().map(|&[row, _]| row);
        let narrow: Vec<usize> = mapped.filter(|&row| widths[row] <= SCANNED).collect();
        let mut below: Vec<usize> = self.lowering.below_roots().collect();
        below.retain(|row| narrow.contains(row));
        match (&below[..], &narrow[..]) {
            ([], []) => None,
            ([], any) | (any, _) => Some(random.pick(any)),
        }
    }

    /// Tries all values of a mapped variable with the others as they are: both sides
    /// must leave the same ones.
    fn scan(&mut self, random: &mut Random) -> bool {
        let Some(row) = self.narrow(random) else {
            return true;
        };
        let mut given = draw(random, self.lowering);
        let mut answers = Vec::new();
        for value in 0..=ones(self.lowering.source.shape.widths[row]) {
            given.source[row] = value;
            let found = self.found(&given);
            if differ(&found) {
                return self.report(&[(found, given)]);
            }
            answers.push([found[0], found[1]]);
        }
        self.counts.scan(&answers);
        true
    }

    /// Prints a disagreement. Always false.
    fn report(&self, tried: &[([Found; 6], Given)]) -> bool {
        println!("DISAGREEMENT, found in {}:", self.which);
        let lists = &self.lowering.lists;
        print!("{}", show::input(by_edition(false, lists), lists));
        for ([source, target, plainly, strict @ ..], given) in tried {
            if self.strict.is_some() {
                println!("with strict roots the next three are {strict:?}");
            }
            println!("source {source:?}, target {target:?}, by all assignments {plainly:?}, with");
            for &[row, image] in &self.lowering.mapped {
                let value = given.source[row];
                println!("  u at source row {row}, image {image}: {value}");
            }
            for &row in &self.lowering.unmapped {
                println!("  p at source row {row}: {}", given.source[row]);
            }
            for &row in &self.lowering.idle {
                println!("  q at target row {row}: {}", given.target[row]);
            }
        }
        false
    }
}
