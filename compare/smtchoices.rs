//! Lowerings of a second edition as a script for a solver, with the source's arrays and
//! functions in SMT-LIB's own words: the solver must find source and target satisfiable
//! together, with nothing given and with values given for the variables.

use std::collections::BTreeSet;

use crate::check::at;
use crate::choicecases;
use crate::graphs::Style;
use crate::openlowering::accepted;
use crate::operation::Lists;
use crate::random::Random;
use crate::rules::{SOURCE, TARGET};
use crate::smtterms::Terms;
use crate::sorts::Edition;
use crate::tags::*;

const MAX: u64 = u64::MAX;

/// No row is wider in a lowering that is written.
const WIDEST: u64 = 128;

/// So many times values are given, after the question without.
const DRAWS: usize = 3;

/// Milliseconds that the solver has for one answer.
const PATIENCE: u64 = 3_000;

/// Writes a script of so many lowerings; false if the library refused one. A solver answers
/// in threes: the source, the target, and the target without its congruence roots. The
/// first two must be equal.
pub fn smt_choices(seed: u64, cases: u64) -> bool {
    println!("(set-option :timeout {PATIENCE})\n(set-logic ALL)");
    let mut written = 0;
    for case in 0..cases {
        let mut random = Random::of_case(seed, case);
        let lists = choicecases::with_sorts(&mut random, Style::Narrow);
        let Some(lists) = accepted(&lists) else {
            eprintln!("the library refused case {case}");
            return false;
        };
        let lent = at::lent(&lists);
        if lists[lent..lent + 2].iter().flatten().all(|&w| w <= WIDEST) {
            println!("(echo \"case {case}\")");
            Script { lists }.write(&mut random);
            written += 1;
        }
    }
    eprintln!(
        "{written} lowerings of {cases}, {} questions each",
        1 + DRAWS
    );
    true
}

/// A lowering as Check left it.
struct Script {
    lists: Lists,
}

/// A variable of a graph, and its width.
type Variable = (char, usize, u64);

impl Script {
    fn write(&self, random: &mut Random) {
        println!("(push 1)");
        self.declare();
        self.define('s', at::SOURCE, SOURCE.row);
        self.define('t', at::TARGET, TARGET.row);
        self.ask(&[]);
        for _ in 0..DRAWS {
            self.ask(&self.given(random));
        }
        println!("(pop 1)");
    }

    fn widths(&self, graph: char) -> &[u64] {
        let lent = at::lent(&self.lists);
        &self.lists[if graph == 's' { lent } else { lent + 1 }]
    }

    fn rows(&self, list: usize, size: usize) -> impl Iterator<Item = &[u64]> {
        self.lists[list].chunks_exact(size)
    }

    /// The arrays that Selects name, by the sort table; the functions that Calls name, by
    /// number and widths.
    fn declare(&self) {
        let edition = Edition::of(&self.lists);
        let mut symbols = BTreeSet::new();
        for row in self.rows(at::SOURCE, SOURCE.row) {
            match row[0] {
                SELECT => {
                    let shape = edition.shape(row[1]).expect("an accepted Select is listed");
                    let [index, cell] = shape.map(sort);
                    symbols.insert(format!("a{} () (Array {index} {cell})", row[1]));
                }
                CALL => {
                    let widths: Vec<String> = self.arguments(row).map(|w| sort(w.1)).collect();
                    let (name, result) = (self.function(row), sort(row[2]));
                    symbols.insert(format!("{name} ({}) {result}", widths.join(" ")));
                }
                _ => {}
            }
        }
        for symbol in symbols {
            println!("(declare-fun {symbol})");
        }
    }

    /// The argument rows of a Call, with their widths.
    fn arguments<'s>(&'s self, row: &'s [u64]) -> impl Iterator<Item = (u64, u64)> + 's {
        let list = (0..row[4]).map(|l| self.lists[at::SIDE][(row[3] + l) as usize]);
        list.map(|row| (row, self.widths('s')[row as usize]))
    }

    /// The name of a Call's function: equal where number, count and all widths are.
    fn function(&self, row: &[u64]) -> String {
        let widths = self.arguments(row).map(|(_, width)| format!("_{width}"));
        format!("f{}_{}{}", row[1], row[2], widths.collect::<String>())
    }

    /// The rows of a graph by name: variables declared, the others by their terms.
    fn define(&self, graph: char, list: usize, size: usize) {
        let name = move |row: u64| format!("{graph}{row}");
        let widths = self.widths(graph);
        let terms = Terms {
            at: &name,
            widths,
            bits: &self.lists[list + 1],
        };
        for (number, row) in (0..).zip(self.rows(list, size)) {
            let (name, sort) = (name(number), sort(widths[number as usize]));
            let term = match row[0] {
                VAR => {
                    println!("(declare-fun {name} () {sort})");
                    continue;
                }
                SELECT => self.select(row),
                CALL if row[4] == 0 => self.function(row),
                CALL => {
                    let list: Vec<String> =
                        self.arguments(row).map(|a| format!("s{}", a.0)).collect();
                    format!("({} {})", self.function(row), list.join(" "))
                }
                _ => terms.of(row),
            };
            println!("(define-fun {name} () {sort} {term})");
        }
    }

    /// The value of the first pair at the Select's own index, else the array's cell.
    fn select(&self, row: &[u64]) -> String {
        let cell = format!("(select a{} s{})", row[1], row[2]);
        (0..row[4]).rev().fold(cell, |rest, l| {
            let place = (row[3] + 2 * l) as usize;
            let [index, value] = [self.lists[at::SIDE][place], self.lists[at::SIDE][place + 1]];
            format!("(ite (= s{index} s{}) s{value} {rest})", row[2])
        })
    }

    /// Values for the variables of both graphs but for those of tables: the same for a
    /// source variable and its image.
    fn given(&self, random: &mut Random) -> Vec<(Variable, u64)> {
        let pool = [0, 1, 1, 2, MAX, random.below(8), random.below(1 << 16)];
        let classes = &self.lists[at::lent(&self.lists) + 2];
        let mut given = Vec::new();
        let mut images = Vec::new();
        for (row, words) in self.rows(at::SOURCE, SOURCE.row).enumerate() {
            if words[0] == VAR {
                let value = random.pick(&pool) & (MAX >> (64 - words[1].min(64)));
                given.push((('s', row, words[1]), value));
                images.push((self.lists[at::MAP][row], value));
            }
        }
        for (row, words) in self.rows(at::TARGET, TARGET.row).enumerate() {
            let image = images.iter().find(|&&(image, _)| image == row as u64);
            let any = random.pick(&pool) & (MAX >> (64 - words[1].clamp(1, 64)));
            if words[0] == VAR && matches!(classes[row], 0 | 1) {
                let value = image.map_or(any, |&(_, value)| value);
                given.push((('t', row, words[1]), value));
            }
        }
        given
    }

    /// Asks about both graphs, and about the target without its congruence roots.
    fn ask(&self, given: &[(Variable, u64)]) {
        let (source, target) = (&self.lists[at::SOURCE_ROOTS], &self.lists[at::TARGET_ROOTS]);
        for (graph, roots) in [
            ('s', &source[..]),
            ('t', target),
            ('t', &target[..source.len()]),
        ] {
            println!("(push 1)");
            for &((of, row, width), value) in given.iter().filter(|(of, _)| of.0 == graph) {
                println!("(assert (= {of}{row} (_ bv{value} {width})))");
            }
            for &root in roots {
                let width = self.widths(graph)[root as usize];
                println!("(assert (= {graph}{root} (_ bv1 {width})))");
            }
            println!("(check-sat)\n(pop 1)");
        }
    }
}

fn sort(width: u64) -> String {
    format!("(_ BitVec {width})")
}
