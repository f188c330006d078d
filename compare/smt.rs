//! A second judge that knows nothing of the Rust: the library's values as a
//! script in SMT-LIB's logic QF_BV. Each row's defining term, over the values
//! of its operands, is claimed to differ from the row's own value; a solver
//! must answer `unsat` to every block of claims.

use crate::operands;
use crate::operation::{Lists, Operation};
use crate::random::Random;
use crate::rules::{ACCEPTED, TARGET};
use crate::smtterms::{literal, Terms};
use crate::tags::{ADD, VAR};
use crate::values::VALUES;

/// So many claims stand in a block.
const BLOCK: usize = 1000;

/// About the most rows of a graph.
const ROWS: usize = 40;

/// Writes a script about so many rows with an operator, and their leaves;
/// false if the library refused a graph or a tag is missing.
pub fn smt(seed: u64, wanted: u64) -> bool {
    let mut claims = Vec::new();
    let mut met = [0u64; TARGET.tags as usize];
    let mut case = 0;
    while met[ADD as usize..].iter().sum::<u64>() < wanted {
        let Some(graph) = Graph::new(&mut Random::of_case(seed, case)) else {
            eprintln!("the library refused case {case}");
            return false;
        };
        for row in 0..graph.values.len() {
            met[graph.row(row)[0] as usize] += 1;
            claims.push(graph.claim(row));
        }
        case += 1;
    }
    write(&claims);
    summary(&met)
}

/// Says what the script holds; false if a tag is missing.
fn summary(met: &[u64]) -> bool {
    let leaves: u64 = met[..ADD as usize].iter().sum();
    let operators: u64 = met[ADD as usize..].iter().sum();
    let least = met.iter().min().copied().unwrap_or(0);
    eprintln!("{operators} rows with an operator and {leaves} leaves,");
    eprintln!("each of {} tags at least {least} times", met.len());
    least > 0
}

fn write(claims: &[String]) {
    println!("(set-logic QF_BV)");
    for (number, block) in claims.chunks(BLOCK).enumerate() {
        println!("(echo \"rows from {}\")", number * BLOCK);
        println!("(push 1)\n(assert (or false");
        block.iter().for_each(|claim| println!("{claim}"));
        println!("))\n(check-sat)\n(pop 1)");
    }
}

/// A graph that the library took, with the widths and values it wrote.
struct Graph {
    rows: Vec<u64>,
    bits: Vec<u64>,
    given: Vec<u64>,
    widths: Vec<u64>,
    values: Vec<u64>,
}

impl Graph {
    /// A random graph without rows above 64 bits, or nothing if the library
    /// refused it.
    fn new(random: &mut Random) -> Option<Graph> {
        let mut lists: Lists = operands::narrow(random, ROWS);
        let rows = lists[0].len() / TARGET.row;
        lists.extend([random.junk(rows), random.junk(rows)]);
        let outcome = VALUES.ours(&lists);
        let [rows, bits, given, widths, values] = outcome.lists.try_into().ok()?;
        (outcome.answer == ACCEPTED).then_some(Graph {
            rows,
            bits,
            given,
            widths,
            values,
        })
    }

    fn row(&self, row: usize) -> &[u64] {
        &self.rows[TARGET.row * row..TARGET.row * (row + 1)]
    }

    /// The claim that a row's value is not what its operator makes.
    fn claim(&self, row: usize) -> String {
        let value = literal(self.values[row], self.widths[row]);
        format!("(distinct {} {value})", self.term(row))
    }

    /// The value of a row as a literal.
    fn at(&self, row: u64) -> String {
        literal(self.values[row as usize], self.widths[row as usize])
    }

    /// The term that a row stands for, over its operands' values.
    fn term(&self, row: usize) -> String {
        let terms = Terms {
            at: &|row| self.at(row),
            widths: &self.widths,
            bits: &self.bits,
        };
        match self.row(row) {
            [VAR, width, ..] => literal(self.given[row], *width),
            fields => terms.of(fields),
        }
    }
}
