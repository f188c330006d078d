//! Times of the library and of the published Rust on the same large graphs,
//! taken in turn within one process.

use std::hint::black_box;

use kernel::blast_kernel::DagNode;
use kernel::sliver_kernel::ext_wf;
use kernel::{dag_wf, roots_wf};

use crate::graphs::{Builder, Style};
use crate::operands;
use crate::operation::Lists;
use crate::ours;
use crate::plain;
use crate::race::{self, race, Per};
use crate::random::Random;
use crate::reference;
use crate::rules::{SOURCE, TARGET};
use crate::tags::{ADD, CALL, CONST, SELECT, VAR};

const ROWS: usize = 100_000;

/// Operands come from so many rows back at most.
const REACH: usize = 200;

const HEAD: &str =
    "Times in nanoseconds a row, the least and the median of 25 rounds; in each round ours
runs once, then the Rust once, on the same graph. The Rust gets its nodes built before
and only dag_wf, ext_wf or roots_wf is timed, with the drop of the list it answers. Ours
gets the rows as words and a widths list allocated before and not cleared; it also looks
for unknown tags, unused fields and bit bytes above 1 in the whole graph before it judges
the first row (16 and 17, which the Rust does not have), and after a refusal it zeroes the
widths list. So an early refusal costs it the whole graph, and the Rust one row.
The Rust has no values; there it is dag_wf, then tests of width, count and range, then
arithmetic on u64 over the ready nodes, with the drop of both lists (plain.rs).
";

/// Prints the table; false if an answer was not the expected one.
pub fn bench(seed: u64) -> bool {
    let mut random = Random::new(seed);
    println!("{HEAD}");
    race::heading("rows");
    let all = target_graph(&mut random);
    let mut early = all.clone();
    early[0].splice(0..4, [VAR, 0, 0, 0]);
    let mut late = all.clone();
    late[0].extend([VAR, 0, 0, 0]);
    let source = source_graph(&mut random);
    let constants = constants(&mut random);
    let last = (late[0].len() / 4 - 1) as u64;
    [
        target("target, all core tags, narrow", all, None),
        target("target, Add rows", adds(), None),
        source_case("source, Selects and Calls", source),
        target("target, 1,000,000 bits of Const", constants, None),
        target("target, first row refused", early, Some(0)),
        target("target, last row refused", late, Some(last)),
        roots_case("roots, all of width 1"),
        values_case("values, all core tags", values_graph(&mut random)),
    ]
    .iter()
    .all(|&good| good)
}

fn target_graph(random: &mut Random) -> Lists {
    let mut builder = Builder::new(random, Style::Narrow, REACH);
    let mut tag = 0;
    while builder.len() < ROWS {
        builder.row(tag);
        tag = (tag + 11) % TARGET.tags;
    }
    builder.lists(TARGET)
}

/// A graph with a word for each row, at widths up to 64.
fn values_graph(random: &mut Random) -> Lists {
    let mut builder = Builder::new(random, Style::Values, REACH);
    let mut tag = 0;
    while builder.len() < ROWS {
        builder.row(tag);
        tag = (tag + 11) % TARGET.tags;
    }
    let widths = builder.widths.clone();
    let mut lists = builder.lists(TARGET);
    lists.push(operands::given(random, &lists[0], &widths));
    lists
}

pub fn source_graph(random: &mut Random) -> Lists {
    let mut choice = Random::new(random.word());
    let mut builder = Builder::new(random, Style::Narrow, REACH);
    while builder.len() < ROWS {
        match choice.below(3) {
            0 => builder.select_of(1 + choice.below(8)),
            1 => builder.row(CALL),
            _ => builder.row(choice.below(SELECT)),
        }
    }
    builder.lists(SOURCE)
}

fn adds() -> Lists {
    let add = |row: u64| [ADD, row - 1, row / 2, 0];
    let rows = [VAR, 32, 0, 0]
        .into_iter()
        .chain((1..ROWS as u64).flat_map(add));
    vec![rows.collect(), vec![]]
}

/// Constants of 50 bits each, one behind the other.
fn constants(random: &mut Random) -> Lists {
    let bits = (0..1_000_000).map(|_| random.below(2)).collect();
    let rows = (0..20_000)
        .flat_map(|row| [CONST, 50 * row, 50, 0])
        .collect();
    vec![rows, bits]
}

fn bytes(bits: &[u64]) -> Vec<u8> {
    bits.iter().map(|&b| b as u8).collect()
}

/// A target: `refused` is the row that is to be refused, if any.
fn target(name: &str, mut lists: Lists, refused: Option<u64>) -> bool {
    let nodes = reference::dag_nodes(&lists[0]);
    let mut bits = bytes(&lists[1]);
    let count = bits.len();
    let mut widths = vec![1; nodes.len()];
    let number = if refused.is_some() { TARGET.number } else { 0 };
    let mut mine = || {
        let answer = ours::target_widths(&mut lists[0], &mut bits, &mut widths);
        (answer.number, answer.place) == (number, refused.unwrap_or(0))
    };
    let mut theirs = || black_box(dag_wf(black_box(&nodes), count)).is_err() == refused.is_some();
    race(name, nodes.len(), Per::Row, &mut mine, &mut theirs)
}

fn source_case(name: &str, mut lists: Lists) -> bool {
    let nodes = reference::ext_nodes(&lists[0]);
    let side = reference::sizes(&lists[2]);
    let mut bits = bytes(&lists[1]);
    let count = bits.len();
    let mut widths = vec![1; nodes.len()];
    let (rows, rest) = lists.split_at_mut(1);
    let mut mine =
        || ours::source_widths(&mut rows[0], &mut bits, &mut rest[1], &mut widths).number == 0;
    let mut theirs = || black_box(ext_wf(black_box(&nodes), count, &side)).is_ok();
    race(name, nodes.len(), Per::Row, &mut mine, &mut theirs)
}

fn roots_case(name: &str) -> bool {
    let mut widths = vec![1; ROWS];
    let mut roots: Vec<u64> = (0..ROWS as u64).rev().collect();
    let (sizes, places) = (reference::sizes(&widths), reference::sizes(&roots));
    let mut mine = || ours::roots(&mut widths, &mut roots).number == 0;
    let mut theirs = || black_box(roots_wf(black_box(&sizes), &places)).is_ok();
    race(name, ROWS, Per::Row, &mut mine, &mut theirs)
}

/// Values, against `dag_wf`, the tests of 21 to 23 and plain.rs.
fn values_case(name: &str, mut lists: Lists) -> bool {
    let nodes = reference::dag_nodes(&lists[0]);
    let flags = reference::flags(&lists[1]);
    let mut bits = bytes(&lists[1]);
    let mut given = lists.pop().expect("the given words come last");
    let words = given.clone();
    let (mut widths, mut values) = (vec![1; nodes.len()], vec![1; nodes.len()]);
    let mut mine = || {
        let answer = ours::values(
            &mut lists[0],
            &mut bits,
            &mut given,
            &mut widths,
            &mut values,
        );
        answer.number == 0
    };
    let mut theirs = || black_box(plain_values(black_box(&nodes), &flags, &words)).is_some();
    let good = race(name, nodes.len(), Per::Row, &mut mine, &mut theirs);
    good && plain_values(&nodes, &flags, &words) == Some(values)
}

/// What a plain Rust program would do: widths, tests, values.
fn plain_values(nodes: &[DagNode], bits: &[bool], given: &[u64]) -> Option<Vec<u64>> {
    let widths = dag_wf(nodes, bits.len()).ok()?;
    let fits = |((node, &width), &word): ((&DagNode, &usize), &u64)| {
        width <= 64 && (!matches!(node, DagNode::Var(_)) || word <= plain::ones(width))
    };
    let good = given.len() == nodes.len() && nodes.iter().zip(&widths).zip(given).all(fits);
    good.then(|| plain::values(nodes, bits, &widths, given))
}
