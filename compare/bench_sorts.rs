//! Times of the operations with sorts against those without, both of the library, on the
//! same graphs: the sort table says 32 and 8 of every array.

use crate::bench;
use crate::bench_check;
use crate::check::{at, bytes};
use crate::editions;
use crate::large::{self, Index};
use crate::operation::Lists;
use crate::ours::{self, Answer};
use crate::race::{self, race, Per};
use crate::random::Random;
use crate::rules::{SOURCE, TARGET};
use crate::sorted;
use crate::sortedwidths;
use crate::sorts::FIRST;
use crate::tags::SELECT;

const HEAD: &str =
    "Check with sorts against Check, both ours: microseconds a run, the least and the median of
25 rounds, in turn. The table lists so many arrays, all of 32 and 8, and the graphs are the
same. Where it lists more than a graph names, those that are named come last. Then source
widths with sorts against source widths, Selects and Calls: nanoseconds a row.
";

type Make = fn(&mut Random) -> Lists;

/// Lowerings of a first edition: name, arrays to list before those that are named, and the
/// lists.
const CASES: [(&str, u64, Make); 14] = [
    ("core rows, 100,000", 0, |random| {
        large::core(random, 100_000)
    }),
    ("2,000 reads at constants, 1 array", 0, |_| {
        large::reads(2_000, 1, Index::Counted)
    }),
    ("the same, 16 arrays", 0, |_| {
        large::reads(2_000, 16, Index::Counted)
    }),
    ("the same, 1,024 arrays", 0, |_| {
        large::reads(2_000, 1_024, Index::Counted)
    }),
    ("2,048 reads with roots, 1,024 arrays", 0, |_| {
        large::reads(2_048, 1_024, Index::Variables)
    }),
    ("400 reads, all roots, 1 array", 0, |_| {
        large::reads(400, 1, Index::Variables)
    }),
    ("1,000 pairs by 40 Selects, symbolic", 0, |_| {
        large::chains(40, 1_000, Index::Variables)
    }),
    ("1,000 pairs, 200 Selects, constants", 0, |_| {
        large::chains(200, 1_000, Index::Counted)
    }),
    ("50,000 Selects and as many Calls", 0, |_| {
        large::again(100_000)
    }),
    ("the same, 15 more listed", 15, |_| large::again(100_000)),
    ("the same, 1,023 more listed", 1_023, |_| {
        large::again(100_000)
    }),
    ("refused, 1: first row", 0, |random| {
        let mut lists = large::core(random, 100_000);
        lists[at::SOURCE][1] = 0;
        lists
    }),
    ("refused, 5: first of 2,000 reads", 0, |_| {
        let mut lists = large::reads(2_000, 1, Index::Counted);
        lists[at::READS][0] = u64::MAX;
        lists
    }),
    ("refused, 13: last root of 400 reads", 0, |_| {
        let mut lists = large::reads(400, 1, Index::Variables);
        *lists[at::TARGET_ROOTS].last_mut().expect("a root") = 0;
        lists
    }),
];

/// Prints the table; false if the two ever answered differently.
pub fn bench(seed: u64) -> bool {
    println!("\n{HEAD}");
    race::heading_of("arrays", ["with sorts", "without"]);
    let mut random = Random::new(seed);
    let mut good = true;
    for (name, before, make) in CASES {
        good &= case(name, moved(make(&mut random), before), before);
    }
    println!();
    race::heading_of("rows", ["with sorts", "without"]);
    let source = bench::source_graph(&mut random);
    for before in [0, 12, 1_020] {
        let name = format!("source widths, {} arrays", before + 4);
        good &= widths(&name, moved(source.clone(), before), before);
    }
    good
}

/// The lists with the number of each array moved up by so many.
fn moved(mut lists: Lists, by: u64) -> Lists {
    let up = |array: &mut u64| *array = array.saturating_add(by);
    for row in lists[at::SOURCE].chunks_exact_mut(SOURCE.row) {
        if row[0] == SELECT {
            up(&mut row[1]);
        }
    }
    if lists.len() > at::READS {
        let reads = lists[at::READS].chunks_exact_mut(3);
        reads.for_each(|entry| up(&mut entry[1]));
    }
    lists
}

/// The sort table of these lists, behind that of so many arrays which they do not name.
fn table(lists: &Lists, place: usize, before: u64) -> Vec<u64> {
    let [index, cell] = FIRST;
    let mut table: Vec<u64> = (0..before).flat_map(|array| [array, index, cell]).collect();
    table.extend(&editions::sorted(lists, place)[place]);
    table
}

fn case(name: &str, lists: Lists, before: u64) -> bool {
    let mut sorts = table(&lists, at::SORTS, before);
    let arrays = sorts.len() / 3;
    let rows = |list: usize, row: usize| lists[list].len() / row;
    let (n, m) = (rows(at::SOURCE, SOURCE.row), rows(at::TARGET, TARGET.row));
    let mut both = [0, 1].map(|_| Lent {
        bits: bytes(&lists),
        lists: lists.clone(),
        lent: [n, m, m, m].map(|rows| vec![1; rows]),
    });
    let expected = both[1].first();
    let [one, other] = &mut both;
    let mut mine = || one.second(&mut sorts) == expected;
    let mut theirs = || other.first() == expected;
    let good = race(name, arrays, Per::Run, &mut mine, &mut theirs);
    good && both[0].lent == both[1].lent
}

/// The lists of a lowering, and those lent for it.
struct Lent {
    lists: Lists,
    bits: [Vec<u8>; 2],
    lent: [Vec<u64>; 4],
}

impl Lent {
    fn first(&mut self) -> Answer {
        bench_check::call(false, &mut self.lists, &mut self.bits, &mut self.lent)
    }

    fn second(&mut self, sorts: &mut [u64]) -> Answer {
        let [source, _, side, source_roots, map, reads, calls, arguments, target, _, target_roots] =
            &mut self.lists[..]
        else {
            unreachable!("a lowering has eleven lists")
        };
        let words: [&mut [u64]; 10] = [
            source,
            side,
            source_roots,
            map,
            reads,
            calls,
            arguments,
            target,
            target_roots,
            sorts,
        ];
        let bits = self.bits.each_mut().map(|bits| &mut bits[..]);
        let lent = self.lent.each_mut().map(|list| &mut list[..]);
        sorted::check(false, words, bits, lent)
    }
}

/// Source widths, with a table of the arrays that the source names and so many more.
fn widths(name: &str, lists: Lists, before: u64) -> bool {
    let mut sorts = table(&lists, sortedwidths::SORTS, before);
    let rows = lists[0].len() / SOURCE.row;
    let mut bits: Vec<u8> = lists[1].iter().map(|&bit| bit as u8).collect();
    let mut other_bits = bits.clone();
    let mut both = [lists.clone(), lists];
    let mut lent = [vec![1; rows], vec![1; rows]];
    let [one, other] = &mut both;
    let [first, second] = &mut lent;
    let mut mine = || {
        let [source, _, side, ..] = &mut one[..] else {
            unreachable!("a source has three lists")
        };
        sorted::source_widths([source, side, &mut sorts], &mut bits, first).number == 0
    };
    let mut theirs = || {
        let [source, _, side, ..] = &mut other[..] else {
            unreachable!("a source has three lists")
        };
        ours::source_widths(source, &mut other_bits, side, second).number == 0
    };
    let good = race(name, rows, Per::Row, &mut mine, &mut theirs);
    good && lent[0] == lent[1]
}
