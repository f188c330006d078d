//! Times of Check and of `check_sliver_lowering` on the same large lowerings, then of the
//! strict check and of the Rust with `roots_wf` before it.

use std::hint::black_box;

use crate::check::{at, Check, CHECK, STRICT_CHECK};
use crate::functions::told_apart;
use crate::large::{self, Apart, Index};
use crate::operation::Lists;
use crate::ours;
use crate::race::{self, race, Per};
use crate::random::Random;
use crate::reference::{self, Sliver};
use crate::renamed::renamed;
use crate::rules::{SOURCE, TARGET};
use crate::tags::NOT;

const HEAD: &str =
    "Check against check_sliver_lowering: microseconds a run, the least and the median of 25
rounds; in each round ours runs once, then the Rust once. The Rust gets its nodes, bools
and lists built before; the four Vecs of widths, classes and entries are made and dropped
within its time. Ours gets words and bytes, and the four lent lists, one word a row, are
allocated before the first round and hold what the round before left. It writes all four
at each run, after a refusal with zeros, and it also looks for 16 and 17 in both graphs.
Where functions of one number are told apart by widths, the Rust gets a number for each.
";

const STRICT_HEAD: &str =
    "The strict check against roots_wf on both root lists, then check_sliver_lowering: as above.
The Rust gets both graphs' widths for roots_wf built before. Where 19 is due it makes them
within its time, by ext_wf and dag_wf, and check_sliver_lowering does not run; at 1 and 2
roots_wf does not.
";

type Make = fn(&mut Random, usize) -> Lists;

/// Accepted lowerings: name, sizes, and the lowering of a size.
const FAMILIES: [(&str, &[usize], Make); 20] = [
    (
        "core rows, all tags",
        &[25_000, 50_000, 100_000],
        large::core,
    ),
    ("the same, each a root", &[100_000], |random, n| {
        large::rooted(large::core(random, n))
    }),
    ("the same, none mapped", &[100_000], |random, n| {
        large::unmapped(large::core(random, n))
    }),
    ("Add rows", &[100_000], |_, n| large::adds(n)),
    ("the same, none mapped", &[100_000], |_, n| {
        large::unmapped(large::adds(n))
    }),
    ("Consts of 50 bits", &[20_000], large::constants),
    ("the same, none mapped", &[20_000], |random, n| {
        large::unmapped(large::constants(random, n))
    }),
    (
        "pairs by 40 Selects, symbolic",
        &[250, 500, 1_000],
        |_, n| large::chains(40, n, Index::Variables),
    ),
    (
        "pairs by 200 Selects, constants",
        &[250, 500, 1_000],
        |_, n| large::chains(200, n, Index::Counted),
    ),
    ("the same, equal low bits", &[250, 500, 1_000], |_, n| {
        large::chains(200, n, Index::High)
    }),
    (
        "reads, one array, constants",
        &[500, 1_000, 2_000],
        |_, n| large::reads(n, 1, Index::Counted),
    ),
    ("the same, equal low bits", &[500, 1_000, 2_000], |_, n| {
        large::reads(n, 1, Index::High)
    }),
    ("reads, two of each array", &[500, 1_000, 2_000], |_, n| {
        large::reads(n, n / 2, Index::Variables)
    }),
    ("reads, one array, all roots", &[100, 200, 400], |_, n| {
        large::reads(n, 1, Index::Variables)
    }),
    (
        "calls, one function, 3 arguments",
        &[100, 200, 400],
        |_, n| large::calls(n, 1, 3),
    ),
    (
        "calls, one function, 100 arguments",
        &[10, 20, 40],
        |_, n| large::calls(n, 1, 100),
    ),
    ("calls, a function each", &[500, 1_000, 2_000], |_, n| {
        large::calls(n, n, 2)
    }),
    ("one read, one call, again", &[100_000], |_, n| {
        large::again(n)
    }),
    (
        "calls, one number, 64 result widths",
        &[100, 200, 400],
        |_, n| large::calls_apart(n, 64, Apart::Result),
    ),
    (
        "the same, 64 last argument widths",
        &[100, 200, 400],
        |_, n| large::calls_apart(n, 64, Apart::LastArgument),
    ),
];

/// A lowering with one change: the number that it brings, where, and the lists.
type Refusal = (u64, &'static str, fn(&mut Random) -> Lists);

const REFUSALS: [Refusal; 8] = [
    (1, "first row", |random| {
        first(large::core(random, 100_000), at::SOURCE, NOT)
    }),
    (2, "first row", |random| {
        first(large::core(random, 100_000), at::TARGET, NOT)
    }),
    (7, "first row", |random| {
        first(large::core(random, 100_000), at::MAP, 1)
    }),
    (9, "last row", |random| {
        last(large::core(random, 100_000), at::MAP, 0)
    }),
    (12, "a root left over", |random| {
        let mut lists = large::core(random, 100_000);
        lists[at::TARGET_ROOTS].push(0);
        lists
    }),
    (5, "first of 2,000 reads", |_| {
        first(large::reads(2_000, 1, Index::Counted), at::READS, MAX)
    }),
    (13, "last root of 400 reads", |_| {
        last(large::reads(400, 1, Index::Variables), at::TARGET_ROOTS, 0)
    }),
    (13, "last root of 400 calls", |_| {
        last(large::calls(400, 1, 3), at::TARGET_ROOTS, 0)
    }),
];

/// Accepted by the strict check, beside those of Check whose roots have one bit.
const STRICT_FAMILIES: [(&str, &[usize], Make); 1] = [(
    "core rows, 10,000 roots",
    &[50_000, 100_000],
    |random, n| large::one_bit_rooted(large::core(random, n), ROOTS),
)];

/// Refused by the strict check, beside those of Check: with 10,000 roots of one bit, the
/// last of a list of another width; and a congruence root that is another one.
const STRICT_REFUSALS: [Refusal; 3] = [
    (19, "last target root", |random| {
        last_root(random, at::TARGET_ROOTS)
    }),
    (19, "last source root", |random| {
        last_root(random, at::SOURCE_ROOTS)
    }),
    (13, "first root as last", |_| {
        let lists = large::calls(400, 1, 3);
        let first = lists[at::TARGET_ROOTS][0];
        last(lists, at::TARGET_ROOTS, first)
    }),
];

/// The roots of these.
const ROOTS: usize = 10_000;

const MAX: u64 = u64::MAX;

/// Prints both tables; false if an answer was not the expected one.
pub fn bench(seed: u64) -> bool {
    println!("\n{HEAD}");
    let check = table(seed, &CHECK, &FAMILIES, &REFUSALS);
    println!("\n{STRICT_HEAD}");
    let families = [&FAMILIES[..], &STRICT_FAMILIES].concat();
    let refusals = [&REFUSALS[..], &STRICT_REFUSALS].concat();
    check & table(seed, &STRICT_CHECK, &families, &refusals)
}

/// A table. The strict check leaves out what has a root of another width, but for 19.
fn table(
    seed: u64,
    check: &Check,
    families: &[(&str, &[usize], Make)],
    refusals: &[Refusal],
) -> bool {
    race::heading("size");
    let mut random = Random::new(seed);
    let mut good = true;
    let mut run = |name: &str, size: usize, lists: Lists, number: u64| {
        if check.strict && number != 19 && reference::bad_root(&lists).is_some() {
            println!("{name:36} {size:>8}  left out: a root of another width");
            return;
        }
        good &= case(check, name, size, lists, number);
    };
    for &(name, sizes, make) in families {
        for &size in sizes {
            run(name, size, make(&mut random, size), 0);
        }
    }
    for &(number, place, make) in refusals {
        let lists = make(&mut random);
        let rows = lists[at::SOURCE].len() / SOURCE.row;
        run(&format!("refused, {number}: {place}"), rows, lists, number);
    }
    good
}

/// A lowering of core rows with many roots, the last one of a list of another width.
fn last_root(random: &mut Random, list: usize) -> Lists {
    let lists = large::one_bit_rooted(large::core(random, 100_000), ROOTS);
    let [widths, _] = reference::check_widths(&lists);
    let wide = widths.iter().position(|&width| width > 1);
    last(lists, list, wide.expect("a wide row") as u64)
}

fn first(mut lists: Lists, list: usize, word: u64) -> Lists {
    lists[list][0] = word;
    lists
}

fn last(mut lists: Lists, list: usize, word: u64) -> Lists {
    *lists[list].last_mut().expect("a list that is not empty") = word;
    lists
}

/// One lowering, with the number that is to come; the place is the Rust's. The Rust
/// gets the functions renamed where it is no reference otherwise.
fn case(check: &Check, name: &str, size: usize, mut lists: Lists, number: u64) -> bool {
    let renamed = told_apart(&lists).then(|| renamed(&lists)).flatten();
    let judged = renamed.as_ref().unwrap_or(&lists);
    let bad_root = check.strict.then(|| reference::bad_root(judged)).flatten();
    let rust = Sliver::of(judged);
    let expected = bad_root.unwrap_or_else(|| reference::check(judged));
    let widths = rust.widths();
    let mut bits = [at::SOURCE_BITS, at::TARGET_BITS]
        .map(|list| lists[list].iter().map(|&b| b as u8).collect::<Vec<u8>>());
    let rows = |list: usize, row: usize| lists[list].len() / row;
    let (n, m) = (rows(at::SOURCE, SOURCE.row), rows(at::TARGET, TARGET.row));
    let mut lent = [n, m, m, m].map(|rows| vec![1; rows]);
    let mut mine = || call(check.strict, &mut lists, &mut bits, &mut lent) == expected;
    let accepts = || match (check.strict, bad_root) {
        (false, _) => black_box(&rust).check().is_ok(),
        (true, None) => {
            let ready = black_box(&widths).as_ref();
            ready.is_none_or(|of| rust.roots(of)) && black_box(&rust).check().is_ok()
        }
        (true, Some(_)) => (black_box(&rust).widths()).is_some_and(|of| rust.roots(&of)),
    };
    let mut theirs = || black_box(accepts()) == (number == 0);
    let good = expected.number == number;
    race(name, size, Per::Run, &mut mine, &mut theirs) && good
}

/// The library's answer.
pub fn call(
    strict: bool,
    lists: &mut Lists,
    bits: &mut [Vec<u8>; 2],
    lent: &mut [Vec<u64>; 4],
) -> ours::Answer {
    let [source, _, side, source_roots, map, reads, calls, arguments, target, _, target_roots] =
        &mut lists[..]
    else {
        unreachable!("a lowering has eleven lists")
    };
    let [source_bits, target_bits] = bits;
    ours::check(
        strict,
        [
            source,
            side,
            source_roots,
            map,
            reads,
            calls,
            arguments,
            target,
            target_roots,
        ],
        [source_bits, target_bits],
        lent.each_mut().map(|list| &mut list[..]),
    )
}
