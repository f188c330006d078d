//! Times of the program `verdict` on the books that cost it most: some shapes
//! at the full length of a book, each with the time of the Rust on its lists, the
//! functions renamed where they are told apart by widths.

use std::hint::black_box;
use std::time::Instant;

use crate::book::{self, LONGEST};
use crate::books;
use crate::bookshape::{self, contents, Shape};
use crate::check::{at, CHECK};
use crate::functions::told_apart;
use crate::operation::Lists;
use crate::reference;
use crate::renamed::renamed;
use crate::tags::*;

const MAX: u64 = u64::MAX;

/// The words that a book has room for.
const WORDS: usize = (LONGEST - contents(bookshape::FIRST)) / 8;

const ROUNDS: usize = 5;

/// Prints a line for each shape; false if an answer was not the expected one.
pub fn slow(program: &str) -> bool {
    println!("milliseconds, the least of {ROUNDS} runs: the program with its start,");
    println!("then the Rust on the book's lists, with the making of its nodes");
    [
        ("no input", None),
        ("calls whose arguments differ late", Some(late_arguments(8))),
        ("the same, in their widths", Some(late_arguments(16))),
        ("calls whose results alone differ", Some(many_results())),
        ("Selects past unequal constants", Some(passed_over())),
        ("Selects through Ites", Some(through_ites())),
        ("Calls of one long argument list", Some(long_calls())),
        ("read entries of many arrays", Some(many_arrays())),
    ]
    .into_iter()
    .all(|(name, lists)| timed(program, name, lists))
}

fn timed(program: &str, name: &str, lists: Option<Lists>) -> bool {
    let input = lists.map_or(Vec::new(), |lists| book::draft(&lists).bytes());
    let line = book::line(book::verdict(&CHECK, &input));
    let mut good = true;
    let ours = least(|| good &= books::ask(program, &input, None).is_ok_and(|it| it == line));
    let rust = match bookshape::shape(&input) {
        Shape::Good => {
            let mut lists = book::held(&input);
            if told_apart(&lists) {
                lists = renamed(&lists).unwrap_or(lists);
            }
            least(|| _ = black_box(reference::check(black_box(&lists))))
        }
        _ => 0.0,
    };
    let bytes = input.len();
    print!("{name:34} {bytes:6} bytes {ours:9.2} {rust:9.2}  {line}");
    if !good {
        println!("{name}: the program printed something else");
    }
    good
}

/// The least time of some runs.
fn least(mut run: impl FnMut()) -> f64 {
    let mut least = f64::MAX;
    for _ in 0..ROUNDS {
        let start = Instant::now();
        run();
        least = least.min(start.elapsed().as_secs_f64() * 1000.0);
    }
    least
}

fn no_lists() -> Lists {
    vec![vec![]; bookshape::FIRST]
}

/// Call entries of one function whose stretches of the argument list overlap.
/// All words there are 0 but one, which is of this width, so that two of them agree
/// until late; the search for the same key compares each pair.
fn late_arguments(width: u64) -> Lists {
    let calls = 560;
    let arguments = WORDS - 9 * calls - 8;
    let mut lists = no_lists();
    lists[at::ARGUMENTS] = vec![0; arguments + calls - 1];
    lists[at::ARGUMENTS][arguments - 1] = 1;
    lists[at::TARGET] = [VAR, 8, 0, 0].repeat(calls + 2);
    lists[at::TARGET][5] = width;
    let entry = |k| [k + 2, 3, k, arguments as u64];
    lists[at::CALLS] = (0..calls as u64).flat_map(entry).collect();
    lists
}

/// Call entries of one number over the same arguments, each of a result width of its
/// own.
fn many_results() -> Lists {
    let calls = 680;
    let arguments = WORDS - 8 * calls - 4;
    let mut lists = no_lists();
    lists[at::ARGUMENTS] = vec![0; arguments];
    lists[at::TARGET] = (0..=calls as u64)
        .flat_map(|k| [VAR, k + 1, 0, 0])
        .collect();
    let entry = |k| [k + 1, 3, 0, arguments as u64];
    lists[at::CALLS] = (0..calls as u64).flat_map(entry).collect();
    lists
}

/// Selects that share a long list of stores, each at a constant that differs
/// from the Select's own in the last bit alone.
fn passed_over() -> Lists {
    let selects = 678;
    let pairs = (WORDS - 6 * selects - 40) / 2;
    let mut lists = no_lists();
    lists[at::SOURCE] = vec![CONST, 0, 32, 0, 0, CONST, 1, 32, 0, 0, VAR, 8, 0, 0, 0];
    lists[at::SOURCE].extend([SELECT, 7, 0, 0, pairs as u64].repeat(selects));
    lists[at::SOURCE_BITS] = [vec![0; 32], vec![1]].concat();
    lists[at::SIDE] = [1, 2].repeat(pairs);
    lists[at::MAP] = [vec![0, MAX, MAX], vec![1; selects]].concat();
    lists[at::READS] = vec![1, 7, 0];
    lists[at::TARGET] = vec![CONST, 0, 32, 0, VAR, 8, 0, 0];
    lists[at::TARGET_BITS] = vec![0; 32];
    lists
}

/// Selects that share a long list of stores at a variable, with one image.
fn through_ites() -> Lists {
    let selects = 675;
    let pairs = (WORDS - 6 * selects - 50) / 6;
    let mut lists = no_lists();
    lists[at::SOURCE] = vec![VAR, 32, 0, 0, 0, VAR, 32, 0, 0, 0, VAR, 8, 0, 0, 0];
    lists[at::SOURCE].extend([SELECT, 7, 1, 0, pairs as u64].repeat(selects));
    lists[at::SIDE] = [0, 2].repeat(pairs);
    lists[at::MAP] = [vec![0, 1, 2], vec![4 + pairs as u64; selects]].concat();
    lists[at::READS] = vec![3, 7, 1];
    lists[at::TARGET] = vec![
        VAR, 32, 0, 0, VAR, 32, 0, 0, VAR, 8, 0, 0, VAR, 8, 0, 0, EQ, 0, 1, 0,
    ];
    let ite = |k: u64| [ITE, 4, 2, if k == 0 { 3 } else { 4 + k }];
    lists[at::TARGET].extend((0..pairs as u64).flat_map(ite));
    lists
}

/// Calls with one image that share a long argument list.
fn long_calls() -> Lists {
    let calls = 678;
    let arguments = (WORDS - 6 * calls - 20) / 2;
    let mut lists = no_lists();
    lists[at::SOURCE] = vec![VAR, 8, 0, 0, 0];
    lists[at::SOURCE].extend([CALL, 3, 8, 0, arguments as u64].repeat(calls));
    lists[at::SIDE] = vec![0; arguments];
    lists[at::MAP] = [vec![0], vec![1; calls]].concat();
    lists[at::CALLS] = vec![1, 3, 0, arguments as u64];
    lists[at::ARGUMENTS] = vec![0; arguments];
    lists[at::TARGET] = vec![VAR, 8, 0, 0, VAR, 8, 0, 0];
    lists
}

/// Read entries, each of an array of its own.
fn many_arrays() -> Lists {
    let reads = (WORDS - 4) / 7;
    let mut lists = no_lists();
    lists[at::TARGET] = [vec![VAR, 32, 0, 0], [VAR, 8, 0, 0].repeat(reads)].concat();
    lists[at::READS] = (0..reads as u64).flat_map(|k| [k + 1, k, 0]).collect();
    lists
}
