//! Large lowerings that Check accepts, for its times: each written straight
//! down, so that its size is what is asked for.

use crate::check::at;
use crate::graphs::{Builder, Style};
use crate::operation::Lists;
use crate::random::Random;
use crate::reference;
use crate::rules::{SOURCE, TARGET};
use crate::tags::*;

/// Operands of core rows come from so many rows back at most.
const REACH: usize = 200;

/// The width of an index and of an argument.
const WORD: u64 = 32;

/// A source row with its image.
#[derive(Clone, Copy)]
struct Both {
    row: u64,
    image: u64,
}

/// What the indices of Selects and stores are.
#[derive(Clone, Copy, PartialEq, Eq)]
pub enum Index {
    Variables,
    /// Constants that count from 0.
    Counted,
    /// Constants that count from bit 16 on; the bits below are equal.
    High,
}

/// A lowering in the making: the eleven lists of Check.
struct Lowering {
    lists: Lists,
}

/// A source of core rows alone, every tag in turn, and the same rows as target.
pub fn core(random: &mut Random, rows: usize) -> Lists {
    let mut builder = Builder::new(random, Style::Narrow, REACH);
    let mut tag = 0;
    while builder.len() < rows - 1 {
        builder.row(tag);
        tag = (tag + 11) % TARGET.tags;
    }
    builder.row(BOOL_OR);
    same(builder.rows, builder.bits)
}

/// Add rows alone, after a variable.
pub fn adds(rows: usize) -> Lists {
    let add = |row: u64| [ADD, row - 1, row / 2, 0, 0];
    let first = [VAR, WORD, 0, 0, 0];
    let rows = std::iter::once(first).chain((1..rows as u64).map(add));
    same(rows.collect(), Vec::new())
}

/// Constants of 50 bits each, one behind the other.
pub fn constants(random: &mut Random, rows: usize) -> Lists {
    let bits = (0..50 * rows).map(|_| random.below(2)).collect();
    let rows = (0..rows as u64).map(|row| [CONST, 50 * row, 50, 0, 0]);
    same(rows.collect(), bits)
}

/// A source of core rows and the same rows as target; the last is the root.
fn same(rows: Vec<[u64; 5]>, bits: Vec<u64>) -> Lists {
    let last = rows.len() as u64 - 1;
    let mut lists = vec![Vec::new(); at::SORTS];
    lists[at::MAP] = (0..=last).collect();
    lists[at::SOURCE_ROOTS].push(last);
    lists[at::TARGET_ROOTS].push(last);
    lists[at::TARGET] = rows.iter().flat_map(|row| row[..4].to_vec()).collect();
    lists[at::TARGET_BITS] = bits.clone();
    lists[at::SOURCE] = rows.concat();
    lists[at::SOURCE_BITS] = bits;
    lists
}

/// The lowering without images; it has no roots then.
pub fn unmapped(mut lists: Lists) -> Lists {
    lists[at::MAP].fill(u64::MAX);
    lists[at::SOURCE_ROOTS].clear();
    lists[at::TARGET_ROOTS].clear();
    lists
}

/// The lowering with each row of the source as a root.
pub fn rooted(mut lists: Lists) -> Lists {
    lists[at::SOURCE_ROOTS] = (0..lists[at::MAP].len() as u64).collect();
    lists[at::TARGET_ROOTS] = lists[at::MAP].clone();
    lists
}

/// The lowering of core rows with its first rows of one bit as roots, so many.
pub fn one_bit_rooted(mut lists: Lists, count: usize) -> Lists {
    let [widths, _] = reference::check_widths(&lists);
    let rows = (0..).zip(widths).filter(|&(_, width)| width == 1);
    let roots: Vec<u64> = rows.map(|(row, _)| row).take(count).collect();
    lists[at::TARGET_ROOTS] = roots.clone();
    lists[at::SOURCE_ROOTS] = roots;
    lists
}

/// One read and one call of three arguments, then rows that say the same again,
/// in turn.
pub fn again(rows: usize) -> Lists {
    let mut lowering = Lowering::new();
    let index = lowering.variable(WORD);
    let read = lowering.read(0, index);
    lowering.call(0, &[index; 3]);
    let called = lowering.lists[at::MAP][1];
    for k in 0..rows {
        if k % 2 == 0 {
            lowering.source([SELECT, 0, index.row, 0, 0], read);
        } else {
            lowering.source([CALL, 0, WORD, 0, 3], called);
        }
    }
    lowering.lists
}

/// Selects of an array each, all along one chain of stores. Constant indices
/// are all unequal, so that a walk passes over every pair.
pub fn chains(selects: usize, pairs: usize, index: Index) -> Lists {
    let mut lowering = Lowering::new();
    let stores: Vec<[Both; 2]> = (0..pairs)
        .map(|k| [lowering.index(index, k), lowering.variable(8)])
        .collect();
    let side = stores.iter().flatten().map(|both| both.row);
    lowering.lists[at::SIDE] = side.collect();
    for array in 0..selects {
        let index_row = lowering.index(index, pairs + array);
        let mut image = lowering.read(array, index_row);
        if index == Index::Variables {
            for [place, value] in stores.iter().rev() {
                let equal = lowering.target([EQ, place.image, index_row.image, 0]);
                image = lowering.target([ITE, equal, value.image, image]);
            }
        }
        let row = [SELECT, array as u64, index_row.row, 0, pairs as u64];
        lowering.source(row, image);
    }
    lowering.lists
}

/// Reads of so many arrays in turn, each array at the first of the indices, then
/// each at the second, and so on, with the roots that are due.
pub fn reads(count: usize, arrays: usize, index: Index) -> Lists {
    let mut lowering = Lowering::new();
    let indices: Vec<Both> = (0..count.div_ceil(arrays))
        .map(|k| lowering.index(index, k))
        .collect();
    for k in 0..count {
        let (array, place) = (k % arrays, indices[k / arrays]);
        let image = lowering.read(array, place);
        lowering.source([SELECT, array as u64, place.row, 0, 0], image);
    }
    if index == Index::Variables {
        for (p, q) in pairs(count, arrays) {
            let entry = |k: usize| (lowering.lists[at::READS][3 * k], indices[k / arrays].image);
            let ((one, at_one), (other, at_other)) = (entry(p), entry(q));
            lowering.congruence_root([one, other], &[at_one], &[at_other]);
        }
    }
    lowering.lists
}

/// Calls of so many functions in turn, with the roots that are due. The first
/// call of each function has the first variables as its arguments, the second
/// those from the second on, and so on.
pub fn calls(count: usize, functions: usize, arguments: usize) -> Lists {
    let mut lowering = Lowering::new();
    let variables: Vec<Both> = (0..count.div_ceil(functions) + arguments)
        .map(|_| lowering.variable(WORD))
        .collect();
    for k in 0..count {
        let list = &variables[k / functions..][..arguments];
        lowering.call(k % functions, list);
    }
    lowering.call_roots(count, functions, arguments);
    lowering.lists
}

/// What tells the functions of one number apart.
#[derive(Clone, Copy)]
pub enum Apart {
    Result,
    LastArgument,
}

/// Calls of one number and three arguments, of so many functions in turn, told apart by
/// one width, with the roots that are due. Each call of a function has other arguments.
pub fn calls_apart(count: usize, functions: usize, by: Apart) -> Lists {
    let mut lowering = Lowering::new();
    let plain: Vec<Both> = (0..count.div_ceil(functions) + 2)
        .map(|_| lowering.variable(WORD))
        .collect();
    let last: Vec<Both> = (0..functions)
        .map(|k| lowering.variable(k as u64 + 1))
        .collect();
    for k in 0..count {
        let (call, function) = (k / functions, k % functions);
        let third = match by {
            Apart::Result => plain[call + 2],
            Apart::LastArgument => last[function],
        };
        let result = match by {
            Apart::Result => function as u64 + 1,
            Apart::LastArgument => WORD,
        };
        lowering.call_of(0, result, &[plain[call], plain[call + 1], third]);
    }
    lowering.call_roots(count, functions, 3);
    lowering.lists
}

/// The pairs of entries with one array or function, by the order of their roots.
fn pairs(count: usize, keys: usize) -> impl Iterator<Item = (usize, usize)> {
    (0..count).flat_map(move |p| (p + keys..count).step_by(keys).map(move |q| (p, q)))
}

impl Lowering {
    fn new() -> Lowering {
        Lowering {
            lists: vec![Vec::new(); at::SORTS],
        }
    }

    fn source(&mut self, row: [u64; 5], image: u64) -> Both {
        let number = self.lists[at::SOURCE].len() / SOURCE.row;
        self.lists[at::SOURCE].extend(row);
        self.lists[at::MAP].push(image);
        Both {
            row: number as u64,
            image,
        }
    }

    fn target(&mut self, row: [u64; 4]) -> u64 {
        let number = self.lists[at::TARGET].len() / TARGET.row;
        self.lists[at::TARGET].extend(row);
        number as u64
    }

    fn variable(&mut self, width: u64) -> Both {
        let image = self.target([VAR, width, 0, 0]);
        self.source([VAR, width, 0, 0, 0], image)
    }

    /// A constant with bits of its own in both graphs.
    fn constant(&mut self, value: usize) -> Both {
        let start = self.lists[at::TARGET_BITS].len() as u64;
        for list in [at::SOURCE_BITS, at::TARGET_BITS] {
            let bits = (0..WORD).map(|bit| value as u64 >> bit & 1);
            self.lists[list].extend(bits);
        }
        let image = self.target([CONST, start, WORD, 0]);
        self.source([CONST, start, WORD, 0, 0], image)
    }

    fn index(&mut self, index: Index, number: usize) -> Both {
        match index {
            Index::Variables => self.variable(WORD),
            Index::Counted => self.constant(number),
            Index::High => self.constant(number << 16),
        }
    }

    /// The variable of a new read entry.
    fn read(&mut self, array: usize, index: Both) -> u64 {
        let variable = self.target([VAR, 8, 0, 0]);
        self.lists[at::READS].extend([variable, array as u64, index.image]);
        variable
    }

    /// A Call with its entry.
    fn call(&mut self, function: usize, arguments: &[Both]) {
        self.call_of(function, WORD, arguments);
    }

    fn call_of(&mut self, function: usize, result: u64, arguments: &[Both]) {
        let (function, count) = (function as u64, arguments.len() as u64);
        let variable = self.target([VAR, result, 0, 0]);
        let start = self.lists[at::SIDE].len() as u64;
        self.lists[at::SIDE].extend(arguments.iter().map(|both| both.row));
        self.lists[at::ARGUMENTS].extend(arguments.iter().map(|both| both.image));
        self.lists[at::CALLS].extend([variable, function, start, count]);
        self.source([CALL, function, result, start, count], variable);
    }

    /// The roots of so many calls of these functions in turn, each over so many arguments.
    fn call_roots(&mut self, count: usize, functions: usize, arguments: usize) {
        for (p, q) in pairs(count, functions) {
            let result = |k: usize| self.lists[at::CALLS][4 * k];
            let list = |k: usize| self.lists[at::ARGUMENTS][arguments * k..][..arguments].to_vec();
            let (results, one, other) = ([result(p), result(q)], list(p), list(q));
            self.congruence_root(results, &one, &other);
        }
    }

    fn congruence_root(&mut self, variables: [u64; 2], one: &[u64], other: &[u64]) {
        let mut all = self.target([EQ, one[0], other[0], 0]);
        for (&a, &b) in one.iter().zip(other).skip(1) {
            let equal = self.target([EQ, a, b, 0]);
            all = self.target([BOOL_AND, all, equal, 0]);
        }
        let differ = self.target([NOT, all, 0, 0]);
        let equal = self.target([EQ, variables[0], variables[1], 0]);
        let root = self.target([BOOL_OR, differ, equal, 0]);
        self.lists[at::TARGET_ROOTS].push(root);
    }
}
