//! The books of the fixed list: each place of 20 but 13, each number of Check
//! that a book can get, and sections by their numbers.

use crate::book::{self, Draft};
use crate::bookshape::{contents, is_bits, FIRST};
use crate::ceilingcases;
use crate::check::{at, CHECK};
use crate::functioncases;
use crate::marked;
use crate::operation::{Lists, Operation};
use crate::random::Random;
use crate::rules::TARGET;

const MAX: u64 = u64::MAX;

/// A book has at most so many bytes.
const BYTES: usize = 900;

/// Of so many random books the shortest is taken.
const CHOICE: usize = 40;

/// The numbers that a book can get from Check. 18 is none of them: the work
/// lists are long enough for every book.
const NUMBERS: u64 = 18;

/// Books for the verdict.
pub fn verdicts(random: &mut Random) -> Vec<Vec<u8>> {
    let mut books = misshapen();
    books.push(empty().bytes());
    books.push(book::draft(&small()).bytes());
    let refused = marked::refused().into_iter().map(|(lists, _)| lists);
    let marked = marked::accepted().into_iter().chain(refused);
    let known = marked.chain(at_ceiling()).chain(told_apart());
    books.extend(known.map(|lists| book::draft(&lists).bytes()));
    books.extend((0..NUMBERS).map(|number| shortest(random, number)));
    books.retain(|book| book.len() <= BYTES);
    books
}

/// The cases at the ceiling whose targets have one row.
fn at_ceiling() -> impl Iterator<Item = Lists> {
    let cases = ceilingcases::lowerings().into_iter();
    cases
        .map(|(lists, _)| lists)
        .filter(|lists| lists[at::TARGET].len() == TARGET.row)
}

/// Calls told apart by their widths: one number without arguments, accepted, with its
/// key again and with a root that is not due; over an argument each, with the root that
/// is due and without it.
fn told_apart() -> impl Iterator<Item = Lists> {
    functioncases::small().into_iter().map(|(lists, _)| lists)
}

/// Books with the number of a section that is asked for.
pub fn sections() -> Vec<(Vec<u8>, u64)> {
    let good = book::draft(&small()).bytes();
    let mut asked: Vec<(Vec<u8>, u64)> = Vec::new();
    for number in (0..=FIRST as u64 + 1).chain([MAX, (1 << 32) + 1]) {
        asked.push((good.clone(), number));
    }
    asked.extend([0, 1].map(|number| (Vec::new(), number)));
    asked.push((empty().bytes(), 1));
    // 24 before 20, then each bad shape with one section or another.
    let bad = misshapen();
    asked.extend([0, 12].map(|number| (bad[bad.len() - 1].clone(), number)));
    let numbers = (1..=FIRST as u64).cycle();
    asked.extend(bad.into_iter().step_by(2).zip(numbers));
    asked
}

/// The book of eleven empty bodies.
fn empty() -> Draft {
    book::draft(&vec![vec![]; FIRST])
}

/// Each list of another length, bits that are no whole words.
fn small() -> Lists {
    let mut lists: Lists = (1..=FIRST as u64)
        .map(|k| (0..1 + k % 3).map(|word| 16 * k + word).collect())
        .collect();
    lists[at::SOURCE_BITS] = vec![1, 0, 1];
    lists[at::TARGET_BITS] = vec![0, 1, 1, 0, 1];
    lists
}

/// Inputs that are no books: too short; a bad section; bytes left over.
pub fn misshapen() -> Vec<Vec<u8>> {
    let whole = empty().bytes();
    let mut books = vec![vec![], vec![0], whole[..contents(FIRST) - 1].to_vec()];
    let starts = [177, 175, 184, 0, MAX, 176 + (1 << 32), 168];
    let lengths = [8, 1, MAX, MAX - 175, MAX - 7, 1 << 63, 16];
    for section in 0..FIRST {
        let mut start = empty();
        start.contents[section][0] = starts[section % starts.len()];
        let mut past = empty();
        past.contents[section][1] = lengths[section % lengths.len()];
        books.extend([start.bytes(), past.bytes()]);
        if !is_bits(section) {
            books.push(part_word(section));
        }
    }
    let mut more = empty();
    more.bodies.extend([0; 8]);
    books.push(more.bytes());
    more.bodies.truncate(1);
    books.push(more.bytes());
    books
}

/// A section of some bytes that are no whole words, the later ones empty.
fn part_word(section: usize) -> Vec<u8> {
    let bytes = 1 + section % 7;
    let mut draft = empty();
    draft.contents[section][1] = bytes as u64;
    draft.contents[section + 1..].fill([(contents(FIRST) + bytes) as u64, 0]);
    draft.bodies = vec![0; bytes];
    draft.bytes()
}

/// The shortest of some random books that get this number.
fn shortest(random: &mut Random, number: u64) -> Vec<u8> {
    let mut found: Vec<Vec<u8>> = Vec::new();
    while found.len() < CHOICE {
        let book = book::draft(&CHECK.generate(random, 4)).bytes();
        if book::verdict(&CHECK, &book).number == number {
            found.push(book);
        }
    }
    found.sort_by_key(|book| book.len());
    found.swap_remove(0)
}
