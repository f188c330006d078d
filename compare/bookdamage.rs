//! Random books of both editions: those of the generators of Check and of the strict
//! check, with and without sorts, whole or damaged, and others.

use crate::book::{draft, Draft, LONGEST};
use crate::bookshape::{contents, is_bits, FIRST, SECOND};
use crate::check::{at, CHECK, STRICT_CHECK};
use crate::marked;
use crate::operation::{Lists, Operation};
use crate::random::Random;
use crate::sortcases;
use crate::sortedcheck::{CHECK_WITH_SORTS, STRICT_CHECK_WITH_SORTS};
use crate::tags::VAR;

const MAX: u64 = u64::MAX;

/// Where the lowerings of books come from: the check of an edition.
#[derive(Clone, Copy)]
struct From {
    sections: usize,
    check: &'static dyn Operation,
    undamaged: fn(&mut Random, usize) -> Lists,
}

const SOURCES: [From; 4] = [
    From {
        sections: FIRST,
        check: &CHECK,
        undamaged: |random, rows| CHECK.undamaged(random, rows),
    },
    From {
        sections: FIRST,
        check: &STRICT_CHECK,
        undamaged: |random, rows| STRICT_CHECK.undamaged(random, rows),
    },
    From {
        sections: SECOND,
        check: &CHECK_WITH_SORTS,
        undamaged: |random, rows| CHECK_WITH_SORTS.undamaged(random, rows),
    },
    From {
        sections: SECOND,
        check: &STRICT_CHECK_WITH_SORTS,
        undamaged: |random, rows| STRICT_CHECK_WITH_SORTS.undamaged(random, rows),
    },
];

/// A random input for the programs.
pub fn generate(random: &mut Random) -> Vec<u8> {
    let rows = random.pick(&[4, 8, 16, 40]);
    let from = random.pick(&SOURCES);
    match random.below(100) {
        0..=49 => draft(&from.check.generate(random, rows)).bytes(),
        50..=51 => sized(random, from),
        52..=53 => noise(random),
        54..=55 => bodies_of_noise(random, from),
        56..=59 => one_byte(random, from),
        60..=62 => short(random, from),
        _ => damaged(random, from, rows),
    }
}

/// A book with one or two damages to its contents or its length.
fn damaged(random: &mut Random, from: From, rows: usize) -> Vec<u8> {
    let lists = match random.below(4) {
        0 => random_marked(random, from),
        1 => vec![vec![]; from.sections],
        2 => (from.undamaged)(random, rows),
        _ => from.check.generate(random, rows),
    };
    let mut draft = draft(&lists);
    let times = random.pick(&[1, 1, 1, 2]);
    (0..times).for_each(|_| bend(random, &mut draft));
    if random.once_in(10) {
        other_edition(random, &mut draft);
    }
    let mut bytes = draft.bytes();
    if random.once_in(4) {
        cut(random, &mut bytes);
    }
    bytes
}

fn random_marked(random: &mut Random, from: From) -> Lists {
    let mut cases = match from.sections {
        FIRST => marked::accepted(),
        _ => sortcases::to_change(),
    };
    let place = random.place(cases.len());
    cases.swap_remove(place)
}

/// The starts of another edition, of the first section or of all; with an entry more or
/// one dropped, or with as many as before.
fn other_edition(random: &mut Random, draft: &mut Draft) {
    let entries = draft.contents.len();
    let second = entries == SECOND;
    let moved = |start: u64| match second {
        true => start.wrapping_sub(16),
        false => start.wrapping_add(16),
    };
    let count = random.pick(&[1, entries]);
    for entry in &mut draft.contents[..count] {
        entry[0] = moved(entry[0]);
    }
    let end = draft.contents[entries - 1][0].wrapping_add(draft.contents[entries - 1][1]);
    match (random.once_in(2), second) {
        (false, _) => {}
        (true, true) => drop(draft.contents.pop()),
        (true, false) => draft.contents.push([end, 0]),
    }
}

/// A book of empty bodies, or any bytes behind a first start, of a length near those of the
/// two tables of contents.
fn short(random: &mut Random, from: From) -> Vec<u8> {
    let start = contents(from.sections) as u64;
    let any = random.pick(&[0, 16, 160, 175, 177, 184, 191, 193, 208, MAX]);
    let first = random.pick(&[176, 192, 192, start, start, any]);
    let mut book = match random.once_in(3) {
        true => draft(&vec![vec![]; from.sections]).bytes(),
        false => vec![0; 208],
    };
    book[..8].copy_from_slice(&first.to_le_bytes());
    book.truncate(random.pick(&[8, 175, 176, 177, 183, 184, 190, 191, 192, 193, 208]));
    book
}

fn bend(random: &mut Random, draft: &mut Draft) {
    let sections = draft.contents.len();
    let any = random.place(sections);
    let section = random.pick(&[any, any, any, any, sections - 1]);
    match random.below(11) {
        0 | 1 => bend_word(random, draft, section),
        2 => move_border(random, draft, section),
        3 => wrap(random, draft, section),
        4 => open_gap(random, draft, section),
        5 => past_end(random, draft, section),
        6 => draft.contents.swap(section, random.place(sections)),
        7 => draft.contents[section].swap(0, 1),
        8 => part_word(random, draft, section),
        9 => empty_rest(draft, section),
        _ => left_over(random, draft),
    }
}

/// A start or a length, near its old word or at an edge.
fn bend_word(random: &mut Random, draft: &mut Draft, section: usize) {
    let end = (draft.start() + draft.bodies.len()) as u64;
    let word = &mut draft.contents[section][random.place(2)];
    let near = random.pick(&[1, 2, 7, 8, 9, 16, 176, 192]);
    *word = match random.below(6) {
        0 => word.wrapping_add(near),
        1 => word.wrapping_sub(near),
        2 => word.wrapping_add(1 << random.pick(&[16, 31, 32, 48, 63])),
        3 => word.swap_bytes(),
        4 => random.pick(&[0, 8, 176, 192, end - 1, end, end + 1, 65_536, 65_537]),
        _ => random.pick(&[MAX, MAX - 7, MAX - 8, 1 << 63, 1 << 32]),
    };
}

/// Bytes of a section counted to the one after it, or the other way round; by
/// eight the shape may stay good.
fn move_border(random: &mut Random, draft: &mut Draft, section: usize) {
    let later = (section + 1) % draft.contents.len();
    let bytes = random.pick(&[1, 3, 4, 8, 8, 16, 24, 40]);
    if random.once_in(2) {
        draft.contents[section][1] = draft.contents[section][1].wrapping_add(bytes);
        draft.contents[later][0] = draft.contents[later][0].wrapping_add(bytes);
        draft.contents[later][1] = draft.contents[later][1].wrapping_sub(bytes);
    } else {
        draft.contents[section][1] = draft.contents[section][1].wrapping_sub(bytes);
        draft.contents[later][0] = draft.contents[later][0].wrapping_sub(bytes);
        draft.contents[later][1] = draft.contents[later][1].wrapping_add(bytes);
    }
}

/// A length near 2^64, so that the sum with the start wraps to a place in the
/// book, where the section after it starts; the one after that goes on from the
/// same place as before.
fn wrap(random: &mut Random, draft: &mut Draft, section: usize) {
    let start = draft.contents[section][0];
    let back = random.pick(&[0, 8, 16, 176, 192, start]);
    draft.contents[section][1] = 0u64.wrapping_sub(back);
    if section + 1 < draft.contents.len() {
        let [_, length] = draft.contents[section + 1];
        let end = draft.contents[section + 1][0].wrapping_add(length);
        let due = start.wrapping_sub(back);
        draft.contents[section + 1] = [due, end.wrapping_sub(due)];
    }
}

/// Bytes between two bodies, with all later starts moved on.
fn open_gap(random: &mut Random, draft: &mut Draft, section: usize) {
    let bytes = random.pick(&[1, 8]);
    let place = draft.place(draft.contents[section][0]);
    draft.bodies.splice(place..place, vec![0; bytes]);
    for entry in &mut draft.contents[section..] {
        entry[0] = entry[0].wrapping_add(bytes as u64);
    }
}

/// A section that ends some bytes past the end, all later ones starting there.
fn past_end(random: &mut Random, draft: &mut Draft, section: usize) {
    let end = (draft.start() + draft.bodies.len()) as u64;
    let start = draft.contents[section][0].min(end);
    let more = random.pick(&[1, 2, 8, 8, 16, 65_536]);
    draft.contents[section] = [start, end - start + more];
    let due = end + more;
    draft.contents[section + 1..].fill([due, 0]);
}

/// Bytes put behind a body and counted in its length, with later starts moved on.
fn part_word(random: &mut Random, draft: &mut Draft, section: usize) {
    let bytes = 1 + random.place(8);
    let end = draft.contents[section][0].saturating_add(draft.contents[section][1]);
    let place = draft.place(end);
    let fill = random.below(3) as u8;
    draft.bodies.splice(place..place, vec![fill; bytes]);
    draft.contents[section][1] = draft.contents[section][1].wrapping_add(bytes as u64);
    for entry in &mut draft.contents[section + 1..] {
        entry[0] = entry[0].wrapping_add(bytes as u64);
    }
}

/// Sections from this one on empty, the bytes behind it left over or dropped.
fn empty_rest(draft: &mut Draft, section: usize) {
    let start = draft.contents[section][0];
    draft.contents[section..].fill([start, 0]);
    if section % 2 == 0 {
        draft.bodies.truncate(draft.place(start));
    }
}

fn left_over(random: &mut Random, draft: &mut Draft) {
    let bytes = random.pick(&[1, 1, 7, 8, 9, 16, 200]);
    draft.bodies.extend((0..bytes).map(|k| k as u8));
}

/// A book cut at any place, or near the end of a table of contents.
fn cut(random: &mut Random, bytes: &mut Vec<u8>) {
    let any = random.place(bytes.len() + 1);
    let near = contents(random.pick(&[FIRST, SECOND])) - 2 + random.place(5);
    let last = bytes.len().saturating_sub(1 + random.place(9));
    bytes.truncate(random.pick(&[any, any, near, near, last, last]));
}

/// Any bytes: none, few, about as many as the contents, or many.
fn noise(random: &mut Random) -> Vec<u8> {
    let few = random.place(20);
    let near = contents(random.pick(&[FIRST, SECOND])) - 3 + random.place(6);
    let many = random.pick(&[500, LONGEST - 1, LONGEST, LONGEST + 1, 70_000, 200_000]);
    let length = random.pick(&[0, few, near, near, many]);
    let mask = random.pick(&[0, 1, 0xff]);
    (0..length).map(|_| random.word() as u8 & mask).collect()
}

/// Good contents over any bytes.
fn bodies_of_noise(random: &mut Random, from: From) -> Vec<u8> {
    let mask = random.pick(&[1, 7, 63, MAX]);
    let list = |section| {
        let length = random.place(12);
        let any = (0..length).map(|_| random.word());
        match is_bits(section) {
            true => any.map(|word| word & mask & 0xff).collect(),
            false => any.map(|word| word & mask).collect(),
        }
    };
    let lists: Lists = (0..from.sections).map(list).collect();
    draft(&lists).bytes()
}

/// A book with one byte changed, in the contents or anywhere.
fn one_byte(random: &mut Random, from: From) -> Vec<u8> {
    let rows = random.pick(&[4, 8, 16]);
    let mut bytes = draft(&(from.undamaged)(random, rows)).bytes();
    let place = match random.below(3) {
        0 => random.place(contents(from.sections)),
        _ => random.place(bytes.len()),
    };
    bytes[place] ^= 1 << random.below(8);
    bytes
}

/// A book about as long as the longest: filled up by rows, words or bits that
/// change nothing in its lowering, to a length that is chosen; now and then by entries of
/// a sort table.
fn sized(random: &mut Random, from: From) -> Vec<u8> {
    let rows = random.pick(&[4, 16, 40]);
    let mut lists = match random.below(3) {
        0 => from.check.generate(random, rows),
        _ => (from.undamaged)(random, rows),
    };
    let near = LONGEST - 9 + random.place(20);
    let length = random.pick(&[LONGEST - 1, LONGEST, LONGEST, LONGEST + 1, near, 131_072]);
    let left = |lists: &Lists| length.saturating_sub(draft(lists).bytes().len());
    let room = left(&lists) / 8;
    match random.below(5) {
        0 => (0..room / 4).for_each(|_| lists[at::TARGET].extend([VAR, 8, 0, 0])),
        1 => {
            (0..room / 6).for_each(|_| lists[at::SOURCE].extend([VAR, 8, 0, 0, 0]));
            lists[at::MAP].extend(vec![MAX; room / 6]);
        }
        2 => lists[at::SIDE].extend(vec![0; room]),
        3 => lists[at::ARGUMENTS].extend(vec![0; room]),
        _ if from.sections == SECOND => {
            let last = lists[at::SORTS].chunks_exact(3).next_back();
            let above = last.map_or(0, |entry| entry[0].saturating_add(1));
            let entry = |k: u64| [above.saturating_add(k), 16, 16];
            lists[at::SORTS].extend((0..room as u64 / 3).flat_map(entry));
        }
        _ => {}
    }
    let bits = random.pick(&[at::SOURCE_BITS, at::TARGET_BITS]);
    let more = left(&lists);
    lists[bits].extend((0..more).map(|k| k as u64 % 2));
    draft(&lists).bytes()
}
