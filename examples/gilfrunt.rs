//! The functions of libgilfrunt.a as safe functions over slices.
//!
//! include/gilfrunt.h says what each answers and leaves in the lists lent to it, and
//! how long these must be. A slice's pointer is never null and two mutable slices never
//! overlap, so nothing is left for the caller to heed.
//!
//! `rustc --edition 2021 --test -L native=target/staticlib -l static=gilfrunt
//! examples/gilfrunt.rs -o target/gilfrunt-test && target/gilfrunt-test` tries each.
#![allow(dead_code)] // a program need not use all of them

use std::fmt;

/// In a map: no image.
pub const MAX: u64 = u64::MAX;

/// The most bits that a row may have: every width that is left lies between 1 and this.
pub const CEILING: u64 = 4096;

/// A number with place and detail; 0 is acceptance.
#[repr(C)]
#[derive(Clone, Copy, PartialEq, Eq, Debug)]
pub struct Answer {
    pub number: u64,
    pub place: u64,
    pub detail: u64,
}

impl Answer {
    pub fn accepted(self) -> bool {
        self.number == 0
    }
}

/// The line that verdict prints.
impl fmt::Display for Answer {
    fn fmt(&self, f: &mut fmt::Formatter) -> fmt::Result {
        if self.accepted() {
            return write!(f, "accepted");
        }
        write!(f, "refused {} {} {}", self.number, self.place, self.detail)
    }
}

/// What Check reads.
#[derive(Clone, Copy, Default)]
pub struct Lowering<'a> {
    pub source: &'a [u64],
    pub source_bits: &'a [u8],
    pub side: &'a [u64],
    pub source_roots: &'a [u64],
    pub map: &'a [u64],
    pub reads: &'a [u64],
    pub calls: &'a [u64],
    pub arguments: &'a [u64],
    pub target: &'a [u64],
    pub target_bits: &'a [u8],
    pub target_roots: &'a [u64],
}

/// What Check writes: a word for each source row in the first, for each target row in
/// the others.
pub struct Lent<'a> {
    pub source_widths: &'a mut [u64],
    pub target_widths: &'a mut [u64],
    pub classes: &'a mut [u64],
    pub entries: &'a mut [u64],
}

#[repr(C)]
struct Stretch {
    start: u64,
    length: u64,
}

#[rustfmt::skip]
extern "C" {
    fn gilfrunt_source_widths(
        source: *const u64, source_len: usize, bits: *const u8, bits_len: usize,
        side: *const u64, side_len: usize, widths: *mut u64, widths_len: usize,
    ) -> Answer;

    fn gilfrunt_source_widths_with_sorts(
        source: *const u64, source_len: usize, bits: *const u8, bits_len: usize,
        side: *const u64, side_len: usize, sorts: *const u64, sorts_len: usize,
        widths: *mut u64, widths_len: usize,
    ) -> Answer;

    fn gilfrunt_target_widths(
        target: *const u64, target_len: usize, bits: *const u8, bits_len: usize,
        widths: *mut u64, widths_len: usize,
    ) -> Answer;

    fn gilfrunt_roots(
        widths: *const u64, widths_len: usize, roots: *const u64, roots_len: usize,
    ) -> Answer;

    fn gilfrunt_values(
        target: *const u64, target_len: usize, bits: *const u8, bits_len: usize,
        given: *const u64, given_len: usize,
        widths: *mut u64, widths_len: usize, values: *mut u64, values_len: usize,
    ) -> Answer;

    fn gilfrunt_check(
        source: *const u64, source_len: usize, source_bits: *const u8, source_bits_len: usize,
        side: *const u64, side_len: usize, source_roots: *const u64, source_roots_len: usize,
        map: *const u64, map_len: usize, reads: *const u64, reads_len: usize,
        calls: *const u64, calls_len: usize, arguments: *const u64, arguments_len: usize,
        target: *const u64, target_len: usize, target_bits: *const u8, target_bits_len: usize,
        target_roots: *const u64, target_roots_len: usize,
        source_widths: *mut u64, source_widths_len: usize,
        target_widths: *mut u64, target_widths_len: usize,
        classes: *mut u64, classes_len: usize, entries: *mut u64, entries_len: usize,
    ) -> Answer;

    fn gilfrunt_strict_check(
        source: *const u64, source_len: usize, source_bits: *const u8, source_bits_len: usize,
        side: *const u64, side_len: usize, source_roots: *const u64, source_roots_len: usize,
        map: *const u64, map_len: usize, reads: *const u64, reads_len: usize,
        calls: *const u64, calls_len: usize, arguments: *const u64, arguments_len: usize,
        target: *const u64, target_len: usize, target_bits: *const u8, target_bits_len: usize,
        target_roots: *const u64, target_roots_len: usize,
        source_widths: *mut u64, source_widths_len: usize,
        target_widths: *mut u64, target_widths_len: usize,
        classes: *mut u64, classes_len: usize, entries: *mut u64, entries_len: usize,
    ) -> Answer;

    fn gilfrunt_check_with_sorts(
        source: *const u64, source_len: usize, source_bits: *const u8, source_bits_len: usize,
        side: *const u64, side_len: usize, source_roots: *const u64, source_roots_len: usize,
        map: *const u64, map_len: usize, reads: *const u64, reads_len: usize,
        calls: *const u64, calls_len: usize, arguments: *const u64, arguments_len: usize,
        target: *const u64, target_len: usize, target_bits: *const u8, target_bits_len: usize,
        target_roots: *const u64, target_roots_len: usize,
        sorts: *const u64, sorts_len: usize,
        source_widths: *mut u64, source_widths_len: usize,
        target_widths: *mut u64, target_widths_len: usize,
        classes: *mut u64, classes_len: usize, entries: *mut u64, entries_len: usize,
    ) -> Answer;

    fn gilfrunt_strict_check_with_sorts(
        source: *const u64, source_len: usize, source_bits: *const u8, source_bits_len: usize,
        side: *const u64, side_len: usize, source_roots: *const u64, source_roots_len: usize,
        map: *const u64, map_len: usize, reads: *const u64, reads_len: usize,
        calls: *const u64, calls_len: usize, arguments: *const u64, arguments_len: usize,
        target: *const u64, target_len: usize, target_bits: *const u8, target_bits_len: usize,
        target_roots: *const u64, target_roots_len: usize,
        sorts: *const u64, sorts_len: usize,
        source_widths: *mut u64, source_widths_len: usize,
        target_widths: *mut u64, target_widths_len: usize,
        classes: *mut u64, classes_len: usize, entries: *mut u64, entries_len: usize,
    ) -> Answer;

    fn gilfrunt_section_answer(book: *const u8, book_len: usize, number: u64) -> Answer;

    fn gilfrunt_section(book: *const u8, book_len: usize, number: u64) -> Stretch;

    fn gilfrunt_judge(
        book: *const u8, book_len: usize,
        source_widths: *mut u64, source_widths_len: usize,
        target_widths: *mut u64, target_widths_len: usize,
        classes: *mut u64, classes_len: usize, entries: *mut u64, entries_len: usize,
        words: *mut u64, words_len: usize,
    ) -> Answer;

    fn gilfrunt_strict_judge(
        book: *const u8, book_len: usize,
        source_widths: *mut u64, source_widths_len: usize,
        target_widths: *mut u64, target_widths_len: usize,
        classes: *mut u64, classes_len: usize, entries: *mut u64, entries_len: usize,
        words: *mut u64, words_len: usize,
    ) -> Answer;
}

// In each call below a pointer comes with the length of its own slice, and what is
// written is borrowed for that call alone.

/// The widths of a source's rows.
pub fn source_widths(source: &[u64], bits: &[u8], side: &[u64], widths: &mut [u64]) -> Answer {
    unsafe {
        gilfrunt_source_widths(
            source.as_ptr(), source.len(), bits.as_ptr(), bits.len(),
            side.as_ptr(), side.len(), widths.as_mut_ptr(), widths.len(),
        )
    }
}

/// The widths of a source's rows, with arrays of the widths that `sorts` lists: array,
/// index width and cell width in threes, strictly rising by array.
pub fn source_widths_with_sorts(
    source: &[u64],
    bits: &[u8],
    side: &[u64],
    sorts: &[u64],
    widths: &mut [u64],
) -> Answer {
    unsafe {
        gilfrunt_source_widths_with_sorts(
            source.as_ptr(), source.len(), bits.as_ptr(), bits.len(),
            side.as_ptr(), side.len(), sorts.as_ptr(), sorts.len(),
            widths.as_mut_ptr(), widths.len(),
        )
    }
}

/// The widths of a target's rows.
pub fn target_widths(target: &[u64], bits: &[u8], widths: &mut [u64]) -> Answer {
    unsafe {
        gilfrunt_target_widths(
            target.as_ptr(), target.len(), bits.as_ptr(), bits.len(),
            widths.as_mut_ptr(), widths.len(),
        )
    }
}

/// Whether every root names a row of width 1.
pub fn roots(widths: &[u64], roots: &[u64]) -> Answer {
    unsafe { gilfrunt_roots(widths.as_ptr(), widths.len(), roots.as_ptr(), roots.len()) }
}

/// The values of a target's rows, with a word given for each row.
pub fn values(
    target: &[u64],
    bits: &[u8],
    given: &[u64],
    widths: &mut [u64],
    values: &mut [u64],
) -> Answer {
    unsafe {
        gilfrunt_values(
            target.as_ptr(), target.len(), bits.as_ptr(), bits.len(), given.as_ptr(), given.len(),
            widths.as_mut_ptr(), widths.len(), values.as_mut_ptr(), values.len(),
        )
    }
}

/// Whether the target is the lowering of the source.
pub fn check(of: &Lowering, lent: Lent) -> Answer {
    unsafe {
        gilfrunt_check(
            of.source.as_ptr(), of.source.len(), of.source_bits.as_ptr(), of.source_bits.len(),
            of.side.as_ptr(), of.side.len(), of.source_roots.as_ptr(), of.source_roots.len(),
            of.map.as_ptr(), of.map.len(), of.reads.as_ptr(), of.reads.len(),
            of.calls.as_ptr(), of.calls.len(), of.arguments.as_ptr(), of.arguments.len(),
            of.target.as_ptr(), of.target.len(), of.target_bits.as_ptr(), of.target_bits.len(),
            of.target_roots.as_ptr(), of.target_roots.len(),
            lent.source_widths.as_mut_ptr(), lent.source_widths.len(),
            lent.target_widths.as_mut_ptr(), lent.target_widths.len(),
            lent.classes.as_mut_ptr(), lent.classes.len(),
            lent.entries.as_mut_ptr(), lent.entries.len(),
        )
    }
}

/// Whether the target is the lowering of the source, and every root is of one bit.
pub fn strict_check(of: &Lowering, lent: Lent) -> Answer {
    unsafe {
        gilfrunt_strict_check(
            of.source.as_ptr(), of.source.len(), of.source_bits.as_ptr(), of.source_bits.len(),
            of.side.as_ptr(), of.side.len(), of.source_roots.as_ptr(), of.source_roots.len(),
            of.map.as_ptr(), of.map.len(), of.reads.as_ptr(), of.reads.len(),
            of.calls.as_ptr(), of.calls.len(), of.arguments.as_ptr(), of.arguments.len(),
            of.target.as_ptr(), of.target.len(), of.target_bits.as_ptr(), of.target_bits.len(),
            of.target_roots.as_ptr(), of.target_roots.len(),
            lent.source_widths.as_mut_ptr(), lent.source_widths.len(),
            lent.target_widths.as_mut_ptr(), lent.target_widths.len(),
            lent.classes.as_mut_ptr(), lent.classes.len(),
            lent.entries.as_mut_ptr(), lent.entries.len(),
        )
    }
}

/// Whether the target is the lowering of the source, with arrays of the widths that `sorts`
/// lists. An empty list lists no array.
pub fn check_with_sorts(of: &Lowering, sorts: &[u64], lent: Lent) -> Answer {
    unsafe {
        gilfrunt_check_with_sorts(
            of.source.as_ptr(), of.source.len(), of.source_bits.as_ptr(), of.source_bits.len(),
            of.side.as_ptr(), of.side.len(), of.source_roots.as_ptr(), of.source_roots.len(),
            of.map.as_ptr(), of.map.len(), of.reads.as_ptr(), of.reads.len(),
            of.calls.as_ptr(), of.calls.len(), of.arguments.as_ptr(), of.arguments.len(),
            of.target.as_ptr(), of.target.len(), of.target_bits.as_ptr(), of.target_bits.len(),
            of.target_roots.as_ptr(), of.target_roots.len(), sorts.as_ptr(), sorts.len(),
            lent.source_widths.as_mut_ptr(), lent.source_widths.len(),
            lent.target_widths.as_mut_ptr(), lent.target_widths.len(),
            lent.classes.as_mut_ptr(), lent.classes.len(),
            lent.entries.as_mut_ptr(), lent.entries.len(),
        )
    }
}

/// The same, and every root is of one bit.
pub fn strict_check_with_sorts(of: &Lowering, sorts: &[u64], lent: Lent) -> Answer {
    unsafe {
        gilfrunt_strict_check_with_sorts(
            of.source.as_ptr(), of.source.len(), of.source_bits.as_ptr(), of.source_bits.len(),
            of.side.as_ptr(), of.side.len(), of.source_roots.as_ptr(), of.source_roots.len(),
            of.map.as_ptr(), of.map.len(), of.reads.as_ptr(), of.reads.len(),
            of.calls.as_ptr(), of.calls.len(), of.arguments.as_ptr(), of.arguments.len(),
            of.target.as_ptr(), of.target.len(), of.target_bits.as_ptr(), of.target_bits.len(),
            of.target_roots.as_ptr(), of.target_roots.len(), sorts.as_ptr(), sorts.len(),
            lent.source_widths.as_mut_ptr(), lent.source_widths.len(),
            lent.target_widths.as_mut_ptr(), lent.target_widths.len(),
            lent.classes.as_mut_ptr(), lent.classes.len(),
            lent.entries.as_mut_ptr(), lent.entries.len(),
        )
    }
}

/// A section of a book, 1 to 11, in the second edition to 12, or why there is none.
pub fn section(book: &[u8], number: u64) -> Result<&[u8], Answer> {
    let answer = unsafe { gilfrunt_section_answer(book.as_ptr(), book.len(), number) };
    if !answer.accepted() {
        return Err(answer);
    }
    let stretch = unsafe { gilfrunt_section(book.as_ptr(), book.len(), number) };
    Ok(&book[stretch.start as usize..][..stretch.length as usize])
}

/// The verdict on a book, with lists of the caller's; `words` takes the book's words.
pub fn judge(book: &[u8], lent: Lent, words: &mut [u64]) -> Answer {
    unsafe {
        gilfrunt_judge(
            book.as_ptr(), book.len(),
            lent.source_widths.as_mut_ptr(), lent.source_widths.len(),
            lent.target_widths.as_mut_ptr(), lent.target_widths.len(),
            lent.classes.as_mut_ptr(), lent.classes.len(),
            lent.entries.as_mut_ptr(), lent.entries.len(),
            words.as_mut_ptr(), words.len(),
        )
    }
}

/// The strict verdict on a book: every root must be of one bit.
pub fn strict_judge(book: &[u8], lent: Lent, words: &mut [u64]) -> Answer {
    unsafe {
        gilfrunt_strict_judge(
            book.as_ptr(), book.len(),
            lent.source_widths.as_mut_ptr(), lent.source_widths.len(),
            lent.target_widths.as_mut_ptr(), lent.target_widths.len(),
            lent.classes.as_mut_ptr(), lent.classes.len(),
            lent.entries.as_mut_ptr(), lent.entries.len(),
            words.as_mut_ptr(), words.len(),
        )
    }
}

/// The verdict on a book of any size.
pub fn verdict(book: &[u8]) -> Answer {
    with_lists(book, judge)
}

/// The strict verdict on a book of any size.
pub fn strict_verdict(book: &[u8]) -> Answer {
    with_lists(book, strict_judge)
}

/// What a function answers to a book, with lists as long as the book needs.
fn with_lists(book: &[u8], judge: fn(&[u8], Lent, &mut [u64]) -> Answer) -> Answer {
    let bytes = |number| section(book, number).map_or(0, |body: &[u8]| body.len());
    let rows = bytes(9) / 32;
    let (mut source, mut target) = (vec![0; bytes(1) / 40], vec![0; rows]);
    let (mut classes, mut entries) = (vec![0; rows], vec![0; rows]);
    let mut words = vec![0; book.len() / 8];
    let lent = Lent {
        source_widths: &mut source,
        target_widths: &mut target,
        classes: &mut classes,
        entries: &mut entries,
    };
    judge(book, lent, &mut words)
}

#[cfg(test)]
mod tests {
    use super::*;

    /// Marked case 1 without its tables and map.
    const SOURCE: [u64; 15] = [0, 32, 0, 0, 0, 37, 7, 0, 0, 0, 19, 1, 1, 0, 0];
    const TARGET: [u64; 12] = [0, 32, 0, 0, 0, 8, 0, 0, 19, 1, 1, 0];

    fn answer(number: u64, place: u64, detail: u64) -> Answer {
        Answer { number, place, detail }
    }

    #[test]
    fn widths_and_roots() {
        let (mut source, mut target) = ([9; 4], [9; 3]);
        assert_eq!(source_widths(&SOURCE, &[], &[], &mut source), answer(0, 0, 0));
        assert_eq!(source, [32, 8, 1, 0]);
        assert_eq!(target_widths(&TARGET, &[], &mut target), answer(0, 0, 0));
        assert_eq!(target, [32, 8, 1]);
        assert_eq!(target_widths(&TARGET, &[2], &mut target), answer(17, 0, 2));
        assert_eq!(target, [0, 0, 0]);
        assert_eq!(target_widths(&[0, CEILING, 0, 0], &[], &mut target), answer(0, 0, 0));
        assert_eq!(target, [CEILING, 0, 0]);
        assert_eq!(target_widths(&[0, CEILING + 1, 0, 0], &[], &mut target), answer(2, 0, 0));
        assert_eq!(roots(&source, &[2]), answer(0, 0, 0));
        assert_eq!(roots(&source, &[2, 1]), answer(19, 1, 0));
    }

    #[test]
    fn values_of_rows() {
        let (mut widths, mut found) = ([9; 3], [9; 3]);
        let of = values(&TARGET, &[], &[7, 255, 0], &mut widths, &mut found);
        assert_eq!((of, widths, found), (answer(0, 0, 0), [32, 8, 1], [7, 255, 1]));
        let of = values(&TARGET, &[], &[7, 256, 0], &mut widths, &mut found);
        assert_eq!(of, answer(23, 1, 0));
    }

    #[test]
    fn checked() {
        let mut lists = [[9; 3]; 4];
        let [source_widths, target_widths, classes, entries] = &mut lists;
        let lent = Lent { source_widths, target_widths, classes, entries };
        let map = [0, MAX, MAX];
        let of = Lowering { source: &SOURCE, target: &TARGET, map: &map, ..Lowering::default() };
        assert_eq!(check(&of, lent), answer(0, 0, 0));
        assert_eq!(lists, [[32, 8, 1], [32, 8, 1], [1, 0, 0], [0, 0, 0]]);
    }

    #[test]
    fn strict_roots() {
        let both = |width, source_roots: &[u64], target_roots: &[u64]| {
            let (source, target) = ([0, width, 0, 0, 0], [0, width, 0, 0]);
            let of = Lowering {
                source: &source,
                target: &target,
                map: &[0],
                source_roots,
                target_roots,
                ..Lowering::default()
            };
            [check, strict_check].map(|check| {
                let mut lists = [[9]; 4];
                let [source_widths, target_widths, classes, entries] = &mut lists;
                (check(&of, Lent { source_widths, target_widths, classes, entries }), lists)
            })
        };
        let accepted = |width| (answer(0, 0, 0), [[width], [width], [1], [0]]);
        let refused = |number, place, detail| (answer(number, place, detail), [[0]; 4]);
        assert_eq!(both(1, &[0], &[0]), [accepted(1), accepted(1)]);
        assert_eq!(both(8, &[0], &[0]), [accepted(8), refused(19, 0, 1)]);
        assert_eq!(both(1, &[0, 1], &[0]), [refused(12, 1, 0), refused(19, 1, 1)]);
        assert_eq!(both(1, &[0], &[0, 1]), [refused(12, 0, 0), refused(19, 1, 2)]);
    }

    /// Marked case 1, an address and a cell of 16 bits.
    const SOURCE_16: [u64; 15] = [0, 16, 0, 0, 0, 37, 7, 0, 0, 0, 19, 1, 1, 0, 0];
    const TARGET_16: [u64; 12] = [0, 16, 0, 0, 0, 16, 0, 0, 19, 1, 1, 0];

    #[test]
    fn widths_with_sorts() {
        let widths = |source: &[u64], sorts: &[u64]| {
            let mut found = [9; 4];
            (source_widths_with_sorts(source, &[], &[], sorts, &mut found), found)
        };
        let refused = |number, place| (answer(number, place, 0), [0; 4]);
        assert_eq!(widths(&SOURCE_16, &[7, 16, 16]), (answer(0, 0, 0), [16, 16, 1, 0]));
        assert_eq!(widths(&SOURCE, &[2, 1, 1, 7, 32, 8]), (answer(0, 0, 0), [32, 8, 1, 0]));
        assert_eq!(widths(&SOURCE_16, &[7, 16, CEILING]), (answer(0, 0, 0), [16, CEILING, 1, 0]));
        assert_eq!(widths(&SOURCE_16, &[7, 16, CEILING + 1]), refused(1, 1));
        assert_eq!(widths(&SOURCE, &[]), refused(1, 1));
        assert_eq!(widths(&SOURCE_16, &[6, 16, 16]), refused(1, 1));
        assert_eq!(widths(&SOURCE_16, &[7, 16, 16, 7, 16, 16]), refused(28, 1));
        assert_eq!(widths(&SOURCE_16, &[7, 16, 16, 8]), refused(28, 1));
        assert_eq!(widths(&SOURCE_16, &[7, 16, 0]), refused(28, 0));
    }

    #[test]
    fn checked_with_sorts() {
        let of = Lowering {
            source: &SOURCE_16,
            target: &TARGET_16,
            map: &[0, 1, 2],
            reads: &[1, 7, 0],
            source_roots: &[2],
            target_roots: &[2],
            ..Lowering::default()
        };
        let both = |of: &Lowering, sorts: &[u64]| {
            [check_with_sorts, strict_check_with_sorts].map(|check| {
                let mut lists = [[9; 3]; 4];
                let [source_widths, target_widths, classes, entries] = &mut lists;
                (check(of, sorts, Lent { source_widths, target_widths, classes, entries }), lists)
            })
        };
        let refused = |number, place, detail| (answer(number, place, detail), [[0; 3]; 4]);
        let left = [[16, 16, 1], [16, 16, 1], [1, 4, 0], [0, 0, 0]];
        assert_eq!(both(&of, &[7, 16, 16]), [(answer(0, 0, 0), left); 2]);
        assert_eq!(both(&of, &[]), [refused(1, 1, 0); 2]);
        assert_eq!(both(&of, &[8, 1, 1, 7, 16, 16]), [refused(28, 1, 0); 2]);
        let other = Lowering { reads: &[1, 8, 0], ..of };
        assert_eq!(both(&other, &[7, 16, 16]), [refused(5, 0, 0); 2]);
        assert_eq!(both(&other, &[7, 16, 16, 8, 16, 8]), [refused(5, 0, 0); 2]);
        let wide = Lowering { source_roots: &[1], target_roots: &[1], ..of };
        assert_eq!(both(&wide, &[7, 16, 16]), [(answer(0, 0, 0), left), refused(19, 0, 1)]);
    }

    #[test]
    fn books() {
        for (sections, left_over) in [(11, 12), (12, 14)] {
            let contents: Vec<u8> = (0..2 * sections)
                .flat_map(|k| [16 * sections * (1 - k % 2), 0, 0, 0, 0, 0, 0, 0])
                .collect();
            let (short, long) = (&contents[..contents.len() - 1], [&contents[..], &[0]].concat());
            for verdict in [verdict, strict_verdict] {
                assert_eq!(verdict(&contents).to_string(), "accepted");
                assert_eq!(verdict(short).to_string(), "refused 20 0 0");
                assert_eq!(verdict(&long), answer(20, left_over, 0));
                assert_eq!(verdict(&[]).to_string(), "refused 20 0 0");
            }
            let none = Err(answer(24, 0, 0));
            assert_eq!(section(&contents, 1), Ok(&[][..]));
            assert_eq!(section(&contents, 12), if sections == 12 { Ok(&[][..]) } else { none });
            assert_eq!(section(&long, 12), Err(answer(20, left_over, 0)));
            assert_eq!(section(&long, 13), none);
            assert_eq!(section(short, 1), Err(answer(20, 0, 0)));
        }
    }
}
