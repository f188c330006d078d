//! The library under test: its declarations as `include/gilfrunt.h` has them,
//! and safe functions over slices.
//!
//! Inputs are lent for writing too, though the library may only read them. The
//! comparison looks afterwards whether they are unchanged, and behind a plain
//! `&[u64]` the compiler could take that for granted.

#[repr(C)]
#[derive(Clone, Copy, PartialEq, Eq, Debug)]
pub struct Answer {
    pub number: u64,
    pub place: u64,
    pub detail: u64,
}

/// Where a section stands in its book.
#[repr(C)]
struct Stretch {
    start: u64,
    length: u64,
}

extern "C" {
    fn gilfrunt_source_widths(
        source: *const u64,
        source_len: usize,
        bits: *const u8,
        bits_len: usize,
        side: *const u64,
        side_len: usize,
        widths: *mut u64,
        widths_len: usize,
    ) -> Answer;

    fn gilfrunt_target_widths(
        target: *const u64,
        target_len: usize,
        bits: *const u8,
        bits_len: usize,
        widths: *mut u64,
        widths_len: usize,
    ) -> Answer;

    fn gilfrunt_roots(
        widths: *const u64,
        widths_len: usize,
        roots: *const u64,
        roots_len: usize,
    ) -> Answer;

    fn gilfrunt_values(
        target: *const u64,
        target_len: usize,
        bits: *const u8,
        bits_len: usize,
        given: *const u64,
        given_len: usize,
        widths: *mut u64,
        widths_len: usize,
        values: *mut u64,
        values_len: usize,
    ) -> Answer;

    fn gilfrunt_section_answer(book: *const u8, book_len: usize, number: u64) -> Answer;

    fn gilfrunt_section(book: *const u8, book_len: usize, number: u64) -> Stretch;
}

/// Verdicts on a book, all over the same lists.
macro_rules! judges {
    ($($name:ident)*) => {
        extern "C" {$(
            fn $name(
                book: *const u8,
                book_len: usize,
                source_widths: *mut u64,
                source_widths_len: usize,
                target_widths: *mut u64,
                target_widths_len: usize,
                classes: *mut u64,
                classes_len: usize,
                entries: *mut u64,
                entries_len: usize,
                words: *mut u64,
                words_len: usize,
            ) -> Answer;
        )*}
    };
}

/// Checks, all over the same lists.
macro_rules! checks {
    ($($name:ident)*) => {
        extern "C" {$(
            fn $name(
                source: *const u64,
                source_len: usize,
                source_bits: *const u8,
                source_bits_len: usize,
                side: *const u64,
                side_len: usize,
                source_roots: *const u64,
                source_roots_len: usize,
                map: *const u64,
                map_len: usize,
                reads: *const u64,
                reads_len: usize,
                calls: *const u64,
                calls_len: usize,
                arguments: *const u64,
                arguments_len: usize,
                target: *const u64,
                target_len: usize,
                target_bits: *const u8,
                target_bits_len: usize,
                target_roots: *const u64,
                target_roots_len: usize,
                source_widths: *mut u64,
                source_widths_len: usize,
                target_widths: *mut u64,
                target_widths_len: usize,
                classes: *mut u64,
                classes_len: usize,
                entries: *mut u64,
                entries_len: usize,
            ) -> Answer;
        )*}
    };
}

judges!(gilfrunt_judge gilfrunt_strict_judge);
checks!(gilfrunt_check gilfrunt_strict_check);

pub fn source_widths(
    source: &mut [u64],
    bits: &mut [u8],
    side: &mut [u64],
    widths: &mut [u64],
) -> Answer {
    // Each pointer comes with the length of its own slice, and no two overlap.
    unsafe {
        gilfrunt_source_widths(
            source.as_mut_ptr(),
            source.len(),
            bits.as_mut_ptr(),
            bits.len(),
            side.as_mut_ptr(),
            side.len(),
            widths.as_mut_ptr(),
            widths.len(),
        )
    }
}

pub fn target_widths(target: &mut [u64], bits: &mut [u8], widths: &mut [u64]) -> Answer {
    // As above.
    unsafe {
        gilfrunt_target_widths(
            target.as_mut_ptr(),
            target.len(),
            bits.as_mut_ptr(),
            bits.len(),
            widths.as_mut_ptr(),
            widths.len(),
        )
    }
}

pub fn roots(widths: &mut [u64], roots: &mut [u64]) -> Answer {
    // As above.
    unsafe {
        gilfrunt_roots(
            widths.as_mut_ptr(),
            widths.len(),
            roots.as_mut_ptr(),
            roots.len(),
        )
    }
}

pub fn values(
    target: &mut [u64],
    bits: &mut [u8],
    given: &mut [u64],
    widths: &mut [u64],
    values: &mut [u64],
) -> Answer {
    // As above.
    unsafe {
        gilfrunt_values(
            target.as_mut_ptr(),
            target.len(),
            bits.as_mut_ptr(),
            bits.len(),
            given.as_mut_ptr(),
            given.len(),
            widths.as_mut_ptr(),
            widths.len(),
            values.as_mut_ptr(),
            values.len(),
        )
    }
}

/// Check, or the strict one, over its nine lists of words in the library's order, its
/// two lists of bits and the four lent lists.
pub fn check(
    strict: bool,
    words: [&mut [u64]; 9],
    bits: [&mut [u8]; 2],
    lent: [&mut [u64]; 4],
) -> Answer {
    let function = match strict {
        false => gilfrunt_check,
        true => gilfrunt_strict_check,
    };
    let [source, side, source_roots, map, reads, calls, arguments, target, target_roots] = words;
    let [source_bits, target_bits] = bits;
    let [source_widths, target_widths, classes, entries] = lent;
    // As above.
    unsafe {
        function(
            source.as_mut_ptr(),
            source.len(),
            source_bits.as_mut_ptr(),
            source_bits.len(),
            side.as_mut_ptr(),
            side.len(),
            source_roots.as_mut_ptr(),
            source_roots.len(),
            map.as_mut_ptr(),
            map.len(),
            reads.as_mut_ptr(),
            reads.len(),
            calls.as_mut_ptr(),
            calls.len(),
            arguments.as_mut_ptr(),
            arguments.len(),
            target.as_mut_ptr(),
            target.len(),
            target_bits.as_mut_ptr(),
            target_bits.len(),
            target_roots.as_mut_ptr(),
            target_roots.len(),
            source_widths.as_mut_ptr(),
            source_widths.len(),
            target_widths.as_mut_ptr(),
            target_widths.len(),
            classes.as_mut_ptr(),
            classes.len(),
            entries.as_mut_ptr(),
            entries.len(),
        )
    }
}

/// The answer about a section of a book, and its stretch of the book.
pub fn section(book: &[u8], number: u64) -> (Answer, &[u8]) {
    // As above.
    let (answer, stretch) = unsafe {
        (
            gilfrunt_section_answer(book.as_ptr(), book.len(), number),
            gilfrunt_section(book.as_ptr(), book.len(), number),
        )
    };
    (
        answer,
        &book[stretch.start as usize..][..stretch.length as usize],
    )
}

/// The verdict on a book, or the strict one, with its five lent lists.
pub fn judge(strict: bool, book: &mut [u8], lent: [&mut [u64]; 5]) -> Answer {
    let function = match strict {
        false => gilfrunt_judge,
        true => gilfrunt_strict_judge,
    };
    let [source_widths, target_widths, classes, entries, words] = lent;
    // As above.
    unsafe {
        function(
            book.as_mut_ptr(),
            book.len(),
            source_widths.as_mut_ptr(),
            source_widths.len(),
            target_widths.as_mut_ptr(),
            target_widths.len(),
            classes.as_mut_ptr(),
            classes.len(),
            entries.as_mut_ptr(),
            entries.len(),
            words.as_mut_ptr(),
            words.len(),
        )
    }
}

/// Words put before and after a lent list.
const FENCE: usize = 4;
const FENCE_WORD: u64 = 0xfe4c_e000_fe4c_e001;

/// Makes a call on a lent list that stands between two fences, and says
/// whether the call left its list and wrote to a fence.
pub fn fenced(list: &mut [u64], call: impl FnOnce(&mut [u64]) -> Answer) -> (Answer, bool) {
    let end = FENCE + list.len();
    let mut room = vec![FENCE_WORD; end + FENCE];
    room[FENCE..end].copy_from_slice(list);
    let answer = call(&mut room[FENCE..end]);
    list.copy_from_slice(&room[FENCE..end]);
    let strayed = room[..FENCE]
        .iter()
        .chain(&room[end..])
        .any(|&w| w != FENCE_WORD);
    (answer, strayed)
}

/// The same for two lent lists.
pub fn fenced_both(
    lists: [&mut [u64]; 2],
    call: impl FnOnce(&mut [u64], &mut [u64]) -> Answer,
) -> (Answer, bool) {
    let [first, second] = lists;
    let mut from_second = false;
    let (answer, from_first) = fenced(first, |first| {
        let (answer, strayed) = fenced(second, |second| call(first, second));
        from_second = strayed;
        answer
    });
    (answer, from_first || from_second)
}

/// The same for the four lists lent to a check.
pub fn fenced_four(
    lists: &mut [Vec<u64>],
    call: impl FnOnce([&mut [u64]; 4]) -> Answer,
) -> (Answer, bool) {
    let [a, b, c, d] = lists else {
        unreachable!("four lists are lent")
    };
    let mut inner = false;
    let (answer, outer) = fenced_both([a, b], |a, b| {
        let (answer, strayed) = fenced_both([c, d], |c, d| call([a, b, c, d]));
        inner = strayed;
        answer
    });
    (answer, inner || outer)
}
