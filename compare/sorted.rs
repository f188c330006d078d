//! The library's functions over a sort table, declared as `include/gilfrunt.h` has them,
//! with safe functions over slices. Inputs are lent for writing, as in ours.rs.

use crate::ours::Answer;

extern "C" {
    fn gilfrunt_source_widths_with_sorts(
        source: *const u64,
        source_len: usize,
        bits: *const u8,
        bits_len: usize,
        side: *const u64,
        side_len: usize,
        sorts: *const u64,
        sorts_len: usize,
        widths: *mut u64,
        widths_len: usize,
    ) -> Answer;
}

/// Checks, both over the same lists.
macro_rules! checks {
    ($($name:ident)*) => {
        extern "C" {$(
            fn $name(
                source: *const u64,
                source_len: usize,
                source_bits: *const u8,
                source_bits_len: usize,
                side: *const u64,
                side_len: usize,
                source_roots: *const u64,
                source_roots_len: usize,
                map: *const u64,
                map_len: usize,
                reads: *const u64,
                reads_len: usize,
                calls: *const u64,
                calls_len: usize,
                arguments: *const u64,
                arguments_len: usize,
                target: *const u64,
                target_len: usize,
                target_bits: *const u8,
                target_bits_len: usize,
                target_roots: *const u64,
                target_roots_len: usize,
                sorts: *const u64,
                sorts_len: usize,
                source_widths: *mut u64,
                source_widths_len: usize,
                target_widths: *mut u64,
                target_widths_len: usize,
                classes: *mut u64,
                classes_len: usize,
                entries: *mut u64,
                entries_len: usize,
            ) -> Answer;
        )*}
    };
}

checks!(gilfrunt_check_with_sorts gilfrunt_strict_check_with_sorts);

/// Source widths over rows, side list and sort table.
pub fn source_widths(words: [&mut [u64]; 3], bits: &mut [u8], widths: &mut [u64]) -> Answer {
    let [source, side, sorts] = words;
    // Each pointer comes with the length of its own slice, and no two overlap.
    unsafe {
        gilfrunt_source_widths_with_sorts(
            source.as_mut_ptr(),
            source.len(),
            bits.as_mut_ptr(),
            bits.len(),
            side.as_mut_ptr(),
            side.len(),
            sorts.as_mut_ptr(),
            sorts.len(),
            widths.as_mut_ptr(),
            widths.len(),
        )
    }
}

/// Check, or the strict one, over its ten lists of words in the library's order, its two
/// lists of bits and the four lent lists.
pub fn check(
    strict: bool,
    words: [&mut [u64]; 10],
    bits: [&mut [u8]; 2],
    lent: [&mut [u64]; 4],
) -> Answer {
    let function = match strict {
        false => gilfrunt_check_with_sorts,
        true => gilfrunt_strict_check_with_sorts,
    };
    let [source, side, source_roots, map, reads, calls, arguments, target, target_roots, sorts] =
        words;
    let [source_bits, target_bits] = bits;
    let [source_widths, target_widths, classes, entries] = lent;
    // As above.
    unsafe {
        function(
            source.as_mut_ptr(),
            source.len(),
            source_bits.as_mut_ptr(),
            source_bits.len(),
            side.as_mut_ptr(),
            side.len(),
            source_roots.as_mut_ptr(),
            source_roots.len(),
            map.as_mut_ptr(),
            map.len(),
            reads.as_mut_ptr(),
            reads.len(),
            calls.as_mut_ptr(),
            calls.len(),
            arguments.as_mut_ptr(),
            arguments.len(),
            target.as_mut_ptr(),
            target.len(),
            target_bits.as_mut_ptr(),
            target_bits.len(),
            target_roots.as_mut_ptr(),
            target_roots.len(),
            sorts.as_mut_ptr(),
            sorts.len(),
            source_widths.as_mut_ptr(),
            source_widths.len(),
            target_widths.as_mut_ptr(),
            target_widths.len(),
            classes.as_mut_ptr(),
            classes.len(),
            entries.as_mut_ptr(),
            entries.len(),
        )
    }
}
