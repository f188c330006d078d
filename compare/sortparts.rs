//! Small lowerings over arrays of any shape, in parts: marked cases of the scope with other
//! widths than 32 and 8, and arrays of two shapes beside each other.

use crate::check::at;
use crate::marked::{lend, Parts};
use crate::operation::Lists;
use crate::rules::CEILING;
use crate::sorts::Shape;
use crate::tags::*;

/// The shape of the new scale's memory, and a width above the ceiling.
pub const SIXTEEN: Shape = [16, 16];
pub const OVER: u64 = CEILING + 1;

/// The lists of a lowering with this table, a word to spare in each lent one.
pub fn lists(parts: Parts, table: Vec<u64>) -> Lists {
    let mut lists = lend(parts);
    lists.insert(at::SORTS, table);
    lists
}

/// A read of array 7 at a variable, said to equal itself.
pub fn one_read([index, cell]: Shape) -> Parts {
    Parts {
        source: vec![
            [VAR, index, 0, 0, 0],
            [SELECT, 7, 0, 0, 0],
            [EQ, 1, 1, 0, 0],
        ],
        source_roots: vec![2],
        map: vec![0, 1, 2],
        reads: vec![[1, 7, 0]],
        target: vec![[VAR, index, 0, 0], [VAR, cell, 0, 0], [EQ, 1, 1, 0]],
        target_roots: vec![2],
        ..Parts::default()
    }
}

/// A variable without a read.
pub fn no_read() -> Parts {
    Parts {
        source: vec![[VAR, 1, 0, 0, 0]],
        source_roots: vec![0],
        map: vec![0],
        target: vec![[VAR, 1, 0, 0]],
        target_roots: vec![0],
        ..Parts::default()
    }
}

/// A read entry of array 7 that no Select stands behind.
pub fn read_alone([index, cell]: Shape) -> Parts {
    Parts {
        reads: vec![[1, 7, 0]],
        target: vec![[VAR, index, 0, 0], [VAR, cell, 0, 0]],
        ..Parts::default()
    }
}

/// Two reads of array 7 with their congruence root.
pub fn two_reads([index, cell]: Shape) -> Parts {
    Parts {
        source: vec![
            [VAR, index, 0, 0, 0],
            [VAR, index, 0, 0, 0],
            [SELECT, 7, 0, 0, 0],
            [SELECT, 7, 1, 0, 0],
        ],
        map: vec![0, 1, 2, 3],
        reads: vec![[2, 7, 0], [3, 7, 1]],
        target: vec![
            [VAR, index, 0, 0],
            [VAR, index, 0, 0],
            [VAR, cell, 0, 0],
            [VAR, cell, 0, 0],
            [EQ, 0, 1, 0],
            [NOT, 4, 0, 0],
            [EQ, 2, 3, 0],
            [BOOL_OR, 5, 6, 0],
        ],
        target_roots: vec![7],
        ..Parts::default()
    }
}

/// Two reads at unequal constants, without a root.
pub fn constant_reads([index, cell]: Shape) -> Parts {
    let bits: Vec<u64> = (0..=index).map(|k| u64::from(k == 0)).collect();
    Parts {
        source: vec![
            [CONST, 0, index, 0, 0],
            [CONST, 1, index, 0, 0],
            [SELECT, 7, 0, 0, 0],
            [SELECT, 7, 1, 0, 0],
        ],
        source_bits: bits.clone(),
        map: vec![0, 1, 2, 3],
        reads: vec![[2, 7, 0], [3, 7, 1]],
        target: vec![
            [CONST, 0, index, 0],
            [CONST, 1, index, 0],
            [VAR, cell, 0, 0],
            [VAR, cell, 0, 0],
        ],
        target_bits: bits,
        ..Parts::default()
    }
}

/// A read through one store.
pub fn one_store([index, cell]: Shape) -> Parts {
    Parts {
        source: vec![
            [VAR, index, 0, 0, 0],
            [VAR, index, 0, 0, 0],
            [VAR, cell, 0, 0, 0],
            [SELECT, 7, 1, 0, 1],
        ],
        side: vec![0, 2],
        map: vec![0, 1, 2, 5],
        reads: vec![[3, 7, 1]],
        target: vec![
            [VAR, index, 0, 0],
            [VAR, index, 0, 0],
            [VAR, cell, 0, 0],
            [VAR, cell, 0, 0],
            [EQ, 0, 1, 0],
            [ITE, 4, 2, 3],
        ],
        ..Parts::default()
    }
}

/// Array 7 at 16 and 16 beside array 8 at 12 and 4, each read once.
pub fn two_arrays() -> (Parts, Vec<u64>) {
    let parts = Parts {
        source: vec![
            [VAR, 16, 0, 0, 0],
            [VAR, 12, 0, 0, 0],
            [SELECT, 7, 0, 0, 0],
            [SELECT, 8, 1, 0, 0],
            [EQ, 2, 0, 0, 0],
        ],
        source_roots: vec![4],
        map: vec![0, 1, 2, 3, 4],
        reads: vec![[3, 8, 1], [2, 7, 0]],
        target: vec![
            [VAR, 16, 0, 0],
            [VAR, 12, 0, 0],
            [VAR, 16, 0, 0],
            [VAR, 4, 0, 0],
            [EQ, 2, 0, 0],
        ],
        target_roots: vec![4],
        ..Parts::default()
    };
    (parts, vec![7, 16, 16, 8, 12, 4])
}

/// Two arrays of one index width and two cell widths at one index.
pub fn one_index() -> (Parts, Vec<u64>) {
    let parts = Parts {
        source: vec![
            [VAR, 16, 0, 0, 0],
            [SELECT, 7, 0, 0, 0],
            [SELECT, 8, 0, 0, 0],
        ],
        map: vec![0, 1, 2],
        reads: vec![[1, 7, 0], [2, 8, 0]],
        target: vec![[VAR, 16, 0, 0], [VAR, 16, 0, 0], [VAR, 3, 0, 0]],
        ..Parts::default()
    };
    (parts, vec![7, 16, 16, 8, 16, 3])
}

/// The cell of one array as the index of another.
pub fn read_of_read() -> (Parts, Vec<u64>) {
    let parts = Parts {
        source: vec![
            [VAR, 4, 0, 0, 0],
            [SELECT, 7, 0, 0, 0],
            [SELECT, 8, 1, 0, 0],
            [EQ, 2, 2, 0, 0],
        ],
        source_roots: vec![3],
        map: vec![0, 1, 2, 3],
        reads: vec![[1, 7, 0], [2, 8, 1]],
        target: vec![
            [VAR, 4, 0, 0],
            [VAR, 16, 0, 0],
            [VAR, 1, 0, 0],
            [EQ, 2, 2, 0],
        ],
        target_roots: vec![3],
        ..Parts::default()
    };
    (parts, vec![7, 4, 16, 8, 16, 1])
}

/// An array of one-bit indices and cells: a store of a constant at itself, read there, which
/// is that constant; then read at what was read, which is no constant to a walk, though
/// its image is one.
pub fn one_bit() -> (Parts, Vec<u64>) {
    let parts = Parts {
        source: vec![
            [CONST, 0, 1, 0, 0],
            [SELECT, 7, 0, 0, 1],
            [SELECT, 7, 1, 0, 1],
        ],
        source_bits: vec![0],
        side: vec![0, 0],
        source_roots: vec![2],
        map: vec![0, 0, 3],
        reads: vec![[1, 7, 0]],
        target: vec![
            [CONST, 0, 1, 0],
            [VAR, 1, 0, 0],
            [EQ, 0, 0, 0],
            [ITE, 2, 0, 1],
        ],
        target_bits: vec![0],
        target_roots: vec![3],
        ..Parts::default()
    };
    (parts, vec![7, 1, 1])
}
