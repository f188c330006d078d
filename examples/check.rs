//! Check from Rust, on marked case 1: a byte read from memory became a variable.
//!
//!     tools/build gilfrunt > staticlib.log 2>&1
//!     rustc --edition 2021 -L native=target/staticlib -l static=gilfrunt examples/check.rs -o target/check-rs && target/check-rs
//!
//! The first command proves and builds the library, once. The second prints `accepted`
//! and ends with 0; a refusal ends with 1. gilfrunt.rs beside this file has the calls.

use std::process::ExitCode;

mod gilfrunt;

use gilfrunt::{check, Lent, Lowering};

#[rustfmt::skip]
fn main() -> ExitCode {
    let (var, eq, select) = (0, 19, 37); // docs/REFERENCE.md has the 39 tags
    let lowering = Lowering {
        source: &[
            var,    32, 0, 0, 0, // an address
            select, 7,  0, 0, 0, // the byte of array 7 there
            eq,     1,  1, 0, 0, // true
        ],
        target: &[
            var, 32, 0, 0,
            var, 8,  0, 0, // the byte, which the read table owns
            eq,  1,  1, 0,
        ],
        source_roots: &[2],
        target_roots: &[2],
        map: &[0, 1, 2],
        reads: &[1, 7, 0], // variable row, array, index row
        ..Lowering::default() // the other lists are empty
    };
    let mut lists = [[0; 3]; 4]; // a word a row
    let [source_widths, target_widths, classes, entries] = &mut lists;
    let answer = check(&lowering, Lent { source_widths, target_widths, classes, entries });
    println!("{answer}");
    ExitCode::from(u8::from(!answer.accepted()))
}
