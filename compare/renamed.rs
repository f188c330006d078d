//! A lowering with each function under a number of its own, in the source and in the
//! call table. One number and count then has the same widths everywhere, so the Rust
//! is a reference again; to the rule a function's number is a name and no more.

use std::collections::BTreeMap;

use crate::check::at;
use crate::functions::{entry_widths, graph_widths};
use crate::operation::Lists;
use crate::rules::SOURCE;
use crate::tags::CALL;
use crate::wellformed::stretch;

/// Number and widths, the result's before the arguments', with the new number.
type Names = BTreeMap<(u64, Vec<u64>), u64>;

/// The lists with the functions renamed, if both graphs are well formed. An entry that
/// names a row out of range is refused under any number, and keeps its own.
pub fn renamed(lists: &Lists) -> Option<Lists> {
    let [source, target] = graph_widths(lists)?;
    let mut names = Names::new();
    let mut renamed = lists.clone();
    for row in renamed[at::SOURCE].chunks_exact_mut(SOURCE.row) {
        if let [CALL, number, width, start, count] = row {
            let arguments = match count {
                0 => &[],
                _ => stretch(&lists[at::SIDE], *start, *count)?,
            };
            let widths = arguments.iter().map(|&row| source[row as usize]);
            *number = name(
                &mut names,
                *number,
                [*width].into_iter().chain(widths).collect(),
            );
        }
    }
    for entry in renamed[at::CALLS].chunks_exact_mut(4) {
        if let Some(widths) = entry_widths(lists, &target, entry) {
            entry[1] = name(&mut names, entry[1], widths);
        }
    }
    Some(renamed)
}

/// The new number of a function; two have one only if all is the same.
fn name(names: &mut Names, number: u64, widths: Vec<u64>) -> u64 {
    let next = names.len() as u64;
    *names.entry((number, widths)).or_insert(next)
}
