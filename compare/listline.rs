//! The lines of the fixed list, as docs/COMPARISON.md has them.

use crate::operation::{Kind, Lists, Operation, Outcome};
use crate::ours::Answer;

/// A book as a list of words.
pub fn bytes(book: &[u8]) -> Vec<u64> {
    book.iter().map(|&byte| u64::from(byte)).collect()
}

/// A case with its outcome.
pub fn line(operation: &dyn Operation, lists: &Lists, outcome: &Outcome) -> String {
    let kinds = operation.lists().iter();
    let lent: Lists = kinds
        .zip(&outcome.lists)
        .filter(|((_, kind), _)| matches!(kind, Kind::Lent(_)))
        .map(|(_, list)| list.clone())
        .collect();
    words_line(operation.number(), lists, outcome.answer, &lent)
}

/// Operation, its lists, the answer, and the lent lists after the call.
pub fn words_line(operation: u64, lists: &[Vec<u64>], answer: Answer, lent: &[Vec<u64>]) -> String {
    let mut words = vec![operation, lists.len() as u64];
    lists.iter().for_each(|list| push_list(&mut words, list));
    words.extend([answer.number, answer.place, answer.detail]);
    words.push(lent.len() as u64);
    lent.iter().for_each(|list| push_list(&mut words, list));
    let shown: Vec<String> = words.iter().map(|word| format!("{word:x}")).collect();
    shown.join(" ")
}

/// A list as its length and its words.
fn push_list(words: &mut Vec<u64>, list: &[u64]) {
    words.push(list.len() as u64);
    words.extend(list);
}
