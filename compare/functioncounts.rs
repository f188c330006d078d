//! What a run has met where the rule tells functions apart by their widths: the
//! answers of these cases, none of which is the Rust's.

use crate::operation::{Lists, Operation};
use crate::ours::Answer;

/// The answers that must come. Both graphs are well formed there, and none of 15 to 18
/// applies, so 1 and 2 cannot.
pub const DUE: [u64; 13] = [0, 3, 4, 5, 6, 7, 8, 9, 10, 11, 12, 13, 14];

#[derive(Default)]
pub struct FunctionCounts {
    /// By answer number.
    answers: [u64; 32],
}

impl FunctionCounts {
    /// Counts a case, if it is one of these; says whether it is.
    pub fn count(&mut self, operation: &dyn Operation, lists: &Lists, answer: Answer) -> bool {
        let told_apart = operation.told_apart(lists);
        self.answers[answer.number as usize] += u64::from(told_apart);
        told_apart
    }

    pub fn print(&self) {
        println!(
            "  functions told apart by widths, by the rule: {:8}",
            self.answers.iter().sum::<u64>()
        );
        for (number, count) in self.answers.iter().enumerate().filter(|(_, &c)| c > 0) {
            println!("    answer {number:2}: {count:8}");
        }
    }

    /// Everything that must come, with its count.
    pub fn due(&self) -> impl Iterator<Item = (u64, String)> + '_ {
        DUE.iter().map(|&number| {
            let what = format!("the answer {number} where functions are told apart");
            (self.answers[number as usize], what)
        })
    }
}
